//! Compiles `src/dpdk.c` where pkg-config knows libdpdk.

use std::path::PathBuf;
use std::process::Command;

fn main() {
    println!("cargo:rerun-if-changed=build.rs");
    println!("cargo:rerun-if-changed=src/dpdk.c");
    println!("cargo:rerun-if-env-changed=PKG_CONFIG_PATH");
    if let (Some(flags), Some(libs)) = (pkg_config("--cflags"), pkg_config("--libs")) {
        dpdk(&flags, &libs);
    }
}

/// The words that pkg-config has for libdpdk, if it knows it.
fn pkg_config(what: &str) -> Option<Vec<String>> {
    let said = Command::new("pkg-config").args([what, "libdpdk"]).output().ok()?;
    if !said.status.success() {
        return None;
    }
    Some(String::from_utf8_lossy(&said.stdout).split_whitespace().map(str::to_string).collect())
}

fn dpdk(flags: &[String], libs: &[String]) {
    let out = PathBuf::from(std::env::var_os("OUT_DIR").unwrap());
    let object = out.join("dpdk.o");
    let archive = out.join("libghdpdk.a");
    let compiler = std::env::var("CC").unwrap_or_else(|_| "cc".to_string());
    let mut compile = Command::new(compiler);
    compile.args(["-O3", "-fPIC", "-c", "src/dpdk.c"]).args(flags).arg("-o").arg(&object);
    let _ = std::fs::remove_file(&archive);
    let mut pack = Command::new("ar");
    pack.arg("rcs").arg(&archive).arg(&object);
    for command in [&mut compile, &mut pack] {
        if !command.status().is_ok_and(|s| s.success()) {
            println!("cargo:warning=libdpdk is known, and {command:?} failed: no rte_lpm in this run");
            return;
        }
    }
    println!("cargo:rustc-cfg=dpdk");
    println!("cargo:rustc-link-search=native={}", out.display());
    println!("cargo:rustc-link-lib=static=ghdpdk");
    // Most of DPDK is not needed.
    println!("cargo:rustc-link-arg=-Wl,--as-needed");
    for word in libs {
        println!("cargo:rustc-link-arg={word}");
    }
}
