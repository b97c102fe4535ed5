//! Every bit of a small snapshot, turned over one at a time: each command ends with 0 or 1, and after a repair that touched no record the
//! answers are those of the list.

mod common;

use common::Folder;

const LIST: &str = "10.0.0.0/8 20\n10.1.2.0/24 44\n10.1.2.128/25 57\n10.1.2.192/26 9 attached\n";

/// The bytes after the first line.
fn body(snapshot: &[u8]) -> usize {
    snapshot.iter().position(|&b| b == b'\n').unwrap() + 1
}

fn ends_well(folder: &Folder, args: &[&str], what: &str) -> i32 {
    let (status, _) = folder.run(args);
    assert!(status == 0 || status == 1, "{args:?} ends with {status}: {what}");
    status
}

#[test]
fn of_an_image() {
    let folder = Folder::new("damage-image");
    folder.write("list.txt", LIST);
    let good = folder.accepted(&["image", "list.txt"]);
    for bit in 0..8 * (good.len() - body(&good)) {
        let mut bad = good.clone();
        bad[body(&good) + bit / 8] ^= 1 << (bit % 8);
        folder.write("bad.img", &bad);
        let what = format!("bit {bit}");
        ends_well(&folder, &["text", "bad.img"], &what);
        ends_well(&folder, &["why", "10.1.2.200", "bad.img"], &what);
        ends_well(&folder, &["answers", "list.txt", "bad.img"], &what);
        if bit % 5 == 0 {
            ends_well(&folder, &["diff", "list.txt", "bad.img"], &what);
        }
    }
}

#[test]
fn of_a_table() {
    let folder = Folder::new("damage-table");
    folder.write("list.txt", LIST);
    let good = folder.accepted(&["table", "-g", "small", "-l", "4,1,1", "list.txt"]);
    let start = body(&good);
    let records = 8 * 32;
    let first = 8 * 2 * 4096;
    let pools = 8 * (2 * 1024 + 2 * 1024 + 4 + 4);
    // All of the list, of the owners and of the cells of the pools that a route or a neighbour has; every 37th bit of the rest.
    let near = |bit: usize| bit < records || (records + 8 * 2 * 160..records + 8 * 2 * 162).contains(&bit);
    let drawn =
        |bit: usize| bit % 397 == 0 || (bit >= records + first && bit < records + first + pools && bit % 97 == 0);
    for bit in (0..8 * (good.len() - start)).filter(|&bit| near(bit) || drawn(bit)) {
        let mut bad = good.clone();
        bad[start + bit / 8] ^= 1 << (bit % 8);
        folder.write("bad.tbl", &bad);
        let what = format!("bit {bit}");
        ends_well(&folder, &["text", "bad.tbl"], &what);
        ends_well(&folder, &["room", "bad.tbl"], &what);
        ends_well(&folder, &["why", "10.1.2.200", "bad.tbl"], &what);
        ends_well(&folder, &["repair", "bad.tbl", "-o", "mended.tbl"], &what);
        if bit >= records {
            assert_eq!(folder.read("mended.tbl"), good, "{what}");
        }
        if bit % 3 == 0 {
            ends_well(&folder, &["answers", "-g", "small", "list.txt", "bad.tbl"], &what);
        }
    }
}
