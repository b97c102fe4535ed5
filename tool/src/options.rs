//! The command line.

use crate::form::Lent;
use crate::snapshot::number;
use crate::stop::{Done, Stop};
use ghatumri::Geometry;
use std::net::Ipv4Addr;

pub const HELP: &str = "\
usage: ghatumri COMMAND [OPTION]... [FILE]...

Reads routes as text, as records, or from the snapshot of a table or an image,
and writes another form or answers a question. FILE is - or absent for standard
input. See ghatumri(1).

  text [FILE]         the routes, one a line
  records [FILE]      the routes as records of 8 bytes
  image [FILE]        a snapshot of their tree image
  table [FILE]        a snapshot of a table loaded with them
  why ADDRESS [FILE]  the hop, its route, and the cells and nodes on the way
  diff FILE FILE      the routes that differ
  answers FILE FILE   the addresses, of all there are, whose answers differ
  room [FILE]         what is lent and what is used; --svg draws it
  repair [FILE]       what a repair drops and alters; -o writes it repaired

  -g standard|small|P1,P2  geometry of a table made here (standard)
  -l ROOM,SECOND,THIRD     what is lent to it (4096,4096,4096)
  -c                       clear the bits after the length in a text
  -o FILE                  write there      --json  one object, on one line
  --count N                repair: look at N records
  -h, --help               this text        -V, --version";

/// What a command asks for.
#[derive(Debug, Clone, Copy, PartialEq, Eq)]
pub enum Command {
    Text,
    Records,
    Image,
    Table,
    Why(Ipv4Addr),
    Diff,
    Answers,
    Room,
    Repair,
}

const WORDS: &str = "text, records, image, table, why, diff, answers, room, repair";

impl Command {
    /// The files that it takes: at least and at most.
    fn files(self) -> (usize, usize) {
        match self {
            Command::Diff | Command::Answers => (2, 2),
            _ => (0, 1),
        }
    }

    /// Whether it writes bytes, of which there is no object.
    fn writes_bytes(self) -> bool {
        matches!(self, Command::Records | Command::Image | Command::Table)
    }
}

#[derive(Default)]
pub struct Options {
    pub lent: Lent,
    pub clear: bool,
    pub out: Option<String>,
    pub count: Option<u32>,
    pub json: bool,
    pub svg: bool,
}

pub enum Asked {
    Help,
    Version,
    Run { command: Command, word: String, options: Options, files: Vec<String> },
}

fn usage<T>(text: impl Into<String>) -> Done<T> {
    Err(Stop::Trouble(format!("{}; see ghatumri --help", text.into())))
}

fn geometry(value: &str) -> Option<Geometry> {
    match value {
        "standard" => Some(Geometry::STANDARD),
        "small" => Some(Geometry::SMALL),
        _ => value.split_once(',').and_then(|(a, b)| Some(Geometry { p1: number(a)?, p2: number(b)? })),
    }
}

fn three(value: &str) -> Option<[usize; 3]> {
    let numbers: Option<Vec<usize>> = value.split(',').map(|n| number(n).map(|n| n as usize)).collect();
    numbers?.try_into().ok()
}

/// Reads the arguments. Options may come before or after files, and `--` ends them.
pub fn read(args: &[String]) -> Done<Asked> {
    let mut options = Options::default();
    let mut words: Vec<&str> = Vec::new();
    let mut args = args.iter().map(String::as_str);
    while let Some(arg) = args.next() {
        let mut value = || args.next().map_or_else(|| usage(format!("{arg} needs a value")), Ok);
        match arg {
            "-h" | "--help" => return Ok(Asked::Help),
            "-V" | "--version" => return Ok(Asked::Version),
            "-g" => match value()? {
                v if geometry(v).is_some() => options.lent.geometry = geometry(v).unwrap_or(Geometry::STANDARD),
                v => return usage(format!("-g {v}: not standard, small or P1,P2")),
            },
            "-l" => match value()? {
                v if three(v).is_some() => {
                    let [room, second, third] = three(v).unwrap_or_default();
                    options.lent = Lent { room, second, third, ..options.lent };
                }
                v => return usage(format!("-l {v}: not ROOM,SECOND,THIRD")),
            },
            "-c" => options.clear = true,
            "-o" => options.out = Some(value()?.into()),
            "--count" => match value()? {
                v if number(v).is_some() => options.count = number(v),
                v => return usage(format!("--count {v}: not a number of 32 bits")),
            },
            "--json" => options.json = true,
            "--svg" => options.svg = true,
            "--" => {
                words.extend(args.by_ref());
            }
            _ if arg.len() > 1 && arg.starts_with('-') => return usage(format!("there is no option {arg}")),
            _ => words.push(arg),
        }
    }
    let Some((&word, mut files)) = words.split_first() else { return usage("no command") };
    let command = match word {
        "text" => Command::Text,
        "records" => Command::Records,
        "image" => Command::Image,
        "table" => Command::Table,
        "why" => match files.split_first().map(|(addr, rest)| (addr, addr.parse(), rest)) {
            Some((_, Ok(addr), rest)) => {
                files = rest;
                Command::Why(addr)
            }
            Some((addr, ..)) => return usage(format!("why {addr}: not an address")),
            None => return usage("why needs an address"),
        },
        "diff" => Command::Diff,
        "answers" => Command::Answers,
        "room" => Command::Room,
        "repair" => Command::Repair,
        _ => return usage(format!("there is no command {word}: it is one of {WORDS}")),
    };
    check(command, word, &options, files)?;
    let files = files.iter().map(|f| f.to_string()).collect();
    Ok(Asked::Run { command, word: word.into(), options, files })
}

/// Whether options and files go with the command.
fn check(command: Command, word: &str, options: &Options, files: &[&str]) -> Done<()> {
    let (least, most) = command.files();
    if files.len() < least {
        return usage(format!("{word} needs two files"));
    }
    if files.len() > most {
        return usage(format!("{word} takes {}", if most == 1 { "one file" } else { "two files" }));
    }
    if files.iter().filter(|&&f| f == "-").count() > 1 {
        return usage("standard input can be read once");
    }
    if options.svg && command != Command::Room {
        return usage("--svg goes with room");
    }
    if options.count.is_some() && command != Command::Repair {
        return usage("--count goes with repair");
    }
    if options.json && (command.writes_bytes() || options.svg) {
        return usage(format!("{} has no --json", if options.svg { "--svg" } else { word }));
    }
    Ok(())
}

#[cfg(test)]
mod tests {
    #[test]
    fn help_fits_a_screen() {
        let lines: Vec<&str> = super::HELP.lines().collect();
        assert!(lines.len() <= 24 && lines.iter().all(|l| l.len() <= 80));
    }
}
