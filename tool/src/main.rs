//! `ghatumri`: one command for lists, tables and images.
//!
//! No hop, need, count or route that it prints is worked out here: the library answers it. If the command points at a
//! cell, a node or a record itself, it compares what it found with what the library answered, and a disagreement ends
//! with status 3. Status 0 is a yes, 1 a no or a refusal, 2 a question that could not be asked.
#![forbid(unsafe_code)]

mod answer;
mod compare;
mod form;
mod json;
mod options;
mod output;
mod picture;
mod repair;
mod room;
mod snapshot;
mod stop;
mod text;
mod walk;
mod why;

use answer::Answer;
use form::{File, Form};
use ghatumri::{Image, Mark};
use json::{Json, Object};
use options::{Asked, Command, Options};
use room::Room;
use std::process::ExitCode;
use stop::{Done, Stop};

fn main() -> ExitCode {
    let args: Vec<String> = std::env::args_os().skip(1).map(|a| a.to_string_lossy().into_owned()).collect();
    match options::read(&args) {
        Err(stop) => ExitCode::from(report(&stop)),
        Ok(Asked::Help) => finish(None, format!("{}\n", options::HELP).as_bytes(), 0),
        Ok(Asked::Version) => finish(None, concat!("ghatumri ", env!("CARGO_PKG_VERSION"), "\n").as_bytes(), 0),
        Ok(Asked::Run { command, word, options, files }) => match run(command, &options, &files) {
            Ok((out, status)) => finish(options.out.as_deref().filter(|_| command != Command::Repair), &out, status),
            Err(stop) => match stop.object(&word).filter(|_| options.json) {
                Some(object) => finish(None, format!("{}\n", object.json()).as_bytes(), stop.status()),
                None => ExitCode::from(report(&stop)),
            },
        },
    }
}

/// Writes the answer, and ends with its status, or with that of a failed write.
fn finish(path: Option<&str>, out: &[u8], status: u8) -> ExitCode {
    let written = match path {
        Some(path) => output::to_file(path, out),
        None => output::to_standard_output(out),
    };
    ExitCode::from(match written {
        Ok(()) => status,
        Err(stop) => report(&stop),
    })
}

/// Reports why there is no answer, and returns the status.
fn report(stop: &Stop) -> u8 {
    for line in stop.lines() {
        eprintln!("ghatumri: {line}");
    }
    stop.status()
}

/// The bytes that a command prints, and its status.
fn run(command: Command, options: &Options, files: &[String]) -> Done<(Vec<u8>, u8)> {
    let file = |k: usize| File::read(files.get(k).map_or("-", String::as_str), options.clear);
    let answer = match command {
        Command::Text => list(&file(0)?)?,
        Command::Records => return Ok((file(0)?.list()?, 0)),
        Command::Image => {
            let file = file(0)?;
            let image = Image::of(&file.list()?).map_err(|r| Stop::refused(&file.name, r, r.meaning()))?;
            return Ok((snapshot::of_image(&image), 0));
        }
        Command::Table => {
            let file = file(0)?;
            return Ok((snapshot::of_table(&options.lent.table(&file.name, &file.list()?)?, None), 0));
        }
        Command::Why(addr) => why::why(addr, &file(0)?, &options.lent)?,
        Command::Diff => compare::diff([&file(0)?, &file(1)?])?,
        Command::Answers => compare::answers([&file(0)?, &file(1)?], &options.lent)?,
        Command::Room => {
            let room = Room::of(file(0)?, &options.lent)?;
            if options.svg {
                return Ok((picture::svg(&room).into_bytes(), 0));
            }
            room.answer()?
        }
        Command::Repair => mend(file(0)?, options)?,
    };
    let status = u8::from(!answer.yes);
    let text = if options.json { format!("{}\n", answer.object.json()) } else { answer.text };
    Ok((text.into_bytes(), status))
}

/// The routes of a file, one a line.
fn list(file: &File) -> Done<Answer> {
    let routes = why::accepted(&file.name, &file.list()?)?;
    let mut answer = Answer::new("text");
    answer.text = text::write(routes.iter().copied());
    let object = |r: &ghatumri::Route| {
        let object = Object::new().with("prefix", format!("{}/{}", r.addr, r.len)).with("hop", r.hop);
        object.with("attached", r.mark == Mark::Attached)
    };
    answer.field("routes", routes.iter().map(object).collect::<Vec<_>>());
    Ok(answer)
}

/// Repairs the table of a snapshot, and writes it if it is to be written.
fn mend(file: File, options: &Options) -> Done<Answer> {
    let Form::Table(mut boxed) = file.form else {
        return Err(Stop::Trouble(format!("{}: not the snapshot of a table", file.name)));
    };
    let answer = repair::repair(&file.name, &mut boxed.table, options.count)?;
    if let Some(path) = &options.out {
        output::to_file(path, &snapshot::of_table(&boxed.table, boxed.records.as_deref()))?;
    }
    Ok(answer)
}
