//! The peer: what `lvish` does, in plain Rust without proofs, to measure lvish by.
//!
//! It reads the same scripts and prints the same reports, with the same statuses. Of a script with a
//! fault it says only the line on which it saw one. tools/bench builds it and runs it.

#![forbid(unsafe_code)]

mod board;
mod code;
mod crew;
mod hash;
mod names;
mod pick;
mod reader;
mod state;
mod task;
mod waiting;
mod words;

use board::{Board, HANDED, Outcome};
use code::Code;
use state::print_number;
use std::fs::File;
use std::io::{self, Read, Write};
use std::process::exit;

const USAGE: &str = "usage: peer check FILE
       peer run FILE [--workers N] [--steps N] [--all]
       peer pick FILE [--steps N] [--all] [N]...
";

/// What the words ask for.
struct Asked {
    command: String,
    file: String,
    workers: usize,
    steps: usize,
    all: bool,
    picks: Vec<usize>,
}

fn asked(mut words: impl Iterator<Item = String>) -> Option<Asked> {
    let (command, mut files) = (words.next()?, Vec::new());
    let mut asked = Asked { command, file: String::new(), workers: 2, steps: 100_000, all: false, picks: Vec::new() };
    while let Some(word) = words.next() {
        match word.as_str() {
            "--workers" => asked.workers = words.next()?.parse().ok().filter(|it| (1..=8).contains(it))?,
            "--steps" => asked.steps = words.next()?.parse().ok().filter(|it| *it <= 1_000_000)?,
            "--all" => asked.all = true,
            _ => files.push(word),
        }
    }
    let mut files = files.into_iter();
    asked.file = files.next()?;
    asked.picks = files.map(|it| it.parse().ok()).collect::<Option<_>>()?;
    (asked.picks.is_empty() || asked.command == "pick").then_some(asked)
}

fn bytes_of(file: &str) -> io::Result<Vec<u8>> {
    let mut text = Vec::new();
    File::open(file)?.take(reader::LONGEST as u64 + 1).read_to_end(&mut text)?;
    Ok(text)
}

fn print_trace(board: &Board, out: &mut Vec<u8>) {
    for label in &board.trace {
        out.extend_from_slice(if label & HANDED == 0 { b"run " } else { b"hand " });
        board.names.print(label & !HANDED, out);
        out.push(b'\n');
    }
}

/// Prints how a run came out; returns the status.
fn print_report(code: &Code, board: &Board, asked: &Asked, out: &mut Vec<u8>) -> i32 {
    match board.outcome {
        Some(Outcome::Error(fault, variable, task)) => {
            let variable = variable.map_or("-", |it| &code.variables[usize::from(it)].name);
            out.extend_from_slice(format!("error {fault:?} {variable} ").as_bytes());
            board.names.print(task, out);
            out.push(b'\n');
            5
        }
        Some(Outcome::Budget) => {
            out.extend_from_slice(format!("budget {}\n", asked.steps).as_bytes());
            6
        }
        Some(Outcome::Ended) | None => {
            for (name, state) in board.states(asked.all) {
                out.extend_from_slice(name.as_bytes());
                out.extend_from_slice(b" = ");
                state.print(out);
                out.push(b'\n');
            }
            for (what, count) in [("steps ", board.trace.len()), ("\nblocked ", board.live)] {
                out.extend_from_slice(what.as_bytes());
                print_number(count as i64, out);
            }
            out.push(b'\n');
            i32::from(board.live > 0)
        }
    }
}

/// Prints a text whole; returns the status, or 8 where it can't.
fn print(text: &[u8], status: i32) -> i32 {
    if io::stdout().write_all(text).is_ok() { status } else { 8 }
}

fn main() {
    let Some(asked) = asked(std::env::args().skip(1)) else {
        eprint!("{USAGE}");
        exit(2);
    };
    let Ok(text) = bytes_of(&asked.file) else {
        eprintln!("unreadable");
        exit(3);
    };
    let code = match reader::read(&text) {
        Ok(code) => code,
        Err(refused) => exit(print(format!("refused line {}\n", refused.0).as_bytes(), 4)),
    };
    let mut out = Vec::new();
    let board = match asked.command.as_str() {
        "check" => exit(print(b"ok\n", 0)),
        "run" => crew::run(&code, asked.workers, asked.steps),
        "pick" => pick::run(&code, &asked.picks, asked.steps),
        _ => {
            eprint!("{USAGE}");
            exit(2);
        }
    };
    if asked.command == "pick" {
        print_trace(&board, &mut out);
    }
    let status = print_report(&code, &board, &asked, &mut out);
    // (the system takes the board's memory back as a whole, which is quicker than to free each task)
    exit(print(&out, status));
}
