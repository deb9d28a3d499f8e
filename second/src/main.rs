//! A second model of the Permedia 2 registers, written from the documents
//! alone, to be compared with the first.

#![allow(clippy::manual_is_multiple_of)]

mod bits;
mod breaks;
mod check;
mod columns;
mod explain;
mod generate;
mod model;
mod net;
mod offsets;
mod palette;
mod picture;
mod ppm;
mod rng;
mod selftest;
mod state;
mod stats;
mod tables;
mod trace;

use std::io::{self, BufReader, BufWriter, Write};
use std::path::Path;
use std::process::ExitCode;

use breaks::Break;
use trace::{Failure, Program, Setup, USUAL};

const USAGE: &str = "usage:
  second trace [WIDTHxHEIGHT BYTES] [--check] [--picture FILE] [--break N]
  second explain [WIDTHxHEIGHT BYTES] [--check] [--picture FILE] [--break N]
  second generate SEED LINES [WIDTHxHEIGHT BYTES] [--looks]
  second stats FILE [WIDTHxHEIGHT BYTES] [--looks]
  second selftest [--seed N] [--panels N] [--lines N] [--break N]
  second breaks [all]
  second net FOLDER [all]";

fn main() -> ExitCode {
    let arguments: Vec<String> = std::env::args().skip(1).collect();
    match command(&arguments) {
        Ok(code) => code,
        Err(text) => {
            eprintln!("second: {text}");
            ExitCode::from(2)
        }
    }
}

/// Words and flags of a command line.
struct Line {
    words: Vec<String>,
    check: bool,
    looks: bool,
    picture: Option<String>,
    broken: Break,
    seed: u64,
    panels: u32,
    lines: usize,
}

fn take_apart(arguments: &[String]) -> Result<Line, String> {
    let mut line = Line {
        words: Vec::new(),
        check: false,
        looks: false,
        picture: None,
        broken: Break::Nothing,
        seed: 1,
        panels: 40,
        lines: 400,
    };
    let mut rest = arguments.iter();
    while let Some(word) = rest.next() {
        if word == "--picture" {
            let file = rest.next().ok_or(format!("{word} needs a file"))?;
            line.picture = Some(file.clone());
            continue;
        }
        let mut number = || -> Result<u64, String> {
            let value = rest.next().ok_or(format!("{word} needs a number"))?;
            value
                .parse()
                .map_err(|_| format!("{value} is not a number"))
        };
        match word.as_str() {
            "--check" => line.check = true,
            "--looks" => line.looks = true,
            "--seed" => line.seed = number()?,
            "--panels" => line.panels = number()? as u32,
            "--lines" => line.lines = number()? as usize,
            "--break" => {
                let wanted = number()?;
                line.broken =
                    breaks::by_number(wanted as u32).ok_or(format!("no break {wanted}"))?;
            }
            flag if flag.starts_with("--") => return Err(format!("no flag {flag}")),
            other => line.words.push(other.to_string()),
        }
    }
    Ok(line)
}

/// The panel that two words name, or the usual one.
fn setup(words: &[String]) -> Result<Setup, String> {
    match words {
        [] => Ok(USUAL),
        [panel, bytes] => {
            net::parse_setup(panel, bytes).ok_or("a panel is WIDTHxHEIGHT BYTES".to_string())
        }
        _ => Err(USAGE.to_string()),
    }
}

/// Runs a program from standard input to standard output.
fn lines(program: Program, line: &Line, setup: Setup) -> Result<ExitCode, String> {
    let mut input = BufReader::new(io::stdin().lock());
    let mut output = BufWriter::new(io::stdout().lock());
    let outcome = program(line.broken, setup, line.check, &mut input, &mut output);
    let flushed = output.flush();
    match outcome.and_then(|machine| flushed.map(|()| machine).map_err(Failure::Io)) {
        Ok(machine) => {
            if let Some(file) = &line.picture {
                std::fs::write(file, machine.picture_file())
                    .map_err(|error| format!("{file}: {error}"))?;
            }
            Ok(ExitCode::SUCCESS)
        }
        Err(Failure::Wrong(text)) => {
            eprintln!("second: {text}");
            Ok(ExitCode::from(1))
        }
        Err(Failure::Io(error)) if error.kind() == io::ErrorKind::BrokenPipe => {
            Ok(ExitCode::SUCCESS)
        }
        Err(Failure::Io(error)) => Err(error.to_string()),
    }
}

fn command(arguments: &[String]) -> Result<ExitCode, String> {
    let line = take_apart(arguments)?;
    let words = &line.words;
    let Some(name) = words.first() else {
        return Err(USAGE.to_string());
    };
    match (name.as_str(), &words[1..]) {
        ("trace", panel) => lines(trace::run, &line, setup(panel)?),
        ("explain", panel) => lines(explain::run, &line, setup(panel)?),
        ("generate", [seed, lines, panel @ ..]) => {
            let seed = seed.parse().map_err(|_| format!("{seed} is no seed"))?;
            let lines = lines
                .parse()
                .map_err(|_| format!("{lines} is no number of lines"))?;
            let text = generate::trace(seed, lines, setup(panel)?, line.looks);
            match io::stdout().lock().write_all(&text) {
                Err(error) if error.kind() != io::ErrorKind::BrokenPipe => Err(error.to_string()),
                _ => Ok(ExitCode::SUCCESS),
            }
        }
        ("stats", [file, panel @ ..]) => {
            let text = std::fs::read(file).map_err(|e| format!("{file}: {e}"))?;
            print!("{}", stats::of(&text, setup(panel)?, line.looks)?.report());
            Ok(ExitCode::SUCCESS)
        }
        ("selftest", []) => {
            let failures = selftest::run(line.broken, line.seed, line.panels, line.lines);
            for failure in failures.iter().take(20) {
                println!("wrong: {failure}");
            }
            if failures.is_empty() {
                println!("selftest: all right");
                Ok(ExitCode::SUCCESS)
            } else {
                println!("selftest: {} wrong", failures.len());
                Ok(ExitCode::from(1))
            }
        }
        ("breaks", rest) if rest.is_empty() || rest == ["all"] => {
            for (number, broken, text) in breaks::all() {
                if !rest.is_empty() || matches!(broken, Break::Rule(_)) {
                    println!("{number:5}  {text}");
                }
            }
            Ok(ExitCode::SUCCESS)
        }
        ("net", [folder]) => net::run(Path::new(folder), false).map(|()| ExitCode::SUCCESS),
        ("net", [folder, all]) if all == "all" => {
            net::run(Path::new(folder), true).map(|()| ExitCode::SUCCESS)
        }
        _ => Err(USAGE.to_string()),
    }
}
