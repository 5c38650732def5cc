//! The enumerator as a program.

use enumerator::{cases, program, timed};
use std::fs;
use std::io::{self, BufWriter, Read, Write};
use std::process::ExitCode;

const HELP: &str = "\
enumerator listing            read a listing's input from standard input, print the listing
enumerator images SEED COUNT  comparison cases: reading an image
enumerator queries SEED COUNT comparison cases: checking a query
enumerator records SEED COUNT comparison cases: judging a record
enumerator pages SEED COUNT   comparison cases: filling a page
enumerator lists SEED COUNT   comparison cases: lists of calls to fill a page
enumerator sittings SEED COUNT comparison cases: lists of calls to fill pages of changing listings in one sitting
enumerator conditions SEED COUNT comparison cases: pages and records of conditions on properties that may be absent
enumerator listings SEED COUNT comparison cases: what the program prints
enumerator time IMAGE QUERY SECONDS  a listing timed: answers, words, seconds; 'over' after SECONDS
enumerator help               this text
";

fn main() -> ExitCode {
    let arguments: Vec<String> = std::env::args().skip(1).collect();
    let arguments: Vec<&str> = arguments.iter().map(String::as_str).collect();
    let done = match arguments.as_slice() {
        ["listing"] => listing(),
        [sort, seed, count] => match (seed.parse(), count.parse()) {
            (Ok(seed), Ok(count)) => comparison(sort, seed, count),
            _ => help(ExitCode::FAILURE),
        },
        ["time", image, query, seconds] => match seconds.parse() {
            Ok(seconds) => time(image, query, seconds),
            _ => help(ExitCode::FAILURE),
        },
        ["help"] => help(ExitCode::SUCCESS),
        _ => help(ExitCode::FAILURE),
    };
    done.unwrap_or_else(|error| {
        eprintln!("enumerator: {error}");
        ExitCode::FAILURE
    })
}

fn help(code: ExitCode) -> io::Result<ExitCode> {
    io::stdout().write_all(HELP.as_bytes())?;
    Ok(code)
}

fn listing() -> io::Result<ExitCode> {
    let mut input = Vec::new();
    io::stdin().read_to_end(&mut input)?;
    io::stdout().write_all(program::print(&input).as_bytes())?;
    Ok(ExitCode::SUCCESS)
}

fn time(image: &str, query: &str, seconds: f64) -> io::Result<ExitCode> {
    println!("{}", timed::time(&fs::read(image)?, &fs::read(query)?, seconds));
    Ok(ExitCode::SUCCESS)
}

fn comparison(sort: &str, seed: u64, count: usize) -> io::Result<ExitCode> {
    let mut out = BufWriter::new(io::stdout().lock());
    let mut outcome = Ok(());
    let known = cases::text(sort, seed, count, &mut |text| {
        if outcome.is_ok() {
            outcome = out.write_all(text.as_bytes());
        }
    });
    outcome?;
    out.flush()?;
    match known {
        Some(()) => Ok(ExitCode::SUCCESS),
        None => help(ExitCode::FAILURE),
    }
}
