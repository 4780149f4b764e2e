//! The command line of the judge.

use judge::boundaries;
use judge::compare::caller::Call;
use judge::compare::texts::random_text;
use judge::compare::{
    compare_calls, compare_named, compare_texts, wanted_of_texts, Calls, Comparison, Seen, CALLS, ENOUGH, HELPS,
    LISTINGS, MONTHS, OPENINGS, PLANS, QUESTIONS, READINGS, REDUCTIONS, SERVER, SOLUTIONS,
};
use judge::desk::{desk, solution};
use judge::families::{self, FAMILIES};
use std::io::{self, Read, Write};
use std::path::Path;
use std::process::ExitCode;

const USAGE: &str = "usage:
  judge desk <TEXT                        what the desk prints for a text
  judge solution <TEXT                    the solution text of the answer to a text
  judge stored FOLDER                     what the program of the stored runs prints, from its args and data/
  judge boundaries FILE COMMAND WORD..    the calls that FILE lists, through a caller
  judge families [full] COMMAND WORD..    the seeded tables of all families, small or at full size, through a caller
  judge family NUMBER N M                 the table of a family, from 1, as a text
  judge text SEED INDEX                   a text of the comparison
  judge texts COUNT SEED COMMAND WORD..   random texts through a desk
  judge KIND COUNT SEED COMMAND WORD..    random calls of a kind through a caller:
    calls       solving and reading by place
    readings    readings of text, and served texts
    openings    openings of a place
    server      the booking server's calls
    solutions   solution texts, written and read back
    plans       plans to check
    listings    chains and rings, listed
    questions   whether there is room for so many
    helps       which openings would help, and the shorter of two lists
    reductions  tables made smaller
    months      days' tables in one call";

/// Writes the answer to standard input.
fn answer_input(answer: impl Fn(&[u8]) -> Vec<u8>) -> io::Result<bool> {
    let mut text = Vec::new();
    io::stdin().lock().read_to_end(&mut text)?;
    io::stdout().write_all(&answer(&text))?;
    Ok(true)
}

/// Writes each stored text's name and what the desk program prints for it.
fn answer_stored(folder: &Path) -> io::Result<bool> {
    let names = std::fs::read_to_string(folder.join("args"))?;
    for name in names.lines() {
        let text = std::fs::read(folder.join("data").join(name))?;
        println!("{name}");
        io::stdout().write_all(&desk(&text))?;
    }
    Ok(true)
}

/// Compares calls that have names; true if nothing differed and everything wanted was among how they must end.
fn told_of_named(what: &str, calls: &[(String, Call)], wanted: &[String], command: &[&str]) -> io::Result<bool> {
    let (ends, differing) = compare_named(calls, &words(command));
    let never_came = |part: &&String| !ends.iter().any(|end| end.contains(part.as_str()));
    let missing: Vec<&String> = wanted.iter().filter(never_came).collect();
    if !missing.is_empty() {
        println!("never seen: {missing:?}");
    }
    println!("{} {what}, {differing} differences", calls.len());
    Ok(differing == 0 && missing.is_empty())
}

/// Compares the calls that the file lists.
fn compare_boundaries(file: &str, command: &[&str]) -> io::Result<bool> {
    let calls = boundaries::calls(&std::fs::read_to_string(file)?);
    let calls = calls.ok_or(io::Error::other("a line that names no call"))?;
    told_of_named("calls at bounds", &calls, &boundaries::wanted(), command)
}

/// Compares the families of seeded tables, small or at full size.
fn compare_families(full: bool, command: &[&str]) -> io::Result<bool> {
    told_of_named("seeded tables", &families::calls(full), &[], command)
}

/// Writes the table of a family as a text.
fn write_family(which: &str, n: &str, m: &str) -> io::Result<bool> {
    let family = FAMILIES.get((number(which)? as usize).wrapping_sub(1));
    let family = family.ok_or(io::Error::other("families are numbered from 1 to 9"))?;
    let (n, m) = (number(n)?, number(m)?);
    if !(8..=512).contains(&n) || m > 4096 {
        return Err(io::Error::other("n is 8 to 512, and m at most 4096"));
    }
    let table = family.table(n as u32, m as u32);
    print!("{}", table.text());
    Ok(true)
}

/// Writes one random text, to look at it, and on standard error what it brings.
fn write_text(seed: u64, index: u64) -> io::Result<bool> {
    let (text, brought) = random_text(seed, index);
    eprintln!("{}", brought.join(", "));
    io::stdout().write_all(&text)?;
    Ok(true)
}

/// Tells what a comparison saw; true if nothing differed and, in enough cases, everything wanted was there.
fn told(what: &str, comparison: &Comparison, seen: &Seen, wanted: &[String], enough: u64) -> io::Result<bool> {
    let times: Vec<String> = seen
        .times
        .iter()
        .map(|(thing, times)| format!("{thing}: {times}"))
        .collect();
    println!("{}", times.join(", "));
    let missing: Vec<&String> = wanted.iter().filter(|thing| !seen.times.contains_key(*thing)).collect();
    let (count, seed, differing) = (comparison.count, comparison.seed, seen.differing.len());
    if !missing.is_empty() {
        println!("never seen: {missing:?}");
    }
    println!("{count} {what} at seed {seed}, {differing} differences");
    Ok(differing == 0 && (missing.is_empty() || count < enough))
}

/// The number that an argument gives.
fn number(argument: &str) -> io::Result<u64> {
    argument
        .parse()
        .map_err(|_| io::Error::other(format!("{argument} is no number")))
}

/// The words of a command.
fn words(command: &[&str]) -> Vec<String> {
    command.iter().map(|word| word.to_string()).collect()
}

/// The comparison that the arguments give.
fn comparison(count: &str, seed: &str, command: &[&str]) -> io::Result<Comparison> {
    Ok(Comparison {
        count: number(count)?,
        seed: number(seed)?,
        command: words(command),
    })
}

/// Compares calls and tells what was seen.
fn told_of_calls(calls: &Calls, comparison: Comparison) -> io::Result<bool> {
    let seen = compare_calls(calls, &comparison);
    told(calls.what, &comparison, &seen, &(calls.wanted)(), calls.enough)
}

/// Takes the arguments and runs what they ask for.
fn run(arguments: &[&str]) -> io::Result<bool> {
    match arguments {
        ["desk"] => answer_input(desk),
        ["solution"] => answer_input(|text| solution(text).into_bytes()),
        ["stored", folder] => answer_stored(Path::new(folder)),
        ["boundaries", file, command @ ..] if !command.is_empty() => compare_boundaries(file, command),
        ["families", "full", command @ ..] if !command.is_empty() => compare_families(true, command),
        ["families", command @ ..] if !command.is_empty() => compare_families(false, command),
        ["family", number, n, m] => write_family(number, n, m),
        ["text", seed, index] => write_text(number(seed)?, number(index)?),
        ["texts", count, seed, command @ ..] if !command.is_empty() => {
            let comparison = comparison(count, seed, command)?;
            let seen = compare_texts(&comparison);
            told("texts", &comparison, &seen, &wanted_of_texts(), ENOUGH)
        }
        ["calls", count, seed, command @ ..] if !command.is_empty() => {
            told_of_calls(&CALLS, comparison(count, seed, command)?)
        }
        ["readings", count, seed, command @ ..] if !command.is_empty() => {
            told_of_calls(&READINGS, comparison(count, seed, command)?)
        }
        ["openings", count, seed, command @ ..] if !command.is_empty() => {
            told_of_calls(&OPENINGS, comparison(count, seed, command)?)
        }
        ["server", count, seed, command @ ..] if !command.is_empty() => {
            told_of_calls(&SERVER, comparison(count, seed, command)?)
        }
        ["solutions", count, seed, command @ ..] if !command.is_empty() => {
            told_of_calls(&SOLUTIONS, comparison(count, seed, command)?)
        }
        ["plans", count, seed, command @ ..] if !command.is_empty() => {
            told_of_calls(&PLANS, comparison(count, seed, command)?)
        }
        ["listings", count, seed, command @ ..] if !command.is_empty() => {
            told_of_calls(&LISTINGS, comparison(count, seed, command)?)
        }
        ["questions", count, seed, command @ ..] if !command.is_empty() => {
            told_of_calls(&QUESTIONS, comparison(count, seed, command)?)
        }
        ["helps", count, seed, command @ ..] if !command.is_empty() => {
            told_of_calls(&HELPS, comparison(count, seed, command)?)
        }
        ["reductions", count, seed, command @ ..] if !command.is_empty() => {
            told_of_calls(&REDUCTIONS, comparison(count, seed, command)?)
        }
        ["months", count, seed, command @ ..] if !command.is_empty() => {
            told_of_calls(&MONTHS, comparison(count, seed, command)?)
        }
        _ => Err(io::Error::other(USAGE)),
    }
}

/// The program ends in 0 where all went well and nothing differed.
fn main() -> ExitCode {
    let arguments: Vec<String> = std::env::args().skip(1).collect();
    let words: Vec<&str> = arguments.iter().map(String::as_str).collect();
    match run(&words) {
        Ok(true) => ExitCode::SUCCESS,
        Ok(false) => ExitCode::FAILURE,
        Err(error) => {
            eprintln!("{error}");
            ExitCode::from(2)
        }
    }
}
