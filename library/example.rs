//! Checks the sheet in a folder with the static library and prints what the program prints: the report, or `refused` and the number.
//! With --copy it prints the clean copy of the moves in the place of a report.
//!
//! library/README.md has the command that builds it.

mod sebdyqul;

use sebdyqul::{Answer, Lent, COPY, MARKS, NO, RESULTS, UNDECIDED, VECTORS, WORDS, YES};
use std::io::{BufWriter, Result, Write};
use std::path::Path;

/// The results of a job, and all else that is lent to it: enough for every job.
struct Buffers {
    lower: [u32; RESULTS],
    upper: [u32; RESULTS],
    verdicts: [u8; RESULTS],
    order: [u16; RESULTS],
    words: Vec<u64>,
    vectors: Vec<u64>,
    marks: Vec<u8>,
}

impl Buffers {
    fn new() -> Buffers {
        Buffers {
            lower: [0; RESULTS],
            upper: [0; RESULTS],
            verdicts: [0; RESULTS],
            order: [0; RESULTS],
            words: vec![0; WORDS],
            vectors: vec![0; VECTORS],
            marks: vec![0; MARKS],
        }
    }

    fn lend(&mut self) -> Lent<'_> {
        Lent {
            lower: &mut self.lower,
            upper: &mut self.upper,
            verdicts: &mut self.verdicts,
            order: &mut self.order,
            words: &mut self.words,
            vectors: &mut self.vectors,
            marks: &mut self.marks,
        }
    }
}

/// A file of the folder; one that cannot be read counts as empty.
fn read_text(folder: &Path, name: &str) -> Vec<u8> {
    std::fs::read(folder.join(name)).unwrap_or_default()
}

/// The states of an accepted job: the lines of its labels text, without the first.
fn states(labels: &[u8]) -> usize {
    labels.iter().filter(|&&byte| byte == b'\n').count() - 1
}

/// The word for a verdict byte.
fn word(verdict: u8) -> &'static str {
    match verdict {
        NO => "no",
        YES => "yes",
        UNDECIDED => "undecided",
        _ => unreachable!("the library writes no other byte"),
    }
}

/// Prints the line of names, then the lines of these states.
fn print_listing(out: &mut impl Write, buffers: &Buffers, states: impl Iterator<Item = usize>, depth: u64) -> Result<()> {
    writeln!(out, "state,lower,upper,depth,verdict")?;
    for state in states {
        let (lower, upper) = (buffers.lower[state], buffers.upper[state]);
        writeln!(out, "{state},{lower},{upper},{depth},{}", word(buffers.verdicts[state]))?;
    }
    Ok(())
}

/// Prints the report that the buffers hold: every state in turn, then the worst first.
fn print_report(out: &mut impl Write, buffers: &Buffers, states: usize, depth: u64) -> Result<()> {
    print_listing(out, buffers, 0..states, depth)?;
    print_listing(out, buffers, buffers.order[..states].iter().map(|&state| state.into()), depth)
}

/// Prints a refusal.
fn print_refusal(out: &mut impl Write, number: u64) -> Result<()> {
    writeln!(out, "refused\n{number}")
}

/// Checks the job in a folder and prints its report or its refusal.
fn check(out: &mut impl Write, folder: &Path) -> Result<()> {
    let [moves, labels, formula] = ["moves.txt", "labels.txt", "formula.txt"].map(|name| read_text(folder, name));
    let mut buffers = Buffers::new();
    match sebdyqul::check(&moves, &labels, &formula, buffers.lend()) {
        Answer::Accepted { depth } => print_report(out, &buffers, states(&labels), depth),
        Answer::Refused(number) => print_refusal(out, number),
    }
}

/// Copies the moves in a folder and prints the copy or the refusal.
fn copy(out: &mut impl Write, folder: &Path) -> Result<()> {
    let [moves, labels] = ["moves.txt", "labels.txt"].map(|name| read_text(folder, name));
    let mut bytes = vec![0; COPY];
    match sebdyqul::copy(&moves, &labels, &mut bytes) {
        Ok(length) => out.write_all(&bytes[..length]),
        Err(number) => print_refusal(out, number),
    }
}

fn main() -> Result<()> {
    let arguments: Vec<_> = std::env::args_os().skip(1).collect();
    let mut out = BufWriter::new(std::io::stdout().lock());
    match arguments.as_slice() {
        [folder] => check(&mut out, Path::new(folder))?,
        [word, folder] if word == "--copy" => copy(&mut out, Path::new(folder))?,
        _ => {
            eprintln!("usage: example-rs [--copy] FOLDER");
            std::process::exit(2);
        }
    }
    out.flush()
}
