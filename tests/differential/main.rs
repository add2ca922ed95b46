//! Compares the library with the model on generated inputs: differential [ROUNDS]. Ends with 1 where they differ.

mod inputs;
mod library;
mod model;

use inputs::{Numbers, full_tree, sheet, tree};
use model::{read, write};
use std::process::ExitCode;

/// What was compared: how often the answers were each number from 0 (granted) to 22, and how often they differed.
#[derive(Default)]
struct Tally {
    checks: [u64; 23],
    jobs: [u64; 23],
    differences: u64,
}

fn hexadecimal(bytes: &[u8]) -> String {
    bytes.iter().map(|byte| format!("{byte:02x}")).collect()
}

impl Tally {
    fn check(&mut self, file: &[u8]) {
        let expected = read(file).err().unwrap_or(0);
        let found = library::check(file);
        self.checks[expected as usize] += 1;
        if found != expected {
            self.differences += 1;
            let file = hexadecimal(file);
            println!("a file check differs: {found}, not {expected}\n  file {file}");
        }
    }

    fn job(&mut self, file: &[u8], sheet: &[u8], list: usize) {
        let expected = model::count_job(file, sheet, list);
        let found = library::count_job(file, sheet, list);
        self.jobs[expected.refusal] += 1;
        if found != expected {
            self.differences += 1;
            let file = hexadecimal(file);
            let sheet = hexadecimal(sheet);
            println!(
                "a job differs: {found:?}, not {expected:?}\n  list {list}\n  file {file}\n  sheet {sheet}"
            );
        }
    }
}

/// A file, the file with each byte changed, cut at each place, with bytes behind it, and with other closing numbers.
fn check_damaged(numbers: &mut Numbers, tally: &mut Tally, file: &[u8]) {
    tally.check(file);
    let mut damaged = file.to_vec();
    for i in 0..file.len() {
        let others = [
            file[i] ^ 1,
            file[i] ^ 0x80,
            0,
            b'L',
            b'E',
            b'Z',
            numbers.next() as u8,
        ];
        for other in others {
            damaged[i] = other;
            tally.check(&damaged);
        }
        damaged[i] = file[i];
        tally.check(&file[..i]);
    }
    for tail in [&b"Z"[..], b"L\0\x01\0", b"\0\0\0", b"Z\0\x04\0\0\0\0"] {
        tally.check(&[file, tail].concat());
    }
    for step in [1, 255] {
        let mut off = file.to_vec();
        if let Some(last) = off.last_mut() {
            *last = last.wrapping_add(step);
        }
        tally.check(&off);
    }
}

/// Jobs on a tree, also at lists that do not exist, and on the file with one byte changed.
fn count_jobs(numbers: &mut Numbers, tally: &mut Tally, file: &[u8], lists: usize) {
    for _ in 0..4 {
        let lines = sheet(numbers, 12);
        tally.job(file, &lines, numbers.below(lists + 1));
    }
    let mut damaged = file.to_vec();
    let at = numbers.below(file.len());
    damaged[at] = numbers.next() as u8;
    tally.job(&damaged, &sheet(numbers, 4), numbers.below(lists));
}

/// The longest files and sheets: as many lists and entries as an index takes and one more, sheets at their limit and past
/// it.
fn long_inputs(numbers: &mut Numbers, tally: &mut Tally) {
    for (lists, entries) in [
        (128, 40),
        (129, 1),
        (4, 10_000),
        (9, 4_444),
        (27, 1_482),
        (1, 40_001),
    ] {
        let file = write(&full_tree(numbers, lists, entries));
        tally.check(&file);
        for length in [65_534, 65_535, 65_536] {
            let mut lines = sheet(numbers, 400);
            lines.resize(length, 10);
            tally.job(&file, &lines, lists - 1);
            tally.job(&file, &lines, lists);
        }
        tally.job(&file, &[], lists - 1);
        tally.job(&file, &[], lists);
    }
}

fn print(name: &str, counts: &[u64; 23]) {
    let all: u64 = counts.iter().sum();
    println!("{name}: {all}, granted {}", counts[0]);
    for (number, count) in counts
        .iter()
        .enumerate()
        .skip(1)
        .filter(|(_, count)| **count > 0)
    {
        println!("  refused by {number}: {count}");
    }
}

fn main() -> ExitCode {
    let rounds = match std::env::args().nth(1).map(|word| word.parse::<u64>()) {
        None => 4_000,
        Some(Ok(rounds)) => rounds,
        Some(Err(_)) => {
            eprintln!("usage: differential [ROUNDS]");
            return ExitCode::from(2);
        }
    };
    let mut numbers = Numbers(0x9e37_79b9_7f4a_7c15);
    let mut tally = Tally::default();
    for round in 0..rounds {
        let made = tree(&mut numbers, 10, 4);
        check_damaged(&mut numbers, &mut tally, &write(&made));
        for _ in 0..10 {
            let made = tree(&mut numbers, 14, 8);
            count_jobs(&mut numbers, &mut tally, &write(&made), made.len());
        }
        if round % 500 == 499 {
            eprintln!("{} of {rounds} rounds", round + 1);
        }
    }
    if rounds >= 500 {
        long_inputs(&mut numbers, &mut tally);
    }
    print("file checks", &tally.checks);
    print("jobs", &tally.jobs);
    println!("differences: {}", tally.differences);
    ExitCode::from(u8::from(tally.differences > 0))
}
