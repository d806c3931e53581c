//! example FILE
//!
//! Prints the report on a tie file as `tie_report` does, then the sheet of the ties that stand, and, where a tie
//! contradicts the others, the multipliers by which that shows and what the check of multipliers says to them.

use counter_ties::{Contradiction, Fault, Report, Sheet, check, contradiction, report, sheet};
use std::io;
use std::process::ExitCode;

fn print_report(told: &Report) {
    println!("standing {} free {}", told.standing, told.free);
    if let Some(stop) = told.stop {
        println!("stopped {} {}", stop.tie, stop.refusal.number());
    }
    for (i, digits) in told.settled.iter().enumerate() {
        println!("{} {} {digits}", i / told.counters, i % told.counters);
    }
}

fn print_row(name: &str, row: &[u32]) {
    print!("{name}");
    for number in row {
        print!(" {number}");
    }
    println!();
}

fn print_sheet(drawn: &Sheet) {
    println!("sheet of {} free digits", drawn.free);
    print_row("point", &drawn.point);
    for generator in &drawn.generators {
        print_row("generator", generator);
    }
}

fn print_contradiction(found: &Contradiction, yes: bool) {
    println!("contradiction at tie {}", found.tie);
    print_row("multipliers", &found.multipliers);
    println!("check {}", if yes { "yes" } else { "no" });
}

fn print_all(file: &[u8]) -> Result<(), Fault> {
    print_report(&report(file)?);
    print_sheet(&sheet(file)?);
    if let Some(found) = contradiction(file)? {
        let yes = check(file, &found.multipliers)?;
        print_contradiction(&found, yes);
    }
    Ok(())
}

fn read_file() -> io::Result<Vec<u8>> {
    let path = std::env::args_os()
        .nth(1)
        .ok_or(io::ErrorKind::InvalidInput)?;
    std::fs::read(path)
}

fn main() -> ExitCode {
    let Ok(file) = read_file() else {
        eprintln!("example: a tie file is wanted that can be read");
        return ExitCode::FAILURE;
    };
    if let Err(fault) = print_all(&file) {
        println!("{fault}");
    }
    ExitCode::SUCCESS
}
