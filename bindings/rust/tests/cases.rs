//! The 189 files of `crates/report_cases`, through the boundary: the report on each is what the program prints, whose
//! answers were made by other means, and the other calls agree with it.

use counter_ties::{Fault, Refusal, check, contradiction, report, sheet};
use std::fmt::Write as _;
use std::fs;
use std::path::Path;

fn text(name: &str) -> String {
    let path = Path::new(env!("CARGO_MANIFEST_DIR"))
        .join("../../crates/report_cases")
        .join(name);
    fs::read_to_string(path).expect("the cases are in the repository")
}

/// Each line is `file` and the bytes in hex, or a dash where there are none.
fn files() -> Vec<Vec<u8>> {
    text("stdin")
        .lines()
        .map(|line| bytes(line.trim_start_matches("file ")))
        .collect()
}

fn bytes(hex: &str) -> Vec<u8> {
    let digits = hex.trim_matches('-').as_bytes();
    digits
        .chunks(2)
        .map(|pair| {
            let pair = std::str::from_utf8(pair).expect("hex is ASCII");
            u8::from_str_radix(pair, 16).expect("a byte is two digits in hex")
        })
        .collect()
}

fn lines(file: &[u8]) -> Result<String, Fault> {
    let told = report(file)?;
    let mut said = format!("standing {} free {}", told.standing, told.free);
    if let Some(stop) = told.stop {
        write!(said, "\nstopped {} {}", stop.tie, stop.refusal.number()).expect("a text takes all");
    }
    for (i, digits) in told.settled.iter().enumerate() {
        let (head, counter) = (i / told.counters, i % told.counters);
        write!(said, "\n{head} {counter} {digits}").expect("a text takes all");
    }
    Ok(said)
}

#[test]
fn reports_are_those_of_the_program() {
    let said: String = files()
        .iter()
        .map(|file| lines(file).unwrap_or_else(|fault| fault.to_string()) + "\n")
        .collect();
    assert_eq!(said, text("stdout"));
}

#[test]
fn sheets_are_of_the_report() {
    for file in files() {
        match (report(&file), sheet(&file)) {
            (Ok(told), Ok(drawn)) => {
                let places = told.heads * told.counters;
                assert_eq!(drawn.free, told.free);
                assert_eq!(drawn.point.len(), places);
                assert!(drawn.generators.iter().all(|row| row.len() == places));
                assert_eq!(drawn.generators.len(), places);
            }
            (told, drawn) => assert_eq!(told.err(), drawn.err()),
        }
    }
}

#[test]
fn contradictions_are_those_of_the_report() {
    for file in files() {
        let stop = report(&file).map(|told| told.stop);
        match contradiction(&file) {
            Ok(None) => assert_eq!(stop, Ok(None)),
            Ok(Some(found)) => {
                let stop = stop.ok().flatten().expect("the report stops too");
                assert_eq!(
                    (stop.tie, stop.refusal),
                    (found.tie, Refusal::Contradiction)
                );
                assert_eq!(found.multipliers.len(), found.tie + 1);
                // the multipliers are of the ties up to this one, and byte 0 counts the layout too
                if usize::from(file[0]) == found.tie + 2 {
                    assert_eq!(check(&file, &found.multipliers), Ok(true));
                }
            }
            Err(Fault::Refused {
                refusal,
                tie: Some(tie),
                place,
            }) => {
                let stop = stop.ok().flatten().expect("the report stops too");
                assert_eq!((stop.tie, stop.refusal, stop.place), (tie, refusal, place));
            }
            Err(fault) => assert_eq!(stop, Err(fault)),
        }
    }
}
