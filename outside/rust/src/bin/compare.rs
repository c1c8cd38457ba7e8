//! Compares the library with this crate's checker, case by case.

use std::process::ExitCode;

use outside::ffi;
use outside::generate::cases::{Case, Outcome, Source};
use outside::generate::report::{print_case, show, Options, Tally};

const MOST_DIFFERENCES: usize = 5;

fn main() -> ExitCode {
    let options = match Options::from_arguments() {
        Ok(options) => options,
        Err(message) => {
            eprintln!("{message}");
            return ExitCode::FAILURE;
        }
    };
    let mut source = Source::new(options.seed);
    let mut tally = Tally::default();
    let mut differences = 0;
    for number in 0..options.cases {
        let (case, _) = source.next_case();
        let (answer, outcome) = case.reference();
        tally.count(answer);
        if differs(number, &case, &outcome) {
            differences += 1;
            if differences == MOST_DIFFERENCES {
                break;
            }
        }
    }
    tally.print();
    let missing = tally.missing(options.require);
    if !missing.is_empty() {
        println!(
            "too few cases (under {}) of the rules {missing:?}",
            options.require
        );
    }
    if differences > 0 || !missing.is_empty() {
        println!(
            "compare failed: {differences} differences, seed {}",
            options.seed
        );
        return ExitCode::FAILURE;
    }
    println!(
        "compare: {} cases agree, seed {}",
        options.cases, options.seed
    );
    ExitCode::SUCCESS
}

/// Prints the case if the library answers otherwise.
fn differs(number: usize, case: &Case, expected: &Outcome) -> bool {
    let found = ffi::portal(case);
    match &found {
        Ok(found) if found == expected => return false,
        Ok(found) => {
            println!("difference in case {number}:");
            println!("  outside  {}", show(case, expected.packed));
            println!("  portal   {}", show(case, found.packed));
            print_buffers(&expected.buffer, &found.buffer);
        }
        Err(message) => println!("difference in case {number}: {message}"),
    }
    print_case(case);
    true
}

fn print_buffers(expected: &[u8], found: &[u8]) {
    let at = expected.iter().zip(found).position(|(a, b)| a != b);
    if let Some(at) = at {
        println!(
            "  buffers differ from byte {at}: {:02x} and {:02x}",
            expected[at], found[at]
        );
    }
}
