//! Runs the generator against this crate's checker alone.

use std::process::ExitCode;

use outside::generate::cases::Source;
use outside::generate::report::{print_case, show, Options, Tally};

fn main() -> ExitCode {
    let options = match Options::from_arguments() {
        Ok(options) => options,
        Err(message) => {
            eprintln!("{message}");
            return ExitCode::FAILURE;
        }
    };
    let mut source = Source::new(options.seed);
    let mut tally = Tally::default();
    let mut wrong = 0;
    for number in 0..options.cases {
        let (case, expect) = source.next_case();
        let (answer, outcome) = case.reference();
        tally.count(answer);
        if !expect.holds(answer) {
            println!(
                "case {number}: expected {expect:?}, got {}",
                show(&case, outcome.packed)
            );
            print_case(&case);
            wrong += 1;
            if wrong == 5 {
                break;
            }
        }
    }
    tally.print();
    let missing = tally.missing(options.require);
    if wrong > 0 || !missing.is_empty() {
        println!("selftest failed: {wrong} unexpected answers, too few cases of {missing:?}");
        return ExitCode::FAILURE;
    }
    println!(
        "selftest: {} cases as expected, seed {}",
        options.cases, options.seed
    );
    ExitCode::SUCCESS
}
