//! Options of the programs and the table they print at the end.

use super::cases::Case;
use crate::checker::Answer;

/// The rules have the numbers 1 to this one.
const LAST_RULE: usize = 31;

pub const DEFAULT_CASES: usize = 20_000;
pub const DEFAULT_SEED: u64 = 20_240_228;

pub struct Options {
    pub cases: usize,
    pub seed: u64,
    /// Least number of cases for each of the rules 1 to 31.
    pub require: u64,
}

impl Options {
    /// Reads `[cases] [seed] [--require N]`.
    pub fn from_arguments() -> Result<Options, String> {
        let mut options = Options {
            cases: DEFAULT_CASES,
            seed: DEFAULT_SEED,
            require: 0,
        };
        let mut arguments = std::env::args().skip(1);
        let mut position = 0;
        while let Some(argument) = arguments.next() {
            if argument == "--require" {
                let value = arguments.next().ok_or("--require needs a number")?;
                options.require = number(&value)?;
                continue;
            }
            match position {
                0 => options.cases = number(&argument)? as usize,
                1 => options.seed = number(&argument)?,
                _ => return Err(format!("one argument too many: {argument}")),
            }
            position += 1;
        }
        Ok(options)
    }
}

fn number(text: &str) -> Result<u64, String> {
    text.parse().map_err(|_| format!("not a number: {text}"))
}

/// How many cases got which answer.
#[derive(Default)]
pub struct Tally {
    models: u64,
    instances: u64,
    members: u64,
    walks: u64,
    refused: [u64; LAST_RULE + 1],
    /// Of those, with a place other than 0.
    later: [u64; LAST_RULE + 1],
    opened: u64,
    results: u64,
}

impl Tally {
    pub fn count(&mut self, answer: Answer) {
        match answer {
            Answer::ModelAccepted { .. } => self.models += 1,
            Answer::InstanceAccepted => self.instances += 1,
            Answer::MembersAccepted => self.members += 1,
            Answer::Walked { results, opened } => {
                self.walks += 1;
                self.results += u64::from(results);
                self.opened += u64::from(opened);
            }
            Answer::Refused { rule, place } => {
                self.refused[rule as usize] += 1;
                self.later[rule as usize] += u64::from(place > 0);
            }
        }
    }

    pub fn print(&self) {
        println!("rule    cases   place>0");
        for rule in 1..=LAST_RULE {
            println!("{rule:4} {:8}  {:8}", self.refused[rule], self.later[rule]);
        }
        println!(
            "accepted: {} models, {} instances, {} members images, {} walks \
             ({} results, {} slots opened)",
            self.models, self.instances, self.members, self.walks, self.results, self.opened
        );
    }

    /// The rules with fewer cases than required.
    pub fn missing(&self, require: u64) -> Vec<usize> {
        (1..=LAST_RULE)
            .filter(|&rule| self.refused[rule] < require)
            .collect()
    }
}

fn hex(bytes: &[u8]) -> String {
    bytes.iter().map(|b| format!("{b:02x}")).collect()
}

/// The case with its images in hexadecimal.
pub fn print_case(case: &Case) {
    match case {
        Case::Model { image, buffer } => {
            println!("check_model, buffer of {} bytes", buffer.len());
            println!("  image    {}", hex(image));
        }
        Case::Instance { model, instance } => {
            println!("check_instance");
            println!("  model    {}", hex(model));
            println!("  instance {}", hex(instance));
        }
        Case::Members { model, members } => {
            println!("check_members");
            println!("  model    {}", hex(model));
            println!("  members  {}", hex(members));
        }
        Case::Walk {
            model,
            instance,
            place,
            path,
            node,
            buffer,
        } => {
            println!(
                "walk of place {place}, path {path}, node {node}, buffer of {} bytes",
                buffer.len()
            );
            println!("  model    {}", hex(model));
            println!("  instance {}", hex(instance));
        }
    }
}

/// A packed answer in words.
pub fn show(case: &Case, packed: u64) -> String {
    let (rule, rest) = (packed >> 32, packed & 0xffff_ffff);
    match case {
        _ if rule != 0 => format!("refused {rule} place {rest}"),
        Case::Model { .. } => format!("accepted {rest}"),
        Case::Instance { .. } | Case::Members { .. } => format!("accepted ({rest})"),
        Case::Walk { .. } => format!("walked: {} results, {} opened", rest >> 16, rest & 0xffff),
    }
}
