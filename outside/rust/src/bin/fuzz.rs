//! The library at its boundary: `fuzz [CALLS [SEED]]`, 200,000 calls and seed 1
//! unless said. Images that can only be read and buffers, each between
//! unreadable pages and flush with one of them; each call twice; answers and
//! buffers held against this crate's checker; then four threads at once on the
//! same images.

use std::ffi::c_int;
use std::process::ExitCode;
use std::sync::atomic::{AtomicUsize, Ordering};
use std::sync::Barrier;

use outside::fence::Flush;
use outside::ffi::{self, Images};
use outside::generate::cases::{Case, Outcome, Source};
use outside::generate::describe::Layout;
use outside::generate::fixed::{chain, five_enumerations, full_instance, full_members};
use outside::generate::members::MembersDesc;
use outside::generate::random::Random;
use outside::generate::report::{print_case, show};

/// One case of so many is called with buffers of every size.
const SWEPT: usize = 64;
/// A sweep takes at most this share of the calls.
const SWEEP_SHARE: usize = 64;
/// The threads take this share of the calls, on so many cases at a time.
const THREAD_SHARE: usize = 10;
const THREADS: usize = 4;
const SHARED_CASES: usize = 32;

extern "C" {
    fn signal(number: c_int, handler: extern "C" fn(c_int)) -> usize;
    fn _exit(status: c_int) -> !;
}

const SIGBUS: c_int = 7;
const SIGSEGV: c_int = 11;

/// The case that is called, for the message at a fault.
static CASE: AtomicUsize = AtomicUsize::new(0);

extern "C" fn fault(_: c_int) {
    let case = CASE.load(Ordering::Relaxed);
    println!("fuzz failed: case {case} touches memory that it was not lent");
    unsafe { _exit(1) }
}

fn main() -> ExitCode {
    let mut numbers = [200_000, 1];
    let arguments: Vec<String> = std::env::args().skip(1).collect();
    for (argument, number) in arguments.iter().zip(&mut numbers) {
        match argument.parse() {
            Ok(given) => *number = given,
            Err(_) => return failed("fuzz [CALLS [SEED]]"),
        }
    }
    unsafe {
        signal(SIGSEGV, fault);
        signal(SIGBUS, fault);
    }
    let mut fuzz = Fuzz {
        most: numbers[0] as usize,
        calls: 0,
        swept: 0,
    };
    match fuzz.run(numbers[1]) {
        Ok(cases) => {
            println!(
                "fuzz: {} calls of {cases} cases agree, {} cases with buffers of every size, \
                 a tenth of the calls in {THREADS} threads, seed {}",
                fuzz.calls, fuzz.swept, numbers[1]
            );
            ExitCode::SUCCESS
        }
        Err(message) => failed(&format!("fuzz failed: {message}, seed {}", numbers[1])),
    }
}

fn failed(message: &str) -> ExitCode {
    println!("{message}");
    ExitCode::FAILURE
}

struct Fuzz {
    /// Calls to be made, and made.
    most: usize,
    calls: usize,
    swept: usize,
}

impl Fuzz {
    /// The number of cases that were tried.
    fn run(&mut self, seed: u64) -> Result<usize, String> {
        self.bounds()?;
        self.member_bounds()?;
        let mut source = Source::new(seed);
        let mut number = 0;
        while self.calls < self.most - self.most / THREAD_SHARE {
            number += 1;
            CASE.store(number, Ordering::Relaxed);
            let (case, _) = source.next_case();
            let tried = if number % SWEPT == 0 {
                let every = 2 * (stated(&case) + 9) <= self.most / SWEEP_SHARE;
                self.sweep(&case, every)
            } else {
                self.twice(&case)
            };
            tried.map_err(|message| format!("case {number}, {message}"))?;
        }
        while self.calls < self.most {
            number += SHARED_CASES;
            CASE.store(number, Ordering::Relaxed);
            let cases: Vec<Case> = (0..SHARED_CASES).map(|_| source.next_case().0).collect();
            self.threads(&cases)
                .map_err(|message| format!("among the {SHARED_CASES} to {number}, {message}"))?;
        }
        Ok(number)
    }

    /// Nothing lent, and the largest images with buffers of every size.
    fn bounds(&mut self) -> Result<(), String> {
        self.calls += 4;
        if ffi::nothing_lent() != [1 << 32; 4] {
            return Err("null pointers are not refused by rule 1".into());
        }
        for more in [&[][..], &[0]] {
            let image = [&chain(64).to_bytes(), more].concat();
            let buffer = vec![0; 2048];
            self.sweep(&Case::Model { image, buffer }, true)?;
            let (model, instance) = full_instance();
            let instance = instance.encode(&mut Random::new(1)).to_bytes();
            let walk = Case::Walk {
                model: model.encode(&Layout::plain()).to_bytes(),
                instance: [&instance, more].concat(),
                place: model.place(6, 0),
                path: 0,
                node: 0,
                buffer: vec![0; 4 * (1 + 1024 + 2048)],
            };
            self.sweep(&walk, true)?;
        }
        Ok(())
    }

    /// The largest members image, and one less and one more byte; all first
    /// parts of a small image and a small image with one byte more.
    fn member_bounds(&mut self) -> Result<(), String> {
        let (model, members) = full_members();
        let model = model.encode(&Layout::plain()).to_bytes();
        let whole = [&members.encode().to_bytes()[..], &[0]].concat();
        let mut small = MembersDesc::default();
        for t in 0..5 {
            small.add(t, "First", Some(t as i64));
            small.add(t, "Second", Some(0));
        }
        let small_model = five_enumerations().encode(&Layout::plain()).to_bytes();
        let small = [&small.encode().to_bytes()[..], &[0]].concat();
        let ends = (whole.len() - 2..=whole.len()).map(|end| (&model, &whole[..end]));
        let parts = (0..=small.len()).map(|end| (&small_model, &small[..end]));
        for (model, members) in ends.chain(parts) {
            self.twice(&Case::Members {
                model: model.clone(),
                members: members.to_vec(),
            })?;
        }
        Ok(())
    }

    /// Images and buffer flush with the unreadable page after, then before.
    fn twice(&mut self, case: &Case) -> Result<(), String> {
        let expected = case.reference().1;
        for flush in [Flush::End, Flush::Start] {
            let images = Images::of(case, flush);
            for _ in 0..2 {
                self.calls += 1;
                agree(case, &expected, images.call(case, case.buffer(), flush))?;
            }
        }
        Ok(())
    }

    /// Buffers of every size from 0 to 8 more than the call asks for, or of the
    /// first and the last of these sizes.
    fn sweep(&mut self, case: &Case, every: bool) -> Result<(), String> {
        let stated = stated(case);
        self.swept += usize::from(every && stated > 0);
        let images = [Flush::End, Flush::Start].map(|flush| Images::of(case, flush));
        for size in 0..stated + 9 {
            if !every && (9..stated.saturating_sub(8)).contains(&size) {
                continue;
            }
            let buffer = pattern(size);
            let expected = outcome(case, &buffer);
            for flush in [Flush::End, Flush::Start] {
                self.calls += 1;
                let found = images[size / 2 % 2].call(case, &buffer, flush);
                agree(case, &expected, found)?;
                if expected.packed >> 32 != 0 && expected.buffer != buffer {
                    return Err("a refusal wrote".into());
                }
            }
        }
        Ok(())
    }

    /// Threads that call the same cases on the same images, all at once.
    fn threads(&mut self, cases: &[Case]) -> Result<(), String> {
        let shared: Vec<(&Case, Images, Outcome)> = cases
            .iter()
            .map(|case| (case, Images::of(case, Flush::End), case.reference().1))
            .collect();
        self.calls += THREADS * shared.len();
        let start = Barrier::new(THREADS);
        let one = || {
            let mut answered = Ok(());
            for (case, images, expected) in &shared {
                start.wait();
                let found = images.call(case, case.buffer(), Flush::End);
                answered = answered.and(agree(case, expected, found));
            }
            answered
        };
        std::thread::scope(|scope| {
            let started: Vec<_> = (0..THREADS).map(|_| scope.spawn(one)).collect();
            started
                .into_iter()
                .try_for_each(|thread| thread.join().expect("a thread that ends"))
        })
    }
}

/// The bytes that a call of these images asks for, by their headers.
fn stated(case: &Case) -> usize {
    let (model, instance) = case.images();
    let count = |image: &[u8], at: usize, limit: usize| match image.get(2 * at..2 * at + 2) {
        Some(two) => limit.min(usize::from(two[0]) << 8 | usize::from(two[1])),
        None => 0,
    };
    match case {
        Case::Model { .. } => 2 * count(model, 8, 1024),
        Case::Instance { .. } | Case::Members { .. } => 0,
        Case::Walk { .. } => 4 * (1 + count(instance, 2, 1024) + count(instance, 3, 2048)),
    }
}

/// A buffer of the size: all 0, all 255, bits in turn, or each byte another.
fn pattern(size: usize) -> Vec<u8> {
    match size % 4 {
        0 => vec![0; size],
        1 => vec![0xff; size],
        2 => vec![0xa5; size],
        _ => (0..size).map(|i| (i * 7 + size) as u8).collect(),
    }
}

fn outcome(case: &Case, buffer: &[u8]) -> Outcome {
    let mut buffer = buffer.to_vec();
    let packed = case.call_reference(&mut buffer).packed();
    Outcome { packed, buffer }
}

/// The library answers as this crate's checker does.
fn agree(
    case: &Case,
    expected: &Outcome,
    found: Result<Outcome, &'static str>,
) -> Result<(), String> {
    let message = match found {
        Ok(found) if found == *expected => return Ok(()),
        Ok(found) if found.packed == expected.packed => "the buffers differ".to_string(),
        Ok(found) => format!(
            "outside {}, portal {}",
            show(case, expected.packed),
            show(case, found.packed)
        ),
        Err(message) => message.to_string(),
    };
    print_case(case);
    Err(format!(
        "buffer of {} bytes: {message}",
        expected.buffer.len()
    ))
}
