//! Counts the instructions of one call of the library and of one call of this
//! crate's checker on each input of `outside::inputs`, with callgrind, in one
//! run. Without arguments prints them beside wall times; with `--test` fails if
//! a count is above its limit.

use std::fmt::Display;
use std::hint::black_box;
use std::path::Path;
use std::process::{Command, ExitCode, Stdio};
use std::time::{Duration, Instant};

use outside::ffi;
use outside::generate::cases::Case;
use outside::inputs::{Row, GROWTH_GOAL, GROWTH_LIMIT, LARGEST, ROWS, TENTH};

/// Each time is the best of some rounds of this length.
const ROUND: Duration = Duration::from_millis(20);
const ROUNDS: usize = 5;

fn main() -> ExitCode {
    let arguments: Vec<String> = std::env::args().skip(1).collect();
    let done = match arguments.iter().map(String::as_str).collect::<Vec<_>>()[..] {
        [] => agree().and_then(|()| table()),
        ["--test"] => agree().and_then(|()| test()),
        ["--calls"] => calls(),
        _ => Err("bench [--test]".into()),
    };
    match done {
        Ok(()) => ExitCode::SUCCESS,
        Err(message) => {
            println!("{message}");
            ExitCode::FAILURE
        }
    }
}

/// What callgrind counts, known to it by this name. It goes on after the call,
/// so that it is not left by a jump.
#[no_mangle]
#[inline(never)]
pub extern "C" fn bench_counted(by: By, case: &Case, buffer: &mut Vec<u8>) -> u64 {
    black_box(by.call(case, buffer))
}

#[derive(Clone, Copy)]
#[repr(C)]
pub enum By {
    Library,
    Unrelated,
}

impl By {
    #[inline(never)]
    fn call(self, case: &Case, buffer: &mut [u8]) -> u64 {
        match self {
            By::Library => ffi::call(case, case.images(), buffer),
            By::Unrelated => case.call_reference(buffer).packed(),
        }
    }
}

/// Both must give the same answer and leave the same bytes.
fn agree() -> Result<(), String> {
    for row in &ROWS {
        let case = (row.make)();
        if ffi::portal(&case) != Ok(case.reference().1) {
            return Err(format!("bench: {}: the answers differ", row.name));
        }
    }
    Ok(())
}

/// What runs under callgrind: each input once by the library and once by this
/// crate's checker, after two calls that are not counted, in which the loader
/// finds the functions that it had left open.
fn calls() -> Result<(), String> {
    let first = (ROWS[0].make)();
    for by in [By::Library, By::Unrelated] {
        black_box(by.call(&first, &mut first.buffer().to_vec()));
    }
    for row in &ROWS {
        let case = (row.make)();
        for by in [By::Library, By::Unrelated] {
            black_box(bench_counted(
                by,
                black_box(&case),
                &mut case.buffer().to_vec(),
            ));
        }
    }
    Ok(())
}

/// Instructions of the library and of this crate's checker, input by input;
/// nothing where valgrind is not there.
fn instructions() -> Result<Option<Vec<(f64, f64)>>, String> {
    let asked = Command::new("valgrind").arg("--version").output();
    if !asked.is_ok_and(|output| output.status.success()) {
        return Ok(None);
    }
    let file = std::env::temp_dir().join(format!("outside-bench-{}", std::process::id()));
    let counted = count(&file);
    // The file may not be there if valgrind failed.
    let _ = std::fs::remove_file(&file);
    counted.map(Some)
}

/// On some processors the C library fills and copies long arrays by `rep stosb`
/// and `rep movsb`, which callgrind counts once for each byte: not here, so that
/// the counts are of instructions, and the same on every processor.
const NO_REPEATED_INSTRUCTIONS: &str = "glibc.cpu.x86_rep_stosb_threshold=1000000000:\
                                        glibc.cpu.x86_rep_movsb_threshold=1000000000";

fn count(file: &Path) -> Result<Vec<(f64, f64)>, String> {
    let program = std::env::current_exe().map_err(|e| said("the path of bench", e))?;
    let output = Command::new("valgrind")
        .env("GLIBC_TUNABLES", NO_REPEATED_INSTRUCTIONS)
        .args(["--tool=callgrind", "--combine-dumps=yes"])
        .arg(format!("--callgrind-out-file={}", file.display()))
        .args([
            "--toggle-collect=bench_counted",
            "--dump-after=bench_counted",
        ])
        .arg(program)
        .arg("--calls")
        .stdin(Stdio::null())
        .output()
        .map_err(|e| said("valgrind", e))?;
    if !output.status.success() {
        let text = [output.stdout, output.stderr].concat();
        return Err(said("bench under valgrind", String::from_utf8_lossy(&text)));
    }
    let text = std::fs::read_to_string(file).map_err(|e| said("callgrind's file", e))?;
    let counts: Vec<f64> = text
        .lines()
        .filter_map(|line| line.strip_prefix("summary: "))
        .filter_map(|number| number.trim().parse().ok())
        .filter(|&number| number > 0.0)
        .collect();
    if counts.len() != 2 * ROWS.len() {
        return Err(format!("callgrind wrote {} counts", counts.len()));
    }
    Ok(counts.chunks_exact(2).map(|two| (two[0], two[1])).collect())
}

fn said(what: &str, error: impl Display) -> String {
    format!("{what}: {error}")
}

/// The library's growth from a tenth of the largest model to the whole.
fn growth(counts: &[(f64, f64)]) -> (f64, f64) {
    let of = |name: &str| {
        let at = ROWS.iter().position(|row| row.name == name);
        counts[at.expect("a row")]
    };
    let (whole, tenth) = (of(LARGEST), of(TENTH));
    (whole.0 / tenth.0, whole.1 / tenth.1)
}

/// Fails if a ratio or the growth is above its limit.
fn test() -> Result<(), String> {
    let Some(counts) = instructions()? else {
        println!("bench: valgrind is not there, no instructions were counted");
        return Ok(());
    };
    let mut above = Vec::new();
    for (row, (library, unrelated)) in ROWS.iter().zip(&counts) {
        let ratio = library / unrelated;
        if ratio > row.limit {
            above.push(format!(
                "  {}: {library} instructions over {unrelated}, {ratio:.2} times; the limit is {}",
                row.name, row.limit
            ));
        }
    }
    let (grown, _) = growth(&counts);
    if grown > GROWTH_LIMIT {
        above.push(format!(
            "  from {TENTH} to the whole: {grown:.1} times; the limit is {GROWTH_LIMIT}"
        ));
    }
    if above.is_empty() {
        println!(
            "bench: {} inputs, instructions of each call within its limit",
            ROWS.len()
        );
        return Ok(());
    }
    Err(format!(
        "bench: instructions above the limit:\n{}\nbench failed: {} above their limit",
        above.join("\n"),
        above.len()
    ))
}

/// The table of docs/PERFORMANCE.md.
fn table() -> Result<(), String> {
    let counts = instructions()?;
    if counts.is_none() {
        println!("valgrind is not there: no instructions were counted\n");
    }
    println!("| Input | Bytes | Library | Unrelated | Ratio | Goal | Library ns | Unrelated ns |");
    println!("|---|--:|--:|--:|--:|--:|--:|--:|");
    for (i, row) in ROWS.iter().enumerate() {
        print_row(row, counts.as_ref().map(|counts| counts[i]));
    }
    if let Some(counts) = counts {
        let (library, unrelated) = growth(&counts);
        println!(
            "\nFrom {TENTH} to the whole the library's instructions grow {library:.1} times \
             (goal {GROWTH_GOAL}), the unrelated checker's {unrelated:.1} times."
        );
    }
    Ok(())
}

fn print_row(row: &Row, count: Option<(f64, f64)>) {
    let case = (row.make)();
    let (model, other) = case.images();
    let mut bytes = grouped(model.len() as f64);
    if !other.is_empty() {
        bytes += &format!(" + {}", grouped(other.len() as f64));
    }
    let counted = match count {
        Some((library, unrelated)) => format!(
            "{} | {} | {:.2}",
            grouped(library),
            grouped(unrelated),
            library / unrelated
        ),
        None => "| |".to_string(),
    };
    let (library, unrelated) = times(&case);
    println!(
        "| {} | {bytes} | {counted} | {:.1} | {} | {} |",
        row.name,
        row.goal,
        grouped(library),
        grouped(unrelated)
    );
}

/// A number with a comma before each three digits.
fn grouped(number: f64) -> String {
    let digits = format!("{number:.0}");
    let mut text = String::new();
    for (i, digit) in digits.chars().enumerate() {
        if i > 0 && (digits.len() - i) % 3 == 0 {
            text.push(',');
        }
        text.push(digit);
    }
    text
}

/// Nanoseconds a call of the two, their rounds taken in turns.
fn times(case: &Case) -> (f64, f64) {
    let mut buffer = case.buffer().to_vec();
    let mut best = (f64::INFINITY, f64::INFINITY);
    for _ in 0..ROUNDS {
        best.0 = best
            .0
            .min(round(|| By::Library.call(black_box(case), &mut buffer)));
        best.1 = best
            .1
            .min(round(|| By::Unrelated.call(black_box(case), &mut buffer)));
    }
    best
}

fn round(mut call: impl FnMut() -> u64) -> f64 {
    let start = Instant::now();
    let mut calls = 0u32;
    while start.elapsed() < ROUND {
        black_box(call());
        calls += 1;
    }
    start.elapsed().as_nanos() as f64 / f64::from(calls)
}
