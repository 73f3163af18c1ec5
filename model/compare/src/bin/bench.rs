//! Measures the library beside the package `fast` and the model, all three in one run:
//!
//!     bench instructions             instructions a call, counted by callgrind
//!     bench instructions emulated    the same, counted by an emulator, for machines that are not x86-64
//!     bench times                    nanoseconds a call, best of nine rounds
//!     bench run FEW MANY             what is counted: every call so many turns, with marks between
//!
//! Each prints a table of what all do, and a small one of what `fast` shows by itself. Instructions are the difference of many
//! turns and few, so that all that comes before drops out. A count has the call itself in it, and the turn of the loop round
//! it. The library is called by C's rules, with a pointer and a length for each slice, which costs more than a call of the other
//! sides; it shows where a call does little. Where calls are taken off from others both drop out.

use compare::sides::{Side, FAST, LIBRARY, MODEL, ONE_PASS};
use compare::work::{all, parts, Call, Work};
use std::io::{BufRead, BufReader, Write};
use std::process::{exit, Command, Stdio};
use std::time::Instant;
use std::{env, fs, io};

/// The columns of the first table, and the one of the second.
const MEASURED: [Side; 4] = [LIBRARY, FAST, MODEL, ONE_PASS];
const ALONE: [Side; 1] = [FAST];
const MARK: &str = "mark";

fn fail(why: &str) -> ! {
    eprintln!("bench: {why}");
    exit(1);
}

/// All calls of a work: those that count, then those that are taken off.
fn calls(work: &Work) -> impl Iterator<Item = &Call> {
    work.calls.iter().chain(&work.less).map(|(call, _)| call)
}

/// What a work takes, its calls having been measured in that order.
fn total(work: &Work, measured: &[f64]) -> f64 {
    let (calls, less) = measured.split_at(work.calls.len());
    calls.iter().sum::<f64>() - less.iter().sum::<f64>()
}

/// The calls that are measured, each by its side, in the order of both tables.
fn measured<'a>(works: &'a [Work], parts: &'a [Work]) -> impl Iterator<Item = (Side, &'a Call)> {
    let each = |work: &'a Work, sides: &'static [Side]| {
        sides.iter().flat_map(move |side| calls(work).map(|call| (*side, call)))
    };
    let of_works = works.iter().flat_map(move |work| each(work, &MEASURED));
    of_works.chain(parts.iter().flat_map(move |work| each(work, &ALONE)))
}

/// Before anything is measured: every side gives the answer that is meant.
fn check(works: &[Work], sides: &[Side]) {
    for work in works {
        for (call, answer) in work.calls.iter().chain(&work.less) {
            for side in sides {
                if side.name == ONE_PASS.name {
                    continue;
                }
                let given = call.run(side, 2);
                if given != *answer {
                    fail(&format!("{}: {} answers {given} and not {answer}", work.name, side.name));
                }
            }
        }
    }
}

// ---- times ----------------------------------------------------------------------------------------------

/// Nanoseconds a turn; a round takes about a millisecond.
fn nanoseconds(call: &Call, side: &Side) -> f64 {
    let mut turns = 1;
    loop {
        let start = Instant::now();
        call.run(side, turns);
        let passed = start.elapsed().as_nanos() as f64;
        if passed > 1e6 {
            return passed / turns as f64;
        }
        turns = if passed < 1e5 { turns * 10 } else { (turns as f64 * 1.2e6 / passed) as u64 };
    }
}

fn best_of_nine(call: &Call, side: &Side) -> f64 {
    (0..9).map(|_| nanoseconds(call, side)).fold(f64::INFINITY, f64::min)
}

// ---- instructions ---------------------------------------------------------------------------------------

/// What counts sees it: callgrind by its name, an emulator's log by the line that it writes.
#[no_mangle]
#[inline(never)]
pub extern "C" fn bench_mark() {
    let line = MARK.to_string() + "\n";
    io::stderr().write_all(line.as_bytes()).unwrap_or_else(|error| fail(&error.to_string()));
}

/// Three marks to each call and side: before few turns, between them and many, and behind. A turn goes before, so that nothing
/// is done for the first time behind a mark.
fn run<'a>(measured: impl Iterator<Item = (Side, &'a Call)>, few: u64, many: u64) {
    for (side, call) in measured {
        call.run(&side, 1);
        bench_mark();
        call.run(&side, few);
        bench_mark();
        call.run(&side, many);
        bench_mark();
    }
}

/// What was counted between marks, what is before the first and behind the last included.
struct Counted {
    parts: Vec<u64>,
    few: u64,
    many: u64,
}

impl Counted {
    fn by_callgrind(program: &str) -> Counted {
        let (few, many) = (10, 60);
        let file = env::temp_dir().join(format!("bench-{}", std::process::id()));
        let ended = Command::new("valgrind")
            .args(["-q", "--tool=callgrind", "--combine-dumps=yes", "--dump-before=bench_mark"])
            .arg(format!("--callgrind-out-file={}", file.display()))
            .args([program, "run", &few.to_string(), &many.to_string()])
            .stderr(Stdio::null())
            .status();
        if !ended.is_ok_and(|status| status.success()) {
            fail("valgrind does not run here: Debian's package valgrind has it, and it counts on x86-64 alone");
        }
        let report = fs::read_to_string(&file).unwrap_or_else(|error| fail(&format!("{}: {error}", file.display())));
        let _ = fs::remove_file(&file);
        let totals = report.lines().filter_map(|line| line.strip_prefix("totals: "));
        Counted { parts: totals.filter_map(|count| count.parse().ok()).collect(), few, many }
    }

    /// The emulator logs a line for each instruction. EMULATE has the words before the program, if it takes more than its name.
    fn by_emulator(program: &str) -> Counted {
        let (few, many) = (1, 3);
        let words = env::var("EMULATE").unwrap_or_else(|_| "qemu-x86_64".to_string());
        let mut words = words.split_whitespace();
        let emulator = words.next().unwrap_or_else(|| fail("EMULATE names no emulator"));
        let Ok(help) = Command::new(emulator).arg("--help").output() else {
            fail(&format!("{emulator} does not run here: Debian's package qemu-user has qemu-x86_64"));
        };
        let newer = String::from_utf8_lossy(&help.stdout).contains("-one-insn-per-tb");
        let single = if newer { "-one-insn-per-tb" } else { "-singlestep" };
        let child = Command::new(emulator)
            .args([single, "-d", "exec,nochain"])
            .args(words)
            .args([program, "run", &few.to_string(), &many.to_string()])
            .stderr(Stdio::piped())
            .spawn();
        let mut child = child.unwrap_or_else(|error| fail(&format!("{emulator}: {error}")));
        let log = BufReader::with_capacity(1 << 16, child.stderr.take().expect("it is piped"));
        let parts = lines_between_marks(log).unwrap_or_else(|error| fail(&format!("the emulator's log: {error}")));
        if !child.wait().is_ok_and(|status| status.success()) {
            fail("the program did not end well under the emulator");
        }
        Counted { parts, few, many }
    }

    /// The instructions of each call by each side, in the order of [`run`].
    fn a_call(&self, count: usize) -> Vec<f64> {
        if self.parts.len() != 3 * count + 1 {
            fail(&format!("{} parts were counted where {} were meant", self.parts.len(), 3 * count + 1));
        }
        let turns = (self.many - self.few) as f64;
        self.parts[1..].chunks(3).map(|parts| (parts[1] as f64 - parts[0] as f64) / turns).collect()
    }
}

fn lines_between_marks(mut log: impl BufRead) -> io::Result<Vec<u64>> {
    let mut parts = vec![0];
    let mut line = Vec::new();
    while log.read_until(b'\n', &mut line)? > 0 {
        if line.starts_with(MARK.as_bytes()) {
            parts.push(0);
        } else if line.starts_with(b"Trace ") {
            *parts.last_mut().expect("there is one") += 1;
        }
        line.clear();
    }
    Ok(parts)
}

// ---- the tables -----------------------------------------------------------------------------------------

/// One line a work; `taken` has what each call takes, by each side.
fn print(works: &[Work], parts: &[Work], unit: &str, taken: &[f64]) {
    let mut rest = taken;
    let mut next = |work: &Work| {
        let (own, behind) = rest.split_at(calls(work).count());
        rest = behind;
        total(work, own)
    };
    println!("| work, {unit} | library | fast | model | library / fast | {} |", ONE_PASS.name);
    println!("|---|---|---|---|---|---|");
    for work in works {
        let [library, fast, model, pass] = MEASURED.map(|_| next(work));
        // of a clock there are no bytes, and a difference of calls may have none of its own
        let no_bytes = pass < 1.0 || calls(work).any(Call::is_of_the_clock);
        let pass = if no_bytes { "-".to_string() } else { format!("{pass:.0}") };
        println!("| {} | {library:.0} | {fast:.0} | {model:.0} | {:.2} | {pass} |", work.name, library / fast);
    }
    println!("\n| part of a step by itself, {unit} | fast |\n|---|---|");
    for part in parts {
        println!("| {} | {:.0} |", part.name, next(part));
    }
}

fn main() {
    let words: Vec<String> = env::args().collect();
    let (program, words) = words.split_first().unwrap_or_else(|| fail("the program has no name"));
    let words: Vec<&str> = words.iter().map(String::as_str).collect();
    let (works, parts) = (all(), parts());
    let tell = |unit: &str, take: &dyn Fn() -> Vec<f64>| {
        check(&works, &MEASURED);
        check(&parts, &ALONE);
        print(&works, &parts, unit, &take());
    };
    let count = measured(&works, &parts).count();
    match words[..] {
        ["times"] => tell("ns", &|| measured(&works, &parts).map(|(side, call)| best_of_nine(call, &side)).collect()),
        ["instructions"] => tell("instructions", &|| Counted::by_callgrind(program).a_call(count)),
        ["instructions", "emulated"] => tell("instructions", &|| Counted::by_emulator(program).a_call(count)),
        ["run", few, many] => match (few.parse(), many.parse()) {
            (Ok(few), Ok(many)) => run(measured(&works, &parts), few, many),
            _ => fail("run takes two numbers of turns"),
        },
        _ => {
            eprintln!("usage: bench times | bench instructions [emulated] | bench run FEW MANY");
            exit(2);
        }
    }
}
