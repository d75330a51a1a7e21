//! Runs another program on generated scripts and compares its answers with this program's, byte for byte.

use crate::generate::{script, Kind};
use crate::script::perform;
use crate::shrink::shrink;
use crate::tally::{perform_counted, Tally};
use std::io::{Read, Write};
use std::path::{Path, PathBuf};
use std::process::{Command, ExitCode, ExitStatus, Stdio};
use std::sync::atomic::{AtomicU64, Ordering};
use std::sync::{mpsc, Mutex};
use std::thread;
use std::time::{Duration, Instant};

pub struct Plan<'a> {
    pub program: &'a str,
    pub count: u64,
    pub seed: u64,
    pub kind: Kind,
}

/// How long the program may take for one script.
const PATIENCE: Duration = Duration::from_secs(30);

/// What the program wrote, and how it went wrong if it did.
#[derive(Clone, Debug, PartialEq, Eq)]
struct Ran {
    out: Vec<u8>,
    wrong: Option<String>,
}

/// What the workers share: numbers count from 0, and seed + number is a script's seed.
struct Shared {
    next: AtomicU64,
    done: AtomicU64,
    running: AtomicU64,
    /// The lowest number of a script with a difference.
    differing: AtomicU64,
    tally: Mutex<Tally>,
    trouble: Mutex<Option<String>>,
}

pub fn compare(plan: &Plan) -> ExitCode {
    let workers = thread::available_parallelism().map_or(1, |n| n.get().div_ceil(2)).min(4);
    let shared = Shared {
        next: AtomicU64::new(0),
        done: AtomicU64::new(0),
        running: AtomicU64::new(workers as u64),
        differing: AtomicU64::new(u64::MAX),
        tally: Mutex::new(Tally::default()),
        trouble: Mutex::new(None),
    };
    let begun = Instant::now();
    thread::scope(|scope| {
        for _ in 0..workers {
            scope.spawn(|| {
                work(plan, &shared);
                shared.running.fetch_sub(1, Ordering::SeqCst);
            });
        }
        show_progress(plan, &shared, begun);
    });
    report(plan, &shared, begun)
}

fn work(plan: &Plan, shared: &Shared) {
    let mut tally = Tally::default();
    loop {
        let number = shared.next.fetch_add(1, Ordering::SeqCst);
        if number >= plan.count || number > shared.differing.load(Ordering::SeqCst) {
            break;
        }
        let script = script(plan.kind, plan.seed.wrapping_add(number));
        let (expected, met) = perform_counted(&script);
        match run(plan.program, &script) {
            Ok(ran) if agrees(&ran, &expected) => tally.join(&met),
            Ok(_) => {
                shared.differing.fetch_min(number, Ordering::SeqCst);
            }
            Err(trouble) => {
                set(&shared.trouble, Some(trouble));
                break;
            }
        }
        shared.done.fetch_add(1, Ordering::SeqCst);
    }
    if let Ok(mut all) = shared.tally.lock() {
        all.join(&tally);
    }
}

fn set<T>(slot: &Mutex<T>, value: T) {
    if let Ok(mut slot) = slot.lock() {
        *slot = value;
    }
}

fn agrees(ran: &Ran, expected: &[u8]) -> bool {
    ran.wrong.is_none() && ran.out == expected
}

/// A line every five seconds until the workers are through.
fn show_progress(plan: &Plan, shared: &Shared, begun: Instant) {
    let mut shown = Instant::now();
    while shared.running.load(Ordering::SeqCst) > 0 {
        thread::sleep(Duration::from_millis(20));
        if shown.elapsed() >= Duration::from_secs(5) {
            shown = Instant::now();
            println!("{}", progress(plan, shared.done.load(Ordering::SeqCst), begun));
        }
    }
}

fn progress(plan: &Plan, done: u64, begun: Instant) -> String {
    let seconds = begun.elapsed().as_secs_f64();
    let a_minute = done as f64 * 60.0 / seconds.max(0.001);
    format!("{done} of {} scripts, {seconds:.0} seconds, {a_minute:.0} a minute", plan.count)
}

fn report(plan: &Plan, shared: &Shared, begun: Instant) -> ExitCode {
    let trouble = shared.trouble.lock().ok().and_then(|trouble| trouble.clone());
    if let Some(trouble) = trouble {
        eprintln!("reference: {}: {trouble}", plan.program);
        return ExitCode::from(2);
    }
    if let Ok(tally) = shared.tally.lock() {
        tally.print();
    }
    println!("{}", progress(plan, shared.done.load(Ordering::SeqCst), begun));
    match shared.differing.load(Ordering::SeqCst) {
        u64::MAX => {
            println!("no difference in {} scripts from seed {}", plan.count, plan.seed);
            ExitCode::SUCCESS
        }
        number => {
            show_difference(plan, plan.seed.wrapping_add(number));
            ExitCode::from(1)
        }
    }
}

fn show_difference(plan: &Plan, seed: u64) {
    println!("seed {seed} differs; it is being shrunk");
    let whole = script(plan.kind, seed);
    let differs = |script: &[u8]| run(plan.program, script).is_ok_and(|ran| !agrees(&ran, &perform(script)));
    let small = shrink(&whole, differs);
    let path = place_to_save();
    match std::fs::write(&path, &small) {
        Ok(()) => println!("saved: {}", path.display()),
        Err(error) => println!("not saved: {}: {error}", path.display()),
    }
    let ours = perform(&small);
    show("this program", &ours);
    match run(plan.program, &small) {
        Ok(ran) => {
            show(plan.program, &ran.out);
            if let Some(wrong) = &ran.wrong {
                println!("{}: {wrong}", plan.program);
            }
            show_first_line(&ours, &ran.out);
        }
        Err(trouble) => println!("{}: {trouble}", plan.program),
    }
}

/// In the folder of this program, wherever it is run; else here.
fn place_to_save() -> PathBuf {
    let home = Path::new(env!("CARGO_MANIFEST_DIR"));
    let folder = if home.is_dir() { home } else { Path::new(".") };
    folder.join("differing.script")
}

fn show(who: &str, answers: &[u8]) {
    println!("--- {who}");
    print!("{}", String::from_utf8_lossy(answers));
    if !answers.ends_with(b"\n") {
        println!();
    }
}

fn show_first_line(ours: &[u8], theirs: &[u8]) {
    let mut theirs_lines = theirs.split(|&b| b == b'\n');
    let ours_lines = ours.split(|&b| b == b'\n');
    for (number, line) in ours_lines.enumerate() {
        let other = theirs_lines.next();
        if other != Some(line) {
            println!("--- first differing answer: {}", number + 1);
            println!("this program: {}", line.escape_ascii());
            println!("the other:    {}", other.map_or("(none)".into(), |line| line.escape_ascii().to_string()));
            return;
        }
    }
    if theirs_lines.next().is_some() {
        println!("--- the other program answers more");
    }
}

/// Runs the program with the script on standard input.
fn run(program: &str, script: &[u8]) -> Result<Ran, String> {
    let mut child = Command::new(program)
        .stdin(Stdio::piped())
        .stdout(Stdio::piped())
        .stderr(Stdio::null())
        .spawn()
        .map_err(|error| error.to_string())?;
    let (Some(mut input), Some(mut output)) = (child.stdin.take(), child.stdout.take()) else {
        return Err("no pipes".into());
    };
    let script = script.to_vec();
    // A program that stops reading early breaks the pipe; what it wrote decides.
    let writer = thread::spawn(move || drop(input.write_all(&script)));
    let (sender, receiver) = mpsc::channel();
    let reader = thread::spawn(move || {
        let mut out = vec![];
        let result = output.read_to_end(&mut out).map(|_| out);
        drop(sender.send(result));
    });
    let read = receiver.recv_timeout(PATIENCE);
    let late = read.is_err();
    if late {
        drop(child.kill());
    }
    let status = child.wait().map_err(|error| error.to_string())?;
    drop((writer.join(), reader.join()));
    let out = read.ok().and_then(Result::ok).unwrap_or_default();
    Ok(Ran { out, wrong: wrong(late, status) })
}

/// Too late, ended by a signal, or by a panic. Other statuses are the program's own affair.
fn wrong(late: bool, status: ExitStatus) -> Option<String> {
    if late {
        return Some(format!("no end after {} seconds", PATIENCE.as_secs()));
    }
    match status.code() {
        None | Some(101) => Some(format!("ended with {status}")),
        Some(_) => None,
    }
}

