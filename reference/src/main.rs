use reference::{compare, generate, script};
use std::io::{self, Read, Write};
use std::process::ExitCode;

const USAGE: &str = "usage: reference perform < SCRIPT
       reference generate KIND SEED          (KIND: script, lines, sets or edges)
       reference compare PROGRAM COUNT SEED [KIND]";

fn main() -> ExitCode {
    let words: Vec<String> = std::env::args_os().skip(1).map(|word| word.to_string_lossy().into_owned()).collect();
    let words: Vec<&str> = words.iter().map(String::as_str).collect();
    match words.as_slice() {
        ["perform"] => perform(),
        ["generate", kind, seed] => generate(kind, seed),
        ["compare", program, count, seed] => compare(program, count, seed, "script"),
        ["compare", program, count, seed, kind] => compare(program, count, seed, kind),
        _ => usage(),
    }
}

fn usage() -> ExitCode {
    eprintln!("{USAGE}");
    ExitCode::from(2)
}

fn perform() -> ExitCode {
    let mut input = vec![];
    if let Err(error) = io::stdin().lock().read_to_end(&mut input) {
        eprintln!("reference: {error}");
        return ExitCode::from(2);
    }
    write_out(&script::perform(&input))
}

fn write_out(bytes: &[u8]) -> ExitCode {
    let mut out = io::stdout().lock();
    match out.write_all(bytes).and_then(|()| out.flush()) {
        Ok(()) => ExitCode::SUCCESS,
        Err(_) => ExitCode::from(2),
    }
}

fn generate(kind: &str, seed: &str) -> ExitCode {
    match (generate::Kind::named(kind), seed.parse()) {
        (Some(kind), Ok(seed)) => write_out(&generate::script(kind, seed)),
        _ => usage(),
    }
}

fn compare(program: &str, count: &str, seed: &str, kind: &str) -> ExitCode {
    match (count.parse(), seed.parse(), generate::Kind::named(kind)) {
        (Ok(count), Ok(seed), Some(kind)) => compare::compare(&compare::Plan { program, count, seed, kind }),
        _ => usage(),
    }
}
