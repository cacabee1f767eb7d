//! `program SEED CASES COMMAND..`: gives so many random inputs to the command, which is the program
//! or the program under another tool, and compares what it prints with what the model says. Prints
//! each difference with its seed and its case, and how often each sort of answer was met.

mod run;

use model::program::respond;
use model::random::inputs::input;
use model::random::Random;
use std::collections::BTreeMap;
use std::process::ExitCode;

/// Cases between two lines of progress.
const PROGRESS: u64 = 1_000;

/// What is asked for on the command line.
struct Wish {
    seed: u64,
    cases: u64,
    command: Vec<String>,
}

/// Reads the command line.
fn wish() -> Option<Wish> {
    let mut arguments = std::env::args().skip(1);
    let seed = arguments.next()?.parse().ok()?;
    let cases = arguments.next()?.parse().ok()?;
    let command: Vec<String> = arguments.collect();
    (!command.is_empty()).then_some(Wish { seed, cases, command })
}

/// Gives the sort of an answer: a text, or a line without its place.
fn sort(answer: &[u8]) -> String {
    let line = String::from_utf8_lossy(answer);
    match line.split_once(" at ") {
        _ if line.starts_with("module") => "text".to_string(),
        Some((refused, _)) if line.starts_with("refused") => refused.to_string(),
        _ => line.trim_end().to_string(),
    }
}

/// Shows the front of some bytes.
fn front(bytes: &[u8]) -> String {
    let shown = String::from_utf8_lossy(&bytes[..bytes.len().min(120)]).into_owned();
    format!("{} bytes, {shown:?}", bytes.len())
}

/// Runs one case; says what differs or which sort of answer both give.
fn case(wish: &Wish, number: u64) -> Result<String, String> {
    let mut random = Random::new(wish.seed);
    let mut random = Random::new(random.bits() ^ number);
    let input = input(&mut random);
    let piece = random.pick(&[1, 7, 4096, u32::MAX]) as usize;
    let expected = respond(&input);
    let printed = run::run(&wish.command, &input, piece)?;
    if printed == expected {
        return Ok(sort(&expected));
    }
    let (input, printed, expected) = (front(&input), front(&printed), front(&expected));
    Err(format!("for {input}: prints {printed}, and the model {expected}"))
}

/// Runs the comparison.
fn main() -> ExitCode {
    let Some(wish) = wish() else {
        eprintln!("usage: program SEED CASES COMMAND..");
        return ExitCode::from(2);
    };
    println!("seed {}", wish.seed);
    let (mut sorts, mut failed) = (BTreeMap::<String, u64>::new(), 0u64);
    for number in 0..wish.cases {
        if number > 0 && number % PROGRESS == 0 {
            println!("case {number} of {}", wish.cases);
        }
        match case(&wish, number) {
            Ok(sort) => *sorts.entry(sort).or_default() += 1,
            Err(difference) => {
                println!("seed {}, case {number}: {difference}", wish.seed);
                failed += 1;
            }
        }
    }
    for (sort, often) in &sorts {
        println!("{sort}: {often} times");
    }
    println!("{} passed, {failed} failed", wish.cases - failed);
    if failed == 0 {
        ExitCode::SUCCESS
    } else {
        ExitCode::FAILURE
    }
}
