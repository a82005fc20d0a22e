//! Writes the stored questions and lines for the programs:
//!
//! - `stored questions`: the standard input of `cases`, each question after
//!   its length in 2 bytes, high byte first;
//! - `stored lines`: the lines `cases` is to print, one for each question;
//! - `stored ask`: the standard input of `ask`, which is P1 of document 01;
//! - `stored ask-line`: the line `ask` is to print for it;
//! - `stored exchange`: the standard input of `exchange`, which is P11;
//! - `stored exchange-lines`: the lines `exchange` is to print for it;
//! - `stored schedules DIR`: for each schedule its input and its text, as two
//!   files in DIR;
//! - `stored long-questions DIR`: for each question that `ask` does not read to
//!   its end, or only just, the question and its line, as two files in DIR.
//!
//! What the sets are is said in the library's module `stored`.

use second::decision::lines::line;
use second::sites::exchange::text;
use second::stored::schedules::{eleventh, schedules};
use second::stored::{cases_input, cut, lines, questions};
use std::io::Write;
use std::path::Path;
use std::process::ExitCode;

const USAGE: &str = "stored questions | lines | ask | ask-line | exchange | exchange-lines, \
                     or stored schedules | long-questions DIR";

fn main() -> ExitCode {
    let given: Vec<String> = std::env::args().skip(1).collect();
    let given: Vec<&str> = given.iter().map(String::as_str).collect();
    let done = match given.as_slice() {
        ["schedules", folder] => write_schedules(Path::new(folder)),
        ["long-questions", folder] => write_long_questions(Path::new(folder)),
        [named] => written(named).and_then(write),
        _ => Err(USAGE.to_string()),
    };
    match done {
        Ok(()) => ExitCode::SUCCESS,
        Err(told) => {
            eprintln!("stored: {told}");
            ExitCode::FAILURE
        }
    }
}

fn written(named: &str) -> Result<Vec<u8>, String> {
    let all = questions();
    let first = all.first().ok_or("no questions")?;
    match named {
        "questions" => Ok(cases_input(&all)),
        "lines" => lines(&all).map(String::into_bytes),
        "ask" => Ok(first.question.clone()),
        "ask-line" => Ok((line(&first.question) + "\n").into_bytes()),
        "exchange" => Ok(eleventh()),
        "exchange-lines" => Ok(text(&eleventh()).into_bytes()),
        _ => Err(USAGE.to_string()),
    }
}

fn write_schedules(folder: &Path) -> Result<(), String> {
    for schedule in schedules() {
        write_pair(folder, &schedule.name, &schedule.input, schedule.text())?;
    }
    Ok(())
}

fn write_long_questions(folder: &Path) -> Result<(), String> {
    for cut in cut::questions() {
        write_pair(folder, &cut.name, &cut.question, cut.text())?;
    }
    Ok(())
}

/// Writes an input as NAME.in and its text as NAME.out.
fn write_pair(folder: &Path, name: &str, input: &[u8], text: String) -> Result<(), String> {
    let file = |ending: &str| folder.join(format!("{name}.{ending}"));
    std::fs::write(file("in"), input).map_err(|told| told.to_string())?;
    std::fs::write(file("out"), text).map_err(|told| told.to_string())
}

fn write(bytes: Vec<u8>) -> Result<(), String> {
    let mut out = std::io::stdout().lock();
    out.write_all(&bytes).map_err(|told| told.to_string())
}
