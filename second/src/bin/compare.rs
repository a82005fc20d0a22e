//! Compares the second program with the proved archive, part by part:
//! `compare [part] [seed]`. Without a part's name all are run. The seeds 1 to
//! 4 are always run, a seed that is given comes after them. Ends with status 1
//! at the first difference.

use second::compare::{Part, Report, PARTS};
use std::process::ExitCode;

const FIXED_SEEDS: [u64; 4] = [1, 2, 3, 4];

fn main() -> ExitCode {
    match run(std::env::args().skip(1).collect()) {
        Ok(()) => ExitCode::SUCCESS,
        Err(told) => {
            eprintln!("compare: {told}");
            ExitCode::FAILURE
        }
    }
}

fn run(mut given: Vec<String>) -> Result<(), String> {
    let mut parts = PARTS.to_vec();
    let named = given.first().cloned().unwrap_or_default();
    if PARTS.iter().any(|(name, _)| *name == named) {
        parts.retain(|(name, _)| *name == named);
        given.remove(0);
    }
    compare(&parts, &seeds(given)?)
}

fn seeds(given: Vec<String>) -> Result<Vec<u64>, String> {
    let mut seeds = FIXED_SEEDS.to_vec();
    match given.as_slice() {
        [] => {}
        [seed] => seeds.push(seed.parse().map_err(|_| format!("not a seed: {seed}"))?),
        _ => return Err("one part and one seed at most: compare [part] [seed]".to_string()),
    }
    Ok(seeds)
}

fn compare(parts: &[(&str, Part)], seeds: &[u64]) -> Result<(), String> {
    let mut last_lines = Vec::new();
    for (name, part) in parts {
        let report = part(seeds).map_err(|told| format!("{name}: {told}"))?;
        show(name, &report);
        last_lines.push(format!(
            "compare: {name}: {}, no difference",
            report.compared
        ));
    }
    println!("{}", last_lines.join("\n"));
    Ok(())
}

fn show(name: &str, report: &Report) {
    println!("{name}: how often each function gave each answer");
    print!("{}", report.tally);
    for remark in &report.remarks {
        println!("  {remark}");
    }
}
