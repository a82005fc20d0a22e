//! Times one question about full files of 128 certificates: the proved engine
//! through the archive against a plain Rust engine of the same algorithm, in
//! one run. Prints microseconds a question and the ratio; beside it the plain
//! engine that leaves out keys that are not reached. Then times full exchanges
//! of two sites that share such a file, by the program `exchange`: the first,
//! in which most notes go, and one in which none go.

use second::decision::Request;
use second::making::dense;
use second::making::random::Random;
use second::plain::Work;
use second::program;
use second::proved_decision::{ask, LentPlaces, Told};
use second::sites::acts::{Act, Side};
use second::sites::exchange::Exchange;
use second::sites::opening::Opening;
use second::wac::{file_of, Certificate, MAY_DELEGATE, MOST};
use std::hint::black_box;
use std::process::ExitCode;
use std::time::{Duration, Instant};

/// Each engine is run in turns of a file's questions for about so long.
const TIME: Duration = Duration::from_millis(1_500);
/// Files of each sort.
const FILES: usize = 8;
/// Each input of the program is run so often, and the least time counts.
const RUNS: usize = 7;
/// Exchanges without notes that are timed together.
const QUIET: usize = 200;

/// What is asked of each file.
const REQUEST: Request = Request {
    owner: 0,
    asker: 4,
    rights: 2,
    at: 100,
};

struct Case {
    file: Vec<u8>,
    request: Request,
}

/// A sort of files: its name, and how one is made.
type Sort = (&'static str, fn(&mut Random) -> Vec<Certificate>);

const SORTS: [Sort; 3] = [
    ("dense, 5 keys and 4 identifiers", few_keys),
    ("dense, 16 keys and 10 identifiers", many_keys),
    ("a name handed on 126 times", relay),
];

fn main() -> ExitCode {
    match questions().and_then(|()| exchanges()) {
        Ok(()) => ExitCode::SUCCESS,
        Err(told) => {
            eprintln!("bench: {told}");
            ExitCode::FAILURE
        }
    }
}

fn questions() -> Result<(), String> {
    let mut random = Random::new(1);
    println!("microseconds a question, 128 certificates");
    for (name, make) in SORTS {
        let cases: Vec<Case> = (0..FILES).map(|_| case(make(&mut random))).collect();
        let agreed = cases.iter().try_for_each(agree);
        agreed.map_err(|told| format!("{name}: {told}"))?;
        let proved = time(&cases, |case, work| proved(case, work).minute);
        let skipping = time(&cases, |case, work| plain(case, work, true).minute);
        let plain = time(&cases, |case, work| plain(case, work, false).minute);
        println!(
            "{name:<34} proved {proved:>8.1} plain {plain:>8.1} ratio {:>5.2}, skipping {skipping:>8.1} ratio {:>5.2}",
            proved / plain,
            proved / skipping
        );
    }
    Ok(())
}

fn case(certificates: Vec<Certificate>) -> Case {
    assert!(certificates.len() == MOST, "a full file");
    Case {
        file: file_of(&certificates),
        request: REQUEST,
    }
}

fn proved(case: &Case, work: &mut Work) -> Told {
    let lent = LentPlaces {
        minutes: &mut work.minutes,
        steps: &mut work.steps,
        chain: &mut work.chain,
    };
    ask(&case.file, case.request, lent)
}

fn plain(case: &Case, work: &mut Work, skips: bool) -> Told {
    let (number, minute, steps, passes) = work.ask(&case.file, &case.request, skips);
    Told {
        number,
        steps,
        passes,
        minute,
    }
}

/// Both must answer the same before they are timed.
fn agree(case: &Case) -> Result<(), String> {
    let (mut one, mut other) = (Work::default(), Work::default());
    let (proved, plain) = (proved(case, &mut one), plain(case, &mut other, false));
    match proved == plain && one.minutes == other.minutes && one.steps == other.steps {
        true => Ok(()),
        false => Err(format!(
            "the proved engine says {proved}, the plain {plain}"
        )),
    }
}

/// Microseconds a question, over all the cases again and again.
fn time(cases: &[Case], engine: fn(&Case, &mut Work) -> u32) -> f64 {
    let mut work = Work::default();
    let began = Instant::now();
    let mut asked = 0;
    while began.elapsed() < TIME {
        for case in cases {
            black_box(engine(black_box(case), &mut work));
            asked += 1;
        }
    }
    began.elapsed().as_secs_f64() * 1e6 / f64::from(asked)
}

/// Full exchanges, unless the program is not there.
fn exchanges() -> Result<(), String> {
    if let Err(told) = program::is_there() {
        println!("full exchanges are not timed: {told}");
        return Ok(());
    }
    let mut random = Random::new(1);
    println!("microseconds a full exchange, two sites of 64 certificates each");
    for (name, make) in SORTS {
        let mut all = Exchanged::default();
        for _ in 0..FILES {
            all.add(&exchanged(&shared_out(&make(&mut random)))?);
        }
        let [first, notes, quiet, needed] =
            [all.first, all.notes, all.quiet, all.needed].map(|sum| sum / FILES as f64);
        println!(
            "{name:<34} first {first:>8.1} with {notes:>6.1} notes, quiet {quiet:>8.1}, rest after {needed:.1}"
        );
    }
    Ok(())
}

/// Microseconds of the first exchange and of one without notes, the notes sent
/// in the first, and the exchanges until both rest.
#[derive(Default)]
struct Exchanged {
    first: f64,
    quiet: f64,
    notes: f64,
    needed: f64,
}

impl Exchanged {
    fn add(&mut self, other: &Exchanged) {
        self.first += other.first;
        self.quiet += other.quiet;
        self.notes += other.notes;
        self.needed += other.needed;
    }
}

/// Every other certificate to each site.
fn shared_out(certificates: &[Certificate]) -> Opening {
    let half = |odd: usize| {
        let held = certificates.iter().skip(odd).step_by(2);
        file_of(&held.copied().collect::<Vec<Certificate>>())
    };
    Opening {
        request: REQUEST,
        session: 7,
        files: [half(0), half(1)],
    }
}

fn exchanged(opening: &Opening) -> Result<Exchanged, String> {
    let mut exchange = Exchange::open(opening).map_err(|told| format!("{told:?}"))?;
    exchange.act(Act::Full(Side::A));
    let written = Side::BOTH.map(|side| exchange.written(side)).concat();
    let notes = written.iter().filter(|note| note[4] == 1).count();
    let mut needed = 1;
    while !exchange.both_rest() {
        exchange.act(Act::Full(Side::A));
        needed += 1;
    }
    let [none, first] = [least_time(opening, 0)?, least_time(opening, 1)?];
    let settled = least_time(opening, needed)?;
    let quiet = least_time(opening, needed + QUIET)?;
    Ok(Exchanged {
        first: first - none,
        quiet: (quiet - settled) / QUIET as f64,
        notes: notes as f64,
        needed: needed as f64,
    })
}

/// Microseconds of the program with so many full exchanges.
fn least_time(opening: &Opening, exchanges: usize) -> Result<f64, String> {
    let acts = vec![Act::Full(Side::A).bytes(); exchanges].concat();
    let input = [opening.bytes(), acts].concat();
    let mut least = f64::INFINITY;
    for _ in 0..RUNS {
        let began = Instant::now();
        program::exchange(black_box(&input))?;
        least = least.min(began.elapsed().as_secs_f64() * 1e6);
    }
    Ok(least)
}

fn few_keys(random: &mut Random) -> Vec<Certificate> {
    dense::certificates(MOST, (5, 4), random)
}

fn many_keys(random: &mut Random) -> Vec<Certificate> {
    dense::certificates(MOST, (16, 10), random)
}

/// Each name leads to the next, so that every pass finds one entry.
fn relay(random: &mut Random) -> Vec<Certificate> {
    let place = |number: usize| ((number % 16) as u8, (number / 16) as u8);
    let mut certificates = vec![Certificate::authorization(0, 0, &[0], MAY_DELEGATE)];
    for number in 0..MOST - 2 {
        let ((from, left), (to, next)) = (place(number), place(number + 1));
        certificates.push(Certificate::name(from, left, to, &[next]));
    }
    let (from, left) = place(MOST - 2);
    certificates.push(Certificate::name(from, left, 4, &[]));
    for certificate in &mut certificates {
        certificate.not_after = 100 + random.below(1_000) as u32;
    }
    certificates
}
