//! The part "files": the certificate file's check, count, fetch and append,
//! on files through every limit and on random files.

use crate::answer::Answer;
use crate::compare::difference::{same, same_answer, unchanged, Lent};
use crate::compare::report::Report;
use crate::compare::tally::{Outcome, Tally, ACCEPTED, LEAST};
use crate::making::random::Random;
use crate::making::{files, limits};
use crate::proved;
use crate::wac::{self, Certificate, Refusal, MOST, PLACES, RECORD};
use std::cmp::Ordering;

/// Random files made from each seed.
const FILES_PER_SEED: u64 = 45_000;
/// Seed of what is random beside the files that go through the limits.
const LIMITS_SEED: u64 = 1;
/// What lent places hold before a call.
const PLACE_FILL: u32 = 0xA5A5_5A5A;
const BYTE_FILL: u8 = 0xA5;

/// What every function that is given a file can refuse it for.
const FRAME: [Refusal; 5] = [
    Refusal::UnderSixBytes,
    Refusal::NotWac,
    Refusal::NotVersionOne,
    Refusal::CountAboveMost,
    Refusal::WrongLength,
];
const RECORDS: [Refusal; 1] = [Refusal::AgainstTable(0)];
const FETCH: [Refusal; 2] = [Refusal::PlacesTooFew, Refusal::NotBelowCount];
const APPEND: [Refusal; 4] = [
    Refusal::UsedPastBuffer,
    Refusal::AppendToFull,
    Refusal::NewAgainstTable(0),
    Refusal::NoRoom,
];

/// Where the lowest bad record stands beside the one that is fetched.
const BAD_BEFORE: Outcome = (15, "bad record before the asked one");
const BAD_ASKED: Outcome = (15, "bad record is the asked one");
const BAD_AFTER: Outcome = (15, "bad record after the asked one");
const BAD_PAST: Outcome = (15, "number not below the count");
const BAD: [Outcome; 4] = [BAD_BEFORE, BAD_ASKED, BAD_AFTER, BAD_PAST];
/// What a fetch into too few places of a lawful file asks for.
const FEW_BELOW: Outcome = (23, "number below the count");
const FEW_PAST: Outcome = (23, "number not below the count");

struct Files {
    tally: Tally,
    compared: u64,
    /// How many lawful files there were of each count.
    lawful: [u64; MOST + 1],
}

/// Compares the files through the limits, then those of each seed.
pub fn compare(seeds: &[u64]) -> Result<Report, String> {
    let mut files = Files {
        tally: Tally::default(),
        compared: 0,
        lawful: [0; MOST + 1],
    };
    files.compare_limits().map_err(|told| {
        format!(
            "limits, seed {LIMITS_SEED}, file {}: {told}",
            files.compared
        )
    })?;
    for &seed in seeds {
        let before = files.compared;
        files
            .compare_seed(seed)
            .map_err(|told| format!("seed {seed}, file {}: {told}", files.compared - before))?;
    }
    files.enough()?;
    Ok(files.report())
}

/// The outcome's line in the tally.
fn line<T>(result: &Result<T, Refusal>) -> Outcome {
    result.as_ref().map_or_else(refused, |_| ACCEPTED)
}

fn refused(refusal: &Refusal) -> Outcome {
    (refusal.number(), refusal.words())
}

/// The class of a fetch of this number where record `bad` is the lowest
/// against the table.
fn beside(bad: usize, number: usize, count: usize) -> Outcome {
    match bad.cmp(&number) {
        _ if number >= count => BAD_PAST,
        Ordering::Less => BAD_BEFORE,
        Ordering::Equal => BAD_ASKED,
        Ordering::Greater => BAD_AFTER,
    }
}

/// The answer that goes with a result whose value is `value`.
fn answer<T>(result: &Result<T, Refusal>, value: impl FnOnce(&T) -> usize) -> Answer {
    match result {
        Ok(given) => Answer::accepted(value(given)),
        Err(refusal) => refusal.answer(),
    }
}

impl Files {
    fn compare_limits(&mut self) -> Result<(), String> {
        let mut random = Random::new(LIMITS_SEED);
        for certificate in limits::certificates() {
            let file = wac::file_of(&[certificate]);
            self.compare_file(&file, &mut random)?;
            let held = wac::file_of(&vec![files::certificate(&mut random); random.below(3)]);
            self.compare_append(&held, RECORD, held.len(), &certificate, &mut random)?;
        }
        for file in limits::files() {
            self.compare_file(&file, &mut random)?;
        }
        Ok(())
    }

    fn compare_seed(&mut self, seed: u64) -> Result<(), String> {
        let mut random = Random::new(seed);
        for _ in 0..FILES_PER_SEED {
            let file = files::file(&mut random);
            self.compare_file(&file, &mut random)?;
        }
        Ok(())
    }

    fn compare_file(&mut self, file: &[u8], random: &mut Random) -> Result<(), String> {
        let before = file.to_vec();
        self.compare_check(file)?;
        self.compare_count(file)?;
        self.compare_fetches(file, random)?;
        unchanged(&before, file)?;
        self.compare_appends(file, random)?;
        self.compared += 1;
        Ok(())
    }

    fn compare_check(&mut self, file: &[u8]) -> Result<(), String> {
        let result = wac::check(file);
        self.tally.note("check", line(&result));
        if let Ok(count) = result {
            self.lawful[count] += 1;
        }
        let second = answer(&result, |&count| count);
        same_answer(second, proved::check(file), "check", file)
    }

    fn compare_count(&mut self, file: &[u8]) -> Result<(), String> {
        let result = wac::check(file);
        self.tally.note("count", line(&result));
        let second = answer(&result, |&count| count);
        same_answer(second, proved::count(file), "count", file)
    }

    fn compare_fetches(&mut self, file: &[u8], random: &mut Random) -> Result<(), String> {
        for number in files::asked_numbers(file, random) {
            self.compare_fetch(file, number, PLACES)?;
            self.compare_fetch(file, number, PLACES + 3)?;
        }
        for number in [0, random.below(MOST), usize::MAX] {
            self.compare_fetch(file, number, PLACES - 1)?;
        }
        self.compare_fetch(file, 0, 0)
    }

    fn compare_fetch(&mut self, file: &[u8], number: usize, places: usize) -> Result<(), String> {
        let lent: Vec<u32> = (0..places as u32).map(|place| PLACE_FILL ^ place).collect();
        let result = wac::fetch(file, number, &lent);
        self.note_fetch(file, number, places, &result);
        let held = result.as_ref().unwrap_or(&lent);
        let second = Lent::expected(answer(&result, |_| 0), held, PLACE_FILL);
        let proved = Lent::of_call(&lent, PLACE_FILL, |fields| {
            proved::fetch(file, number, fields)
        });
        let call = || format!("fetch of number {number} into {places} places");
        same(&second, &proved, call, file)
    }

    /// The answer, and what else of its refusals holds in that call.
    fn note_fetch(
        &mut self,
        file: &[u8],
        number: usize,
        places: usize,
        result: &Result<Vec<u32>, Refusal>,
    ) {
        self.tally.note("fetch", line(result));
        let count = file.get(5).map_or(0, |&count| usize::from(count));
        if let Err(Refusal::AgainstTable(bad)) = result {
            self.tally.note("bad record", beside(*bad, number, count));
        }
        if places < PLACES {
            let outcome = match result {
                Err(Refusal::PlacesTooFew) if number < count => FEW_BELOW,
                Err(Refusal::PlacesTooFew) => FEW_PAST,
                other => line(other),
            };
            self.tally.note("few places", outcome);
        }
    }

    /// The right used length with every room, then wrong used lengths.
    fn compare_appends(&mut self, file: &[u8], random: &mut Random) -> Result<(), String> {
        let more = RECORD + random.within(1, 2 * RECORD);
        let rooms = [0, RECORD - 1, RECORD, more];
        for room in rooms {
            let new = files::new_certificate(random);
            self.compare_append(file, room, file.len(), &new, random)?;
        }
        let room = random.one_of(&rooms);
        for used in files::wrong_used_lengths(file.len(), room, random) {
            let new = files::new_certificate(random);
            self.compare_append(file, room, used, &new, random)?;
        }
        Ok(())
    }

    /// Appends to `file` in a buffer that has `room` bytes after it.
    fn compare_append(
        &mut self,
        file: &[u8],
        room: usize,
        used: usize,
        new: &Certificate,
        random: &mut Random,
    ) -> Result<(), String> {
        let mut buffer = file.to_vec();
        buffer.extend(random.bytes(room));
        let result = wac::append(&buffer, used, new);
        self.tally.note("append", line(&result));
        let held = result.as_ref().map_or(&buffer, |(held, _)| held);
        let second = Lent::expected(answer(&result, |&(_, used)| used), held, BYTE_FILL);
        let proved = Lent::of_call(&buffer, BYTE_FILL, |lent| proved::append(lent, used, new));
        let call = || format!("append, used {used}, of {new:?}");
        same(&second, &proved, call, &buffer)?;
        match result {
            Ok((after, length)) => self.compare_read_back(&buffer[..used], &after[..length], new),
            Err(_) => Ok(()),
        }
    }

    /// What was appended to reads as before, with the new certificate last.
    fn compare_read_back(
        &mut self,
        before: &[u8],
        after: &[u8],
        new: &Certificate,
    ) -> Result<(), String> {
        let mut certificates = wac::parse(before).expect("what is appended to is lawful");
        certificates.push(*new);
        let count = Answer::accepted(certificates.len());
        same_answer(count, proved::check(after), "check after an append", after)?;
        for (number, certificate) in certificates.iter().enumerate() {
            let second = Lent::expected(Answer::accepted(0), &certificate.fields(), PLACE_FILL);
            let proved = Lent::of_call(&[PLACE_FILL; PLACES], PLACE_FILL, |fields| {
                proved::fetch(after, number, fields)
            });
            let call = || format!("fetch of number {number} after an append");
            same(&second, &proved, call, after)?;
        }
        self.tally.note("read back", ACCEPTED);
        Ok(())
    }

    /// Whether every outcome was seen often enough, and every count.
    fn enough(&self) -> Result<(), String> {
        self.seen_in("check", &[&FRAME, &RECORDS])?;
        self.seen_in("count", &[&FRAME, &RECORDS])?;
        self.seen_in("fetch", &[&FRAME, &RECORDS, &FETCH])?;
        self.tally.enough("bad record", &BAD)?;
        self.refused_in("few places", &[&FRAME, &RECORDS])?;
        self.tally.enough("few places", &[FEW_BELOW, FEW_PAST])?;
        self.seen_in("append", &[&FRAME, &RECORDS, &APPEND])?;
        self.seen_in("read back", &[])?;
        match self.lawful.iter().position(|&times| times < LEAST) {
            Some(count) => Err(format!("too few lawful files of {count} certificates")),
            None => Ok(()),
        }
    }

    fn seen_in(&self, function: &'static str, refusals: &[&[Refusal]]) -> Result<(), String> {
        self.tally.enough(function, &[ACCEPTED])?;
        self.refused_in(function, refusals)
    }

    fn refused_in(&self, function: &'static str, refusals: &[&[Refusal]]) -> Result<(), String> {
        let outcomes: Vec<Outcome> = refusals.concat().iter().map(refused).collect();
        self.tally.enough(function, &outcomes)
    }

    fn report(self) -> Report {
        let fewest = self.lawful.iter().min().unwrap_or(&0);
        let (last, full) = (self.lawful[MOST - 1], self.lawful[MOST]);
        let remark = format!(
            "lawful files of each count from 0 to 128: {fewest} or more; of 127: {last}, of 128: {full}"
        );
        Report {
            compared: format!("{} files", self.compared),
            tally: self.tally,
            remarks: vec![remark],
        }
    }
}
