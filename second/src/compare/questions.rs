//! The part "questions": the question and its short form, the read screen,
//! the stock list and settle. Verdicts, passes and every lent place are
//! compared; a chain is judged as a chain, since several may be right.

use crate::answer::Answer;
use crate::compare::classes::{class, COUNTS, KNOWN, MINUTES, PASSES, STEPS, STOCK};
use crate::compare::classes::{KEPT_BACK, NO, SETTLED, YES};
use crate::compare::difference::{same_answer, told as differ, unchanged};
use crate::compare::held::{told, Lent, NUMBER_FILL};
use crate::compare::lending::Lending;
use crate::compare::report::Report;
use crate::compare::tally::{Outcome, Tally};
use crate::decision::fewest::TOO_MANY;
use crate::decision::lines::parts;
use crate::decision::{self, Decision, Places, Refusal, Request, Verdict};
use crate::making::question::Question;
use crate::making::random::Random;
use crate::making::{asking, tables};
use crate::proved_decision as proved;
use crate::stored;
use crate::wac;

/// Questions made from each seed.
const QUESTIONS_PER_SEED: u64 = 13_000;
/// Seed of what is random beside the stored questions.
const STORED_SEED: u64 = 1;

/// Refusals every function of this part can give.
const BY_FILE_AND_REQUEST: [Refusal; 8] = [
    Refusal::File(wac::Refusal::UnderSixBytes),
    Refusal::File(wac::Refusal::NotWac),
    Refusal::File(wac::Refusal::NotVersionOne),
    Refusal::File(wac::Refusal::CountAboveMost),
    Refusal::File(wac::Refusal::WrongLength),
    Refusal::File(wac::Refusal::AgainstTable(0)),
    Refusal::KeyAboveFifteen,
    Refusal::MinuteZero,
];

/// The verdicts, their values apart.
const VERDICTS: [Verdict; 3] = [
    Verdict::Granted {
        minute: 0,
        steps: 0,
    },
    Verdict::NoChain,
    Verdict::GrantedLong { minute: 0 },
];

struct Questions {
    tally: Tally,
    compared: u64,
}

pub fn compare(seeds: &[u64]) -> Result<Report, String> {
    let mut questions = Questions {
        tally: Tally::default(),
        compared: 0,
    };
    questions.compare_stored()?;
    for &seed in seeds {
        let mut random = Random::new(seed);
        for number in 0..QUESTIONS_PER_SEED {
            let question = asking::question(&mut random);
            let compared = questions.compare_question(&question, &mut random);
            compared.map_err(|told| format!("seed {seed}, question {number}: {told}"))?;
        }
    }
    let enough = questions.enough();
    enough.map_err(|told| format!("{told}\n{}", questions.tally))?;
    Ok(Report {
        compared: format!("{} questions", questions.compared),
        tally: questions.tally,
        remarks: Vec::new(),
    })
}

fn refused(refusal: Refusal) -> Outcome {
    (refusal.number(), refusal.words())
}

/// Whether the functions that name no rights and are lent nothing refuse too.
fn is_for_all(refusal: Refusal) -> bool {
    !matches!(refusal, Refusal::RightsOutside | Refusal::PlacesTooFew)
}

/// Read screen and stock list give only the number, and no record. One above
/// 0 is counted apart, since it would be seen.
fn number_alone(refusal: Refusal) -> (Outcome, Answer) {
    let outcome = match refusal.record() {
        0 => refused(refusal),
        _ => KEPT_BACK,
    };
    (outcome, Answer::new(refusal.number(), 0))
}

impl Questions {
    /// The questions that are stored for the programs.
    fn compare_stored(&mut self) -> Result<(), String> {
        let mut random = Random::new(STORED_SEED);
        for (number, stored) in stored::questions().iter().enumerate() {
            let Some((request, file)) = parts(&stored.question) else {
                continue;
            };
            let question = Question {
                file: file.to_vec(),
                request,
                places: Places::ENOUGH,
                known: None,
            };
            self.compare_question(&question, &mut random)
                .map_err(|told| format!("stored question {number}: {told}"))?;
        }
        Ok(())
    }

    fn compare_question(&mut self, question: &Question, random: &mut Random) -> Result<(), String> {
        let before = question.file.clone();
        let Question { file, request, .. } = question;
        let result = decision::ask(file, *request, question.places);
        self.note_known(question, &result)?;
        self.note_sort(question, &result);
        self.compare_ask("ask", question, &result)?;
        let ground = result.err();
        let refused = ground.is_some_and(is_for_all);
        if refused || random.once_in(6) {
            self.compare_short(question)?;
        }
        if refused || random.once_in(6) {
            self.compare_may(file, *request)?;
        }
        if refused || random.once_in(50) {
            self.compare_stock(file, *request, random)?;
        }
        if ground.is_some() || random.once_in(8) {
            self.compare_settle(question, random)?;
        }
        self.compared += 1;
        unchanged(&before, file)
    }

    /// The second program must find what the file was made for.
    fn note_known(
        &mut self,
        question: &Question,
        result: &Result<Decision, Refusal>,
    ) -> Result<(), String> {
        let (Some(known), Ok(decision)) = (question.known, result) else {
            return Ok(());
        };
        self.tally.note("made", class(&KNOWN, known));
        let found = match decision.verdict {
            Verdict::Granted { steps, .. } => steps == known,
            Verdict::GrantedLong { .. } => known >= TOO_MANY,
            Verdict::NoChain => false,
        };
        match found {
            true => Ok(()),
            false => Err(format!(
                "made for {known} steps, the second program says {:?}",
                decision.verdict
            )),
        }
    }

    /// How large the files are, and when rights are granted by certificates.
    fn note_sort(&mut self, question: &Question, result: &Result<Decision, Refusal>) {
        let Ok(decision) = result else { return };
        let count = u32::from(question.file[5]);
        self.tally.note("counts", class(&COUNTS, count));
        if decision.verdict.steps() > 0 {
            let at = class(&MINUTES, question.request.at);
            self.tally.note("minutes", at);
        }
    }

    fn compare_ask(
        &mut self,
        function: &'static str,
        question: &Question,
        result: &Result<Decision, Refusal>,
    ) -> Result<(), String> {
        self.note_ask(function, result);
        let Question {
            file,
            request,
            places,
            ..
        } = question;
        let mut lent = Lent::of(*places);
        let proved = match function {
            "short" => proved::ask_short(file, *request, lent.places()),
            _ => proved::ask(file, *request, lent.places()),
        };
        let second = told(result);
        let held = lent.are_right(result);
        if second == proved && held.is_ok() {
            return Ok(());
        }
        let call = format!("{function} of {request:?} with {places:?}");
        let differing = held.err().unwrap_or_default();
        Err(differ(&call, &second, &proved, file) + &differing)
    }

    fn note_ask(&mut self, function: &'static str, result: &Result<Decision, Refusal>) {
        match result {
            Ok(decision) => {
                let verdict = decision.verdict;
                self.tally
                    .note(function, (verdict.number(), verdict.words()));
                let passes = class(&PASSES, decision.passes as u32);
                self.tally.note("passes", passes);
                for &steps in decision.steps.iter().filter(|&&steps| steps != TOO_MANY) {
                    self.tally.note("entries", class(&STEPS, steps));
                }
                if let Verdict::Granted { steps, .. } = verdict {
                    self.tally.note("steps", class(&STEPS, steps));
                }
            }
            Err(refusal) => self.tally.note(function, refused(*refusal)),
        }
    }

    fn compare_short(&mut self, question: &Question) -> Result<(), String> {
        let Request {
            owner, asker, at, ..
        } = question.request;
        let question = Question {
            file: question.file.clone(),
            request: decision::short_request(owner, asker, at),
            ..*question
        };
        let result = decision::ask(&question.file, question.request, question.places);
        self.compare_ask("short", &question, &result)
    }

    fn compare_may(&mut self, file: &[u8], request: Request) -> Result<(), String> {
        let Request {
            owner, asker, at, ..
        } = request;
        let result = decision::may(file, owner, asker, at);
        let (outcome, second) = match result {
            Ok(true) => (YES, Answer::accepted(1)),
            Ok(false) => (NO, Answer::accepted(0)),
            Err(refusal) => number_alone(refusal),
        };
        self.tally.note("may", outcome);
        let proved = proved::may(file, owner, asker, at);
        same_answer(
            second,
            proved,
            &format!("may, owner {owner}, asker {asker}, at {at}"),
            file,
        )?;
        self.may_agrees(file, request, proved)
    }

    /// The read screen says what the archive's own short form says, without
    /// the record.
    fn may_agrees(&self, file: &[u8], request: Request, proved: Answer) -> Result<(), String> {
        let asked = proved::ask_short(file, request, Lent::of(Places::ENOUGH).places());
        let from_asking = match asked.number {
            0 | 2 => Answer::accepted(1),
            1 => Answer::accepted(0),
            number => Answer::new(number, 0),
        };
        let call = format!("may against the short form of {request:?}");
        same_answer(from_asking, proved, &call, file)
    }

    fn compare_stock(
        &mut self,
        file: &[u8],
        request: Request,
        random: &mut Random,
    ) -> Result<(), String> {
        let Request { owner, at, .. } = request;
        let result = decision::stock(file, owner, at);
        let (outcome, second) = match &result {
            Ok(keys) => (
                class(&STOCK, keys.len() as u32),
                Answer::accepted(keys.iter().map(|key| 1 << key).sum()),
            ),
            Err(refusal) => number_alone(*refusal),
        };
        self.tally.note("stock", outcome);
        let proved = proved::stock(file, owner, at);
        let call = format!("stock, owner {owner}, at {at}");
        same_answer(second, proved, &call, file)?;
        match result {
            Ok(_) if random.once_in(3) => self.stock_agrees(file, request, proved),
            _ => Ok(()),
        }
    }

    /// The stock list says what asking each key says.
    fn stock_agrees(&self, file: &[u8], request: Request, proved: Answer) -> Result<(), String> {
        for asker in 0..16 {
            let request = Request { asker, ..request };
            let listed = Answer::accepted((proved.value >> asker & 1) as usize);
            self.may_agrees(file, request, listed)?;
        }
        Ok(())
    }

    fn compare_settle(&mut self, question: &Question, random: &mut Random) -> Result<(), String> {
        let Question { file, request, .. } = question;
        let table = tables::table(*request, question.places.minutes, random);
        let result = decision::settle(file, *request, &table);
        let (outcome, second, held) = match &result {
            Ok((passes, held)) => (SETTLED, (0, *passes as u64), held.as_slice()),
            Err(refusal) => {
                let answer = (refusal.number(), u64::from(refusal.record()));
                (refused(*refusal), answer, [].as_slice())
            }
        };
        self.tally.note("settle", outcome);
        if let Ok((passes, _)) = result {
            let passes = class(&PASSES, passes as u32);
            self.tally.note("settling", passes);
        }
        let mut lent = Lending::of(&table, NUMBER_FILL);
        let proved = proved::settle(file, *request, lent.lent());
        let held = lent.holds("minutes", held);
        if second == proved && held.is_ok() {
            return Ok(());
        }
        let call = format!("settle of {request:?} over {} places", table.len());
        let [second, proved] =
            [second, proved].map(|(n, value)| format!("number {n} value {value}"));
        Err(differ(&call, &second, &proved, file) + &held.err().unwrap_or_default())
    }

    /// Whether every outcome of every function was seen often enough.
    fn enough(&self) -> Result<(), String> {
        let all = BY_FILE_AND_REQUEST.map(refused);
        let places = refused(Refusal::PlacesTooFew);
        let rights = refused(Refusal::RightsOutside);
        let verdicts = VERDICTS.map(|verdict| (verdict.number(), verdict.words()));
        let asked = [&all[..], &verdicts, &[places]].concat();
        self.tally
            .enough("ask", &[&asked[..], &[rights]].concat())?;
        self.tally.enough("short", &asked)?;
        let alone = [&all[..], &[KEPT_BACK]].concat();
        self.tally
            .enough("may", &[&alone[..], &[YES, NO]].concat())?;
        self.tally.enough("stock", &[&alone[..], &STOCK].concat())?;
        let settled = [&all[..], &[SETTLED, places, rights]].concat();
        self.tally.enough("settle", &settled)?;
        self.tally.enough("passes", &PASSES)?;
        self.tally.enough("settling", &PASSES[..7])?;
        self.tally.enough("steps", &STEPS[..10])?;
        self.tally.enough("entries", &STEPS[..10])?;
        self.tally.enough("counts", &COUNTS)?;
        self.tally.enough("minutes", &MINUTES)?;
        self.tally.enough("made", &KNOWN)
    }
}
