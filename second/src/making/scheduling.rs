//! Makes schedules: two halves of a random file, acts at random over a line
//! that loses, repeats, delays and reorders, notes from outside, and at the end
//! full exchanges until both sites rest.

use super::halving;
use super::outside::{self, Sort};
use super::random::Random;
use crate::decision::entries::ENTRIES;
use crate::sites::acts::{Act, Side};
use crate::sites::exchange::{Exchange, Said};
use crate::sites::notes::{Bytes, Kind, Note};
use crate::sites::number;
use crate::sites::opening::Opening;

/// Acts before the full exchanges at the end.
const ACTS: usize = 400;
/// The full exchanges from any state after which both rest.
pub const EXCHANGES: usize = 2_576;
/// A note that is brought so many acts after it was written is late.
const LATE: usize = 40;

/// What a line does to a note.
#[derive(Clone, Copy, PartialEq, Eq, Debug)]
pub enum Fate {
    /// It is never brought.
    Lost,
    /// It is brought again.
    Repeated,
    /// It is brought late.
    Late,
    /// A later one is brought before it.
    Overtaken,
    /// It is brought at common rest.
    Replayed,
    /// It is a receipt for an older minute.
    Outdated,
}

/// A schedule as it was made.
pub struct Schedule {
    pub opening: Opening,
    pub acts: Vec<Act>,
    /// The sites after the last act.
    pub exchange: Exchange,
    /// Whether no site has taken a note that the other did not write.
    pub honest: bool,
    /// Full exchanges at the end until both rest.
    pub exchanges: usize,
    /// What the line did to notes.
    pub fates: Vec<Fate>,
    /// What was brought from outside.
    pub outside: Vec<Sort>,
}

impl Schedule {
    /// The program's input.
    pub fn input(&self) -> Vec<u8> {
        self.opening.input(&self.acts)
    }
}

/// Which of the notes that are kept is brought next.
#[derive(Clone, Copy)]
enum Bringing {
    InTurn,
    /// Receipts wait until every raise was brought.
    RaisesFirst,
    Newest,
    Any,
    Again,
}

const BRINGINGS: [&[Bringing]; 7] = [
    &[Bringing::RaisesFirst],
    &[
        Bringing::RaisesFirst,
        Bringing::RaisesFirst,
        Bringing::InTurn,
    ],
    &[Bringing::InTurn],
    &[Bringing::InTurn, Bringing::InTurn, Bringing::Any],
    &[Bringing::Newest, Bringing::Any],
    &[Bringing::Any],
    &[Bringing::InTurn, Bringing::Again, Bringing::Any],
];

/// A note on the line: when it was written, and how often it was brought.
struct Letter {
    raises: bool,
    written: usize,
    brought: usize,
}

struct Maker<'a> {
    random: &'a mut Random,
    schedule: Schedule,
    letters: [Vec<Letter>; 2],
    /// The entry number after each side's last note, 0 if there was none.
    next: [u16; 2],
    bringings: &'static [Bringing],
    /// One act in so many is a full exchange.
    full: usize,
    /// One act in so many is a note from outside.
    outside: usize,
    /// Whether a note from outside may be one that a site takes for true.
    forges: bool,
}

/// A schedule at random.
pub fn schedule(random: &mut Random) -> Result<Schedule, String> {
    let opening = halving::opening(random);
    let length = random.one_of(&[0, 10, 40, 40, 100, 100, 100, ACTS]);
    let length = random.within(0, length);
    let mut maker = Maker::new(opening, random);
    if maker.random.once_in(8) {
        maker.full_exchanges()?;
    }
    while maker.schedule.acts.len() < length {
        let act = maker.any_act();
        maker.perform(act);
        if maker.random.once_in(50) {
            maker.hold_receipts_back();
        }
    }
    maker.schedule.exchanges = maker.full_exchanges()?;
    Ok(maker.finished())
}

impl Maker<'_> {
    fn new(opening: Opening, random: &mut Random) -> Maker<'_> {
        let exchange = Exchange::open(&opening).expect("the halves are lawful");
        Maker {
            schedule: Schedule {
                opening,
                acts: Vec::new(),
                exchange,
                honest: true,
                exchanges: 0,
                fates: Vec::new(),
                outside: Vec::new(),
            },
            letters: [Vec::new(), Vec::new()],
            next: [0, 0],
            bringings: random.one_of(&BRINGINGS),
            full: random.one_of(&[20, 100, 1_000_000, 1_000_000]),
            outside: random.one_of(&[5, 10, 30, 1_000_000]),
            forges: random.once_in(8),
            random,
        }
    }

    /// Full exchanges in one order until both rest, and one more; says how
    /// many were needed.
    fn full_exchanges(&mut self) -> Result<usize, String> {
        let first = self.random.one_of(&Side::BOTH);
        let mut needed = 0;
        while !self.schedule.exchange.both_rest() {
            self.perform(Act::Full(first));
            needed += 1;
            if needed > EXCHANGES {
                return Err(format!("no rest after {EXCHANGES} full exchanges"));
            }
        }
        self.perform(Act::Full(first));
        Ok(needed)
    }

    /// One site's receipts arrive only when the other has worked again with
    /// what it was sent, so that some are for minutes that have passed.
    fn hold_receipts_back(&mut self) {
        let side = self.random.one_of(&Side::BOTH);
        for sender in [side, side.other()] {
            self.perform(Act::Work(sender));
            self.send_some(sender);
        }
        self.perform(Act::Work(side));
        self.bring_all(side.other(), false);
    }

    /// The site writes some notes, and all its raises are brought.
    fn send_some(&mut self, side: Side) {
        for _ in 0..self.random.within(1, 8) {
            self.perform(Act::Write(side, self.next[side as usize]));
        }
        self.bring_all(side, true);
    }

    /// The site's raises, or its receipts, that were not brought so far.
    fn bring_all(&mut self, side: Side, raises: bool) {
        for place in 0..self.letters[side as usize].len() {
            let letter = &self.letters[side as usize][place];
            if letter.brought == 0 && letter.raises == raises {
                self.perform(Act::Bring(side, place as u16));
            }
        }
    }

    fn any_act(&mut self) -> Act {
        let side = self.random.one_of(&Side::BOTH);
        if self.random.once_in(self.full) {
            return Act::Full(side);
        }
        if self.random.once_in(self.outside) {
            return Act::Hand(side, self.outside_note(side));
        }
        let nothing_yet = self.letters[side as usize].is_empty();
        match self.random.below(10) {
            0 | 1 => Act::Work(side),
            2..=4 => Act::Write(side, self.entry_number(side)),
            5..=8 if nothing_yet => Act::Work(side),
            _ => Act::Bring(side, self.place(side)),
        }
    }

    /// Mostly the first entry or the one after the last note, else any.
    fn entry_number(&mut self, side: Side) -> u16 {
        let next = self.next[side as usize];
        let any = self.random.below(ENTRIES) as u16;
        let limit = self.random.one_of(&[2_575, 2_576, 2_591, 2_592, 65_535]);
        self.random
            .one_of(&[0, 0, 0, next, next, next, next, any, any, limit])
    }

    /// A note's number, now and then counted round what is kept.
    fn place(&mut self, side: Side) -> u16 {
        let letters = &self.letters[side as usize];
        let kept = letters.len().max(1);
        let first = |raises: bool| {
            let waits = |letter: &Letter| letter.brought == 0 && (letter.raises || !raises);
            letters.iter().position(waits)
        };
        let place = match self.random.one_of(self.bringings) {
            Bringing::InTurn => first(false),
            Bringing::RaisesFirst => first(true).or(first(false)),
            Bringing::Again => letters.iter().rposition(|letter| letter.brought > 0),
            Bringing::Newest => letters.len().checked_sub(1),
            Bringing::Any => None,
        };
        let place = place.unwrap_or_else(|| self.random.below(kept));
        let rounds = match self.random.once_in(8) {
            true => self.random.below(65_536 / kept),
            false => 0,
        };
        (place + rounds * kept) as u16
    }

    /// A note from outside; if it were taken for true and must not be, it is
    /// given another session.
    fn outside_note(&mut self, to: Side) -> Bytes {
        let exchange = &self.schedule.exchange;
        let (sort, note) = outside::note(exchange, to, self.forges, self.random);
        let (sort, note) = match self.forges || !is_forged(exchange, to, &note) {
            true => (sort, note),
            false => (Sort::Foreign, outside::foreign(note, self.random)),
        };
        self.schedule.outside.push(sort);
        note
    }

    fn perform(&mut self, act: Act) {
        self.look_at(act);
        let Schedule { exchange, acts, .. } = &mut self.schedule;
        let said = exchange.act(act);
        if let Act::Write(side, _) = act {
            self.next[side as usize] = match said {
                Said::Note(entry) => entry as u16 + 1,
                _ => 0,
            };
        }
        acts.push(act);
        let brought = usize::from(matches!(act, Act::Full(_)));
        for side in Side::BOTH {
            let letters = &mut self.letters[side as usize];
            let new = exchange.written(side).iter().skip(letters.len());
            letters.extend(new.map(|note| Letter {
                raises: note[4] == 1,
                written: acts.len(),
                brought,
            }));
        }
    }

    /// What the act does to the line and to the sites' trust.
    fn look_at(&mut self, act: Act) {
        match act {
            Act::Bring(side, place) if !self.letters[side as usize].is_empty() => {
                let kept = self.letters[side as usize].len();
                self.look_at_letter(side, usize::from(place) % kept);
            }
            Act::Hand(to, note) => {
                self.schedule.honest &= !is_forged(&self.schedule.exchange, to, &note);
            }
            _ => {}
        }
    }

    fn look_at_letter(&mut self, side: Side, place: usize) {
        let now = self.schedule.acts.len();
        let letters = &mut self.letters[side as usize];
        let overtaken = letters[place..].iter().any(|later| later.brought > 0);
        let letter = &mut letters[place];
        letter.brought += 1;
        let fates = &mut self.schedule.fates;
        if letter.brought > 1 {
            fates.push(Fate::Repeated);
        } else if overtaken {
            fates.push(Fate::Overtaken);
        }
        if now - letter.written >= LATE {
            fates.push(Fate::Late);
        }
        if self.schedule.exchange.both_rest() {
            fates.push(Fate::Replayed);
        }
        if is_outdated(&self.schedule.exchange, side, place) {
            fates.push(Fate::Outdated);
        }
    }

    fn finished(mut self) -> Schedule {
        let lost = |letter: &&Letter| letter.brought == 0;
        let lost = self.letters.iter().flatten().filter(lost).count();
        self.schedule.fates.extend(vec![Fate::Lost; lost]);
        self.schedule
    }
}

/// Whether the note is a receipt for an entry that has risen since, and that is
/// still to be sent.
fn is_outdated(exchange: &Exchange, from: Side, place: usize) -> bool {
    let note = Note::read(&exchange.written(from)[place]).expect("a site writes lawful notes");
    let next = exchange.site(from.other()).next(number(note.entry));
    let risen = next.is_some_and(|next| next.entry == note.entry && next.minute > note.minute);
    risen && note.kind == Kind::Receipt
}

/// Whether the site would take a note that the other did not write.
fn is_forged(exchange: &Exchange, to: Side, note: &Bytes) -> bool {
    let taken = exchange.site(to).admit(note).is_ok();
    taken && !exchange.written(to.other()).contains(note)
}
