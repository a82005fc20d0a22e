//! Tables to settle from: the start, nothing, and tables with numbers that no
//! chain brings about.

use super::random::Random;
use crate::decision::entries::{ENTRIES, KEYS};
use crate::decision::{passes, Request};

/// A table of so many places for the request; what stands past the 2,592
/// entries, or in too few places, is any.
pub fn table(request: Request, places: usize, random: &mut Random) -> Vec<u32> {
    let asker = usize::from(request.asker) % KEYS;
    let mut table = match random.below(3) {
        0 => vec![0; ENTRIES],
        _ => passes::start(asker),
    };
    match random.below(4) {
        0 => {}
        1 => raise(&mut table, 5, request.at, random),
        2 => raise(&mut table, 200, request.at, random),
        _ => raise(&mut table, ENTRIES, request.at, random),
    }
    if random.once_in(3) {
        raise_marks(&mut table, request.at, random);
    }
    table.resize_with(places, || random.number() as u32);
    table
}

/// So many entries become numbers about T, or any.
fn raise(table: &mut [u32], entries: usize, at: u32, random: &mut Random) {
    for _ in 0..entries {
        let place = random.below(ENTRIES);
        table[place] = number(at, random);
    }
}

/// The marks of any keys, mark 11 among them, which no certificate has on its
/// left.
fn raise_marks(table: &mut [u32], at: u32, random: &mut Random) {
    for entry in &mut table[2_560..ENTRIES] {
        if random.once_in(4) {
            *entry = number(at, random);
        }
    }
}

fn number(at: u32, random: &mut Random) -> u32 {
    let any = random.number() as u32;
    let near = at.saturating_add(random.below(100) as u32);
    random.one_of(&[0, 1, at, at - at.min(1), near, near, any, u32::MAX])
}
