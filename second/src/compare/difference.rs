//! What is shown when the second program and the proved archive differ, and
//! the margins by which a write outside a lent place is seen.

use crate::answer::Answer;
use std::fmt::{Display, LowerHex};

/// Places kept before and after each lent place.
const MARGIN: usize = 32;

/// What one of the two answered, and what the lent place held afterwards.
#[derive(PartialEq)]
pub struct Lent<T> {
    pub answer: Answer,
    pub held: Vec<T>,
}

impl<T: Copy> Lent<T> {
    /// What the second program says: its answer, and what is then held.
    pub fn expected(answer: Answer, held: &[T], fill: T) -> Lent<T> {
        let held = with_margins(held, fill);
        Lent { answer, held }
    }

    /// Lends a copy of `held`, with a margin on both sides, to a proved call.
    pub fn of_call(held: &[T], fill: T, call: impl FnOnce(&mut [T]) -> Answer) -> Lent<T> {
        let mut whole = with_margins(held, fill);
        let answer = call(&mut whole[MARGIN..MARGIN + held.len()]);
        Lent {
            answer,
            held: whole,
        }
    }
}

fn with_margins<T: Copy>(held: &[T], fill: T) -> Vec<T> {
    let mut whole = Vec::with_capacity(held.len() + 2 * MARGIN);
    whole.resize(MARGIN, fill);
    whole.extend_from_slice(held);
    whole.resize(held.len() + 2 * MARGIN, fill);
    whole
}

/// Passes when both gave the same; else tells the call, the file and both.
pub fn same<T: PartialEq + LowerHex>(
    second: &Lent<T>,
    proved: &Lent<T>,
    call: impl FnOnce() -> String,
    file: &[u8],
) -> Result<(), String> {
    if second == proved {
        return Ok(());
    }
    let mut told = told(&call(), &second.answer, &proved.answer, file);
    for (place, (one, other)) in second.held.iter().zip(&proved.held).enumerate() {
        if one != other {
            let place = place as i64 - MARGIN as i64;
            told += &format!("\n  lent place {place}: second {one:#x}, proved {other:#x}");
        }
    }
    Err(told)
}

/// The same for a call that is lent nothing it may write.
pub fn same_answer(second: Answer, proved: Answer, call: &str, file: &[u8]) -> Result<(), String> {
    if second == proved {
        return Ok(());
    }
    Err(told(call, &second, &proved, file))
}

/// Tells the call, the file and what both gave.
pub fn told(call: &str, second: &impl Display, proved: &impl Display, file: &[u8]) -> String {
    format!(
        "{call}\n  file: {}\n  second: {second}\n  proved: {proved}",
        hex(file)
    )
}

/// Passes when a file that was only read is as it was.
pub fn unchanged(before: &[u8], file: &[u8]) -> Result<(), String> {
    if before == file {
        return Ok(());
    }
    let told = "a file that was only read has changed";
    Err(format!(
        "{told}\n  before: {}\n  after: {}",
        hex(before),
        hex(file)
    ))
}

pub fn hex(bytes: &[u8]) -> String {
    bytes.iter().map(|byte| format!("{byte:02x}")).collect()
}
