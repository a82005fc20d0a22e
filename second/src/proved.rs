//! The proved archive: its functions as the linker sees them, and safe ways
//! to call them. A lent slice passes as its pointer and then its length.

use crate::answer::Answer;
use crate::wac::Certificate;

extern "C" {
    fn wac_check(file: *const u8, length: usize) -> u32;
    fn wac_count(file: *const u8, length: usize) -> u32;
    fn wac_fetch(
        file: *const u8,
        length: usize,
        number: usize,
        fields: *mut u32,
        places: usize,
    ) -> u32;
    fn wac_append(
        buffer: *mut u8,
        length: usize,
        used: usize,
        kind: u8,
        issuer: u8,
        left: u8,
        subject: u8,
        count: u8,
        first: u8,
        second: u8,
        third: u8,
        mark: u8,
        rights: u8,
        not_before: u32,
        not_after: u32,
    ) -> u32;
}

/// Accepted with the count when the whole file is lawful.
pub fn check(file: &[u8]) -> Answer {
    // Safety: pointer and length are those of one lent slice, which is only read.
    Answer::unpack(unsafe { wac_check(file.as_ptr(), file.len()) })
}

/// The same of a view of the file.
pub fn count(file: &[u8]) -> Answer {
    // Safety: pointer and length are those of one lent slice, which is only read.
    Answer::unpack(unsafe { wac_count(file.as_ptr(), file.len()) })
}

/// Writes certificate `number` into the first 12 of `fields`.
pub fn fetch(file: &[u8], number: usize, fields: &mut [u32]) -> Answer {
    // Safety: each pointer and length are those of one lent slice; the file
    // is only read, and the fields are lent for this call alone.
    Answer::unpack(unsafe {
        wac_fetch(
            file.as_ptr(),
            file.len(),
            number,
            fields.as_mut_ptr(),
            fields.len(),
        )
    })
}

/// Appends `new` to the first `used` bytes of `buffer`; accepted with the
/// new used length.
pub fn append(buffer: &mut [u8], used: usize, new: &Certificate) -> Answer {
    let [first, second, third] = new.identifiers;
    // Safety: pointer and length are those of one slice lent for this call alone.
    Answer::unpack(unsafe {
        wac_append(
            buffer.as_mut_ptr(),
            buffer.len(),
            used,
            new.kind,
            new.issuer,
            new.left,
            new.subject,
            new.length,
            first,
            second,
            third,
            new.mark,
            new.rights,
            new.not_before,
            new.not_after,
        )
    })
}
