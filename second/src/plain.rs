//! A plain engine of the proved one's algorithm, for the benchmark alone:
//! certificates outside, arrivals inside, an old and a new table, and a
//! reading that goes symbol by symbol with a search over the keys. Every pass
//! reads the certificates where the file holds them. The search goes through
//! every key, or leaves out keys that are not reached at all (`skips`).

use crate::decision::Request;
use crate::wac::{self, AUTHORIZATION, HEAD, RECORD};

const ENTRIES: usize = 2_592;
const KEYS: usize = 16;
const END: usize = 16;

/// What is weighed: minutes, or steps among certificates from a minute on.
#[derive(Clone, Copy, PartialEq)]
enum Lens {
    Minutes,
    Steps { from: u32 },
}

impl Lens {
    fn none(self) -> u32 {
        match self {
            Lens::Minutes => 0,
            Lens::Steps { .. } => 201,
        }
    }

    fn whole(self) -> u32 {
        match self {
            Lens::Minutes => u32::MAX,
            Lens::Steps { .. } => 0,
        }
    }

    fn along(self, one: u32, other: u32) -> u32 {
        match self {
            Lens::Minutes => one.min(other),
            Lens::Steps { .. } => (one + other).min(201),
        }
    }

    fn best(self, one: u32, other: u32) -> u32 {
        match self {
            Lens::Minutes => one.max(other),
            Lens::Steps { .. } => one.min(other),
        }
    }
}

/// One certificate as a pass sees it.
struct Fetched {
    issuer: usize,
    left: usize,
    subject: usize,
    symbols: [u8; 4],
    length: usize,
    weight: u32,
}

fn number(key: usize, symbol: usize, arrival: usize) -> usize {
    match symbol {
        10 => 2_560 + key,
        11 => 2_576 + key,
        _ => (key * 10 + symbol) * KEYS + arrival,
    }
}

/// One question under one lens.
struct Engine<'a> {
    file: &'a [u8],
    request: &'a Request,
    lens: Lens,
    skips: bool,
}

impl Engine<'_> {
    fn certificates(&self) -> impl Iterator<Item = (usize, Fetched)> + '_ {
        let places = 0..usize::from(self.file[5]);
        places.filter_map(|place| Some((place, self.fetched(place)?)))
    }

    /// The certificate, if it counts for the request under the lens.
    fn fetched(&self, place: usize) -> Option<Fetched> {
        let record = &self.file[HEAD + RECORD * place..][..RECORD];
        let not_before = u32::from_be_bytes([record[10], record[11], record[12], record[13]]);
        let not_after = u32::from_be_bytes([record[14], record[15], record[16], record[17]]);
        let (at, rights) = (self.request.at, self.request.rights);
        let authorizes = record[0] == AUTHORIZATION;
        if not_before > at || at > not_after || authorizes && record[9] & rights != rights {
            return None;
        }
        let weight = match self.lens {
            Lens::Minutes => not_after,
            Lens::Steps { from } if not_after >= from => 1,
            Lens::Steps { .. } => return None,
        };
        let mut length = usize::from(record[4]);
        let mut symbols = [record[5], record[6], record[7], 0];
        if authorizes {
            symbols[length] = record[8];
            length += 1;
        }
        Some(Fetched {
            issuer: usize::from(record[1]),
            left: usize::from(record[2]),
            subject: usize::from(record[3]),
            symbols,
            length,
            weight,
        })
    }

    /// The best reading of the symbols from this key to the arrival.
    fn reading(&self, table: &[u32], key: usize, symbols: &[u8], arrival: usize) -> u32 {
        let lens = self.lens;
        match symbols {
            [] if key == arrival => lens.whole(),
            [] => lens.none(),
            [last] => match (*last < 10) == (arrival < END) {
                true => table[number(key, usize::from(*last), arrival)],
                false => lens.none(),
            },
            [first, rest @ ..] => (0..KEYS).fold(lens.none(), |best, next| {
                let entry = table[number(key, usize::from(*first), next)];
                if self.skips && entry == lens.none() {
                    return best;
                }
                let reading = self.reading(table, next, rest, arrival);
                lens.best(best, lens.along(entry, reading))
            }),
        }
    }

    fn pass(&self, old: &[u32], new: &mut [u32]) {
        new.copy_from_slice(old);
        for (_, certificate) in self.certificates() {
            let symbols = &certificate.symbols[..certificate.length];
            let arrivals = match certificate.left {
                10 => END..END + 1,
                _ => 0..KEYS,
            };
            for arrival in arrivals {
                let reading = self.reading(old, certificate.subject, symbols, arrival);
                let entry = number(certificate.issuer, certificate.left, arrival);
                let weighed = self.lens.along(certificate.weight, reading);
                new[entry] = self.lens.best(new[entry], weighed);
            }
        }
    }

    /// Passes from the start until nothing changes, and how many.
    fn settle(&self, table: &mut [u32]) -> u32 {
        let asker = usize::from(self.request.asker);
        table.fill(self.lens.none());
        table[2_560 + asker] = self.lens.whole();
        table[2_576 + asker] = self.lens.whole();
        let mut new = [0; ENTRIES];
        let mut passes = 0;
        loop {
            self.pass(table, &mut new);
            passes += 1;
            if new == *table {
                return passes;
            }
            table.copy_from_slice(&new);
        }
    }

    fn expand_entry(&self, table: &[u32], read: (usize, usize, usize), chain: &mut Vec<u8>) {
        let (key, symbol, arrival) = read;
        let steps = table[number(key, symbol, arrival)];
        if steps == 0 {
            return;
        }
        let found = self.certificates().find(|(_, own)| {
            let symbols = &own.symbols[..own.length];
            let here = own.issuer == key && own.left == symbol;
            here && 1 + self.reading(table, own.subject, symbols, arrival) == steps
        });
        if let Some((place, own)) = found {
            chain.push(place as u8);
            let symbols = &own.symbols[..own.length];
            self.expand_subject(table, (own.subject, symbols, arrival), chain);
        }
    }

    fn expand_subject(&self, table: &[u32], read: (usize, &[u8], usize), chain: &mut Vec<u8>) {
        let (key, symbols, arrival) = read;
        let [first, rest @ ..] = symbols else { return };
        let first = usize::from(*first);
        if rest.is_empty() {
            return self.expand_entry(table, (key, first, arrival), chain);
        }
        let whole = self.reading(table, key, symbols, arrival);
        let next = (0..KEYS).find(|&next| {
            let entry = table[number(key, first, next)];
            entry < 201 && entry + self.reading(table, next, rest, arrival) == whole
        });
        if let Some(next) = next {
            self.expand_entry(table, (key, first, next), chain);
            self.expand_subject(table, (next, rest, arrival), chain);
        }
    }
}

/// The lent places.
pub struct Work {
    pub minutes: [u32; ENTRIES],
    pub steps: [u32; ENTRIES],
    pub chain: [u8; 200],
}

impl Default for Work {
    fn default() -> Work {
        Work {
            minutes: [0; ENTRIES],
            steps: [0; ENTRIES],
            chain: [0; 200],
        }
    }
}

impl Work {
    /// The question about a lawful file: number, minute, steps and passes.
    pub fn ask(&mut self, file: &[u8], request: &Request, skips: bool) -> (u32, u32, u32, u32) {
        wac::check(file).expect("the file is lawful");
        let owners = 2_560 + usize::from(request.owner);
        let engine = |lens| Engine {
            file,
            request,
            lens,
            skips,
        };
        let passes = engine(Lens::Minutes).settle(&mut self.minutes);
        let minute = self.minutes[owners];
        if minute == 0 {
            self.steps.fill(201);
            return (1, 0, 0, passes);
        }
        let engine = engine(Lens::Steps { from: minute });
        engine.settle(&mut self.steps);
        let steps = self.steps[owners];
        if steps > 200 {
            return (2, minute, 0, passes);
        }
        let mut chain = Vec::with_capacity(200);
        let owner = usize::from(request.owner);
        engine.expand_entry(&self.steps, (owner, 10, END), &mut chain);
        self.chain[..chain.len()].copy_from_slice(&chain);
        (0, minute, steps, passes)
    }
}
