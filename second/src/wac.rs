//! The certificate file, as document 01 has it under "Numbers that are
//! fixed", "The certificate file" and "What comes back": reading and
//! checking a file, fetching one certificate, appending one.

use crate::answer::Answer;

/// Bytes before the first certificate: WAC, the version, the count.
pub const HEAD: usize = 6;
/// Bytes of one certificate.
pub const RECORD: usize = 18;
/// The most certificates of a file.
pub const MOST: usize = 128;
/// Places a fetched certificate takes.
pub const PLACES: usize = 12;

pub const NAME: u8 = 1;
pub const AUTHORIZATION: u8 = 2;
pub const MAY_DELEGATE: u8 = 10;
pub const ACCESS_ONLY: u8 = 11;
/// Stands in a byte that holds nothing: no mark, no identifier.
pub const NOTHING: u8 = 255;

/// Why a call is refused.
#[derive(Clone, Copy, PartialEq, Eq, Debug)]
pub enum Refusal {
    UnderSixBytes,
    NotWac,
    NotVersionOne,
    CountAboveMost,
    WrongLength,
    /// The lowest record against the table.
    AgainstTable(usize),
    UsedPastBuffer,
    AppendToFull,
    /// The new certificate is against the table; its number would be the count.
    NewAgainstTable(usize),
    NoRoom,
    PlacesTooFew,
    NotBelowCount,
}

impl Refusal {
    /// Its number in document 01's table.
    pub fn number(self) -> u32 {
        match self {
            Refusal::UnderSixBytes => 10,
            Refusal::NotWac => 11,
            Refusal::NotVersionOne => 12,
            Refusal::CountAboveMost | Refusal::AppendToFull => 13,
            Refusal::WrongLength => 14,
            Refusal::AgainstTable(_) | Refusal::NewAgainstTable(_) => 15,
            Refusal::UsedPastBuffer | Refusal::NoRoom => 16,
            Refusal::PlacesTooFew => 23,
            Refusal::NotBelowCount => 24,
        }
    }

    /// Only a record against the table returns more than its number.
    pub fn answer(self) -> Answer {
        match self {
            Refusal::AgainstTable(n) | Refusal::NewAgainstTable(n) => Answer::new(self.number(), n),
            _ => Answer::new(self.number(), 0),
        }
    }

    pub fn words(self) -> &'static str {
        match self {
            Refusal::UnderSixBytes => "file under 6 bytes",
            Refusal::NotWac => "mark is not WAC",
            Refusal::NotVersionOne => "version is not 1",
            Refusal::CountAboveMost => "count above 128",
            Refusal::WrongLength => "length is not 6 + 18 x count",
            Refusal::AgainstTable(_) => "a record against the table",
            Refusal::UsedPastBuffer => "used length past the buffer",
            Refusal::AppendToFull => "appending to 128",
            Refusal::NewAgainstTable(_) => "new certificate against the table",
            Refusal::NoRoom => "under 18 bytes after the used part",
            Refusal::PlacesTooFew => "under 12 lent places",
            Refusal::NotBelowCount => "number not below the count",
        }
    }
}

/// One certificate, lawful or not.
#[derive(Clone, Copy, PartialEq, Eq, Debug)]
pub struct Certificate {
    pub kind: u8,
    pub issuer: u8,
    pub left: u8,
    pub subject: u8,
    /// How many identifiers follow the subject key.
    pub length: u8,
    pub identifiers: [u8; 3],
    pub mark: u8,
    pub rights: u8,
    pub not_before: u32,
    pub not_after: u32,
}

impl Certificate {
    /// A name certificate from minute 1 on, without end.
    pub fn name(issuer: u8, left: u8, subject: u8, identifiers: &[u8]) -> Certificate {
        let mut written = [NOTHING; 3];
        written[..identifiers.len()].copy_from_slice(identifiers);
        Certificate {
            kind: NAME,
            issuer,
            left,
            subject,
            length: identifiers.len() as u8,
            identifiers: written,
            mark: NOTHING,
            rights: 0,
            not_before: 1,
            not_after: u32::MAX,
        }
    }

    /// An authorization for every right from minute 1 on, without end.
    pub fn authorization(issuer: u8, subject: u8, identifiers: &[u8], mark: u8) -> Certificate {
        Certificate {
            kind: AUTHORIZATION,
            mark,
            rights: 15,
            ..Certificate::name(issuer, MAY_DELEGATE, subject, identifiers)
        }
    }

    /// The same for these rights.
    pub fn carrying(self, rights: u8) -> Certificate {
        Certificate { rights, ..self }
    }

    /// The same with this not-after.
    pub fn until(self, not_after: u32) -> Certificate {
        Certificate { not_after, ..self }
    }

    /// The certificate in these 18 bytes.
    pub fn read(record: &[u8]) -> Certificate {
        Certificate {
            kind: record[0],
            issuer: record[1],
            left: record[2],
            subject: record[3],
            length: record[4],
            identifiers: [record[5], record[6], record[7]],
            mark: record[8],
            rights: record[9],
            not_before: u32::from_be_bytes([record[10], record[11], record[12], record[13]]),
            not_after: u32::from_be_bytes([record[14], record[15], record[16], record[17]]),
        }
    }

    /// Its 18 bytes.
    pub fn bytes(&self) -> Vec<u8> {
        let [first, second, third] = self.identifiers;
        let mut bytes = Vec::with_capacity(RECORD);
        bytes.extend([self.kind, self.issuer, self.left, self.subject]);
        bytes.extend([self.length, first, second, third, self.mark, self.rights]);
        bytes.extend(self.not_before.to_be_bytes());
        bytes.extend(self.not_after.to_be_bytes());
        bytes
    }

    /// Its 12 fields as a fetch gives them.
    pub fn fields(&self) -> Vec<u32> {
        let bytes = self.bytes();
        let mut fields: Vec<u32> = bytes[..10].iter().map(|&byte| u32::from(byte)).collect();
        fields.extend([self.not_before, self.not_after]);
        fields
    }

    /// Whether the table permits it.
    pub fn lawful(&self) -> bool {
        match self.kind {
            NAME => self.lawful_keys() && self.lawful_subject() && self.lawful_name(),
            AUTHORIZATION => {
                self.lawful_keys() && self.lawful_subject() && self.lawful_authorization()
            }
            _ => false,
        }
    }

    fn lawful_keys(&self) -> bool {
        self.issuer < 16 && self.subject < 16
    }

    /// 0 to 3 identifiers, and 255 in each identifier byte past their number.
    fn lawful_subject(&self) -> bool {
        let [first, second, third] = self.identifiers.map(is_identifier);
        let [no_first, no_second, no_third] = self.identifiers.map(|byte| byte == NOTHING);
        match self.length {
            0 => no_first && no_second && no_third,
            1 => first && no_second && no_third,
            2 => first && second && no_third,
            3 => first && second && third,
            _ => false,
        }
    }

    fn lawful_name(&self) -> bool {
        is_identifier(self.left) && self.mark == NOTHING && self.rights == 0
    }

    fn lawful_authorization(&self) -> bool {
        let marked = self.mark == MAY_DELEGATE || self.mark == ACCESS_ONLY;
        self.left == MAY_DELEGATE && marked && self.rights < 16
    }
}

fn is_identifier(byte: u8) -> bool {
    byte < 10
}

/// A file of these certificates, with no look at whether they are lawful;
/// the count is cut to its byte.
pub fn file_of(certificates: &[Certificate]) -> Vec<u8> {
    let mut file = b"WAC\x00\x01".to_vec();
    file.push(certificates.len() as u8);
    for certificate in certificates {
        file.extend(certificate.bytes());
    }
    file
}

/// The count byte of a file whose head and length are lawful.
fn framed(file: &[u8]) -> Result<usize, Refusal> {
    if file.len() < HEAD {
        return Err(Refusal::UnderSixBytes);
    }
    if &file[0..3] != b"WAC" {
        return Err(Refusal::NotWac);
    }
    if file[3..5] != [0, 1] {
        return Err(Refusal::NotVersionOne);
    }
    let count = usize::from(file[5]);
    if count > MOST {
        return Err(Refusal::CountAboveMost);
    }
    if file.len() != HEAD + RECORD * count {
        return Err(Refusal::WrongLength);
    }
    Ok(count)
}

/// The certificates of the file in file order.
pub fn parse(file: &[u8]) -> Result<Vec<Certificate>, Refusal> {
    let count = framed(file)?;
    let mut certificates = Vec::with_capacity(count);
    for (number, record) in file[HEAD..].chunks(RECORD).enumerate() {
        let certificate = Certificate::read(record);
        if !certificate.lawful() {
            return Err(Refusal::AgainstTable(number));
        }
        certificates.push(certificate);
    }
    Ok(certificates)
}

/// How many certificates there are, when every one is lawful.
pub fn check(file: &[u8]) -> Result<usize, Refusal> {
    Ok(parse(file)?.len())
}

/// What the lent places hold after certificate `number` was fetched.
pub fn fetch(file: &[u8], number: usize, places: &[u32]) -> Result<Vec<u32>, Refusal> {
    let certificates = parse(file)?;
    if places.len() < PLACES {
        return Err(Refusal::PlacesTooFew);
    }
    let certificate = certificates.get(number).ok_or(Refusal::NotBelowCount)?;
    let mut after = certificate.fields();
    after.extend(&places[PLACES..]);
    Ok(after)
}

/// What the lent buffer holds after `new` was appended, and its used length.
pub fn append(buffer: &[u8], used: usize, new: &Certificate) -> Result<(Vec<u8>, usize), Refusal> {
    if used > buffer.len() {
        return Err(Refusal::UsedPastBuffer);
    }
    let (file, rest) = buffer.split_at(used);
    let count = check(file)?;
    if count == MOST {
        return Err(Refusal::AppendToFull);
    }
    if !new.lawful() {
        return Err(Refusal::NewAgainstTable(count));
    }
    if rest.len() < RECORD {
        return Err(Refusal::NoRoom);
    }
    let mut after = file.to_vec();
    after[5] += 1;
    after.extend(new.bytes());
    let used = after.len();
    after.extend(&rest[RECORD..]);
    Ok((after, used))
}
