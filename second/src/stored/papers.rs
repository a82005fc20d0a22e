//! The examples of source documents 000 and 004 as files, with the papers'
//! answers. Rights stand for what the papers leave open: read is 1, their
//! write is sign, 4. Every certificate is from minute 1 on without end where
//! the papers give no dates. Certificates are numbered from 0 here and from 1
//! in the papers, which count no passes; the passes in the lines are worked
//! out by hand from document 01.

use super::question::Stored;
use crate::decision::lines::question;
use crate::decision::Request;
use crate::wac::{file_of, Certificate, ACCESS_ONLY, MAY_DELEGATE};

pub fn cases() -> Vec<Stored> {
    [
        login_to_host(),
        login_in_reverse(),
        read_and_write(),
        maximally_valid(),
        one_path(),
        two_paths(),
    ]
    .into_iter()
    .flatten()
    .collect()
}

fn asked(certificates: &[Certificate], asker: u8, rights: u8, given: &'static str) -> Stored {
    let request = Request {
        owner: 0,
        asker,
        rights,
        at: 100,
    };
    Stored {
        question: question(request, &file_of(certificates)),
        given: Some(given),
    }
}

/// Source 000, figures 1 and 8. Keys: the owner of host H 0, K0 1, K1 2, K2 3,
/// K3 4, KB 5, K4 6, KA 7. Identifiers: UW 0, CS 1, faculty 2, Bob 3, Alice 4.
fn host_certificates() -> Vec<Certificate> {
    vec![
        Certificate::authorization(0, 1, &[0, 1, 2], MAY_DELEGATE),
        Certificate::name(1, 0, 2, &[]),
        Certificate::name(2, 1, 3, &[]),
        Certificate::name(3, 2, 4, &[3]),
        Certificate::name(4, 3, 5, &[]),
        Certificate::authorization(5, 6, &[4], ACCESS_ONLY),
        Certificate::name(6, 4, 7, &[]),
    ]
}

/// The paper: Alice is authorized, and her chain is (1 2 3 4 5 6 7). The first
/// five lead to KB, who may delegate.
fn login_to_host() -> Vec<Stored> {
    let certificates = host_certificates();
    vec![
        asked(&certificates, 7, 1, "GRANTED 4294967295 7 4 0 1 2 3 4 5 6"),
        asked(&certificates, 5, 1, "GRANTED 4294967295 5 4 0 1 2 3 4"),
        asked(&certificates, 6, 1, "NO-CHAIN 3"),
    ]
}

/// The same set in another order: the same chain by other numbers.
fn login_in_reverse() -> Vec<Stored> {
    let mut certificates = host_certificates();
    certificates.reverse();
    let given = "GRANTED 4294967295 7 4 6 5 4 3 2 1 0";
    vec![asked(&certificates, 7, 1, given)]
}

/// Source 000, c1 and c2: the owner is K, Alice is 1. The paper: (c1) grants
/// to read, (c2) to write, and no proof is found for both by one chain. In
/// document 01 one chain must carry every right asked.
fn read_and_write() -> Vec<Stored> {
    let certificates = [
        Certificate::authorization(0, 1, &[], ACCESS_ONLY).carrying(1),
        Certificate::authorization(0, 1, &[], ACCESS_ONLY).carrying(4),
    ];
    vec![
        asked(&certificates, 1, 1, "GRANTED 4294967295 1 2 0"),
        asked(&certificates, 1, 4, "GRANTED 4294967295 1 2 1"),
        asked(&certificates, 1, 5, "NO-CHAIN 1"),
    ]
}

/// Source 000, "Maximally valid certificate chains": of a chain that is valid
/// for two minutes and a longer lasting one, Alice wants the latter.
fn maximally_valid() -> Vec<Stored> {
    let certificates = [
        Certificate::authorization(0, 1, &[], ACCESS_ONLY).until(102),
        Certificate::authorization(0, 2, &[0], MAY_DELEGATE).until(200),
        Certificate::name(2, 0, 1, &[]).until(160),
    ];
    vec![asked(&certificates, 1, 1, "GRANTED 160 2 3 1 2")]
}

/// Source 004, example 1 and case 1. Keys: Kr 0, Kuw 1, Kls 2, Kcs 3, Kbio 4,
/// KBob 5; faculty is 0; the right t is 2. The paper: Bob has access with the
/// weight t, by r1, r2, r3 and r5.
fn one_path() -> Vec<Stored> {
    let certificates = [
        Certificate::authorization(0, 1, &[0], ACCESS_ONLY).carrying(2),
        Certificate::name(1, 0, 2, &[0]),
        Certificate::name(2, 0, 3, &[0]),
        Certificate::name(2, 0, 4, &[0]),
        Certificate::name(3, 0, 5, &[]),
    ];
    vec![
        asked(&certificates, 5, 2, "GRANTED 4294967295 4 5 0 1 2 4"),
        asked(&certificates, 5, 6, "NO-CHAIN 4"),
        asked(&certificates, 4, 2, "NO-CHAIN 4"),
    ]
}

/// Source 004, case 2, as far as its text gives it: LS gives t1 to CS and t2
/// to BIO, and BCS (6) belongs to both; t1 is 2 and t2 is 4. The paper: neither
/// path alone gives both rights. It grants them by both paths together; in
/// document 01 one chain must carry every right asked, so both are refused.
fn two_paths() -> Vec<Stored> {
    let certificates = [
        Certificate::authorization(0, 2, &[], MAY_DELEGATE).carrying(6),
        Certificate::authorization(2, 3, &[0], ACCESS_ONLY).carrying(2),
        Certificate::authorization(2, 4, &[0], ACCESS_ONLY).carrying(4),
        Certificate::name(3, 0, 6, &[0]),
        Certificate::name(4, 0, 6, &[0]),
        Certificate::name(6, 0, 5, &[]),
    ];
    vec![
        asked(&certificates, 5, 2, "GRANTED 4294967295 4 5 0 1 3 5"),
        asked(&certificates, 5, 4, "GRANTED 4294967295 4 5 0 2 4 5"),
        asked(&certificates, 5, 6, "NO-CHAIN 3"),
    ]
}
