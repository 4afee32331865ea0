//! Records, and what a run is held to, for the tests of the entries and those of both versions.

use lvn::{run_of, Ran};

/// The bytes that are written in hex.
pub fn bytes(hex: &str) -> Vec<u8> {
    let digits: Vec<u8> = hex.bytes().filter(|d| !d.is_ascii_whitespace()).collect();
    let pair = |p: &[u8]| u8::from_str_radix(std::str::from_utf8(p).unwrap(), 16).unwrap();
    digits.chunks(2).map(pair).collect()
}

/// C1 of document 01 and its rewriting.
pub fn c1() -> (Vec<u8>, Vec<u8>) {
    let input = "0000002B 01 02 0003 000161 000162 000178 0001 0002 0000
        00000007 01 0002 02 0000 0001 00000008 01 0002 02 0001 0000";
    let output = "0000003C 01 02 0004 000161 000162 000178 00075F785F6C766E30 0001 0003 0001
        00000007 01 0002 02 0000 0001 00000008 0D 0003 01 0002 00000008 0D 0002 01 0003";
    (bytes(input), bytes(output))
}

/// C15 of document 01: a save in each of two blocks.
pub fn c15() -> Vec<u8> {
    bytes(
        "00000041 01 00 0001 000178 0002
        0002 0000 00000001 44 01 0000 00000002 00 0000 00 0000000000000001
        0002 0000 00000003 44 01 0000 00000004 00 0000 00 0000000000000002",
    )
}

/// a = call 3 (a); print a, with a an int; a is 5; the answers 6 and go on.
pub fn call() -> (Vec<u8>, Vec<u8>, Vec<u8>) {
    (
        bytes("00000021 01 01 0001 000161 0001 0002 0000 00000001 14 0000 01 0000 0003 00000002 44 01 0000"),
        bytes("0000000A 01 00 0000000000000005"),
        bytes("0000000B 01 00 0000000000000006 FE"),
    )
}

/// Events, final store and what a run comes to.
pub fn run_is(lent: (&[u8], &[u8], &[u8]), limit: u64, ran: Ran, events: &[u8], left: &[u8]) {
    let expected = Ok((ran, events.to_vec(), left.to_vec()));
    assert_eq!(run_of(lent.0, lent.1, lent.2, limit), expected);
}
