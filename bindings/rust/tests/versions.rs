//! Records of version 2 by the entries; widening and narrowing, on outputs of each size.

mod common;

use common::{bytes, c1, c15, call, run_is};
use lvn::{check, figures_of, name_text, narrow, narrowed, rewriting, widen, widened};
use lvn::{Counted, Ending, Ran, Refused, Unconverted};

/// C1 and its rewriting in version 2.
fn c1_wide() -> (Vec<u8>, Vec<u8>) {
    let input = "00000033 02 02 0003 000161 000162 000178 0001 0002 0000
        0000000000000007 01 0002 02 0000 0001 0000000000000008 01 0002 02 0001 0000";
    let output = "00000048 02 02 0004 000161 000162 000178 00075F785F6C766E30 0001 0003 0001
        0000000000000007 01 0002 02 0000 0001 0000000000000008 0D 0003 01 0002 0000000000000008 0D 0002 01 0003";
    (bytes(input), bytes(output))
}

/// C15 in version 2, with the id 2^32 - 1 in its first block, and this one last in its second.
fn c15_wide(last: u64) -> Vec<u8> {
    let mut record = bytes(
        "00000051 02 00 0001 000178 0002
        0002 0000 00000000FFFFFFFF 44 01 0000 0000000000000002 00 0000 00 0000000000000001
        0002 0000 0000000000000003 44 01 0000",
    );
    record.extend(last.to_be_bytes());
    record.extend(bytes("00 0000 00 0000000000000002"));
    record
}

type Conversion = fn(&[u8], &mut [u8]) -> Result<usize, Unconverted>;

#[test]
fn c1_is_answered_in_either_version() {
    let (input, output) = c1_wide();
    assert_eq!(check(&input), Ok(()));
    assert_eq!(rewriting(&input), Ok((output.clone(), 1)));
    assert_eq!(figures_of(&input), Ok((Counted { bytes: 76, saves: 1 }, vec![3])));
    assert_eq!(name_text(&input, &output, 3), Ok(&b"_x_lvn0"[..]));
    assert_eq!(name_text(&input, &c1().1, 3), Err(Refused { number: 11, offset: 0 }));
    assert_eq!(name_text(&c1().0, &output, 3), Err(Refused { number: 11, offset: 0 }));
}

#[test]
fn events_and_divisions_have_ids_of_eight_bytes_in_version_2() {
    let (record, store, answers) = call();
    let wide = widened(&record).unwrap();
    let told = bytes(
        "0000000000000001 14 0003 01 00 0000000000000005
        0000000000000002 44 0000 01 00 0000000000000006",
    );
    let final_store = bytes("0000000A 01 00 0000000000000006");
    run_is((&wide, &store, &answers), 9, Ran { events: 42, store: 14, steps: 2, ending: Ending::End }, &told, &final_store);
    let divides = bytes("0000001D 02 01 0001 000161 0001 0001 0000 FFFFFFFFFFFFFFFE 04 0000 02 0000 0000");
    let store = bytes("0000000A 01 00 0000000000000000");
    let ran = Ran { events: 0, store: 14, steps: 1, ending: Ending::Division(u64::MAX - 1) };
    run_is((&divides, &store, &bytes("00000001 01")), 9, ran, &[], &store);
}

/// Holds a conversion to these bytes, with outputs of no byte up to twenty more than are needed.
fn converts(convert: Conversion, input: &[u8], expected: &[u8]) {
    for size in 0..expected.len() + 20 {
        let mut out = vec![0xA5; size];
        let answer = convert(input, &mut out);
        if size < expected.len() {
            assert_eq!(answer, Err(Unconverted::Room(expected.len())));
            assert!(out.iter().all(|b| *b == 0xA5));
        } else {
            assert_eq!(answer, Ok(expected.len()));
            assert_eq!(out[..expected.len()], *expected);
            assert!(out[expected.len()..].iter().all(|b| *b == 0xA5));
        }
    }
}

#[test]
fn records_are_widened_and_narrowed_again() {
    let (empty, empty_wide) = (bytes("00000006 01 00 0000 0000"), bytes("00000006 02 00 0000 0000"));
    for (one, two) in [(c1().0, c1_wide().0), (c15(), widened(&c15()).unwrap()), (empty, empty_wide)] {
        converts(widen, &one, &two);
        converts(widen, &two, &two);
        converts(narrow, &two, &one);
        converts(narrow, &one, &one);
        assert_eq!((widened(&one), narrowed(&two)), (Ok(two), Ok(one)));
    }
    let mut nops = bytes("0000060A 01 00 0000 0001 0100 0000"); // the most that a record grows by
    nops.extend(bytes("00000000 45 00").repeat(256));
    assert_eq!(widened(&nops).unwrap().len(), nops.len() + 4 * 256);
    assert_eq!(Unconverted::Room(55).to_string(), "the output needs 55 bytes");
}

/// Holds a conversion to an answer that is a refusal, on outputs of each kind of length, which stay as they were.
fn refuses(convert: Conversion, input: &[u8], answer: Unconverted) {
    for size in [0, 1, input.len() - 1, input.len(), 2 * input.len()] {
        let mut out = vec![0xA5; size];
        assert_eq!(convert(input, &mut out), Err(answer));
        assert!(out.iter().all(|b| *b == 0xA5));
    }
}

#[test]
fn both_conversions_refuse_as_check() {
    let of_one = [
        (3, "2A", 1, 0),
        (4, "00", 2, 4),
        (4, "02", 3, 35), // its ids read with eight bytes: a bool that is none stands behind the first
        (5, "11", 3, 5),
        (10, "31", 4, 10),
        (27, "28", 5, 27),
        (28, "0003", 6, 28),
        (27, "05", 7, 23),
        (27, "40", 8, 27),
    ];
    let of_two = [
        (3, "32", 1, 0),
        (4, "03", 2, 4),
        (4, "01", 3, 30), // its ids read with four bytes: a const of the kind 7
        (5, "11", 3, 5),
        (10, "31", 4, 10),
        (31, "28", 5, 31),
        (32, "0003", 6, 32),
        (47, "05", 7, 39),
        (31, "40", 8, 31),
    ];
    for (record, damages) in [(c1().0, of_one), (c1_wide().0, of_two)] {
        for (at, hex, number, offset) in damages {
            let (mut damaged, new) = (record.clone(), bytes(hex));
            damaged[at..at + new.len()].copy_from_slice(&new);
            let refused = Refused { number, offset };
            assert_eq!(check(&damaged), Err(refused));
            refuses(widen, &damaged, Unconverted::Refused(refused));
            refuses(narrow, &damaged, Unconverted::Refused(refused));
            assert_eq!(widened(&damaged), Err(Unconverted::Refused(refused)));
        }
    }
    assert_eq!(narrowed(&[]).unwrap_err().to_string(), "refused 1 at 0");
}

#[test]
fn an_id_without_room_is_not_cut() {
    assert_eq!(narrowed(&c15_wide(u64::from(u32::MAX))).unwrap().len(), 69);
    for id in [1 << 32, u64::MAX, 1 << 63, 5 << 32 | 4] {
        let record = c15_wide(id);
        refuses(narrow, &record, Unconverted::Wide(65));
        converts(widen, &record, &record);
    }
    let mut two = c15_wide(1 << 32);
    two[29] = 1; // the id 2^56 + 2 in the first block
    refuses(narrow, &two, Unconverted::Wide(29));
    two[76] = 1; // a bool literal that is none, behind both
    refuses(narrow, &two, Unconverted::Refused(Refused { number: 3, offset: 77 }));
    assert_eq!(Unconverted::Wide(65).to_string(), "refused 15 at 65");
}
