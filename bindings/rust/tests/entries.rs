//! The entries on the records of document 01, on outputs of each size and on each number of places.

mod common;

use common::{bytes, c1, c15, call, run_is};
use lvn::{check, figures, figures_of, name_text, rewrite, rewriting, run, run_of};
use lvn::{Counted, Ending, NotRun, Ran, Refused, Uncounted, Unwritten, Written};

#[test]
fn c1_is_accepted_and_rewritten() {
    let (input, output) = c1();
    assert_eq!(check(&input), Ok(()));
    assert_eq!(rewriting(&input), Ok((output, 1)));
}

#[test]
fn outputs_short_exact_and_long() {
    let (input, output) = c1();
    for size in 0..output.len() + 40 {
        let mut out = vec![0xA5; size];
        let answer = rewrite(&input, &mut out);
        if size < output.len() {
            assert_eq!(answer, Err(Unwritten::Room(output.len())));
            assert!(out.iter().all(|b| *b == 0xA5));
        } else {
            assert_eq!(answer, Ok(Written { bytes: output.len(), saves: 1 }));
            assert_eq!(out[..output.len()], output);
            assert!(out[output.len()..].iter().all(|b| *b == 0xA5));
        }
    }
}

#[test]
fn a_refusal_has_number_and_offset_and_writes_nothing() {
    let (input, _) = c1();
    for size in 0..input.len() {
        let at_start = Refused { number: 1, offset: 0 };
        assert_eq!(check(&input[..size]), Err(at_start));
    }
    let mut damaged = input.clone();
    damaged[27] = 15; // the code of the first instruction
    let unknown = Refused { number: 5, offset: 27 };
    let mut out = [0xA5; 200];
    assert_eq!(check(&damaged), Err(unknown));
    assert_eq!(rewrite(&damaged, &mut out), Err(Unwritten::Refused(unknown)));
    assert_eq!(rewriting(&damaged), Err(unknown));
    assert!(out.iter().all(|b| *b == 0xA5));
    assert_eq!(unknown.to_string(), "refused 5 at 27");
}

#[test]
fn texts_of_original_and_made_names() {
    let (input, output) = c1();
    let texts: [&[u8]; 4] = [b"a", b"b", b"x", b"_x_lvn0"];
    for (index, text) in texts.into_iter().enumerate() {
        assert_eq!(name_text(&input, &output, index), Ok(text));
    }
    let refused = |number, offset| Err(Refused { number, offset });
    assert_eq!(name_text(&input, &output, 4), refused(6, 0));
    assert_eq!(name_text(&input, &output, usize::MAX), refused(6, 0));
    assert_eq!(name_text(&input, &output[..7], 0), refused(11, 0));
    assert_eq!(name_text(&input[..20], &output, 0), refused(1, 0));
}

#[test]
fn smallest_inputs() {
    assert_eq!(check(&[]), Err(Refused { number: 1, offset: 0 }));
    assert_eq!(check(&[0; 4]), Err(Refused { number: 1, offset: 4 }));
    let empty = bytes("00000006 01 00 0000 0000");
    assert_eq!(rewriting(&empty), Ok((empty.clone(), 0)));
    assert_eq!(rewrite(&empty, &mut []), Err(Unwritten::Room(10)));
}

/// Three blocks: print x; x = 1, then none, then print x.
fn three_blocks() -> Vec<u8> {
    bytes(
        "00000035 01 00 0001 000178 0003
        0002 0000 00000001 44 01 0000 00000002 00 0000 00 0000000000000001
        0000 0000
        0001 0000 00000003 44 01 0000",
    )
}

/// Holds figures to these, with no place up to eight more than there are blocks; places beyond and those of 12 are untouched.
fn figures_are(input: &[u8], counted: Counted, blocks: &[u16]) {
    for places in 0..blocks.len() + 8 {
        let mut each = vec![0xA5A5; places + 2];
        let answer = figures(input, &mut each[1..places + 1]);
        let mut expected = vec![0xA5A5; places + 2];
        if places < blocks.len() {
            assert_eq!(answer, Err(Uncounted::TooFew));
        } else {
            assert_eq!(answer, Ok(counted));
            expected[1..blocks.len() + 1].copy_from_slice(blocks);
        }
        assert_eq!(each, expected);
    }
    assert_eq!(figures_of(input), Ok((counted, blocks.to_vec())));
}

#[test]
fn figures_with_each_number_of_places() {
    figures_are(&c1().0, Counted { bytes: 64, saves: 1 }, &[3]);
    figures_are(&c15(), Counted { bytes: 107, saves: 2 }, &[3, 3]);
    figures_are(&three_blocks(), Counted { bytes: 76, saves: 1 }, &[3, 0, 1]);
    figures_are(&bytes("00000006 01 00 0000 0000"), Counted { bytes: 10, saves: 0 }, &[]);
    let mut most = bytes("00000106 01 00 0000 0040"); // 64 blocks without an instruction
    most.resize(10 + 64 * 4, 0);
    figures_are(&most, Counted { bytes: 266, saves: 0 }, &[0; 64]);
    assert_eq!(Uncounted::TooFew.to_string(), "fewer places than blocks");
}

#[test]
fn figures_refuse_as_check_before_too_few_places() {
    let mut unknown = c15();
    unknown[21] = 15; // the code of the first instruction
    let mut types = c15();
    types[8] = 1; // x is a bool: its first int literal does not fit
    let mut left_over = c15();
    left_over.push(0);
    left_over[3] += 1;
    for (input, number, offset) in [(&unknown, 5, 21), (&types, 7, 25), (&left_over, 1, 69)] {
        let refused = Refused { number, offset };
        assert_eq!(check(input), Err(refused));
        for places in 0..5 {
            let mut each = vec![0xA5A5; places];
            assert_eq!(figures(input, &mut each), Err(Uncounted::Refused(refused)));
            assert!(each.iter().all(|n| *n == 0xA5A5));
        }
        assert_eq!(figures_of(input), Err(refused));
    }
    assert_eq!(figures_of(&[]), Err(Refused { number: 1, offset: 0 }));
}

#[test]
fn several_threads_at_once() {
    let (input, output) = c1();
    std::thread::scope(|threads| {
        for _ in 0..4 {
            threads.spawn(|| {
                for _ in 0..1000 {
                    assert_eq!(rewriting(&input).unwrap().0, output);
                }
            });
        }
    });
}

#[test]
fn a_call_is_run() {
    let (record, store, answers) = call();
    let told = bytes("00000001 14 0003 01 00 0000000000000005 00000002 44 0000 01 00 0000000000000006");
    let final_store = bytes("0000000A 01 00 0000000000000006");
    let (mut events, mut left) = ([0xA5; 40], [0xA5; 20]);
    let ran = run(&record, &store, &answers, 9, &mut events, &mut left);
    assert_eq!(ran, Ok(Ran { events: 34, store: 14, steps: 2, ending: Ending::End }));
    assert_eq!((&events[..34], &events[34..]), (&told[..], &[0xA5; 6][..]));
    assert_eq!((&left[..14], &left[14..]), (&final_store[..], &[0xA5; 6][..]));
}

#[test]
fn runs_with_what_they_write() {
    let (record, store, answers) = call();
    let told = bytes("00000001 14 0003 01 00 0000000000000005 00000002 44 0000 01 00 0000000000000006");
    let final_store = bytes("0000000A 01 00 0000000000000006");
    let lent = (&record[..], &store[..], &answers[..]);
    run_is(lent, 9, Ran { events: 34, store: 14, steps: 2, ending: Ending::End }, &told, &final_store);
    run_is(lent, 1, Ran { events: 17, store: 14, steps: 1, ending: Ending::Limit }, &told[..17], &final_store);
    run_is(lent, 0, Ran { events: 0, store: 14, steps: 0, ending: Ending::Limit }, &[], &store);
    let none = bytes("00000001 01");
    run_is((&record, &store, &none), 9, Ran { events: 17, store: 14, steps: 1, ending: Ending::Halt }, &told[..17], &store);
    assert_eq!(run_of(&record, &store, &none[..4], 9), Err(NotRun::Unfit));
    assert_eq!(run_of(&record, &store, &[], 9), Err(NotRun::Unfit));
    assert_eq!(run_of(&record[..9], &store, &answers, 9), Err(NotRun::Refused(Refused { number: 1, offset: 0 })));
}

/// print p p p p p p p p, in a block that is repeated, with p a pointer: the longest event.
#[test]
fn runs_with_the_longest_events() {
    let record = bytes(
        "0000002B 01 01 0001 100170 0001 0002 0000
        00000001 44 08 0000 0000 0000 0000 0000 0000 0000 0000 00000002 40 00 0000",
    );
    let store = bytes("00000012 01 10 0000000000000001 0000000000000002");
    let mut event = bytes("00000001 44 0000 08");
    event.extend(store[5..].repeat(8));
    for count in [0, 1, 2, 100] {
        let mut answers = (count as u32 + 1).to_be_bytes().to_vec();
        answers.push(1);
        answers.resize(5 + count, 0xFE);
        let ran = Ran { events: 144 * (count + 1), store: 22, steps: 2 * count as u64 + 1, ending: Ending::Halt };
        run_is((&record, &store, &answers), u64::MAX, ran, &event.repeat(count + 1), &store);
    }
}

#[test]
fn runs_end_at_the_limit_and_without_an_answer() {
    let (record, store, answers) = call();
    let (mut events, mut left) = ([0xA5; 40], [0xA5; 20]);
    let spent = run(&record, &store, &answers, 1, &mut events, &mut left).unwrap();
    assert_eq!((spent.steps, spent.ending), (1, Ending::Limit));
    let none = run(&record, &store, &bytes("00000001 01"), u64::MAX, &mut events, &mut left).unwrap();
    assert_eq!((none.steps, none.ending), (1, Ending::Halt));
}

#[test]
fn what_is_not_run_writes_nothing() {
    let (record, store, answers) = call();
    for (room, more) in [(33, 14), (34, 13), (0, 0)] {
        let (mut events, mut left) = (vec![0xA5; room], vec![0xA5; more]);
        let short = run(&record, &store, &answers, 9, &mut events, &mut left);
        assert_eq!(short, Err(NotRun::Room { events: 34, store: 14 }));
        assert!(events.iter().chain(&left).all(|b| *b == 0xA5));
    }
    let (mut events, mut left) = ([0xA5; 40], [0xA5; 20]);
    let unfit = run(&record, &store, &bytes("00000002 01 FE"), 9, &mut events, &mut left);
    assert_eq!(unfit, Err(NotRun::Unfit));
    let cut = run(&record[..9], &store, &answers, 9, &mut events, &mut left);
    assert_eq!(cut, Err(NotRun::Refused(Refused { number: 1, offset: 0 })));
    assert!(events.iter().chain(&left).all(|b| *b == 0xA5));
}
