//! The library, on the outline's worked cases: lengths, rooms and refusals, and what is left of a lent buffer.

mod worked;

use jorulbani::{analyse, analyse_into, direct, direct_into, list, Cause, Refusal};
use std::thread;
use worked::{bytes, example_l, result_of_l, LISTING_OF_L};

/// 16 + 2p + 6(g + joins + work) + 6n with two variables, no given formulas, no joins, work 8 and three vertices.
const ROOM_OF_L: usize = 16 + 2 * 2 + 6 * 8 + 6 * 3;

fn refusal<T: std::fmt::Debug>(outcome: Result<T, Refusal>) -> (Cause, usize) {
    let refusal = outcome.unwrap_err();
    (refusal.cause(), refusal.place())
}

#[test]
fn example_l_is_analysed() {
    assert_eq!(analyse(&example_l()), Ok(result_of_l()));
    assert_eq!(list(&example_l()), LISTING_OF_L);
}

#[test]
fn exactly_the_room_is_enough_and_later_bytes_stay() {
    let mut out = [0xee; ROOM_OF_L];
    let expected = result_of_l();
    assert_eq!(analyse_into(&example_l(), &mut out), Ok(expected.len()));
    assert_eq!(out[..expected.len()], expected);
    assert_eq!(out[expected.len()..], [0xee; ROOM_OF_L][expected.len()..]);
}

#[test]
fn a_byte_less_is_refused_and_nothing_is_written() {
    let mut out = [0xee; ROOM_OF_L - 1];
    let outcome = analyse_into(&example_l(), &mut out);
    assert_eq!(refusal(outcome), (Cause::ResultRoom, 0));
    assert_eq!(out, [0xee; ROOM_OF_L - 1]);
}

#[test]
fn example_l_is_answered_under_each_setting() {
    for (setting, truths) in [
        ([0, 0], [1, 0, 0]),
        ([0, 1], [1, 0, 0]),
        ([1, 0], [1, 1, 0]),
        ([1, 1], [1, 1, 1]),
    ] {
        assert_eq!(direct(&example_l(), &setting), Ok(truths.to_vec()));
    }
}

#[test]
fn a_direct_answer_leaves_later_bytes() {
    let mut out = [0xee; 5];
    assert_eq!(direct_into(&example_l(), &[1, 0], &mut out), Ok(3));
    assert_eq!(out, [1, 1, 0, 0xee, 0xee]);
}

#[test]
fn a_refused_direct_answer_writes_nothing() {
    let cases: [(&[u8], usize, (Cause, usize)); 4] = [
        (&[1], 3, (Cause::SettingLength, 0)),
        (&[1, 0, 2], 3, (Cause::SettingLength, 0)),
        (&[0, 2], 3, (Cause::SettingByte, 1)),
        (&[0, 1], 2, (Cause::AnswerRoom, 0)),
    ];
    for (setting, room, expected) in cases {
        let mut out = vec![0xee; room];
        let outcome = direct_into(&example_l(), setting, &mut out);
        assert_eq!(refusal(outcome), expected);
        assert_eq!(out, vec![0xee; room]);
    }
}

#[test]
fn the_small_forms() {
    assert_eq!(refusal(analyse(&[])), (Cause::Cut, 0));
    assert_eq!(list(&[]), "refused 1 at 0\n");

    assert_eq!(analyse_into(&[0; 8], &mut [0; 16]), Ok(16));
    assert_eq!(
        refusal(analyse_into(&[0; 8], &mut [0; 15])),
        (Cause::ResultRoom, 0)
    );
    assert_eq!(analyse(&[0; 8]), Ok(bytes(&[0, 0, 0, 0, 3, 0, 0, 0])));
    assert_eq!(direct(&[0; 8], &[]), Ok(vec![]));

    assert_eq!(refusal(analyse(&[0; 9])), (Cause::Trailing, 8));
    assert_eq!(list(&[0; 9]), "refused 7 at 8\n");

    assert_eq!(refusal(direct(&bytes(&[201]), &[])), (Cause::Count, 0));
}

#[test]
fn threads_call_at_once() {
    thread::scope(|scope| {
        for _ in 0..4 {
            scope.spawn(|| {
                for _ in 0..10 {
                    assert_eq!(analyse(&example_l()), Ok(result_of_l()));
                }
            });
        }
    });
}
