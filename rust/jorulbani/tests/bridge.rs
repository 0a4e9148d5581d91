//! The client of the bridge, where calls go through it.
#![cfg(not(target_arch = "x86_64"))]

mod worked;

use jorulbani::bridge::{call, measured, Call};
use worked::{example_l, result_of_l, LISTING_OF_L};

#[test]
fn answers_come_with_the_bytes_of_out() {
    let mut out = [0xee; 100];
    assert_eq!(call(Call::Analyse, &example_l(), &mut out), 44);
    assert_eq!(out[..44], result_of_l());
    assert_eq!(out[44..], [0xee; 56]);

    let setting = &[1, 0];
    assert_eq!(call(Call::Direct { setting }, &example_l(), &mut out), 3);
    assert_eq!(out[..4], [1, 1, 0, result_of_l()[3]]);

    let mut out = vec![0xee; 262_144];
    let length = LISTING_OF_L.len();
    assert_eq!(call(Call::List, &example_l(), &mut out), length as u64);
    assert_eq!(&out[..length], LISTING_OF_L.as_bytes());
}

#[test]
fn refusals_come_as_they_are_answered() {
    assert_eq!(call(Call::Analyse, &[0; 9], &mut []), 7 * (1 << 32) + 8);
    assert_eq!(call(Call::List, &[], &mut [0xee; 20]), 0);
}

#[test]
fn calls_are_timed_and_their_stack_is_measured() {
    let mut out = [0; 100];
    let timed = measured(Call::Analyse, &example_l(), &mut out, 100, false);
    assert_eq!((timed.answer, timed.stack), (44, 0));
    assert!(timed.nanoseconds > 0);

    let weighed = measured(Call::Analyse, &example_l(), &mut out, 1, true);
    assert_eq!(weighed.answer, 44);
    assert!(weighed.stack > 0);
}

#[test]
#[should_panic(expected = "the bridge ended with exit status: 2")]
fn a_request_above_the_limits_is_told() {
    call(Call::Analyse, &vec![0; (16 << 20) + 1], &mut []);
}
