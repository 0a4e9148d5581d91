//! The direct answer, and the result's formulas beside it.

use super::wiring;
use crate::{analyse, direct, room_needed, truths};

/// Both the direct answer and the result's formulas give the expected truths.
#[track_caller]
fn assert_answers(file: &[u8], setting: &[u8], expected: &[u8]) {
    assert_eq!(direct(file, setting, expected.len()).unwrap(), expected);
    let result = analyse(file, room_needed(file).unwrap()).unwrap();
    assert_eq!(truths(&result, setting), expected);
}

/// "With label 0 one way, the answers differ": a switch that conducts only from its first end.
#[test]
fn one_way() {
    let onward = [[0, 1, 2, 0], [1, 2, 2, 0]];
    assert_answers(&wiring(&[5], &[], &[1, 0, 0], &onward), &[1], &[1, 1, 1]);
    assert_answers(&wiring(&[5], &[], &[1, 0, 0], &onward), &[0], &[1, 0, 0]);
    assert_answers(&wiring(&[5], &[], &[0, 0, 1], &onward), &[1], &[0, 0, 1]);
    assert_answers(&wiring(&[5], &[], &[0, 1, 0], &onward), &[1], &[0, 1, 1]);
}

/// "A switch with equal ends is read, tested and otherwise ignored".
#[test]
fn equal_ends() {
    let file = wiring(&[], &[], &[0, 1], &[[0, 0, 1, 1], [1, 1, 1, 1]]);
    assert_answers(&file, &[], &[0, 1]);
    assert_eq!(room_needed(&file), Ok(16 + 12));
}

/// Parallel switches conduct by either; each join is by its own direction.
#[test]
fn parallel() {
    let file = wiring(&[1, 2, 3], &[], &[1, 0], &[[0, 1, 2, 0], [1, 0, 4, 3]]);
    assert_answers(&file, &[0, 0, 0], &[1, 0]);
    assert_answers(&file, &[1, 0, 0], &[1, 1]);
    assert_answers(&file, &[0, 1, 0], &[1, 1]);
    assert_answers(&file, &[0, 0, 1], &[1, 0]);
    let back = wiring(&[1, 2, 3], &[], &[0, 1], &[[0, 1, 2, 0], [1, 0, 4, 3]]);
    assert_answers(&back, &[1, 1, 0], &[0, 1]);
    assert_answers(&back, &[0, 0, 1], &[1, 1]);
}

/// The bridge of 000's figure 15: source 0, arms a and b to 1 and 2, c between, d and e to 3.
#[test]
fn bridge() {
    let switches = [
        [0, 1, 2, 2],
        [0, 2, 3, 3],
        [1, 2, 4, 4],
        [1, 3, 5, 5],
        [2, 3, 6, 6],
    ];
    let file = wiring(&[1, 2, 3, 4, 5], &[], &[1, 0, 0, 0], &switches);
    for bits in 0..32_u8 {
        let setting = [0, 1, 2, 3, 4].map(|i| bits >> i & 1);
        let [a, b, c, d, e] = setting;
        let expected = [
            1,
            a | b & c | b & d & e,
            b | a & c | a & d & e,
            a & d | b & c & d | b & e | a & c & e,
        ];
        assert_answers(&file, &setting, &expected);
    }
}

/// Given formulas as start and labels: and, or, not of the file's own references.
#[test]
fn given_formulas() {
    // Formulas 4 to 7: not 2, 3 and 4, 2 or 5, not 6.
    let given = [[3, 2, 0], [1, 3, 4], [2, 2, 5], [3, 6, 0]];
    let file = wiring(&[1, 2], &given, &[6, 0, 0], &[[0, 1, 5, 0], [0, 2, 7, 1]]);
    assert_answers(&file, &[0, 0], &[0, 0, 0]);
    assert_answers(&file, &[0, 1], &[1, 1, 0]);
    assert_answers(&file, &[1, 0], &[1, 0, 0]);
    assert_answers(&file, &[1, 1], &[1, 0, 0]);
}
