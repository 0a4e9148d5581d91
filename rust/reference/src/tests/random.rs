//! Random files: the result's formulas against the direct answer, and the result's own shape.

use super::{wiring, Xorshift};
use crate::{analyse, direct, room_needed, truths};

/// A random accepted file with this many variables, and its vertex count.
fn random_file(random: &mut Xorshift, variables: u16) -> (Vec<u8>, usize) {
    let coils: Vec<u16> = (0..variables).collect();
    let mut defined = 2 + variables;
    let mut given = Vec::new();
    for _ in 0..random.below(8) {
        let kind = 1 + random.below(3);
        let first = random.below(defined);
        let second = if kind == 3 { 0 } else { random.below(defined) };
        given.push([kind, first, second]);
        defined += 1;
    }
    let vertices = 1 + random.below(8);
    let starts: Vec<u16> = (0..vertices)
        .map(|_| {
            if random.below(3) == 0 {
                random.below(defined)
            } else {
                0
            }
        })
        .collect();
    let switches: Vec<[u16; 4]> = (0..random.below(20))
        .map(|_| [vertices, vertices, defined, defined].map(|limit| random.below(limit)))
        .collect();
    (wiring(&coils, &given, &starts, &switches), starts.len())
}

/// The direct answer and the truth of the result's formulas agree under every setting.
#[test]
fn formulas_and_direct_answer_agree() {
    let mut random = Xorshift::new();
    for _ in 0..2_000 {
        let variables = random.below(5);
        let (file, vertices) = random_file(&mut random, variables);
        let room = room_needed(&file).unwrap();
        let result = analyse(&file, room).unwrap();
        assert!(result.len() <= room);
        for bits in 0..1_u8 << variables {
            let setting: Vec<u8> = (0..variables).map(|i| bits >> i & 1).collect();
            let answer = direct(&file, &setting, vertices).unwrap();
            assert_eq!(
                truths(&result, &setting),
                answer,
                "{file:?} under {setting:?}"
            );
        }
    }
}
