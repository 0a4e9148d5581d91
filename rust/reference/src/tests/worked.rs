//! Example L, the bare-link cases, the forms, the room, and the errors that come easily.

use super::{longest_file, refused, wiring};
use crate::{analyse, direct, listing, room_needed, truths};

/// Example L's file: coils 7 and 9, no given formulas, starts 1, 0, 0, two switches.
const EXAMPLE_L: [u8; 34] = [
    2, 0, 7, 0, 9, 0, // variables
    0, 0, // given formulas
    3, 0, 1, 0, 0, 0, 0, 0, // vertices
    2, 0, 0, 0, 1, 0, 2, 0, 2, 0, 1, 0, 2, 0, 3, 0, 3, 0, // switches
];

/// Example L's result, set down from its listing.
const RESULT_L: [u8; 44] = [
    2, 0, 7, 0, 9, 0, // variables
    1, 0, 1, 0, 2, 0, 3, 0, // records
    3, 0, 1, 0, 2, 0, 4, 0, // vertices
    3, 0, 0, 0, 1, 0, 1, 0, 1, 0, 2, 0, 0, 0, // order
    3, 0, 0, 0, 0, 0, 8, 0, // figures
];

/// "It prints", to the letter.
#[test]
fn example_l_listing() {
    let text = "\
vertices 3 switches 2 joins 0 work 8 nodes 1
pivot 0 degree 1
pivot 1 degree 1
pivot 2 degree 0
f 4 and 2 3
vertex 0 formula 1
vertex 1 formula 2
vertex 2 formula 4
";
    assert_eq!(listing(&EXAMPLE_L), text);
}

/// Room 16 + 2·2 + 6·8 + 6·3 = 86, though the result has 44 bytes: "exactly that much is accepted".
#[test]
fn example_l_result_and_room() {
    assert_eq!(room_needed(&EXAMPLE_L), Ok(86));
    assert_eq!(analyse(&EXAMPLE_L, 86).unwrap(), RESULT_L);
    assert_eq!(analyse(&EXAMPLE_L, 100).unwrap(), RESULT_L);
    assert_eq!(analyse(&EXAMPLE_L, 85), refused(9, 0));
    assert_eq!(analyse(&EXAMPLE_L, 0), refused(9, 0));
}

/// Vertex 1 needs coil 7 and vertex 2 both coils, in the result's formulas and directly.
#[test]
fn example_l_truths() {
    let cases = [
        ([0, 0], [1, 0, 0]),
        ([0, 1], [1, 0, 0]),
        ([1, 0], [1, 1, 0]),
        ([1, 1], [1, 1, 1]),
    ];
    for (setting, expected) in cases {
        assert_eq!(truths(&RESULT_L, &setting), expected);
        assert_eq!(direct(&EXAMPLE_L, &setting, 3).unwrap(), expected);
    }
}

/// A setting of another length is no setting of the result.
#[test]
#[should_panic(expected = "one byte per variable")]
fn truths_of_a_wrong_setting() {
    truths(&RESULT_L, &[1]);
}

/// A file of bare links: false starts, no variables, both labels of each switch alike.
fn bare_links(vertices: usize, pairs: &[(u16, u16)], label: u16) -> Vec<u8> {
    let switches: Vec<_> = pairs.iter().map(|&(u, v)| [u, v, label, label]).collect();
    wiring(&[], &[], &vec![0; vertices], &switches)
}

/// Every pair of vertices once.
fn all_pairs(vertices: u16) -> Vec<(u16, u16)> {
    let below = |v| (0..v).map(move |u| (u, v));
    (0..vertices).flat_map(below).collect()
}

/// First line and first pivot line of the listing, the same for both constant labels.
fn assert_bare(vertices: usize, pairs: &[(u16, u16)], joins: usize, work: usize, first: &str) {
    for label in [0, 1] {
        let text = listing(&bare_links(vertices, pairs, label));
        let switches = pairs.len();
        let counts =
            format!("vertices {vertices} switches {switches} joins {joins} work {work} nodes 0");
        assert_eq!(text.lines().next(), Some(counts.as_str()));
        assert_eq!(text.lines().nth(1).unwrap_or_default(), first);
    }
}

/// K1 to K3: no vertices, one vertex, a triangle.
#[test]
fn k1_to_k3() {
    assert_bare(0, &[], 0, 0, "");
    assert_bare(1, &[], 0, 0, "pivot 0 degree 0");
    assert_bare(3, &all_pairs(3), 0, 16, "pivot 0 degree 2");
}

/// K4 and K5: four in a ring ("counting a fill link as two operations: K4 would give 28"), four all linked.
#[test]
fn k4_and_k5() {
    let ring = [(0, 1), (1, 2), (2, 3), (3, 0)];
    assert_bare(4, &ring, 0, 26, "pivot 0 degree 2");
    assert_bare(4, &all_pairs(4), 0, 40, "pivot 0 degree 3");
}

/// K6: a star with centre 0 begins with its lowest leaf.
#[test]
fn k6() {
    let star = [(0, 1), (0, 2), (0, 3), (0, 4), (0, 5)];
    assert_bare(6, &star, 0, 20, "pivot 1 degree 1");
}

/// K8: 24 vertices all linked.
#[test]
fn k8() {
    assert_bare(24, &all_pairs(24), 0, 9_200, "pivot 0 degree 23");
}

/// K9: two switches between 0 and 1, the second either way round.
#[test]
fn k9() {
    assert_bare(2, &[(0, 1), (0, 1)], 2, 4, "pivot 0 degree 1");
    assert_bare(2, &[(0, 1), (1, 0)], 2, 4, "pivot 0 degree 1");
}

/// F1 to F4, in every function that reads a file.
#[test]
fn forms() {
    assert_eq!(analyse(&[], 1_000), refused(1, 0));
    assert_eq!(
        analyse(&[0; 8], 16).unwrap(),
        [0, 0, 0, 0, 0, 0, 0, 0, 3, 0, 0, 0, 0, 0, 0, 0]
    );
    assert_eq!(analyse(&[0; 8], 15), refused(9, 0));
    assert_eq!(direct(&[0; 8], &[], 0), Ok(vec![]));
    assert_eq!(analyse(&[0; 9], 1_000), refused(7, 8));
    assert_eq!(direct(&[0; 9], &[9], 0), refused(7, 8));
    assert_eq!(room_needed(&[0; 9]), refused(7, 8));
    assert_eq!(listing(&[0; 9]), "refused 7 at 8\n");
    assert_eq!(analyse(&[201, 0], 0), refused(2, 0));
}

/// "The longest accepted file has 6,656 bytes", and it takes 16 + 400 + 6(500 + 798 + 4) + 144 of room.
#[test]
fn longest() {
    let mut file = longest_file();
    assert_eq!(file.len(), 6_656);
    assert_eq!(room_needed(&file), Ok(8_372));
    assert_eq!(analyse(&file, 8_371), refused(9, 0));
    assert!(analyse(&file, 8_372).is_ok());
    file.push(0);
    assert_eq!(room_needed(&file), refused(7, 6_656));
}

/// Given formulas by rules 3, 5, 1 with 6 and 4 make two records; start and labels are translated.
#[test]
fn given_formulas_are_translated() {
    // Formulas 4 to 10: 2 and 3, 2 or 2 = 2, not 5 = not 2, not 6 = 2, 3 and 7 = 4, 5 or 6 = 1, not 9 = 0.
    let given = [
        [1, 2, 3],
        [2, 2, 2],
        [3, 5, 0],
        [3, 6, 0],
        [1, 3, 7],
        [2, 5, 6],
        [3, 9, 0],
    ];
    let file = wiring(&[7, 9], &given, &[9, 10], &[[0, 1, 8, 7]]);
    // Answer 1 is 0 or (1 and 4) = 4; answer 0 is 1 or (4 and 2), and that product is 4, which holds 2.
    let text = "\
vertices 2 switches 1 joins 0 work 4 nodes 2
pivot 0 degree 1
pivot 1 degree 0
f 4 and 2 3
f 5 not 2
vertex 0 formula 1
vertex 1 formula 4
";
    assert_eq!(listing(&file), text);
    assert_eq!(room_needed(&file), Ok(16 + 4 + 6 * (7 + 4) + 12));
}

/// The listing of two dead vertices with coils 1 to 4 and these switches is this, with the given counts and records.
fn assert_joined(switches: &[[u16; 4]], counts: &str, records: &str) {
    let file = wiring(&[1, 2, 3, 4], &[], &[0, 0], switches);
    let order = "pivot 0 degree 1\npivot 1 degree 0\n";
    let answers = "vertex 0 formula 0\nvertex 1 formula 0\n";
    assert_eq!(listing(&file), [counts, order, records, answers].concat());
}

/// Joins come in the switches' order, "first end to second end, then back", before any pivot.
#[test]
fn joins_in_order() {
    // label(1,0) = 3 or 4 = f6, label(0,1) = 2 or 5 = f7, then 3 or f7 = f8, 2 or f6 = f9.
    let switches = [[0, 1, 2, 3], [1, 1, 2, 2], [1, 0, 4, 5], [0, 1, 3, 2]];
    let counts = "vertices 2 switches 4 joins 4 work 4 nodes 4\n";
    let records = "f 6 or 3 4\nf 7 or 2 5\nf 8 or 3 7\nf 9 or 2 6\n";
    assert_joined(&switches, counts, records);
}

/// A label that is joined again is held by what it was joined to: nothing is added.
#[test]
fn joins_absorbed() {
    // label(1,0) = 3 or 4 = f6, label(0,1) = 2 or 5 = f7, then 2 or f7 = f7, 3 or f6 = f6.
    let switches = [[0, 1, 2, 3], [1, 0, 4, 5], [0, 1, 2, 3]];
    let counts = "vertices 2 switches 3 joins 4 work 4 nodes 2\n";
    assert_joined(&switches, counts, "f 6 or 3 4\nf 7 or 2 5\n");
}

/// A triangle whose pivot 0 shows the nesting of the loops: v's start, then the labels to v, then the next v.
#[test]
fn records_of_a_triangle() {
    // label(0,1) 3, (1,0) 4, (0,2) 5, (2,0) 6, (1,2) 0, (2,1) 0, and vertex 0 starts with 2.
    let switches = [[0, 1, 3, 4], [0, 2, 5, 6], [1, 2, 0, 0]];
    let file = wiring(&[1, 2, 3, 4, 5], &[], &[2, 0, 0], &switches);
    // Pivot 0: start(1) = f7, label(2,1) = f8, start(2) = f9, label(1,2) = f10.
    // Pivot 1: start(2) = f9 or (f7 and f10) = f12.
    // Back: answer(1) = f7 or (f12 and f8) = f14, answer(0) = 2 or (f14 and 4), or (f12 and 6).
    let text = "\
vertices 3 switches 3 joins 0 work 16 nodes 12
pivot 0 degree 2
pivot 1 degree 1
pivot 2 degree 0
f 7 and 2 3
f 8 and 3 6
f 9 and 2 5
f 10 and 4 5
f 11 and 7 10
f 12 or 9 11
f 13 and 8 12
f 14 or 7 13
f 15 and 4 14
f 16 or 2 15
f 17 and 6 12
f 18 or 16 17
vertex 0 formula 18
vertex 1 formula 14
vertex 2 formula 12
";
    assert_eq!(listing(&file), text);
}

/// "A vertex with true start and no links" is true; one with false start is false.
#[test]
fn vertices_without_links() {
    let file = wiring(&[], &[], &[1, 0], &[]);
    let result = analyse(&file, 28).unwrap();
    assert_eq!(truths(&result, &[]), [1, 0]);
    assert_eq!(direct(&file, &[], 2), Ok(vec![1, 0]));
}
