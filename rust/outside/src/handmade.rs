//! Wiring files made by hand for the stored vectors, each with a name that says what it shows.
//!
//! Of the refusals, 1 to 7 are here: 8 is unused, and 9 to 12 are not a file's: see [`crate::rooms`] and
//! [`crate::settings`].

use crate::dressing::wired;
use crate::networks::{Given, Network, Switch, AND, MOST_VARIABLES, MOST_VERTICES, NOT, OR};
use crate::shapes::{self, Shape};

/// A wiring file, and what it shows.
pub type Named = (String, Vec<u8>);

/// Networks, a row for each: name | coils | given formulas | starts | switches. Numbers are as in the file.
const NETWORKS: &str = "
example L: two relays in a row                     | 7 9 | | 1 0 0 | 0 1 2 2, 1 2 3 3

start: true, and no links                          | | | 1 |
start: a variable                                  | 7 | | 2 |
start: a given formula                             | 7 9 11 | and 2 4 | 5 |
start: true by a given formula                     | 7 | not 0 | 3 |
start: every kind of reference                     | 7 9 | not 3 | 0 1 2 3 4 |
start: true, beside a linked pair                  | 7 | | 1 0 0 | 1 2 2 2
start: true at both ends of a link                 | 7 | | 1 1 | 0 1 2 2
start: a variable, which is the label too          | 7 | | 2 0 | 0 1 2 2
start: a variable, linked to a true start          | 7 | | 2 1 | 0 1 2 2
start: a variable and its not, linked by true      | 7 | not 2 | 2 3 | 0 1 1 1
start: two variables, linked by a third            | 7 9 11 | | 2 3 | 0 1 4 4
start: false everywhere                            | 7 9 | | 0 0 0 | 0 1 2 2, 1 2 3 3
start: true in the middle of a row                 | 7 9 | | 0 1 0 | 0 1 2 2, 1 2 3 3
start: true at the last vertex of a row            | 7 9 | | 0 0 1 | 0 1 2 2, 1 2 3 3

rule 1: and, in order                              | 7 9 | and 2 3 | 4 |
rule 1: and, exchanged                             | 7 9 | and 3 2 | 4 |
rule 1: or, in order                               | 7 9 | or 2 3 | 4 |
rule 1: or, exchanged                              | 7 9 | or 3 2 | 4 |
rule 1: a record before a variable                 | 7 9 11 | or 2 3, and 5 4 | 6 |
rule 2: or, false and true                         | | or 0 1 | 2 |
rule 2: or, false and a variable                   | 7 | or 0 2 | 3 |
rule 2: or, a variable and false                   | 7 | or 2 0 | 3 |
rule 2: or, true and a variable                    | 7 | or 1 2 | 3 |
rule 2: or, a variable and true                    | 7 | or 2 1 | 3 |
rule 2: or, a record and false                     | 7 9 | and 2 3, or 4 0 | 5 |
rule 2: or, true and a record                      | 7 9 | and 2 3, or 1 4 | 5 |
rule 2: and, true and false                        | | and 1 0 | 2 |
rule 2: and, false and a variable                  | 7 | and 0 2 | 3 |
rule 2: and, a variable and false                  | 7 | and 2 0 | 3 |
rule 2: and, true and a variable                   | 7 | and 1 2 | 3 |
rule 2: and, a variable and true                   | 7 | and 2 1 | 3 |
rule 2: and, a record and true                     | 7 9 | or 2 3, and 4 1 | 5 |
rule 2: and, false and a record                    | 7 9 | or 2 3, and 0 4 | 5 |
rule 3: and, a variable twice                      | 7 | and 2 2 | 3 |
rule 3: or, a variable twice                       | 7 | or 2 2 | 3 |
rule 3: and, a record twice                        | 7 9 | or 2 3, and 4 4 | 5 |
rule 3: or, a record twice                         | 7 9 | and 2 3, or 4 4 | 5 |
rule 3: equal after translation                    | 7 | or 2 0, and 2 3 | 4 |
rule 4: and, a variable and its not                | 7 | not 2, and 2 3 | 4 |
rule 4: and, a not and its variable                | 7 | not 2, and 3 2 | 4 |
rule 4: or, a variable and its not                 | 7 | not 2, or 2 3 | 4 |
rule 4: or, a not and its variable                 | 7 | not 2, or 3 2 | 4 |
rule 4: and, a record and its not                  | 7 9 | or 2 3, not 4, and 4 5 | 6 |
rule 4: or, a not and its record                   | 7 9 | and 2 3, not 4, or 5 4 | 6 |
rule 4: opposed after translation                  | 7 | not 2, not 3, or 3 4 | 5 |
rule 4: not met by the not of another variable     | 7 9 | not 2, and 3 4 | 5 |
rule 4: not met by two nots                        | 7 9 | not 2, not 3, or 4 5 | 6 |
rule 4: not met by the not of an argument          | 7 9 | or 2 3, not 2, and 4 5 | 6 |
rule 5: not of false                               | | not 0 | 2 |
rule 5: not of true                                | | not 1 | 2 |
rule 5: not of a not                               | 7 | not 2, not 3 | 4 |
rule 5: not, three times                           | 7 | not 2, not 3, not 4 | 5 |
rule 5: not of the not of a record                 | 7 9 | and 2 3, not 4, not 5 | 6 |
rule 5: not of what has become true                | 7 | or 2 1, not 3 | 4 |
absorption: or, a variable and an and of it        | 7 9 | and 2 3, or 2 4 | 5 |
absorption: or, an and and its second argument     | 7 9 | and 2 3, or 4 3 | 5 |
absorption: and, a variable and an or of it        | 7 9 | or 2 3, and 2 4 | 5 |
absorption: and, an or and its second argument     | 7 9 | or 2 3, and 4 3 | 5 |
absorption: or, an or and its first argument       | 7 9 | or 2 3, or 4 2 | 5 |
absorption: or, a variable and an or of it         | 7 9 | or 2 3, or 3 4 | 5 |
absorption: and, an and and its first argument     | 7 9 | and 2 3, and 4 2 | 5 |
absorption: and, a variable and an and of it       | 7 9 | and 2 3, and 3 4 | 5 |
absorption: or, a record and an and of it          | 7 9 11 | or 2 3, and 4 5, or 5 6 | 7 |
absorption: and, an or of a record and the record  | 7 9 11 | and 2 3, or 4 5, and 6 5 | 7 |
absorption: held after translation                 | 7 9 | and 2 3, or 2 2, or 4 5 | 6 |
absorption: a not record is held                   | 7 9 | not 2, and 3 4, or 4 5 | 6 |
absorption: not met by the not of an and           | 7 9 | and 2 3, not 4, or 2 5 | 6 |
absorption: not met one level deeper               | 7 9 11 | and 2 3, or 4 5, or 2 6 | 7 |
absorption: not met by two ands of one variable    | 7 9 11 | and 2 3, and 2 4, or 5 6 | 7 |
absorption: a label joined again                   | 7 9 11 13 | | 1 0 | 0 1 2 3, 1 0 4 5, 0 1 2 3
absorption: an and joined by its argument          | 7 9 | and 2 3 | 1 0 | 0 1 4 4, 0 1 2 2
absorption: by the elimination, in a row of four   | 7 9 11 | | 1 0 0 0 | 0 1 2 2, 1 2 3 3, 2 3 4 4
rule 6: an and again                               | 7 9 | and 2 3, and 2 3 | 5 |
rule 6: an and again, exchanged                    | 7 9 | and 2 3, and 3 2 | 5 |
rule 6: an or again                                | 7 9 | or 2 3, or 2 3 | 5 |
rule 6: an or again, exchanged                     | 7 9 | or 2 3, or 3 2 | 5 |
rule 6: a not again                                | 7 | not 2, not 2 | 4 |
rule 6: the first of three records                 | 7 9 | and 2 3, or 2 3, not 4, and 3 2 | 7 |
rule 6: the last of three records                  | 7 9 | and 2 3, or 2 3, not 4, not 4 | 7 |
rule 6: the same after translation                 | 7 9 | and 2 3, or 2 2, and 3 5 | 6 |
rule 7: a not of a variable                        | 7 | not 2 | 3 |
rule 7: an and and an or of the same two           | 7 9 | and 2 3, or 2 3 | 5 |
rule 7: a not of an and                            | 7 9 | and 2 3, not 4 | 5 |
rule 7: a not of an or                             | 7 9 | or 2 3, not 4 | 5 |

given formulas: none is left                       | 7 | or 2 0, and 3 1, or 4 4 | 5 |
given formulas: no vertex needs them, they stay    | 7 9 | and 2 3, or 2 3, not 4 | 0 |
given formulas: no vertices                        | 7 9 | and 2 3 | |
given formulas: no variables                       | | not 0, and 1 2, or 0 3 | 4 |
given formulas: other references than in the file  | 7 | or 2 2, not 2 | 4 |
given formulas: a label by another reference       | 7 9 | and 2 2, or 2 3 | 1 0 | 0 1 5 5
given formulas: a label that is true               | 7 | not 0 | 1 0 | 0 1 3 3
given formulas: start and label opposed            | 7 | not 2 | 2 0 | 0 1 3 3
given formulas: found again by the elimination     | 7 9 | and 2 3 | 1 0 0 | 0 1 2 2, 1 2 3 3

label: false both ways                             | | | 1 0 | 0 1 0 0
label: true both ways                              | | | 1 0 | 0 1 1 1
label: true, from the live end                     | | | 1 0 | 0 1 1 0
label: true, to the live end                       | | | 1 0 | 0 1 0 1
label: a coil, from the live end                   | 7 | | 1 0 | 0 1 2 0
label: a coil, to the live end                     | 7 | | 1 0 | 0 1 0 2
label: another coil each way                       | 7 9 | | 1 0 | 0 1 2 3
label: another coil each way, ends exchanged       | 7 9 | | 1 0 | 1 0 2 3
label: another coil each way, second end live      | 7 9 | | 0 1 | 0 1 2 3
label: a not                                       | 7 | not 2 | 1 0 | 0 1 3 3
label: a coil one way, its not the other           | 7 | not 2 | 1 0 | 0 1 2 3
label: an or of two coils                          | 7 9 | or 2 3 | 1 0 | 0 1 4 4
label: one way along a row                         | 7 9 | | 1 0 0 | 0 1 2 0, 1 2 3 0
label: one way against a row                       | 7 9 | | 1 0 0 | 0 1 0 2, 1 2 0 3
label: one way to the middle of a row              | 7 9 | | 1 0 1 | 0 1 2 0, 2 1 3 0
label: one way round a triangle                    | 7 9 11 | | 1 0 0 | 0 1 2 0, 1 2 3 0, 2 0 4 0
label: one way round a triangle, backwards         | 7 9 11 | | 1 0 0 | 0 1 0 2, 1 2 0 3, 2 0 0 4
label: a coil for each way of a triangle           | 1 2 3 4 5 6 | | 1 0 0 | 0 1 2 3, 1 2 4 5, 2 0 6 7
label: false within a row                          | 7 9 | | 1 0 0 0 | 0 1 2 2, 1 2 0 0, 2 3 3 3
label: true within a row                           | 7 9 | | 1 0 0 0 | 0 1 2 2, 1 2 1 1, 2 3 3 3
label: one coil everywhere in a ring of four       | 7 | | 1 0 0 0 | 0 1 2 2, 1 2 2 2, 2 3 2 2, 3 0 2 2

equal ends: one vertex                             | 7 | | 1 | 0 0 2 2
equal ends: a dead vertex, labels true             | | | 0 | 0 0 1 1
equal ends: twice, no joins                        | 7 9 | | 2 | 0 0 2 3, 0 0 3 2
equal ends: beside a link                          | 7 9 | | 1 0 | 0 0 3 3, 0 1 2 2, 1 1 2 3
equal ends: the degree stays 0                     | 7 | | 1 0 0 | 0 0 2 2, 0 0 2 2, 1 2 2 2

parallel: two coils                                | 7 9 | | 1 0 | 0 1 2 2, 0 1 3 3
parallel: two coils, ends exchanged                | 7 9 | | 1 0 | 0 1 2 2, 1 0 3 3
parallel: a coil each way                          | 7 9 11 13 | | 1 0 | 0 1 2 3, 0 1 4 5
parallel: a coil each way, ends exchanged          | 7 9 11 13 | | 1 0 | 0 1 2 3, 1 0 4 5
parallel: three coils                              | 7 9 11 | | 1 0 | 0 1 2 2, 0 1 3 3, 0 1 4 4
parallel: one coil twice                           | 7 | | 1 0 | 0 1 2 2, 0 1 2 2
parallel: false, then a coil                       | 7 | | 1 0 | 0 1 0 0, 0 1 2 2
parallel: a coil, then false                       | 7 | | 1 0 | 0 1 2 2, 0 1 0 0
parallel: a coil, then true                        | 7 | | 1 0 | 0 1 2 2, 0 1 1 1
parallel: a coil and its not                       | 7 | not 2 | 1 0 | 0 1 2 2, 0 1 3 3
parallel: one way there, one way back              | 7 9 | | 1 0 | 0 1 2 0, 0 1 0 3
parallel: one way there, one way back, exchanged   | 7 9 | | 1 0 | 0 1 2 0, 1 0 3 0
parallel: a given formula found                    | 7 9 | or 2 3 | 1 0 | 0 1 2 2, 1 0 3 3
parallel: two pairs in turns                       | 7 9 11 | | 1 0 0 | 0 1 2 2, 1 2 3 3, 0 1 4 4, 2 1 2 2
parallel: all labels false                         | | | 0 0 | 0 1 0 0, 1 0 0 0, 0 1 0 0
";

/// Networks with something of everything, a row for each as above: coils above 255, a not, another label each way and 0 one way, a second
/// switch between two vertices, a degree above 1. In none are any two of the counts and figures of its result the same, but for vertices and
/// order, or is any of them 0.
const UNEVEN: &str = "
uneven: triangle with a tail                       | 300 513 1027 5000 65535 | not 2 | 1 0 7 0 | 0 1 2 3, 1 2 4 0, 2 0 5 7, 2 3 7 6, 1 0 6 4
uneven: ring with a chord and a tail               | 256 511 512 4660 | and 2 3, not 6, or 7 4, not 3, and 9 5, or 10 2 | 0 1 0 3 0 | 0 1 2 3, 1 2 4 5, 2 3 0 8, 3 0 7 11, 0 2 5 0, 4 3 6 1, 1 0 8 4
uneven: all four linked, three pairs of them twice | 2 258 772 1286 65534 | or 2 6, not 7 | 1 0 0 0 | 0 1 2 3, 0 2 4 5, 0 3 6 7, 1 2 0 8, 1 3 8 0, 2 3 3 2, 1 0 5 6, 2 0 7 4, 3 2 8 0
uneven: star with two leaves linked                | 255 256 | not 2, not 3, and 4 3, or 4 5, and 7 2 | 0 1 0 2 0 0 | 0 1 2 4, 0 2 3 0, 0 3 6 7, 0 4 5 2, 0 5 8 3, 1 0 3 5, 3 0 0 6, 1 2 7 0
uneven: one way round a ring of five, and back     | 3 700 | not 3 | 2 0 0 1 0 | 0 1 2 0, 1 2 3 0, 2 3 4 0, 3 4 1 0, 4 0 4 0, 0 1 0 3, 3 2 2 0
uneven: ladder, its sides one way                  | 257 514 771 1028 1285 1542 1799 | or 3 8, not 9 | 1 0 0 10 0 0 | 0 2 2 0, 2 4 3 0, 1 3 0 4, 3 5 0 5, 0 1 6 7, 2 3 8 10, 4 5 9 2, 1 0 5 4, 5 4 10 9
uneven: coils 0 and 40000                          | 0 40000 | not 3 | 2 0 0 3 0 | 0 1 4 2, 1 2 2 3, 2 0 3 0, 2 3 3 4, 3 4 4 0, 1 0 0 3, 3 2 2 0
uneven: two triangles, one of them dead            | 9 265 521 777 | not 5 | 3 0 0 0 0 0 0 | 0 1 2 6, 1 2 3 0, 2 0 4 5, 3 4 5 4, 4 5 0 3, 5 3 2 2, 2 1 6 3
uneven: joins that make no record                  | 600 601 602 603 604 | not 6 | 1 0 2 0 | 0 1 2 3, 1 2 4 0, 2 0 5 6, 2 3 7 5, 0 1 2 3, 2 1 0 4, 1 0 0 1
uneven: given formulas, few of which make a record | 1 257 300 400 500 | or 2 2, and 3 1, not 4, not 9, or 5 0, and 9 4, and 3 2 | 13 0 0 0 | 0 1 7 9, 1 2 10 0, 2 0 13 4, 3 0 6 11, 1 0 12 5
";

/// Bare links, with labels and starts that are false, a row for each: name | vertices | links.
const BARE: &str = "
K1 and F2: no vertices, eight zero bytes           | 0 |
K2: one vertex                                     | 1 |
K3: triangle                                       | 3 | 0 1, 1 2, 2 0
K4: four in a ring                                 | 4 | 0 1, 1 2, 2 3, 3 0
K5: all four linked                                | 4 | 0 1, 0 2, 0 3, 1 2, 1 3, 2 3
K6: star, centre 0                                 | 6 | 0 1, 0 2, 0 3, 0 4, 0 5
K9: two switches between 0 and 1                   | 2 | 0 1, 0 1
K9: the second from 1 to 0                         | 2 | 0 1, 1 0

order: three in a row                              | 3 | 0 1, 1 2
order: 0 in the middle of three                    | 3 | 0 1, 0 2
order: 2 in the middle of three                    | 3 | 0 2, 1 2
order: 2 0 3 1 in a row                            | 4 | 2 0, 0 3, 3 1
order: two pairs                                   | 4 | 0 1, 2 3
order: two pairs, crossed                          | 4 | 0 3, 1 2
order: no link before one                          | 3 | 0 1
order: a tail before its ring                      | 4 | 0 1, 1 2, 2 0, 0 3
order: a row before a ring                         | 7 | 0 1, 1 2, 2 3, 3 0, 4 5, 5 6
fill: no pair, a ring with a chord                 | 4 | 0 1, 1 2, 2 3, 3 0, 0 2
fill: one pair of one, a ring                      | 5 | 0 1, 1 2, 2 3, 3 4, 4 0
fill: one pair of three, all but two linked        | 5 | 0 2, 0 3, 0 4, 1 2, 1 3, 1 4, 2 4, 3 4
fill: two pairs of three, a prism                  | 6 | 0 1, 1 2, 2 0, 3 4, 4 5, 5 3, 0 3, 1 4, 2 5
fill: three pairs of three, three to three         | 6 | 0 3, 0 4, 0 5, 1 3, 1 4, 1 5, 2 3, 2 4, 2 5
";

/// Shapes with a coil on each switch and a source at vertex 0, a row for each: name | vertices | links.
const WIRED: &str = "
shape: triangle                                    | 3 | 0 1, 1 2, 2 0
shape: four in a ring                              | 4 | 0 1, 1 2, 2 3, 3 0
shape: five in a ring                              | 5 | 0 1, 1 2, 2 3, 3 4, 4 0
shape: all four linked                             | 4 | 0 1, 0 2, 0 3, 1 2, 1 3, 2 3
shape: all five linked                             | 5 | 0 1, 0 2, 0 3, 0 4, 1 2, 1 3, 1 4, 2 3, 2 4, 3 4
shape: star, its centre live                       | 6 | 0 1, 0 2, 0 3, 0 4, 0 5
shape: star, a leaf live                           | 4 | 3 0, 3 1, 3 2
shape: four in a row                               | 4 | 0 1, 1 2, 2 3
shape: tree                                        | 7 | 0 1, 0 2, 1 3, 1 4, 2 5, 2 6
shape: ladder of three rungs                       | 6 | 0 2, 1 3, 2 4, 3 5, 0 1, 2 3, 4 5
shape: bridge                                      | 4 | 0 1, 0 2, 1 2, 1 3, 2 3
shape: two triangles at one vertex                 | 5 | 0 1, 1 2, 2 0, 2 3, 3 4, 4 2
shape: two triangles apart                         | 6 | 0 1, 1 2, 2 0, 3 4, 4 5, 5 3
shape: two pairs and a vertex alone                | 5 | 0 1, 2 3
";

/// Files, a row for each: name | its numbers of 16 bits; 'x' stands before a byte alone.
const FILES: &str = "
F1: empty input                                    |
F3: nine zero bytes                                | 0 0 0 0 x00
F4: first count 201                                | 201

variables: coil 0, and coils above 255             | 4 0 255 256 65535 0 1 5 0
limit: 200 variables counted, none there           | 200
limit: 500 given formulas counted, none there      | 0 500
limit: 24 vertices counted, none there             | 0 0 24
limit: 400 switches counted, none there            | 0 0 0 400
refusal 2: 256 variables                           | 256
refusal 2: 501 given formulas                      | 0 501
refusal 2: 25 vertices counted, none there         | 0 0 25
refusal 2: 401 switches                            | 0 0 0 401
refusal 2: 65535 switches                          | 0 0 0 65535

refusal 3: coil 1 equal to coil 0                  | 3 5 5 7 0 0 0
refusal 3: coil 1 below coil 0                     | 3 5 4 7 0 0 0
refusal 3: coil 2 equal to coil 1                  | 3 5 6 6 0 0 0
refusal 3: coil 2 between coils 0 and 1            | 3 5 7 6 0 0 0
refusal 3: 0 after 0                               | 2 0 0 0 0 0
refusal 3: 65535 after 65535                       | 2 65535 65535 0 0 0
refusal 3: 255 after 256                           | 2 256 255 0 0 0
refusal 4: kind 65535                              | 0 1 65535 0 0 0 0
refusal 4: kind 257, whose low byte is 1           | 0 1 257 0 0 0 0
refusal 5: a not of itself                         | 0 1 3 2 0 0 0
refusal 5: a not with a second argument of 1       | 0 1 3 0 1 0 0
refusal 5: an argument of 256, whose low byte is 0 | 0 1 1 256 0 0 0
refusal 5: an argument defined by a later formula  | 0 2 1 3 0 3 0 0 0 0
refusal 5: start 2, where nothing is given         | 0 0 1 2 0
refusal 5: a label of 65535, ends equal            | 0 0 1 0 1 0 0 0 65535
refusal 6: a switch, and no vertices               | 0 0 0 1 0 0 0 0
refusal 6: an end of 256, whose low byte is 0      | 0 0 1 0 1 256 0 0 0

refusal 7: one byte                                | 0 0 0 0 x01
refusal 7: a second network                        | 0 0 0 0 0 0 0 0

refusal 1: one byte that no count begins with      | xff
refusal 1: a cut coil before it is compared        | 2 5 x04
refusal 1: a cut formula before its kind is tested | 0 1 9 0 x00
refusal 1: a cut switch before its ends are tested | 0 0 1 0 1 7 7 0 x00
refusal 3: coils before a cut                      | 3 5 5
refusal 3: coils before a count above its limit    | 2 5 5 501
refusal 4: the kind before its arguments           | 0 1 0 9 9 0 0
refusal 5: the first argument before the second    | 0 1 1 9 9 0 0
refusal 5: the argument of a not before a second   | 0 1 3 9 9 0 0
refusal 5: a formula before the vertices' count    | 0 1 2 0 2 25
refusal 5: the first label before the second       | 0 0 1 0 1 0 0 9 9
refusal 6: the first end before the second         | 0 0 1 0 1 7 7 0 0
refusal 6: the second end before the labels        | 0 0 1 0 1 0 7 9 9
";

/// A network with three entries in each section, in which faults are planted.
const SOUND: &str = "7 9 11 | and 2 3, or 5 4, not 6 | 1 0 5 | 0 1 2 3, 1 2 4 5, 2 0 6 7";

/// How entry `i` of a network `n` gets a fault.
type Plant = fn(&mut Network, usize);

/// The faults that each entry of the network above gets.
const FAULTS: [(&str, Plant); 9] = [
    ("4: kind 0, given formula", |n, i| n.givens[i].kind = 0),
    ("4: kind 4, given formula", |n, i| n.givens[i].kind = 4),
    ("5: first argument, given formula", |n, i| {
        n.givens[i].first = 5 + i as u16
    }),
    ("5: second argument, given formula", |n, i| {
        n.givens[i].second = 5 + i as u16
    }),
    ("5: start, vertex", |n, i| n.starts[i] = 8),
    ("6: first end, switch", |n, i| n.switches[i].first = 3),
    ("6: second end, switch", |n, i| n.switches[i].second = 3),
    ("5: first label, switch", |n, i| n.switches[i].there = 8),
    ("5: second label, switch", |n, i| n.switches[i].back = 8),
];

/// All files made by hand.
pub fn files() -> Vec<Named> {
    let networks = rows(NETWORKS, |row| network(row).encode());
    let bare = rows(BARE, |row| bare(&shape(row)).encode());
    let wired = rows(WIRED, |row| wired(&shape(row)).encode());
    let files = rows(FILES, bytes);
    let tables = networks.chain(bare).chain(wired).chain(files);
    tables
        .chain(large())
        .chain(cuts())
        .chain(planted())
        .collect()
}

/// Networks with something of everything, among them one whose work and references are above 255.
pub fn uneven() -> Vec<Named> {
    let large = ("large: all eight linked".to_string(), all_eight().encode());
    let rows = rows(UNEVEN, |row| network(row).encode());
    rows.chain([large]).collect()
}

/// For each of refusals 1 to 7, the first files that are called so.
pub fn faulty(of_each: usize) -> Vec<Named> {
    let files = files();
    let called = |number: u32| {
        let prefix = format!("refusal {number}: ");
        let called = move |(name, _): &&Named| name.starts_with(&prefix);
        files.iter().filter(called).take(of_each).cloned()
    };
    (1..=7).flat_map(called).collect()
}

/// All eight linked, with two coils for each pair, and one pair linked twice.
fn all_eight() -> Network {
    let mut network = wired(&shapes::all_linked(8));
    network.coils = (250..306).collect();
    network.givens = vec![given("not 2")];
    for (index, switch) in (0..).zip(&mut network.switches) {
        (switch.there, switch.back) = (2 + 2 * index, 3 + 2 * index);
    }
    network.switches.push(switch("7 6 58 0"));
    network
}

/// Files at a limit, and one above it.
fn large() -> [Named; 4] {
    let most_variables = Network {
        coils: (1..=MOST_VARIABLES as u16).collect(),
        starts: vec![MOST_VARIABLES as u16 + 1],
        ..Network::default()
    };
    let all_linked = shapes::all_linked(MOST_VERTICES);
    let no_links = |vertices: usize| bare(&shape(&format!("{vertices} |")));
    [
        ("K8: all 24 linked", bare(&all_linked)),
        ("limit: 200 variables", most_variables),
        ("limit: 24 vertices", no_links(MOST_VERTICES)),
        ("refusal 2: 25 vertices", no_links(MOST_VERTICES + 1)),
    ]
    .map(|(name, network)| (name.to_string(), network.encode()))
}

/// The sound network cut before each count and entry, and a byte short of its end.
fn cuts() -> Vec<Named> {
    let sound = network(SOUND);
    let parts = [
        ("variables", "coil", sound.coils.len()),
        ("given formulas", "given formula", sound.givens.len()),
        ("vertices", "vertex", sound.starts.len()),
        ("switches", "switch", sound.switches.len()),
    ];
    let parts = parts.iter().flat_map(|&(section, entry, count)| {
        let entries = (0..count).map(move |index| format!("{entry} {index}"));
        std::iter::once(format!("count of {section}")).chain(entries)
    });
    let ends = sound.beginnings().skip(1).chain([sound.length()]);
    let file = sound.encode();
    let mut files = Vec::new();
    for ((part, begin), end) in parts.zip(sound.beginnings()).zip(ends) {
        // Without a byte it is F1.
        if begin > 0 {
            files.push((format!("refusal 1: before {part}"), file[..begin].to_vec()));
        }
        let inside = file[..end - 1].to_vec();
        files.push((format!("refusal 1: inside {part}"), inside));
    }
    files
}

/// The sound network, with each fault at each entry, and with bytes after it.
fn planted() -> Vec<Named> {
    let sound = network(SOUND);
    let mut files = vec![(
        "all sections: three entries each".to_string(),
        sound.encode(),
    )];
    for (fault, plant) in FAULTS {
        for index in 0..3 {
            let mut network = sound.clone();
            plant(&mut network, index);
            files.push((format!("refusal {fault} {index}"), network.encode()));
        }
    }
    for more in [1, 2] {
        let mut file = sound.encode();
        file.resize(sound.length() + more, 0);
        files.push((format!("refusal 7: bytes after all sections, {more}"), file));
    }
    files
}

/// The shape with labels and starts that are all false.
fn bare(shape: &Shape) -> Network {
    let mut network = wired(shape);
    network.coils.clear();
    network.starts.fill(0);
    for switch in &mut network.switches {
        (switch.there, switch.back) = (0, 0);
    }
    network
}

/// The files of a table, by what follows the name in each row.
fn rows(table: &'static str, file: impl Fn(&str) -> Vec<u8>) -> impl Iterator<Item = Named> {
    let rows = table.lines().filter(|row| !row.is_empty());
    rows.map(move |row| {
        let (name, rest) = row.split_once('|').expect("a row has a name");
        (name.trim().to_string(), file(rest))
    })
}

/// The shape of a row: vertices | links.
fn shape(row: &str) -> Shape {
    let (vertices, links) = row.split_once('|').expect("a shape has vertices and links");
    let ends = entries(links).map(|link| match numbers(link)[..] {
        [first, second] => (usize::from(first), usize::from(second)),
        _ => panic!("'{link}' is no link"),
    });
    Shape {
        vertices: number(vertices.trim()).into(),
        ends: ends.collect(),
    }
}

/// The network of a row: coils | given formulas | starts | switches.
fn network(row: &str) -> Network {
    let columns: Vec<&str> = row.split('|').collect();
    let [coils, givens, starts, switches] = columns[..] else {
        panic!("'{row}' has not four columns")
    };
    Network {
        coils: numbers(coils),
        givens: entries(givens).map(given).collect(),
        starts: numbers(starts),
        switches: entries(switches).map(switch).collect(),
    }
}

fn given(entry: &str) -> Given {
    let (kind, arguments) = entry.split_once(' ').expect("a formula has arguments");
    let (kind, first, second) = match (kind, &numbers(arguments)[..]) {
        ("and", &[first, second]) => (AND, first, second),
        ("or", &[first, second]) => (OR, first, second),
        ("not", &[first]) => (NOT, first, 0),
        _ => panic!("'{entry}' is no formula"),
    };
    Given {
        kind,
        first,
        second,
    }
}

fn switch(entry: &str) -> Switch {
    let [first, second, there, back] = numbers(entry)[..] else {
        panic!("'{entry}' is no switch")
    };
    Switch {
        first,
        second,
        there,
        back,
    }
}

/// What stands between commas.
fn entries(column: &str) -> impl Iterator<Item = &str> {
    column
        .split(',')
        .map(str::trim)
        .filter(|entry| !entry.is_empty())
}

fn number(word: &str) -> u16 {
    word.parse()
        .unwrap_or_else(|_| panic!("'{word}' is no number of 16 bits"))
}

fn numbers(words: &str) -> Vec<u16> {
    words.split_whitespace().map(number).collect()
}

/// The bytes of a row of numbers.
fn bytes(row: &str) -> Vec<u8> {
    let bytes = |word: &str| match word.strip_prefix('x') {
        Some(byte) => vec![u8::from_str_radix(byte, 16).expect("'x' stands before a byte")],
        None => number(word).to_le_bytes().to_vec(),
    };
    row.split_whitespace().flat_map(bytes).collect()
}

#[cfg(test)]
mod tests {
    use super::*;
    use std::collections::HashSet;

    /// The counts of variables, records and vertices, 3, and the figures, of a network's result.
    fn counts(network: &Network) -> [usize; 7] {
        let listing = reference::listing(&network.encode());
        let said = |word: &str| {
            let mut words = listing.split_whitespace();
            words.find(|&other| other == word);
            words.next().unwrap().parse().unwrap()
        };
        let (variables, givens) = (network.coils.len(), network.givens.len());
        let vertices = said("vertices");
        [
            variables,
            said("nodes"),
            vertices,
            3,
            givens,
            said("joins"),
            said("work"),
        ]
    }

    /// What is said of the uneven networks.
    #[test]
    fn uneven_networks_have_something_of_everything() {
        let rows = UNEVEN.lines().filter(|row| !row.is_empty());
        let networks = rows.map(|row| network(row.split_once('|').unwrap().1));
        for network in networks.chain([all_eight()]) {
            let counts = counts(&network);
            let different: HashSet<usize> = counts.into_iter().chain([0]).collect();
            assert_eq!(different.len(), 8, "{counts:?} of {network:?}");
            assert!(network.coils.iter().any(|&coil| coil > 255));
            assert!(network.givens.iter().any(|given| given.kind == NOT));
            let mut switches = network.switches.iter();
            assert!(switches.any(|switch| (switch.there == 0) != (switch.back == 0)));
            let listing = reference::listing(&network.encode());
            assert!(listing.contains(" degree 2\n"), "{listing}");
        }
    }

    /// There are enough files for each number.
    #[test]
    fn every_fault_of_a_file_is_there() {
        assert_eq!(faulty(4).len(), 7 * 4);
    }

    /// A file is refused where its name says so, and with that number.
    #[test]
    fn names_tell_refusals() {
        for (name, file) in files() {
            let listing = reference::listing(&file);
            match name.strip_prefix("refusal ") {
                Some(rest) => {
                    let (number, _) = rest.split_once(':').unwrap();
                    let said = format!("refused {number} at ");
                    assert!(listing.starts_with(&said), "{name}: {listing}");
                }
                None if name.starts_with('F') || name.ends_with("none there") => {}
                None => assert!(listing.starts_with("vertices "), "{name}: {listing}"),
            }
        }
    }
}
