//! The analysis (the outline, "Links, order, work" and "The result form") with refusal 9.

use crate::form::{Network, Switch};
use crate::formula::{Formulas, Record, Reference, Search};
use crate::Refusal;

/// A vertex as it was taken from the remaining ones, with its remaining neighbours then, ascending.
pub struct Pivot {
    pub vertex: usize,
    neighbours: Vec<usize>,
}

impl Pivot {
    /// "degree when taken".
    pub fn degree(&self) -> usize {
        self.neighbours.len()
    }
}

/// The finished analysis of one network.
pub struct Analysis<'a> {
    pub network: &'a Network,
    pub order: Vec<Pivot>,
    pub answers: Vec<Reference>,
    pub joins: usize,
    pub work: usize,
    formulas: Formulas,
}

impl<'a> Analysis<'a> {
    /// The analysis, out of no records.
    pub fn of(network: &'a Network) -> Analysis<'a> {
        Analysis::with(network, Formulas::new(network.coils.len()))
    }

    /// The same, with its searches noted.
    pub fn noting(network: &'a Network) -> Analysis<'a> {
        Analysis::with(network, Formulas::noting(network.coils.len()))
    }

    /// Pivots until no vertex remains, then the answers "from last pivot to first".
    fn with(network: &'a Network, formulas: Formulas) -> Analysis<'a> {
        let mut system = System::of(network, formulas);
        let mut order = Vec::with_capacity(network.starts.len());
        while let Some(pivot) = system.choose() {
            system.eliminate(&pivot);
            order.push(pivot);
        }
        for pivot in order.iter().rev() {
            system.substitute(pivot);
        }
        Analysis {
            network,
            order,
            answers: system.value,
            joins: system.joins,
            work: system.work,
            formulas: system.formulas,
        }
    }

    /// The records made, in order: "records that no vertex needs stay".
    pub fn records(&self) -> &[Record] {
        self.formulas.records()
    }

    /// The searches that were noted.
    pub fn searches(&self) -> &[Search] {
        self.formulas.searches()
    }

    /// "Room needed for a result: 16 + 2p + 6(g + joins + work) + 6n bytes".
    pub fn room(&self) -> usize {
        let operations = self.network.given.len() + self.joins + self.work;
        16 + 2 * self.network.coils.len() + 6 * operations + 6 * self.network.starts.len()
    }

    /// "Five sections in this order, each after its count", or 9: "result room too small".
    pub fn bytes(&self, room: usize) -> Result<Vec<u8>, Refusal> {
        let needed = self.room();
        if room < needed {
            return Err(Refusal {
                number: 9,
                place: 0,
            });
        }
        let mut out = Vec::with_capacity(needed);
        write_section(&mut out, self.network.coils.iter().map(|&coil| [coil]));
        let records = self.records().iter();
        write_section(
            &mut out,
            records.map(|r| [r.kind as u16, r.first, r.second]),
        );
        write_section(&mut out, self.answers.iter().map(|&answer| [answer]));
        let order = self.order.iter();
        write_section(
            &mut out,
            order.map(|p| [number(p.vertex), number(p.degree())]),
        );
        let figures = [self.network.given.len(), self.joins, self.work];
        write_section(&mut out, figures.iter().map(|&figure| [number(figure)]));
        Ok(out)
    }
}

/// One section of the result form: its count, then its entries.
fn write_section<const N: usize>(
    out: &mut Vec<u8>,
    entries: impl ExactSizeIterator<Item = [u16; N]>,
) {
    out.extend(number(entries.len()).to_le_bytes());
    for field in entries.flatten() {
        out.extend(field.to_le_bytes());
    }
}

/// "All numbers are again 16 bits".
fn number(value: usize) -> u16 {
    u16::try_from(value).expect("the outline's limits keep every number of a result below 65,536")
}

/// The system under elimination. A label is there exactly where its two vertices are linked.
struct System {
    formulas: Formulas,
    /// The start of each vertex as updated so far; during back substitution it becomes the answer.
    value: Vec<Reference>,
    label: Vec<Vec<Option<Reference>>>,
    remaining: Vec<bool>,
    joins: usize,
    work: usize,
}

impl System {
    /// "Given formulas pass through these rules in order"; then the switches link and join in order.
    fn of(network: &Network, mut formulas: Formulas) -> System {
        let translation = translate(&mut formulas, network.coils.len(), &network.given);
        let translated = |reference: Reference| translation[usize::from(reference)];
        let vertices = network.starts.len();
        let mut system = System {
            formulas,
            value: network.starts.iter().map(|&r| translated(r)).collect(),
            label: vec![vec![None; vertices]; vertices],
            remaining: vec![true; vertices],
            joins: 0,
            work: 0,
        };
        for switch in &network.switches {
            let onward = translated(switch.first_to_second);
            let back = translated(switch.second_to_first);
            system.link(switch, onward, back);
        }
        system
    }

    /// A switch links its unequal ends, "even where a label is 0"; "first end to second end, then back".
    fn link(&mut self, switch: &Switch, onward: Reference, back: Reference) {
        let (first, second) = (switch.first_end, switch.second_end);
        if first != second {
            self.set_or_join(first, second, onward);
            self.set_or_join(second, first, back);
        }
    }

    /// "The first switch of a pair sets both labels. Each later one joins: old or new".
    fn set_or_join(&mut self, from: usize, to: usize, new: Reference) {
        let label = match self.label[from][to] {
            None => new,
            Some(old) => {
                self.joins += 1;
                self.formulas.or(old, new)
            }
        };
        self.label[from][to] = Some(label);
    }

    /// "The vertex with fewest remaining linked vertices; ties go to the lowest number".
    fn choose(&self) -> Option<Pivot> {
        let vertex = (0..self.remaining.len())
            .filter(|&vertex| self.remaining[vertex])
            .min_by_key(|&vertex| self.neighbours(vertex).count())?;
        Some(Pivot {
            vertex,
            neighbours: self.neighbours(vertex).collect(),
        })
    }

    /// The remaining vertices linked to this one, ascending.
    fn neighbours(&self, vertex: usize) -> impl Iterator<Item = usize> + '_ {
        let labels = self.label[vertex].iter().zip(&self.remaining);
        let linked = labels.map(|(label, &remaining)| remaining && label.is_some());
        linked
            .enumerate()
            .filter_map(|(v, linked)| linked.then_some(v))
    }

    /// "start(v) becomes start(v) or (start(pivot) and label(pivot,v)). Then for each other ... u".
    fn eliminate(&mut self, pivot: &Pivot) {
        self.remaining[pivot.vertex] = false;
        for &v in &pivot.neighbours {
            let onward = self.linked(pivot.vertex, v);
            let product = self.and(self.value[pivot.vertex], onward);
            self.value[v] = self.or(self.value[v], product);
            for &u in pivot.neighbours.iter().filter(|&&u| u != v) {
                self.bypass(u, pivot.vertex, v);
            }
        }
    }

    /// "with t = label(u,pivot) and label(pivot,v), label(u,v) becomes label(u,v) or t if linked, else t".
    fn bypass(&mut self, u: usize, pivot: usize, v: usize) {
        // A pivot asks for (u,v) once, so its label is there exactly if it was before this pivot.
        let t = self.and(self.linked(u, pivot), self.linked(pivot, v));
        let label = match self.label[u][v] {
            Some(old) => self.or(old, t),
            None => t,
        };
        self.label[u][v] = Some(label);
    }

    /// "the answer is the start value, then for each u ... : answer or (answer(u) and label(u,pivot))".
    fn substitute(&mut self, pivot: &Pivot) {
        for &u in &pivot.neighbours {
            let product = self.and(self.value[u], self.linked(u, pivot.vertex));
            self.value[pivot.vertex] = self.or(self.value[pivot.vertex], product);
        }
    }

    /// The label from one linked vertex to another.
    fn linked(&self, from: usize, to: usize) -> Reference {
        self.label[from][to].expect("links go in both directions")
    }

    /// An and of the elimination: "one work, also when no record results".
    fn and(&mut self, one: Reference, other: Reference) -> Reference {
        self.work += 1;
        self.formulas.and(one, other)
    }

    /// An or of the elimination: "one work, also when no record results".
    fn or(&mut self, one: Reference, other: Reference) -> Reference {
        self.work += 1;
        self.formulas.or(one, other)
    }
}

/// "Their result references may differ from the file's": the result reference of each file reference.
fn translate(formulas: &mut Formulas, variables: usize, given: &[Record]) -> Vec<Reference> {
    let mut translation: Vec<Reference> = (0..number(2 + variables)).collect();
    for formula in given {
        let first = translation[usize::from(formula.first)];
        let second = translation[usize::from(formula.second)];
        translation.push(formulas.ask(formula.kind, first, second));
    }
    translation
}

#[cfg(test)]
mod tests {
    use super::*;
    use crate::tests::{wiring, Xorshift};

    /// The neighbours of a vertex in a plain matrix of links, ascending.
    fn linked_vertices(links: &[Vec<bool>], vertex: usize) -> Vec<usize> {
        (0..links.len()).filter(|&v| links[vertex][v]).collect()
    }

    /// 2d + 2d² − 2f of one vertex; afterwards its neighbours are linked pairwise and it is gone.
    fn cost_of_taking(links: &mut [Vec<bool>], vertex: usize) -> usize {
        let neighbours = linked_vertices(links, vertex);
        let d = neighbours.len();
        let mut f = 0;
        for (i, &u) in neighbours.iter().enumerate() {
            for &v in &neighbours[..i] {
                f += usize::from(!links[u][v]);
                (links[u][v], links[v][u]) = (true, true);
            }
            (links[u][vertex], links[vertex][u]) = (false, false);
        }
        2 * d + 2 * d * d - 2 * f
    }

    /// Random switches on 9 vertices with labels 0 to 3, and the matrix of their links.
    fn random_graph(random: &mut Xorshift) -> (Vec<u8>, Vec<Vec<bool>>) {
        let mut links = vec![vec![false; 9]; 9];
        let mut switches = Vec::new();
        for _ in 0..random.below(25) {
            let [first, second, onward, back] = [9, 9, 4, 4].map(|limit| random.below(limit));
            switches.push([first, second, onward, back]);
            if first != second {
                let (first, second) = (usize::from(first), usize::from(second));
                (links[first][second], links[second][first]) = (true, true);
            }
        }
        let file = wiring(&[7, 9], &[], &[1, 0, 0, 2, 0, 0, 3, 0, 0], &switches);
        (file, links)
    }

    /// Rule M on the matrix: of the vertices not taken yet, the lowest of those with fewest links.
    fn next_by_rule_m(links: &[Vec<bool>], taken: &[(Pivot, usize, usize)]) -> usize {
        (0..links.len())
            .filter(|&vertex| taken.iter().all(|(pivot, ..)| pivot.vertex != vertex))
            .min_by_key(|&vertex| linked_vertices(links, vertex).len())
            .unwrap()
    }

    /// "A pivot with d neighbours, of which f unordered pairs are not linked, costs 2d + 2d² − 2f".
    #[test]
    fn order_and_work_of_each_pivot() {
        let mut random = Xorshift::new();
        for _ in 0..100 {
            let (file, mut links) = random_graph(&mut random);
            let mut system = System::of(&Network::read(&file).unwrap(), Formulas::new(2));
            let mut costs = Vec::new();
            while let Some(pivot) = system.choose() {
                assert_eq!(pivot.vertex, next_by_rule_m(&links, &costs));
                assert_eq!(pivot.neighbours, linked_vertices(&links, pivot.vertex));
                let before = system.work;
                system.eliminate(&pivot);
                let expected = cost_of_taking(&mut links, pivot.vertex);
                costs.push((pivot, system.work - before, expected));
            }
            assert_eq!(costs.len(), 9);
            for (pivot, forward, expected) in costs.iter().rev() {
                let before = system.work;
                system.substitute(pivot);
                assert_eq!(forward + system.work - before, *expected);
            }
        }
    }
}
