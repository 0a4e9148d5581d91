//! The listing's text (the outline, "The listing and worked examples").

use std::fmt::{self, Write};

use crate::analysis::Analysis;
use crate::formula::Kind;
use crate::Refusal;

/// "lists its analysis".
pub fn text(analysis: &Analysis) -> String {
    let mut text = String::new();
    write_lines(&mut text, analysis).expect("a String takes every write");
    text
}

/// "A refusal prints `refused NUMBER at PLACE` alone".
pub fn refused(refusal: Refusal) -> String {
    format!("refused {} at {}\n", refusal.number, refusal.place)
}

/// "The first line gives the counts", then the pivot, f and vertex lines; "each line ends with a line feed".
fn write_lines(text: &mut String, analysis: &Analysis) -> fmt::Result {
    let network = analysis.network;
    let (vertices, switches) = (network.starts.len(), network.switches.len());
    let (joins, work, nodes) = (analysis.joins, analysis.work, analysis.records().len());
    writeln!(
        text,
        "vertices {vertices} switches {switches} joins {joins} work {work} nodes {nodes}"
    )?;
    for pivot in &analysis.order {
        writeln!(text, "pivot {} degree {}", pivot.vertex, pivot.degree())?;
    }
    for (reference, record) in (2 + network.coils.len()..).zip(analysis.records()) {
        write!(
            text,
            "f {reference} {} {}",
            record.kind.word(),
            record.first
        )?;
        match record.kind {
            Kind::Not => writeln!(text)?,
            Kind::And | Kind::Or => writeln!(text, " {}", record.second)?,
        }
    }
    for (vertex, answer) in analysis.answers.iter().enumerate() {
        writeln!(text, "vertex {vertex} formula {answer}")?;
    }
    Ok(())
}
