//! The benchmark: the proved library and the reference on the same files.

use outside::cards::{cards, growing, Card};
use outside::looked::looked;
use outside::timing::{figures, stacks, Figures, EMULATED, ROUNDS};
use std::env::consts::ARCH;
use std::env::var;
use std::process::ExitCode;

fn main() -> ExitCode {
    match bench() {
        Ok(()) => ExitCode::SUCCESS,
        Err(message) => {
            eprintln!("bench: {message}");
            ExitCode::FAILURE
        }
    }
}

fn bench() -> Result<(), String> {
    jorulbani::ready().map_err(|why| why.to_string())?;
    heading();
    let (cards, growing) = (cards(), growing());
    println!("\nCards");
    table(&cards)?;
    println!("\nGrowth with the vertices, every pair linked");
    table(&growing)?;
    println!("\nSearches for an existing record in one analysis, counted in the reference, which itself hashes");
    searches(cards.iter().chain(&growing))?;
    let [analyse, direct, list] = stacks(&cards[cards.len() - 1].file);
    println!("\nBytes of stack that one call of the library uses at the limit: analyse {analyse}, direct {direct}, list {list}.");
    Ok(())
}

/// What is compared, and where. `./bench` names the machine where it has both sides built for another one.
fn heading() {
    let machine = var("BENCH_MACHINE");
    println!(
        "Machine: {}. Compared: one analysis of a file in memory, by the proved library and by the reference.",
        machine.as_deref().unwrap_or(ARCH)
    );
    println!("Each time is the best of {ROUNDS} rounds after a warm-up. An operation is one work or one join.");
    if EMULATED {
        println!("NO RATIO IS GIVEN: the library is x86-64 code and runs under an emulator here, inside which its times are taken. The");
        println!("reference is native {ARCH} code. With Rust's standard library for x86-64 ./bench runs both under the emulator.");
    } else if machine.is_ok() {
        println!("Both are called in this process, as {ARCH} code that tools/launch runs: under the kit's emulator where the machine is no x86-64.");
    } else {
        println!("Both are called in this process, as native {ARCH} code.");
    }
}

/// A line for each card.
fn table(cards: &[Card]) -> Result<(), String> {
    println!(
        "{:52}{:^30}{:^30}{:>12}",
        "", "library", "reference", "time ratio"
    );
    println!(
        "{:20}{:>10}{:>10}{:>12}{side}{side}{:>12}",
        "",
        "work",
        "joins",
        "records",
        "lib./ref.",
        side = format_args!("{:>10}{:>10}{:>10}", "µs/file", "files/s", "ns/op."),
    );
    for card in cards {
        let figures = figures(&card.file).map_err(|why| format!("{}: {why}", card.name))?;
        line(&card.name, &figures);
    }
    Ok(())
}

/// The records looked at, a line for each card; the last column is the library's way.
fn searches<'a>(cards: impl Iterator<Item = &'a Card>) -> Result<(), String> {
    println!("{:40}{:>40}", "", "records looked at from the");
    println!("{:64}{:^30}", "", "to the larger argument from the");
    println!(
        "{:20}{:>10}{:>10}{:>12}{:>12}{:>15}{:>15}",
        "", "searches", "found", "first on", "newest on", "newest", "bucket's"
    );
    for card in cards {
        let name = &card.name;
        let looked = looked(&card.file).map_err(|why| format!("{name}: {why}"))?;
        print!("{name:20}{:>10}{:>10}", looked.searches, looked.found);
        print!("{:>12}{:>12}", looked.first_on, looked.newest_on);
        println!("{:>15}{:>15}", looked.to_argument, looked.in_bucket);
    }
    Ok(())
}

fn line(name: &str, figures: &Figures) {
    let Figures {
        work,
        joins,
        records,
        ..
    } = figures;
    print!("{name:20}{work:>10}{joins:>10}{records:>12}");
    for nanoseconds in [figures.library_nanoseconds, figures.reference_nanoseconds] {
        let each = nanoseconds / figures.operations() as f64;
        print!(
            "{:>10.1}{:>10.0}{each:>10.1}",
            nanoseconds / 1e3,
            1e9 / nanoseconds
        );
    }
    if EMULATED {
        println!("{:>12}", "none");
        return;
    }
    println!(
        "{:>12.2}",
        figures.library_nanoseconds / figures.reference_nanoseconds
    );
}
