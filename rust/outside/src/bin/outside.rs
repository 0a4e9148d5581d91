//! The outside tests: seeded files and damaged files, the proved library against the reference.

use outside::cases::{case, BLOCK, KINDS};
use outside::program;
use outside::run::{check_one, run, Failure};
use outside::tally::Tally;
use std::process::ExitCode;
use std::{env, fs};

const HELP: &str = "\
outside [--files N] [--seed S]   compares the library with the reference on N different files of seed S, and the listing program
outside [--seed S] --one I       compares on case I alone, and shows it
Without options: --files 100000 --seed 1. A difference is printed, its file goes to target/outside/failing.net, and the status is 1.
";

/// What the command line asks for.
struct Options {
    files: usize,
    seed: u64,
    one: Option<u64>,
}

fn main() -> ExitCode {
    let words: Vec<String> = env::args().skip(1).collect();
    if words.iter().any(|word| word == "--help") {
        print!("{HELP}");
        return ExitCode::SUCCESS;
    }
    if let Err(message) = options(&words).and_then(|options| asked(&options)) {
        eprintln!("outside: {message}");
        return ExitCode::FAILURE;
    }
    ExitCode::SUCCESS
}

fn options(words: &[String]) -> Result<Options, String> {
    let mut options = Options {
        files: 100_000,
        seed: 1,
        one: None,
    };
    for pair in words.chunks(2) {
        let wrong = || format!("cannot use '{}'; see --help", pair.join(" "));
        let value: u64 = pair
            .get(1)
            .and_then(|word| word.parse().ok())
            .ok_or_else(wrong)?;
        match pair[0].as_str() {
            "--files" => options.files = value as usize,
            "--seed" => options.seed = value,
            "--one" => options.one = Some(value),
            _ => return Err(wrong()),
        }
    }
    Ok(options)
}

fn asked(options: &Options) -> Result<(), String> {
    jorulbani::ready().map_err(|why| why.to_string())?;
    match options.one {
        Some(number) => show(options.seed, number),
        None => test(options),
    }
}

/// The whole run.
fn test(options: &Options) -> Result<(), String> {
    let Options { files, seed, .. } = *options;
    let tally = run(seed, files).map_err(|failure| report(&failure))?;
    print!("{}", tally.report());
    let missing = tally.missing();
    if !missing.is_empty() {
        let missing = missing.join("; ");
        return Err(format!(
            "too little was seen ({BLOCK} files show everything): {missing}"
        ));
    }
    let (files, comparisons) = (tally.files(), tally.comparisons);
    let kinds = KINDS.len();
    println!(
        "outside: {files} files ({kinds} kinds), {comparisons} comparisons, seed {seed}, all agree"
    );
    let listed = program::check(seed)?;
    println!("outside: the listing program, {listed} files, all agree");
    Ok(())
}

/// One case, shown and compared.
fn show(seed: u64, number: u64) -> Result<(), String> {
    let case = case(seed, number);
    let mut tally = Tally::default();
    println!(
        "case {number} of seed {seed}, kind '{}', {} bytes",
        case.kind_name(),
        case.file.len()
    );
    for line in case.file.chunks(32) {
        let bytes: Vec<String> = line.iter().map(|byte| format!("{byte:02x}")).collect();
        println!("{}", bytes.join(" "));
    }
    print!("the reference lists:\n{}", reference::listing(&case.file));
    check_one(&case, &mut tally).map_err(|difference| report(&Failure { case, difference }))?;
    println!("outside: {} comparisons, all agree", tally.comparisons);
    Ok(())
}

/// What differed in which case; its file is kept.
fn report(failure: &Failure) -> String {
    let Failure { case, difference } = failure;
    let path = outside::root().join(program::FOLDER).join("failing.net");
    let kept = fs::create_dir_all(outside::root().join(program::FOLDER))
        .and_then(|()| fs::write(&path, &case.file));
    let kept = match kept {
        Ok(()) => format!("its file is {}/failing.net", program::FOLDER),
        Err(why) => format!("its file could not be kept: {why}"),
    };
    let (number, seed, kind) = (case.number, case.seed, case.kind_name());
    format!("case {number} of seed {seed}, kind '{kind}': {difference}\n{kept}; again with --seed {seed} --one {number}")
}
