//! The command-line tool, run as a program.

mod worked;

use std::fs::{self, File};
use std::io::Write;
use std::path::{Path, PathBuf};
use std::process::{Command, Output, Stdio};
use worked::{bytes, example_l, result_of_l, LISTING_OF_L};

/// A folder of one test's own, empty.
fn folder(test: &str) -> PathBuf {
    let folder = Path::new(env!("CARGO_TARGET_TMPDIR")).join(test);
    let _ = fs::remove_dir_all(&folder);
    fs::create_dir_all(&folder).unwrap();
    folder
}

fn names(folder: &Path) -> Vec<String> {
    let mut names: Vec<String> = fs::read_dir(folder)
        .unwrap()
        .map(|entry| entry.unwrap().file_name().into_string().unwrap())
        .collect();
    names.sort();
    names
}

/// The tool, run in a folder.
fn tool(folder: &Path, words: &[&str]) -> Command {
    let mut command = Command::new(env!("CARGO_BIN_EXE_jorulbani"));
    command.current_dir(folder).args(words).stdin(Stdio::null());
    command
}

/// The tool, run with a network on its standard input.
fn fed(folder: &Path, words: &[&str], network: &[u8]) -> Output {
    let mut child = tool(folder, words)
        .stdin(Stdio::piped())
        .stdout(Stdio::piped())
        .stderr(Stdio::piped())
        .spawn()
        .unwrap();
    child.stdin.take().unwrap().write_all(network).unwrap();
    child.wait_with_output().unwrap()
}

#[track_caller]
fn check(output: Output, status: i32, on_output: &str, on_error: &str) {
    assert_eq!(String::from_utf8(output.stderr).unwrap(), on_error);
    assert_eq!(String::from_utf8(output.stdout).unwrap(), on_output);
    assert_eq!(output.status.code(), Some(status));
}

#[test]
fn lists_a_network() {
    let folder = folder("list");
    fs::write(folder.join("l"), example_l()).unwrap();
    let output = tool(&folder, &["list", "l"]).output().unwrap();
    check(output, 0, LISTING_OF_L, "");
    check(
        fed(&folder, &["list", "-"], &example_l()),
        0,
        LISTING_OF_L,
        "",
    );
    let empty = "vertices 0 switches 0 joins 0 work 0 nodes 0\n";
    check(fed(&folder, &["list", "-"], &[0; 8]), 0, empty, "");
}

#[test]
fn analyses_a_network() {
    let folder = folder("analyse");
    fs::write(folder.join("l"), example_l()).unwrap();
    fs::write(folder.join("there"), "something older").unwrap();
    for result in ["new", "there", "./dotted"] {
        let output = tool(&folder, &["analyse", "l", "-o", result])
            .output()
            .unwrap();
        check(output, 0, "", "");
        assert_eq!(fs::read(folder.join(result)).unwrap(), result_of_l());
    }
    let output = fed(&folder, &["analyse", "-", "-o", "fed"], &example_l());
    check(output, 0, "", "");
    assert_eq!(fs::read(folder.join("fed")).unwrap(), result_of_l());
    assert_eq!(names(&folder), ["dotted", "fed", "l", "new", "there"]);
}

#[test]
fn answers_for_one_setting() {
    let folder = folder("direct");
    let answer = |setting| {
        fed(
            &folder,
            &["direct", "-", "--setting", setting],
            &example_l(),
        )
    };
    check(answer("10"), 0, "vertex 0 1\nvertex 1 1\nvertex 2 0\n", "");
    check(answer("01"), 0, "vertex 0 1\nvertex 1 0\nvertex 2 0\n", "");
    check(answer("11"), 0, "vertex 0 1\nvertex 1 1\nvertex 2 1\n", "");
    let output = fed(&folder, &["direct", "-", "--setting", ""], &[0; 8]);
    check(output, 0, "", "");
}

#[test]
fn says_why_a_network_is_refused() {
    let cases: [(Vec<u8>, &str); 8] = [
        (vec![], "refused 1 at 0: file ends inside or before a count or entry (the count or entry that starts at byte 0)"),
        (bytes(&[201]), "refused 2 at 0: count above its limit (the count at byte 0)"),
        (bytes(&[2, 9, 9]), "refused 3 at 4: coil number not above the one before (the number at byte 4)"),
        (bytes(&[0, 1, 4, 0, 0]), "refused 4 at 4: kind not 1, 2 or 3 (the kind at byte 4)"),
        (
            bytes(&[2, 7, 9, 1, 1, 2, 4]),
            "refused 5 at 12: reference not defined there, or second argument of not is not 0 (the number at byte 12)",
        ),
        (bytes(&[0, 0, 1, 1, 1, 0, 1, 0, 0]), "refused 6 at 12: switch end is not a vertex (the number at byte 12)"),
        (vec![0; 9], "refused 7 at 8: bytes after the switches (the first at byte 8)"),
        ([example_l(), vec![0; 100_000]].concat(), "refused 7 at 34: bytes after the switches (the first at byte 34)"),
    ];
    let folder = folder("refused");
    for (network, refusal) in cases {
        fs::write(folder.join("n"), network).unwrap();
        let line = format!("jorulbani: n: {refusal}\n");
        let commands: [&[&str]; 3] = [
            &["list", "n"],
            &["analyse", "n", "-o", "result"],
            &["direct", "n", "--setting", ""],
        ];
        for words in commands {
            check(tool(&folder, words).output().unwrap(), 1, "", &line);
        }
    }
    assert_eq!(names(&folder), ["n"]);
}

#[test]
fn says_why_a_setting_is_refused() {
    let folder = folder("setting");
    let answer = |setting| {
        fed(
            &folder,
            &["direct", "-", "--setting", setting],
            &example_l(),
        )
    };
    let length = "jorulbani: standard input: refused 10 at 0: setting's length is not the number of variables\n";
    check(answer("1"), 1, "", length);
    check(answer("101"), 1, "", length);
    check(answer("2222"), 1, "", length);
    let byte = |index| {
        format!("jorulbani: standard input: refused 11 at {index}: setting byte not 0 or 1 (index {index} of the setting)\n")
    };
    check(answer("x2"), 1, "", &byte(0));
    check(answer("1é"), 1, "", &byte(1));
}

#[test]
fn a_refusal_leaves_an_older_result() {
    let folder = folder("older");
    fs::write(folder.join("result"), "older").unwrap();
    let output = fed(&folder, &["analyse", "-", "-o", "result"], &[0; 9]);
    assert_eq!(output.status.code(), Some(1));
    assert_eq!(fs::read(folder.join("result")).unwrap(), b"older");
    assert_eq!(names(&folder), ["result"]);
}

#[test]
fn a_result_that_cannot_be_written_leaves_nothing() {
    let folder = folder("unwritable");
    fs::write(folder.join("l"), example_l()).unwrap();
    fs::create_dir(folder.join("inner")).unwrap();
    // No such folder; a folder that is a file; a result that is a folder; a name that only a folder can have, found when renaming.
    for result in ["nowhere/result", "l/result", "inner", "inner/result/"] {
        let output = tool(&folder, &["analyse", "l", "-o", result])
            .output()
            .unwrap();
        let said = String::from_utf8(output.stderr).unwrap();
        assert!(
            said.starts_with(&format!("jorulbani: {result}: cannot write: ")),
            "{said}"
        );
        assert_eq!(said.lines().count(), 1);
        assert!(output.stdout.is_empty());
        assert_eq!(output.status.code(), Some(2));
    }
    assert_eq!(names(&folder), ["inner", "l"]);
    assert!(names(&folder.join("inner")).is_empty());
    assert_eq!(fs::read(folder.join("l")).unwrap(), example_l());
}

#[test]
fn a_network_that_cannot_be_read_is_named() {
    let folder = folder("unreadable");
    for network in ["nowhere", "."] {
        let output = tool(&folder, &["list", network]).output().unwrap();
        let said = String::from_utf8(output.stderr).unwrap();
        assert!(
            said.starts_with(&format!("jorulbani: {network}: cannot read: ")),
            "{said}"
        );
        assert!(output.stdout.is_empty());
        assert_eq!(output.status.code(), Some(2));
    }
}

/// Every section at its limit, and every formula false.
fn longest() -> Vec<u8> {
    let variables: Vec<u16> = (1..=200).collect();
    let given = [1, 0, 0].repeat(500);
    let switches = [0, 1, 0, 0].repeat(400);
    let sections: [&[u16]; 8] = [
        &[200],
        &variables,
        &[500],
        &given,
        &[24],
        &[0; 24],
        &[400],
        &switches,
    ];
    bytes(&sections.concat())
}

#[test]
fn no_more_is_read_than_tells_the_outcome() {
    let folder = folder("longest");
    let setting = "0".repeat(200);
    let words = ["direct", "n", "--setting", &setting];
    let answer = |network: Vec<u8>| {
        fs::write(folder.join("n"), network).unwrap();
        tool(&folder, &words).output().unwrap()
    };
    let lines: String = (0..24).map(|v| format!("vertex {v} 0\n")).collect();
    assert_eq!(longest().len(), 6_656);
    check(answer(longest()), 0, &lines, "");

    let line =
        "jorulbani: n: refused 7 at 6656: bytes after the switches (the first at byte 6656)\n";
    check(answer([longest(), vec![0]].concat()), 1, "", line);
    check(answer([longest(), vec![0; 10_000]].concat()), 1, "", line);
}

#[cfg(target_os = "linux")]
#[test]
fn a_network_without_end_is_refused() {
    let output = tool(&folder("endless"), &["list", "/dev/zero"])
        .output()
        .unwrap();
    let line =
        "jorulbani: /dev/zero: refused 7 at 8: bytes after the switches (the first at byte 8)\n";
    check(output, 1, "", line);
}

#[test]
fn wrong_usage_is_named_with_a_hint() {
    let folder = folder("usage");
    let wrong: [(&[&str], &str); 5] = [
        (&[], "no command is given"),
        (&["liste", "l"], "unknown command \"liste\""),
        (&["analyse", "l"], "\"-o\" is missing"),
        (
            &["analyse", "l", "-o", "r", "-o", "r"],
            "\"-o\" is given twice",
        ),
        (&["list", "l", "m"], "unexpected word \"m\""),
    ];
    for (words, message) in wrong {
        let said = format!("jorulbani: {message}\nTry 'jorulbani --help'.\n");
        check(tool(&folder, words).output().unwrap(), 2, "", &said);
    }
    assert!(names(&folder).is_empty());
}

#[test]
fn help_and_version_are_printed() {
    let folder = folder("help");
    for word in ["--help", "-h", "help"] {
        let output = tool(&folder, &[word]).output().unwrap();
        let text = String::from_utf8(output.stdout).unwrap();
        for usage in [
            "jorulbani list NETWORK",
            "jorulbani analyse NETWORK -o RESULT",
            "jorulbani direct NETWORK --setting",
        ] {
            assert!(text.contains(usage), "{usage} is not in {text}");
        }
        assert!(output.stderr.is_empty());
        assert_eq!(output.status.code(), Some(0));
    }
    let version = concat!("jorulbani ", env!("CARGO_PKG_VERSION"), "\n");
    check(
        tool(&folder, &["--version"]).output().unwrap(),
        0,
        version,
        "",
    );
}

#[test]
fn a_closed_pipe_is_no_failure() {
    let mut child = tool(&folder("pipe"), &["list", "-"])
        .stdin(Stdio::piped())
        .stdout(Stdio::piped())
        .stderr(Stdio::piped())
        .spawn()
        .unwrap();
    // The tool writes only once its input has ended, and by then nobody reads.
    drop(child.stdout.take());
    child.stdin.take().unwrap().write_all(&example_l()).unwrap();
    check(child.wait_with_output().unwrap(), 0, "", "");
}

#[cfg(target_os = "linux")]
#[test]
fn a_full_device_is_told() {
    let full = File::options().write(true).open("/dev/full").unwrap();
    let output = tool(&folder("full"), &["--help"])
        .stdout(full)
        .output()
        .unwrap();
    let said = String::from_utf8(output.stderr).unwrap();
    assert!(
        said.starts_with("jorulbani: standard output: cannot write: "),
        "{said}"
    );
    assert_eq!(output.status.code(), Some(2));
}

#[cfg(target_os = "linux")]
#[test]
fn a_device_is_not_replaced() {
    let output = fed(
        &folder("device"),
        &["analyse", "-", "-o", "/dev/null"],
        &example_l(),
    );
    let said =
        "jorulbani: /dev/null: cannot write: it is there already and is not a regular file\n";
    check(output, 2, "", said);
}

#[cfg(not(target_arch = "x86_64"))]
#[test]
fn a_bridge_that_cannot_run_is_told() {
    let folder = folder("bridge");
    fs::write(folder.join("l"), example_l()).unwrap();
    for (program, message) in [
        (
            "./nowhere",
            "jorulbani: cannot start the bridge \"./nowhere\": ",
        ),
        ("false", "jorulbani: the bridge ended with exit status: 1: "),
    ] {
        let output = tool(&folder, &["list", "l"])
            .env("JORULBANI_BRIDGE", program)
            .output()
            .unwrap();
        let said = String::from_utf8(output.stderr).unwrap();
        assert!(said.starts_with(message), "{said}");
        assert_eq!(output.status.code(), Some(2));
    }
}
