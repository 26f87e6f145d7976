//! The tool that makes images.

mod common;

use common::machine;
use reference::image::{read, to_bytes};
use reference::Machine;
use std::fs;
use std::path::PathBuf;
use std::process::{Command, Output};

fn make_image(arguments: &[&str]) -> Output {
    Command::new(env!("CARGO_BIN_EXE_make_image"))
        .args(arguments)
        .output()
        .unwrap()
}

fn temporary(name: &str) -> PathBuf {
    PathBuf::from(env!("CARGO_TARGET_TMPDIR")).join(name)
}

/// The message on standard error of a call that must fail.
fn complaint(arguments: &[&str]) -> String {
    let output = make_image(arguments);
    assert!(!output.status.success(), "{arguments:?}");
    assert!(output.stdout.is_empty());
    String::from_utf8(output.stderr).unwrap()
}

#[test]
fn words_to_standard_output() {
    let output = make_image(&["00010021", "50421"]);
    assert!(output.status.success());
    let due = to_bytes(&Machine::default(), &[0x0001_0021, 0x0005_0421], 1).unwrap();
    assert_eq!(output.stdout, due);
}

#[test]
fn registers_flags_length_and_files() {
    let source = temporary("words.txt");
    let target = temporary("made.image");
    fs::write(&source, "# a program\n00013C21 0 # two\n\n\tffffffff\n").unwrap();
    let arguments = [
        "--register",
        "1=FFFFFFFF",
        "-r",
        "7=2a",
        "--flags",
        "1001",
        "--words",
        source.to_str().unwrap(),
        "58",
        "--memory",
        "6",
        "--version",
        "2",
        "--output",
        target.to_str().unwrap(),
    ];
    let output = make_image(&arguments);
    assert!(output.status.success() && output.stdout.is_empty());
    let mut memory = [9; 7];
    let result = read(&fs::read(&target).unwrap(), &mut memory);
    assert_eq!((result.answer, result.words), (Ok(()), 6));
    assert_eq!(result.version, 2);
    let due = machine(&[(1, 0xFFFF_FFFF), (7, 0x2A)], "1001");
    assert_eq!(result.machine, due);
    assert_eq!(memory, [0x0001_3C21, 0, 0xFFFF_FFFF, 0x58, 0, 0, 9]);
}

/// The default is 1, and the version is all that differs.
#[test]
fn versions() {
    let image = |arguments: &[&str]| make_image(arguments).stdout;
    let first = image(&["50421"]);
    assert_eq!(image(&["--version", "1", "50421"]), first);
    let mut due = first;
    due[3] = 2;
    assert_eq!(image(&["50421", "--version", "2"]), due);
}

#[test]
fn help() {
    for option in ["-h", "--help"] {
        let output = make_image(&[option]);
        assert!(output.status.success());
        assert!(String::from_utf8(output.stdout).unwrap().contains("Usage:"));
    }
}

#[test]
fn complaints_name_what_is_wrong() {
    let source = temporary("bad.txt");
    fs::write(&source, "0 1\n2 xyz\n").unwrap();
    let source = source.to_str().unwrap();
    let cases: [(&[&str], &str); 16] = [
        (&[], "no words given"),
        (&["12G4"], "'12G4' is not 1 to 8 hexadecimal digits"),
        (&["123456789"], "'123456789' is not 1 to 8"),
        (&["+1"], "'+1' is not 1 to 8"),
        (&["--frobnicate"], "unknown option --frobnicate"),
        (&["0", "-o"], "-o needs a value"),
        (&["0", "-r", "8=0"], "there is no register '8'"),
        (&["0", "-r", "1"], "'1' is not of the form N=HEX"),
        (&["0", "-f", "012"], "flags '012' are not four digits"),
        (&["0", "-f", "0120"], "flags '0120' are not four digits"),
        (&["0", "-m", "0"], "memory '0' is not a number from 1"),
        (&["0", "--version", "0"], "version '0' is neither 1 nor 2"),
        (&["0", "--version", "3"], "version '3' is neither 1 nor 2"),
        (&["0", "--version"], "--version needs a value"),
        (&["0", "1", "-m", "1"], "2 words do not fit a memory of 1"),
        (&["-w", source], "line 2: 'xyz' is not 1 to 8"),
    ];
    for (arguments, part) in cases {
        let message = complaint(arguments);
        assert!(message.contains(part), "{arguments:?}: {message}");
    }
    assert!(complaint(&["-w", "no/such/file"]).contains("cannot read no/such/file"));
}
