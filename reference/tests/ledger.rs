//! The ledger as text and as a program.

mod common;

use common::machine;
use reference::image::to_bytes;
use reference::ledger::ledger;
use reference::Machine;
use std::io::Write;
use std::process::{Command, Stdio};

const EXAMPLE: &str = "\
step pc word clocks cvnz
1 00000000 00010021 9 0000
2 00000001 00050421 9 0001
outside 2 18
";

fn example_image() -> Vec<u8> {
    to_bytes(&Machine::default(), &[0x0001_0021, 0x0005_0421], 1).unwrap()
}

/// What the program prints for these bytes on standard input.
fn program(input: &[u8]) -> String {
    let mut child = Command::new(env!("CARGO_BIN_EXE_ledger"))
        .stdin(Stdio::piped())
        .stdout(Stdio::piped())
        .spawn()
        .unwrap();
    // The program stops reading at its limit, so the pipe may close early.
    let _ = child.stdin.take().unwrap().write_all(input);
    let output = child.wait_with_output().unwrap();
    assert!(output.status.success());
    String::from_utf8(output.stdout).unwrap()
}

#[test]
fn the_example_to_the_byte() {
    assert_eq!(ledger(&example_image()), EXAMPLE);
    assert_eq!(program(&example_image()), EXAMPLE);
}

#[test]
fn sixteen_instructions_at_most() {
    // The word 0 moves r0 to itself and so goes on to the next address.
    let image = to_bytes(&Machine::default(), &[0; 20], 1).unwrap();
    let text = ledger(&image);
    let lines: Vec<&str> = text.lines().collect();
    assert_eq!(lines.len(), 18);
    assert_eq!(lines[16], "16 0000000F 00000000 9 0000");
    assert_eq!(lines[17], "finished 16 144");
    let sixteen = to_bytes(&Machine::default(), &[0; 16], 1).unwrap();
    assert_eq!(ledger(&sixteen), text);
}

#[test]
fn the_word_is_the_one_that_ran() {
    // r1 to the word r0 points at after the fetch, then the word so stored.
    let start = machine(&[(1, 0x0000_3C41)], "1100");
    let image = to_bytes(&start, &[0x0000_0101, 0xDEAD_BEEF], 1).unwrap();
    let due = "step pc word clocks cvnz\n\
               1 00000000 00000101 10 1100\n\
               2 00000001 00003C41 9 0000\n\
               outside 2 19\n";
    assert_eq!(ledger(&image), due);
}

#[test]
fn outside_at_once() {
    let image = to_bytes(&machine(&[(0, 0xABCD)], "0000"), &[5], 1).unwrap();
    assert_eq!(ledger(&image), "step pc word clocks cvnz\noutside 0 0\n");
}

/// The run has the image's own words, not the 4,096 that are lent.
#[test]
fn memory_ends_with_the_image() {
    let image = to_bytes(&Machine::default(), &[0], 1).unwrap();
    assert!(ledger(&image).ends_with("\noutside 1 9\n"));
}

#[test]
fn bad_images() {
    let image = example_image();
    assert_eq!(program(&[]), "refused 8\n");
    assert_eq!(program(&image[..image.len() - 1]), "refused 8\n");
    assert_eq!(program(&[image.as_slice(), &[0]].concat()), "refused 15\n");
    let mut version = image;
    for number in [0, 3, 255] {
        version[3] = number;
        assert_eq!(program(&version), "refused 11\n");
    }
}

/// The ledger has no files, so that the rules of both versions come to the same (CR 1).
#[test]
fn either_version() {
    let mut image = example_image();
    image[3] = 2;
    assert_eq!(ledger(&image), EXAMPLE);
    assert_eq!(program(&image), EXAMPLE);
}

#[test]
fn the_largest_image_and_what_is_beyond() {
    let mut largest = to_bytes(&Machine::default(), &[0; 4_096], 1).unwrap();
    assert_eq!(largest.len(), 16_452);
    assert!(program(&largest).ends_with("\nfinished 16 144\n"));
    largest.push(0);
    assert_eq!(program(&largest), "refused 15\n");
    largest.extend([0; 100_000]);
    assert_eq!(program(&largest), "refused 15\n");
    let beyond = to_bytes(&Machine::default(), &[0; 4_097], 1).unwrap();
    assert_eq!(program(&beyond), "refused 14\n");
}
