//! Images of both versions: sizes, round trips, and that only what the writer makes is read.

use reference::generate::image::{any_image, image_case, Damage, ImageCase, DAMAGES};
use reference::generate::program::any_program;
use reference::image::{image_size, read, to_bytes, write};
use reference::rng::Rng;
use reference::{Flags, Machine, Refusal};

fn some_machine(rng: &mut Rng) -> Machine {
    Machine {
        registers: [(); 8].map(|()| rng.word()),
        flags: Flags::from_array([(); 4].map(|()| rng.flag())),
    }
}

/// Written and read back with spare room on both sides, which must not change.
fn check_round_trip(machine: &Machine, memory: &[u32], version: u32) {
    let size = image_size(memory.len());
    let mut output = vec![0xEE; size + 5];
    assert_eq!(write(machine, memory, version, &mut output), Ok(size));
    assert_eq!(output[size..], [0xEE; 5]);
    let mut lent = vec![0xDDDD_DDDD; memory.len() + 3];
    let result = read(&output[..size], &mut lent);
    assert_eq!(result.answer, Ok(()));
    assert_eq!(result.machine, *machine);
    assert_eq!(result.words as usize, memory.len());
    assert_eq!(result.version, version);
    assert_eq!(lent[..memory.len()], *memory);
    assert_eq!(lent[memory.len()..], [0xDDDD_DDDD; 3]);
}

#[test]
fn round_trips() {
    let mut rng = Rng::new(10);
    for words in [
        1, 2, 1_023, 1_024, 1_025, 2_047, 2_048, 2_049, 4_096, 70_000,
    ] {
        let memory: Vec<u32> = (0..words).map(|_| rng.word()).collect();
        for version in [1, 2] {
            check_round_trip(&some_machine(&mut rng), &memory, version);
        }
    }
    for i in 0..5_000 {
        let program = any_program(&mut rng);
        check_round_trip(&program.start, &program.memory, 1 + i % 2);
    }
}

/// Version 2 has the layout of version 1 (CR 1).
#[test]
fn versions_differ_in_one_byte() {
    let mut rng = Rng::new(110);
    let memory: Vec<u32> = (0..1_030).map(|_| rng.word()).collect();
    let machine = some_machine(&mut rng);
    let mut first = to_bytes(&machine, &memory, 1).unwrap();
    let second = to_bytes(&machine, &memory, 2).unwrap();
    assert_eq!((first[3], second[3]), (1, 2));
    first[3] = 2;
    assert_eq!(first, second);
}

#[test]
fn the_writer_takes_two_versions() {
    for version in [0, 3, 257, 258, 1 << 31 | 1, u32::MAX] {
        let refused = to_bytes(&Machine::default(), &[7], version);
        assert_eq!(refused, Err(Refusal::WrongVersion), "{version}");
    }
}

#[test]
fn sizes() {
    let due = [
        (1, 63),
        (1_023, 4_151),
        (1_024, 4_155),
        (1_025, 4_162),
        (2_048, 8_254),
        (4_096, 16_452),
        (16_777_216, 67_158_072),
    ];
    for (words, size) in due {
        assert_eq!(image_size(words), size);
    }
}

#[test]
fn bytes_of_a_small_image() {
    let machine = Machine {
        registers: [0x0403_0201, 0, 0, 0, 0, 0, 0, 0x8070_6050],
        flags: Flags::from_array([true, false, false, true]),
    };
    let mut due = vec![0x01, 1, 0, 1];
    due.extend([0x02, 32, 0, 1, 2, 3, 4]);
    due.extend([0; 24]);
    due.extend([0x50, 0x60, 0x70, 0x80]);
    due.extend([0x03, 4, 0, 1, 0, 0, 1]);
    due.extend([0x04, 4, 0, 2, 0, 0, 0]);
    due.extend([0x05, 8, 0, 0x21, 0, 1, 0, 0xEF, 0xCD, 0xAB, 0x89]);
    due.extend([0xFF, 0, 0]);
    assert_eq!(
        to_bytes(&machine, &[0x0001_0021, 0x89AB_CDEF], 1).unwrap(),
        due
    );
}

fn number(image: &[u8], lent: usize) -> Option<u8> {
    let result = read(image, &mut vec![0; lent]);
    result.answer.err().map(|refusal| refusal.number())
}

#[test]
fn every_shorter_and_longer_image_is_refused() {
    for words in [1, 2, 3, 1_025] {
        let memory: Vec<u32> = (0..words as u32).collect();
        let mut image = to_bytes(&Machine::default(), &memory, 2).unwrap();
        for length in 0..image.len() {
            assert_eq!(number(&image[..length], words), Some(8), "{length}");
        }
        assert_eq!(number(&image, words), None);
        for more in [0, 1, 0xFF] {
            image.push(more);
            assert_eq!(number(&image, words), Some(15));
        }
    }
}

#[test]
fn bench_sizes_of_one_word() {
    let mut image = to_bytes(&Machine::default(), &[7], 1).unwrap();
    assert_eq!(image.len(), 63);
    assert_eq!(number(&image, 1), None);
    assert_eq!(number(&image[..62], 1), Some(8));
    image.push(0);
    assert_eq!(number(&image, 1), Some(15));
}

/// Whether all that is no version, register, flag or word is as in an image of this size,
/// the flags are 0 or 1, and the version is 1 or 2.
fn frame_is_whole(bytes: &[u8]) -> bool {
    let words = (1..)
        .find(|&words| image_size(words) >= bytes.len())
        .expect("every size is passed");
    let due = to_bytes(&Machine::default(), &vec![0; words], 1).unwrap();
    let end = bytes.len() - 3;
    due.iter().zip(bytes).enumerate().all(|(at, (due, byte))| {
        let is_register = (7..39).contains(&at);
        let is_word = (53..end).contains(&at) && (at - 53) % (3 + 4 * 1_024) >= 3;
        let is_flag = (42..46).contains(&at);
        let is_version = at == 3 && *byte == 2;
        is_register || is_word || is_version || is_flag && *byte <= 1 || byte == due
    })
}

/// The numbers one kind of damage may lead to.
fn is_due(case: &ImageCase, number: Option<u8>) -> bool {
    match case.damage {
        Damage::None => number.is_none(),
        Damage::Truncated => number == Some(8),
        Damage::Extended => number == Some(15),
        Damage::Tag => number == Some(9),
        Damage::Length => number == Some(10),
        Damage::Version => number == Some(11),
        Damage::FlagByte => number == Some(12),
        Damage::WordCount => matches!(number, Some(8..=10 | 13 | 14)),
        // Accepted exactly where values alone were hit.
        Damage::BitFlips => number.is_none() == frame_is_whole(&case.bytes),
        Damage::ShortMemory => number == Some(14),
    }
}

#[test]
fn damaged_images_get_the_number_due() {
    let mut rng = Rng::new(11);
    for damage in DAMAGES {
        for _ in 0..500 {
            let case = image_case(&mut rng, damage);
            let number = number(&case.bytes, case.lent);
            assert!(is_due(&case, number), "{damage:?} gives {number:?}");
        }
    }
}

/// What is read can be written again to the same bytes, so the writer could
/// have produced it; what is refused leaves memory alone.
#[test]
fn only_what_the_writer_can_produce_is_accepted() {
    let mut rng = Rng::new(12);
    let mut accepted = [0; 2];
    for _ in 0..10_000 {
        let case = any_image(&mut rng);
        let lent: Vec<u32> = (0..case.lent).map(|_| rng.word()).collect();
        let mut memory = lent.clone();
        let result = read(&case.bytes, &mut memory);
        let words = result.words as usize;
        assert_eq!(memory[words..], lent[words..]);
        if result.answer.is_ok() {
            let again = to_bytes(&result.machine, &memory[..words], result.version).unwrap();
            assert_eq!(again, case.bytes);
            accepted[result.version as usize - 1] += 1;
        } else {
            let nothing = (result.machine, result.words, result.version);
            assert_eq!(nothing, (Machine::default(), 0, 0));
        }
    }
    let some = |&times: &u32| (500..5_000).contains(&times);
    assert!(accepted.iter().all(some), "{accepted:?}");
}
