//! Cases that generated ones seldom meet, each for a fault it would show.

use super::{images, programs};
use reference::generate::program::Program;
use reference::image::to_bytes;
use reference::rng::Rng;
use reference::{Flags, Instruction, Machine, Operand};

const ALL: Flags = Flags {
    carry: true,
    overflow: true,
    negative: true,
    zero: true,
};

const CARRY: Flags = Flags {
    carry: true,
    overflow: false,
    negative: false,
    zero: false,
};

/// Of storing: operations, settings of the flags, move bits, places of B.
const SETTINGS: u32 = 16 * 16 * 2 * 2;

/// None, the instruction alone, the word that is stored to as well, and all four.
const BOTTOMS: [u32; 4] = [0, 1, 2, 4];

/// What the cases did, as of generated ones.
#[derive(Default)]
pub struct Tally {
    pub programs: programs::Tally,
    pub images: images::Tally,
}

/// Returns how many cases there are.
pub fn check(rng: &mut Rng, tally: &mut Tally) -> Result<usize, String> {
    let mut programs = borders();
    programs.push(a_put_back());
    programs.extend((0..SETTINGS).map(storing));
    for program in &mut programs {
        for bottom in BOTTOMS {
            program.bottom = bottom;
            programs::check_program(rng, program, &mut tally.programs)?;
        }
    }
    let images = [two_faults(), versions()].concat();
    for bytes in &images {
        images::check_image(rng, bytes, 4, &mut tally.images)?;
    }
    Ok(programs.len() * BOTTOMS.len() + images.len())
}

/// Operations 1 to 7 where carry and overflow turn, with the carry set.
fn borders() -> Vec<Program> {
    const PAIRS: [(u32, u32); 6] = [
        (1, 0x8000_0000),
        (0x8000_0000, 0),
        (0x8000_0000, 0x7FFF_FFFF),
        (0x7FFF_FFFF, 0x7FFF_FFFF),
        (0xFFFF_FFFF, 0x7FFF_FFFF),
        (0xFFFF_FFFF, 0xFFFF_FFFF),
    ];
    let mut programs = Vec::new();
    for operation in 1..=7 {
        for (a, b) in PAIRS {
            programs.push(one_instruction(
                Instruction {
                    a: Operand::Direct(1),
                    b: Operand::Direct(2),
                    permit: ALL,
                    is_move: false,
                    operation,
                },
                [0, a, b, 0, 0, 0, 0, 0],
                CARRY,
            ));
        }
    }
    programs
}

/// B is outside after A's register has stepped down: it must be put back.
fn a_put_back() -> Program {
    let instruction = Instruction {
        a: Operand::Before(3),
        b: Operand::Before(4),
        permit: ALL,
        is_move: false,
        operation: 3,
    };
    one_instruction(instruction, [0, 0, 0, 2, 100, 0, 0, 0], CARRY)
}

/// Whether the result is stored: each operation under both move bits and all
/// settings of the flags, with B in a register and in memory, 9 in both. No
/// result is 9.
fn storing(setting: u32) -> Program {
    let bit = |number: u32| setting >> number & 1 == 1;
    let instruction = Instruction {
        a: Operand::Direct(1),
        b: if bit(9) {
            Operand::Indirect(3)
        } else {
            Operand::Direct(2)
        },
        permit: ALL,
        is_move: bit(8),
        operation: (setting & 15) as u8,
    };
    let flags = Flags::from_array([4, 5, 6, 7].map(bit));
    one_instruction(instruction, [0, 7, 9, 1, 0, 0, 0, 0], flags)
}

fn one_instruction(instruction: Instruction, registers: [u32; 8], flags: Flags) -> Program {
    Program {
        memory: vec![instruction.encode(), 9, 0, 0],
        bottom: 0,
        waits: Vec::new(),
        position: 0,
        start: Machine { registers, flags },
        count: 1,
    }
}

/// Two faults in one field: the tag comes before the length, the length before the value.
fn two_faults() -> Vec<Vec<u8>> {
    let places = [[0, 1], [4, 5], [39, 40], [47, 49], [1, 3], [40, 42]];
    places.map(|places| changed(&places, 0x40)).to_vec()
}

/// Every byte in the place of the version.
fn versions() -> Vec<Vec<u8>> {
    (0..=255).map(|mask| changed(&[3], mask)).collect()
}

/// An image with the bits of the mask changed in these bytes.
fn changed(places: &[usize], mask: u8) -> Vec<u8> {
    let image = to_bytes(&Machine::default(), &[0x0001_0021, 5], 1);
    let mut bytes = image.expect("two words make an image");
    for &place in places {
        bytes[place] ^= mask;
    }
    bytes
}
