//! The fields of the instruction word, which both machines share.

mod common;

use common::{flags, machine, HALTING};
use reference::rng::Rng;
use reference::{gate_run, is_instruction, run};
use reference::{Flags, GateState, Instruction, Operand, RunResult};

#[test]
fn fields_are_at_their_bits() {
    let none = Instruction::decode(0);
    assert_eq!((none.a, none.b), (Operand::Direct(0), Operand::Direct(0)));
    assert_eq!(none.permit, flags("0000"));
    assert!(!none.is_move && none.operation == 0);

    assert_eq!(Instruction::decode(0x0000_0007).a, Operand::Direct(7));
    assert_eq!(Instruction::decode(0x0000_000B).a, Operand::Indirect(3));
    assert_eq!(Instruction::decode(0x0000_0015).a, Operand::Before(5));
    assert_eq!(Instruction::decode(0x0000_0019).a, Operand::After(1));
    assert_eq!(Instruction::decode(0x0000_00E0).b, Operand::Direct(7));
    assert_eq!(Instruction::decode(0x0000_0160).b, Operand::Indirect(3));
    assert_eq!(Instruction::decode(0x0000_02A0).b, Operand::Before(5));
    assert_eq!(Instruction::decode(0x0000_0320).b, Operand::After(1));
    assert_eq!(Instruction::decode(0x0000_0400).permit, flags("0001"));
    assert_eq!(Instruction::decode(0x0000_0800).permit, flags("0010"));
    assert_eq!(Instruction::decode(0x0000_1000).permit, flags("0100"));
    assert_eq!(Instruction::decode(0x0000_2000).permit, flags("1000"));
    assert!(Instruction::decode(0x0000_8000).is_move);
    assert_eq!(Instruction::decode(0x0009_0000).operation, 9);
}

#[test]
fn halting_bits_are_in_no_field() {
    for bit in HALTING {
        assert_eq!(Instruction::decode(bit), Instruction::decode(0));
    }
}

/// The words that are instructions are those that decoding and encoding keep.
#[test]
fn a_word_with_a_halting_bit_is_no_instruction() {
    let fields = !HALTING.iter().fold(0, |bits, bit| bits | bit);
    assert_eq!(fields.count_ones(), 19);
    assert!(is_instruction(0) && is_instruction(fields));
    for bit in HALTING {
        assert!(!is_instruction(bit) && !is_instruction(fields | bit));
    }
    let mut rng = Rng::new(34);
    for _ in 0..10_000 {
        let word = rng.word() & (rng.word() | fields);
        let kept = Instruction::decode(word).encode() == word;
        assert_eq!(is_instruction(word), kept, "{word:08X}");
    }
}

#[test]
fn encoding_is_undone_by_decoding() {
    let mut rng = Rng::new(19);
    for _ in 0..10_000 {
        let word = rng.word();
        let instruction = Instruction::decode(word);
        assert_eq!(instruction.encode(), word & 0x000F_BFFF);
        assert_eq!(Instruction::decode(instruction.encode()), instruction);
    }
}

/// One instruction with r1 = 7 and the other registers 0, in both machines.
fn in_both(word: u32, before: Flags) -> RunResult {
    let mut start = machine(&[(1, 7)], "0000");
    start.flags = before;
    let result = run(&mut [word], 0, &[], 0, start, 1);
    let gates = |clocks| gate_run(&mut [word], 0, &[], &[], GateState::start(start), clocks);
    assert_eq!(gates(result.clocks - 1).finished, 0);
    let whole = gates(result.clocks);
    assert_eq!(whole.finished, 1);
    assert_eq!(whole.state.machine(), result.machine);
    result
}

/// On r1 and r2: with the move bit 0 the result is stored always, with 1 under
/// the operation's condition. A store is one clock more.
#[test]
fn conditions() {
    for bits in 0..16 {
        let [c, v, n, z] = [8, 4, 2, 1].map(|bit| bits & bit != 0);
        let before = Flags::from_array([c, v, n, z]);
        let due = [!c, c, !v, v, !z, z, !n, n];
        for operation in 0..16 {
            let word = (operation as u32) << 16 | 0x0041;
            assert_eq!(in_both(word, before).clocks, 9, "{operation} {bits:b}");
            let stored = due.get(operation).copied().unwrap_or(true);
            let moved = in_both(word | 0x8000, before);
            let (clocks, r2) = if stored { (9, 7) } else { (8, 0) };
            assert_eq!(moved.clocks, clocks, "move {operation} {bits:b}");
            assert_eq!(moved.machine.registers[2], r2);
            assert_eq!(moved.machine.flags, before);
        }
    }
}

/// Every set of permits, with all flags 0 and all flags 1 before.
#[test]
fn permits() {
    // r1 + r2 is zero with carry and overflow, r3 + r4 negative without.
    let top = 0x8000_0000;
    let registers = [(1, top), (2, top), (3, top)];
    let flags_after = |word: u32, before| {
        let result = run(&mut [word], 0, &[], 0, machine(&registers, before), 1);
        result.machine.flags
    };
    for permitted in 0..16 {
        let [z, n, v, c] = [1, 2, 4, 8].map(|bit| permitted & bit != 0);
        let zero = 0x0003_0041 | permitted << 10;
        let due = Flags::from_array([c, v, false, z]);
        assert_eq!(flags_after(zero, "0000"), due);
        let due = Flags::from_array([true, true, !n, true]);
        assert_eq!(flags_after(zero, "1111"), due);
        let negative = 0x0003_0083 | permitted << 10;
        let due = Flags::from_array([false, false, n, false]);
        assert_eq!(flags_after(negative, "0000"), due);
        let due = Flags::from_array([!c, !v, true, !z]);
        assert_eq!(flags_after(negative, "1111"), due);
    }
}

/// A move passes a on with C and V 0, whatever its operation field.
#[test]
fn moves_clear_permitted_carry_and_overflow() {
    for condition in 0..16 {
        let word = condition << 16 | 0xBC41;
        let start = machine(&[(1, 0xFFFF_FFFF), (2, 0xFFFF_FFFF)], "1111");
        let result = run(&mut [word], 0, &[], 0, start, 1);
        assert_eq!(result.machine.flags, flags("0010"));
    }
}
