"""Stacks the traces of an image under a wait list, rolls a file back, runs into a word that is
no instruction, stores into a loader on a board that holds it, and on one that does not,
restarts a drifted sledge by its reset line, and runs the files of a line as a traverse under
either rule.

Usage: example.py FOLDER, the folder of the example images.
"""

import copy
import sys
from array import array
from pathlib import Path

import fm8502

INSTRUCTIONS = 90
TRACE_COUNT = 0x0F
ACCUMULATORS = slice(0x10, 0x18)
# of loader.image; as many accumulators lie behind it
LOADER_WORDS = 4
# a clock on which restart.image is stuck, and the first part of the instructions after it
RESET = 1000
FIRST_PART = 40
RESTARTED_ACCUMULATORS = slice(0x14, 0x18)
# places of a journal for line.files under rule 2: too few for the addresses that are stored to
SHORT = 17
# of line.image
FILE_COUNT = 0x0B
PROFILE = slice(0x0C, 0x0F)


def words(values):
    return "".join(f" {value:08X}" for value in values)


def load(folder, name):
    machine, memory, rule = fm8502.read_image((folder / name).read_bytes(), 4096)
    print(f"{name}: {len(memory)} words")
    return memory, machine, rule


def load_files(path):
    """A file on each line: place, number of words, entry, instruction count, and its words."""
    files = []
    for line in path.read_text().splitlines():
        place, length, entry, count, *laid = (int(number, 16) for number in line.split())
        files.append(fm8502.File(place, laid[:length], entry, count))
    return files


def run(memory, waits, machine, bottom=0, name="run", position=0):
    ran = fm8502.run(memory, waits, machine, INSTRUCTIONS, bottom=bottom, position=position)
    ending = "finished" if ran.finished else "no instruction" if ran.halted else "outside"
    print(f"{name}: {ending}, {ran.ran} instructions, {ran.clocks} clocks")
    return ran


def run_gates(memory, waits, machine, clocks, bottom=0, resets=()):
    state = fm8502.GateState(machine)
    finished = fm8502.gate_run(memory, waits, state, clocks, bottom=bottom, resets=resets)
    print(f"gate machine: {finished} instructions, row {state.row}")
    return state


def run_file(memory, machine, places, bottom=0, name="file run"):
    """With a journal of so many places, which is returned with the run."""
    journal = array("I", bytes(4 * places))
    ran = fm8502.file_run(memory, journal, machine, INSTRUCTIONS, bottom=bottom)
    ending = "finished" if ran.finished else "journal full" if ran.full else "undone"
    print(f"{name}: {ending}, {ran.ran} instructions, {ran.pairs} pairs")
    return ran, journal


def stack(memory, waits, machine):
    start = memory[:], waits, copy.deepcopy(machine)
    ran = run(memory, waits, machine)
    print("flags", "".join(str(int(flag)) for flag in machine.flags))
    print("registers" + words(machine.registers))
    print("traces", memory[TRACE_COUNT])
    print("accumulators" + words(memory[ACCUMULATORS]))
    run_gates(*start, ran.clocks)


def roll_back(memory, machine):
    former = memory[:], copy.deepcopy(machine)
    ran, journal = run_file(memory, machine, 2 * len(memory))
    print("journal" + words(journal[: 2 * ran.pairs]))
    same = (memory, machine) == former
    print("memory and machine as before:", "yes" if same else "no")
    run_file(memory, machine, 5, name="short journal")


def halt(memory, waits, machine):
    start = memory[:], waits, copy.deepcopy(machine)
    run(memory, waits, machine)
    pc = machine.registers[0]
    print("next" + words([pc, memory[pc]]))
    run_gates(*start, (1 << 64) - 1)


def run_on_board(memory, waits, machine, bottom):
    """Both engines and a file run, each from the start; then a run on the memory that was left."""
    print("bottom", bottom)
    left = memory[:]
    ran = run(left, waits, copy.deepcopy(machine), bottom)
    print("loader" + words(left[:LOADER_WORDS]))
    print("accumulators" + words(left[LOADER_WORDS : 2 * LOADER_WORDS]))
    run_gates(memory[:], waits, copy.deepcopy(machine), ran.clocks, bottom)
    run_file(memory[:], copy.deepcopy(machine), 2 * len(memory), bottom)
    run(left, waits, copy.deepcopy(machine), bottom, name="again")


def store_into_loader(memory, waits, machine):
    for bottom in (LOADER_WORDS, 0):
        run_on_board(memory, waits, machine, bottom)
    past = len(memory) + 1
    try:
        run(memory, waits, machine, past)
    except fm8502.Refused as refused:
        print(f"bottom {past}: refused", refused.number)


def run_in_parts(memory, waits, machine, position):
    """The second part goes on where the first left off."""
    first = fm8502.run(memory, waits, machine, FIRST_PART, position=position)
    rest = INSTRUCTIONS - FIRST_PART
    second = fm8502.run(memory, waits, machine, rest, position=first.position)
    ran, clocks = first.ran + second.ran, first.clocks + second.clocks
    print(f"in two parts: {ran} instructions, {clocks} clocks, position {second.position}")


def restart(memory, waits, machine):
    """A drifted sledge is stuck until a reset; then both engines go on alike."""
    run(memory[:], waits, copy.deepcopy(machine))
    run_gates(memory[:], waits, copy.deepcopy(machine), RESET)
    print("reset on clock", RESET)
    left = memory[:]
    state = run_gates(left, waits, copy.deepcopy(machine), RESET + 1, resets=[RESET])
    print("position", state.position)

    parts = left[:], waits, copy.deepcopy(state.machine), state.position
    ran = run(left, waits, state.machine, name="restarted", position=state.position)
    print("position", ran.position)
    print("accumulators" + words(left[RESTARTED_ACCUMULATORS]))
    run_in_parts(*parts)
    # The clocks of a run count from 0, so its number of clocks is past the last of them.
    clocks, whole = RESET + 1 + ran.clocks, memory[:]
    gates = run_gates(whole, waits, copy.deepcopy(machine), clocks, resets=[RESET, clocks])
    same = (whole, gates.machine) == (left, state.machine)
    print("memory and machine as the interpreter's:", "yes" if same else "no")
    try:
        run_gates(memory, waits, machine, RESET + 1, resets=[RESET, RESET])
    except fm8502.Refused as refused:
        print(f"resets {RESET} {RESET}: refused", refused.number)


def rewrite(memory, machine):
    image = fm8502.write_image(memory, machine, fm8502.Rule.PER_FILE)
    _, _, rule = fm8502.read_image(image, len(memory))
    print(f"written as version 1: {len(image)} bytes, read again as version {rule:d}")


def traverse(memory, machine, files, rule, journal=None):
    """On a copy: the answer, and the memory and machine that are left."""
    left = memory[:], copy.deepcopy(machine)
    return fm8502.traverse(left[0], files, left[1], rule, journal=journal), left


def print_whole(name, ran):
    """The answer of a traverse that was taken back."""
    what, file = "journal full" if ran.full else "undone", ran.undone[0]
    print(f"{name}: {what} in file {file}, {ran.ran} instructions, {ran.pairs} pairs")


def take_back(memory, machine, files):
    """One file of the line is undone: by rule 1 that file is taken back, by rule 2 the line."""
    ran, by_file = traverse(memory, machine, files, fm8502.Rule.PER_FILE)
    undone = sum(1 << file for file in ran.undone)
    print(f"rule 1: undone {undone:016X}, {ran.ran} instructions, {ran.pairs} pairs")
    ran, whole = traverse(memory, machine, files, fm8502.Rule.PER_TRAVERSE)
    print_whole("rule 2", ran)
    journal = array("I", bytes(4 * SHORT))
    ran, _ = traverse(memory, machine, files, fm8502.Rule.PER_TRAVERSE, journal)
    print_whole(f"rule 2, {SHORT} places", ran)
    print("profile, file by file: rule 1, rule 2")
    for file, points in enumerate(zip(by_file[0][PROFILE], whole[0][PROFILE])):
        print(f"{file}{words(points)}")
    print("files stacked", by_file[0][FILE_COUNT], whole[0][FILE_COUNT])
    _, alone = traverse(memory, machine, [files[0], files[2]], fm8502.Rule.PER_FILE)
    print("rule 1 as files 0 and 2 alone:", "yes" if by_file == alone else "no")
    print("rule 2 as before:", "yes" if whole == (memory, machine) else "no")


def run_line(memory, machine, rule, files):
    print(f"version {rule:d}")
    rewrite(memory, machine)
    take_back(memory, machine, files)
    try:
        traverse(memory, machine, files, 3)
    except fm8502.Refused as refused:
        print("version 3: refused", refused.number)


def main():
    folder = Path(sys.argv[1] if len(sys.argv) > 1 else "examples")
    waits = array("H", map(int, (folder / "stacking.waits").read_text().split()))
    memory, machine, _ = load(folder, "stacking.image")
    stack(memory, waits, machine)
    memory, machine, _ = load(folder, "outside.image")
    roll_back(memory, machine)
    memory, machine, _ = load(folder, "halted.image")
    halt(memory, waits, machine)
    memory, machine, _ = load(folder, "loader.image")
    store_into_loader(memory, waits, machine)
    memory, machine, _ = load(folder, "restart.image")
    restart(memory, waits, machine)
    run_line(*load(folder, "line.image"), load_files(folder / "line.files"))


main()
