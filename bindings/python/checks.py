"""What the module refuses, how a wait list goes on, what a halting word does, what the bottom
keeps, what a reset does, when a journal is full, what a traverse takes back, which versions
an image has, and that arrays are lent without a copy.

numpy is looked at where it is installed.
"""

import copy
import ctypes
from array import array

import fm8502

try:
    import numpy
except ImportError:
    numpy = None

# inc r1, then dec r1 and set Z
PROGRAM = (0x00010021, 0x00050421)
# inc r1, then a word that is no instruction
HALTING = (PROGRAM[0], 1 << 14)
# inc (r2),(r2): 11 clocks, and its four accesses wait 2, 3, 2, 3
STORING = (0x0001014A, 0, 0, 41)
# Files for it: 7 at address 3, one more by an instruction; and 9, undone since its entry is missing
GOOD = (3, (7,), 0, 1)
UNDONE = (3, (9,), 4, 1)


def refuses(error, words, call, *arguments, **named):
    try:
        call(*arguments, **named)
    except error as raised:
        assert words in str(raised), raised
    else:
        raise AssertionError(f"{call.__name__} takes what it should refuse: {words}")


def check_machine():
    memory, waits = array("I", PROGRAM), array("H")
    for registers, flags in ((9, 3), (7, 5), (8, 3), (0, 12)):
        machine = fm8502.Machine([0] * registers, [False] * flags)
        for call, lent in (
            (fm8502.run, (memory, waits, machine, 1)),
            (fm8502.file_run, (memory, array("I", [0] * 2), machine, 1)),
            (fm8502.traverse, (memory, [], machine, 1)),
            (fm8502.gate_run, (memory, waits, fm8502.GateState(machine), 1)),
            (fm8502.clock, (memory, waits, fm8502.GateState(machine))),
            (fm8502.write_image, (memory, machine, 1)),
        ):
            refuses(ValueError, "eight registers and four flags", call, *lent)


def check_shared():
    memory = array("I", [*PROGRAM, 0, 0])
    whole, machine = memoryview(memory), fm8502.Machine()
    for first, second in ((memory, memory), (whole[:3], whole[2:]), (whole[1:], memory)):
        refuses(ValueError, "share places", fm8502.file_run, first, second, machine, 1)
    halves = memoryview(whole.cast("B")).cast("H")
    refuses(ValueError, "share places", fm8502.run, memory, halves, machine, 1)
    pairs, lent = whole.cast("B").cast("Q"), (memory, array("H"), fm8502.GateState(), 1)
    refuses(ValueError, "share places", fm8502.gate_run, *lent, resets=pairs[1:])
    # Side by side is apart.
    assert fm8502.file_run(whole[:2], whole[2:], machine, 1).finished


def check_shapes():
    machine, waits = fm8502.Machine(), array("H")
    flat = memoryview(array("I", [*PROGRAM, 0, 0])).cast("B")
    refuses(TypeError, "one dimension", fm8502.run, flat.cast("I", (2, 2)), waits, machine, 1)
    refuses(TypeError, "one dimension", fm8502.write_image, flat.cast("I", (4, 1)), machine, 1)
    apart = flat.cast("I")[::2]
    refuses(TypeError, "one behind the other", fm8502.run, apart, waits, machine, 1)
    refuses(TypeError, "4 bytes", fm8502.run, array("H", [0]), waits, machine, 1)
    refuses(TypeError, "4 bytes", fm8502.run, array("i", [0]), waits, machine, 1)


def check_undone():
    """A file run that is undone, or refused, leaves the machine as it was, flags of 9 too."""
    memory, machine = array("I", PROGRAM), fm8502.Machine(flags=[9, 0, 9, 0])
    # Any number of instructions; what stores nothing needs no journal.
    for count in (3, (1 << 32) - 1):
        ran = fm8502.file_run(memory, array("I"), machine, count)
        assert ran == fm8502.FileRun(finished=False, full=False, ran=2, pairs=0)
    lent = memory, array("I"), machine, 3
    refuses(fm8502.Refused, "refused 21", fm8502.file_run, *lent, bottom=3)
    assert machine == fm8502.Machine(flags=[9, 0, 9, 0])
    assert fm8502.run(memory, array("H"), machine, 1).finished
    assert machine.registers[:2] == [1, 1] and machine.flags == [True, False, True, False]


def check_wait_list():
    """The list comes round in both engines; a position is in its list, or 0."""
    # move (r1),(r1), five times: 11 clocks and four accesses each
    memory, waits = array("I", [0x00000129] * 5), array("H", [1, 2, 3, 4, 5])
    ran = fm8502.run(memory, waits, fm8502.Machine(), 5)
    assert ran.clocks == 5 * 11 + 4 * sum(waits)
    state = fm8502.GateState()
    assert fm8502.gate_run(memory, waits, state, ran.clocks) == 5
    assert state.position == ran.position == 0
    for lent, position in ((array("H"), 1), (waits, 5)):
        past = fm8502.GateState(position=position)
        refuses(fm8502.Refused, "list position", fm8502.clock, memory, lent, past)
        refuses(fm8502.Refused, "refused 4", fm8502.gate_run, memory, lent, past, 0)
        start = fm8502.Machine()
        refuses(fm8502.Refused, "refused 4", fm8502.run, memory, lent, start, 0, position=position)


def check_going_on():
    """A run goes on from the machine and position that another left, or a gate state has."""
    memory, waits = array("I", [0x00000129] * 5), array("H", [1, 2, 3, 4, 5])
    machine, clocks, position = fm8502.Machine(), 0, 1
    # The last part is outside after two instructions.
    for count, after in ((2, 4), (0, 4), (1, 3), (9, 1)):
        ran = fm8502.run(memory, waits, machine, count, position=position)
        clocks, position = clocks + ran.clocks, ran.position
        assert position == after and ran.finished == (count < 9)
    assert clocks == 5 * 11 + 4 * sum(waits)
    state = fm8502.GateState()
    assert fm8502.gate_run(memory, waits, state, 11 + 1 + 2 + 3 + 4) == 1
    ran = fm8502.run(memory, waits, state.machine, 4, position=state.position)
    assert ran == fm8502.Run(True, False, ran=4, clocks=4 * 11 + 3 * sum(waits) + 5, position=0)
    lent = memory, waits, machine, 0
    for position in (-1, 1 << 32):
        refuses(ValueError, "a count of 32 bits", fm8502.run, *lent, position=position)
    refuses(TypeError, "float", fm8502.run, *lent, position=1.0)
    refuses(TypeError, "positional argument", fm8502.run, *lent, 0)


def check_halted():
    """A word that is no instruction ends a run, undoes a file run and keeps the gate machine in row 12."""
    memory, waits = array("I", HALTING), array("H", [3])
    machine = fm8502.Machine()
    ran = fm8502.run(memory, waits, machine, 5)
    assert ran == fm8502.Run(finished=False, halted=True, ran=1, clocks=9 + 3, position=0)
    assert machine.registers[:2] == [1, 1]
    state = fm8502.GateState()
    assert fm8502.gate_run(memory, waits, state, (1 << 64) - 1) == 1 and state.row == 12
    assert not fm8502.clock(memory, waits, state) and state.row == 12
    undone = fm8502.Machine()
    ran = fm8502.file_run(memory, array("I", [0] * 10), undone, 5)
    assert ran == fm8502.FileRun(finished=False, full=False, ran=1, pairs=0)
    assert undone == fm8502.Machine()
    # The next word is missing: outside, and not halted.
    ran = fm8502.run(memory, waits, fm8502.Machine(registers=[2, 0, 0, 0, 0, 0, 0, 0]), 5)
    assert not ran.finished and not ran.halted


def storing_runs(word=3):
    """Each run with a memory of STORING and what else it is lent, to store to a word of it."""
    machine = fm8502.Machine(registers=[0, 0, word, 0, 0, 0, 0, 0])
    waits, journal = array("H", [2, 3]), array("I", [7, 7])
    at_store = fm8502.GateState(row=9, address=word, result=42, begun=True, left=1)
    for call, lent in (
        (fm8502.run, (waits, machine, 1)),
        (fm8502.file_run, (journal, machine, 1)),
        (fm8502.gate_run, (waits, fm8502.GateState(machine), 21)),
        (fm8502.clock, (waits, at_store)),
    ):
        yield call, array("I", STORING), copy.deepcopy(lent)


def check_bottom():
    """Every run takes a bottom by name, at most the memory's length, and 0 by default."""
    for word, named, stores in (
        (0, {}, True),
        (0, {"bottom": 1}, False),
        (3, {"bottom": 3}, True),
        (3, {"bottom": 4}, False),
    ):
        for call, memory, lent in storing_runs(word):
            call(memory, *lent, **named)
            assert (memory[word] != STORING[word]) == stores, (call.__name__, word, named)
    reason = "refused 21: the bottom exceeds the memory's length"
    for call, memory, lent in storing_runs():
        for bottom in (-1, 1 << 32):
            refuses(ValueError, "a count of 32 bits", call, memory, *lent, bottom=bottom)
        for bottom in (5, (1 << 32) - 1):
            refuses(fm8502.Refused, reason, call, memory, *lent, bottom=bottom)
        refuses(TypeError, "positional argument", call, memory, *lent, 4)
        assert tuple(memory) == STORING, call.__name__


def check_below_bottom():
    """A store below the bottom costs what another does, and takes no pair of the journal."""
    lent = {call: (memory, *others) for call, memory, others in storing_runs()}
    ran = fm8502.run(*lent[fm8502.run], bottom=4)
    assert ran == fm8502.Run(True, False, ran=1, clocks=21, position=0)
    assert fm8502.gate_run(*lent[fm8502.gate_run], bottom=4) == 1
    ran = fm8502.file_run(*lent[fm8502.file_run], bottom=4)
    assert ran == fm8502.FileRun(True, False, ran=1, pairs=0)
    assert lent[fm8502.file_run][1].tolist() == [7, 7]


def reset_at(resets, clocks):
    """The instructions finished and the state left, from the start of HALTING: its first
    instruction takes clocks 0 to 11, its fetch 1 to 4, and the fetch of the next word 13 to 18."""
    state = fm8502.GateState()
    lent = array("I", HALTING), array("H", [3, 5]), state, clocks
    return fm8502.gate_run(*lent, resets=resets), state


def check_reset():
    """A reset drops an access, leaves what is done, and frees the machine from row 12."""
    assert reset_at([1], 2) == (0, fm8502.GateState())
    assert reset_at([2], 3) == (0, fm8502.GateState(position=1))
    finished, state = reset_at([11], 12)
    assert (finished, state.row, state.machine.registers[:2]) == (0, 0, [0, 1])
    assert reset_at([12, 13], 12) == reset_at([], 12)
    finished, state = reset_at([1000], 1001)
    assert (finished, state.row, state.machine.registers[:2]) == (1, 0, [0, 1])
    assert reset_at([1000], 1001 + 12)[0] == 2
    # A run that follows on counts anew.
    memory, waits, parted = array("I", HALTING), array("H", [3, 5]), fm8502.GateState()
    assert fm8502.gate_run(memory, waits, parted, 1000) == 1 and parted.row == 12
    assert fm8502.gate_run(memory, waits, parted, 1, resets=[0]) == 0 and parted == state
    refuses(TypeError, "unexpected keyword", fm8502.clock, memory, waits, parted, resets=[0])


def check_reset_lists():
    """A reset list is an array of 64-bit numbers, a list or a tuple, and rises strictly."""
    left, top = reset_at([3, 1000], 1001), (1 << 64) - 1
    numbers = array("Q", [3, 1000])
    for resets in ((3, 1000, top), numbers, array("L", numbers), memoryview(numbers).toreadonly()):
        assert reset_at(resets, 1001) == left
    for resets in ([3, 3], (5, 3), [0, top, top], array("Q", [1, 0])):
        refuses(fm8502.Refused, "22: the reset list does not rise strictly", reset_at, resets, 0)
    for resets in ([-1], (3, 1 << 64)):
        refuses(ValueError, "a clock number of 64 bits", reset_at, resets, 0)
    for resets in ([1.0], ("1",), [None]):
        refuses(TypeError, "as an integer", reset_at, resets, 0)
    for resets in (array("I", [3]), array("q", [3]), array("d", [3]), b""):
        refuses(TypeError, "8 bytes", reset_at, resets, 0)
    for resets in (3, None, {3}):
        refuses(TypeError, "bytes-like", reset_at, resets, 0)
    lent = array("I", HALTING), array("H"), fm8502.GateState(), 0
    refuses(TypeError, "positional argument", fm8502.gate_run, *lent, numbers)


def storing_machine():
    return fm8502.Machine(registers=[0, 0, 3, 0, 0, 0, 0, 0], flags=[9, 0, 0, 0])


def check_full():
    """A journal is full before a store that needs one address more; an odd place is no pair."""
    for places in (0, 1):
        memory, machine = array("I", STORING), storing_machine()
        journal = array("I", [7] * places)
        ran = fm8502.file_run(memory, journal, machine, 1)
        assert ran == fm8502.FileRun(finished=False, full=True, ran=0, pairs=0)
        assert tuple(memory) == STORING and machine == storing_machine() and 7 * places == sum(journal)
    # A second store to an address needs no pair of its own.
    memory, journal = array("I", [STORING[0]] * 2 + [0, 41]), array("I", [7] * 3)
    ran = fm8502.file_run(memory, journal, storing_machine(), 2)
    assert ran == fm8502.FileRun(finished=True, full=False, ran=2, pairs=1)
    assert memory[3] == 43 and journal.tolist() == [3, 41, 7]


def traverse_with(places, files, rule):
    """The answer, and what is left: the memory of STORING, the machine, and the journal."""
    memory, machine, journal = array("I", STORING), storing_machine(), array("I", [7] * places)
    ran = fm8502.traverse(memory, files, machine, rule, journal=journal)
    return ran, tuple(memory), machine, journal.tolist()


def check_full_traverse():
    """A laid word needs a pair as a store does; per file the journal starts anew."""
    # Two addresses: a word at 2, and one more at 3 by the instruction.
    wide = (2, (7,), 0, 1)
    ran, memory, machine, journal = traverse_with(3, [GOOD, wide], 2)
    assert ran == fm8502.Traverse(False, True, undone=(1,), ran=0, pairs=1)
    assert memory == STORING and machine == storing_machine() and journal == [3, 41, 7]
    ran, memory, _, journal = traverse_with(3, [GOOD, wide], 1)
    assert ran == fm8502.Traverse(False, False, undone=(1,), ran=0, pairs=1)
    assert memory == (*STORING[:3], 8) and journal == [2, 0, 7]
    # Past the last file's pair stands one of the file before it.
    ran, memory, _, journal = traverse_with(5, [wide, GOOD], 1)
    assert ran == fm8502.Traverse(True, False, undone=(), ran=1, pairs=1)
    assert memory == (*STORING[:2], 7, 8) and journal == [3, 42, 3, 41, 7]


def traverse_of(files, rule, **named):
    """The answer, and what is left: word 3 of STORING, the machine, and the journal's pairs."""
    memory, machine = array("I", STORING), storing_machine()
    journal = array("I", [0] * fm8502.journal_places(files, len(memory)))
    ran = fm8502.traverse(memory, files, machine, rule, journal=journal, **named)
    assert memory[:3].tolist() == list(STORING[:3]) and not any(journal[2 * ran.pairs :])
    pairs = journal[: 2 * ran.pairs].tolist()
    return ran, memory[3], machine, list(zip(pairs[::2], pairs[1::2]))


def check_rule_1():
    """An undone file is taken back, and the next one follows; the pairs are the last file's."""
    ran, word, machine, pairs = traverse_of([GOOD, UNDONE, GOOD], 1)
    assert ran == fm8502.Traverse(False, False, undone=(1,), ran=1, pairs=1) and word == 8
    assert machine == fm8502.Machine([1, 0, 3, 0, 0, 0, 0, 0], [True, False, False, False])
    assert pairs == [(3, 8)]
    ran, word, machine, pairs = traverse_of([GOOD, UNDONE], fm8502.Rule.PER_FILE)
    assert ran == fm8502.Traverse(False, False, undone=(1,), ran=0, pairs=1) and word == 8
    assert machine.registers[0] == 1 and pairs == [(3, 8)]
    ran, word, machine, _ = traverse_of([UNDONE], 1)
    assert ran.undone == (0,) and word == 41 and machine.registers[0] == 0
    # The last of 64 files has the highest bit.
    for files, undone in (([UNDONE] * 64, range(64)), ([GOOD] * 63 + [UNDONE], [63])):
        assert traverse_of(files, 1)[0].undone == tuple(undone)


def check_rule_2():
    """An undone file takes back the traverse, but the pairs stay; later files do not run."""
    ran, word, machine, pairs = traverse_of([GOOD, UNDONE, GOOD], 2)
    assert ran == fm8502.Traverse(False, False, undone=(1,), ran=0, pairs=1) and word == 41
    assert machine == storing_machine() and pairs == [(3, 41)]
    # The first file by number, and no file.
    ran, word, machine, _ = traverse_of([UNDONE, GOOD], fm8502.Rule.PER_TRAVERSE)
    assert not ran.finished and ran.undone == (0,) and word == 41 and machine == storing_machine()
    ran, word, machine, pairs = traverse_of([GOOD, GOOD], 2)
    assert ran == fm8502.Traverse(True, False, undone=(), ran=1, pairs=1) and word == 8
    assert machine.registers[0] == 1 and pairs == [(3, 41)]


def check_files():
    """Registers go on, files may be none, and their words a part of the memory."""
    for rule in fm8502.Rule:
        assert traverse_of([], rule)[0] == fm8502.Traverse(True, False, undone=(), ran=0, pairs=0)
        memory, machine = array("I", PROGRAM), fm8502.Machine()
        files = [fm8502.File(place=0, words=memory[:1], entry=0, count=1)] * 3
        assert fm8502.traverse(memory, files, machine, rule).finished
        assert machine.registers[:2] == [1, 3]
        part = [(0, memoryview(memory)[1:], 0, 1)]
        assert fm8502.traverse(memory, part, machine, rule).finished and memory[0] == PROGRAM[1]
    # As many places as words and instructions can need, or words of memory.
    for words, places in ((100, 2 * (2 + 2 + 9)), (4, 2 * 4)):
        assert fm8502.journal_places([GOOD, UNDONE, (0, (), 0, 9)], words) == places


def check_one_file():
    """A file run is the traverse of one file with no words at place 0, entered at r0."""
    for words, count in ((PROGRAM, 2), (PROGRAM, 3), (HALTING, 2), (STORING, 1), (STORING, 9)):
        for rule, bottom, places in ((1, 0, 8), (2, 0, 8), (1, 0, 1), (2, 0, 1), (1, 1, 8), (2, 2, 0)):
            start = fm8502.Machine(registers=[0, 0, 1, 0, 0, 0, 0, 0])
            lent = array("I", words), array("I", [7] * places), start
            memory, journal, machine = copy.deepcopy(lent)
            ran = fm8502.file_run(*lent, count, bottom=bottom)
            files = [(0, (), 0, count)]
            same = fm8502.traverse(memory, files, machine, rule, bottom=bottom, journal=journal)
            assert (ran.finished, ran.ran, ran.pairs) == (same.finished, same.ran, same.pairs)
            assert same.full == (ran.full and rule == fm8502.Rule.PER_TRAVERSE)
            assert lent == (memory, journal, machine)


def refuses_traverse(number, files, memory=STORING, rule=1, **named):
    memory, machine = array("I", memory), fm8502.Machine()
    former = memory[:]
    lent = memory, files, machine, rule
    refuses(fm8502.Refused, f"refused {number}:", fm8502.traverse, *lent, **named)
    assert memory == former and machine == fm8502.Machine()


def check_files_refused():
    """Sums do not go round; words lie in the memory, not below the bottom."""
    top, many = (1 << 32) - 1, 70_000
    refuses_traverse(1, [GOOD], memory=())
    refuses_traverse(21, [(0, (), 0, top)], bottom=5)
    refuses_traverse(16, [(5, (), 0, 1)] * 65)
    for place, words in ((5, ()), (top, ()), (4, (1,)), (2, (1, 2, 3)), (top, (1,)), (0, [0] * many)):
        refuses_traverse(17, [GOOD, (place, words, 0, 0)], rule=3)
    refuses_traverse(17, [(2, (1,), 0, 0)], bottom=3)
    for rule in (0, 3, top):
        refuses_traverse(11, [GOOD], rule=rule)
    assert traverse_of([(4, (), 0, 0), (2, (), 0, 0), (3, (1,), 0, 0)], 1, bottom=3)[1] == 1
    # Any number of instructions, and of words that lie in the memory.
    assert traverse_of([(0, (), 0, top)] * 2, 1)[0].undone == (0, 1)
    whole = array("I", bytes(4 * many))
    ran = fm8502.traverse(whole, [(0, [5] * many, 0, 0)] * 2, fm8502.Machine(), 2)
    assert ran == fm8502.Traverse(True, False, (), 0, pairs=many) and set(whole) == {5}


def plain_traverse(memory, bottom, files, place, joined, version, sizes=(0, 12, 3)):
    """The library's own call, whose list of words need not fit; of the files the first has a word.

    sizes: places behind the files, words of the machine, places of the result.
    """
    behind, machine, result = sizes
    places = [place, 1, 0, 1, *[0] * (4 * (files - 1) + behind)]
    lists = (array("I", numbers) for numbers in ([7] * 4, [7] * joined, places, [9] * machine))
    lent = memory, *lists
    result, former = array("Q", [9] * result), copy.deepcopy(lent)
    memory, *lists, machine = (fm8502._lent(ctypes.c_uint32, words) for words in lent)
    board = fm8502._board(memory, bottom, *lists)
    answer = fm8502._apart(fm8502._lent(ctypes.c_uint64, result))
    try:
        fm8502._call("traverse", *board, *fm8502._apart(machine), ctypes.c_uint32(version), *answer)
    except (fm8502.Refused, AssertionError):
        assert lent == former and set(result) == {9}
        raise


def check_traverse_order():
    """The first reason is given, and a misfit before it; one after the other is mended."""
    lent = {
        "memory": array("I"),
        "bottom": 5,
        "files": 65,
        "place": 4,
        "joined": 2,
        "version": 3,
    }
    for number, mended in (
        (1, {"memory": array("I", STORING)}),
        (21, {"bottom": 3}),
        (16, {"files": 64}),
        (17, {"place": 2}),
        (17, {"place": 3}),
        (18, {"joined": 0}),
        (18, {"joined": 1}),
        (11, {"version": 2}),
    ):
        refuses(fm8502.Refused, f"refused {number}:", plain_traverse, **lent)
        for sizes in ((1, 12, 3), (3, 12, 3), (0, 11, 3), (0, 13, 3), (0, 12, 2), (0, 12, 4)):
            refuses(AssertionError, "lengths due", plain_traverse, **lent, sizes=sizes)
        lent.update(mended)
    plain_traverse(**lent)


def check_file_types():
    """A file is four values, its words an array, a list or a tuple; a rule is a number."""
    memory, machine = array("I", STORING), fm8502.Machine()
    words = array("I", [7])
    for laid in (words, memoryview(words).toreadonly(), [7]):
        assert traverse_of([(3, laid, 0, 1)], 1) == traverse_of([fm8502.File(*GOOD)], 1)
    for error, text, bad in (
        (ValueError, "place, entry or count", ((-1, (), 0, 0), (0, (), 1 << 32, 0), (0, (), 0, -1))),
        (ValueError, "not one of 32 bits", ((3, [-1], 0, 0), (3, (1 << 32,), 0, 0))),
        (TypeError, "as an integer", ((3, [1.0], 0, 0), (3, ("1",), 0, 0), (3, (), 0, 1.0))),
        (TypeError, "4 bytes", ((3, b"7", 0, 0), (3, array("H"), 0, 0), (3, array("i"), 0, 0))),
        (TypeError, "missing", ((3, words, 0), ())),
    ):
        for file in bad:
            refuses(error, text, fm8502.traverse, memory, [GOOD, file], machine, 1)
    for rule in (-1, 1 << 32):
        refuses(ValueError, "a count of 32 bits", fm8502.traverse, memory, [GOOD], machine, rule)
    refuses(TypeError, "float", fm8502.traverse, memory, [GOOD], machine, 1.0)
    refuses(TypeError, "positional argument", fm8502.traverse, memory, [GOOD], machine, 1, 0)
    refuses(ValueError, "share places", fm8502.traverse, memory, [], machine, 1, journal=memory)
    assert tuple(memory) == STORING


def check_versions():
    """An image is of version 1 or 2, by default 1, and alike but for the number."""
    memory, machine = array("I", STORING), fm8502.Machine(registers=list(range(8)))
    image = fm8502.write_image(memory, machine, fm8502.Rule.PER_FILE)
    for rule in fm8502.Rule:
        of_rule = fm8502.write_image(memory, machine, rule)
        assert of_rule == fm8502.write_image(memory, machine, int(rule))
        assert of_rule == image[:3] + bytes([rule]) + image[4:]
        read = fm8502.read_image(of_rule, len(memory))
        assert read == (machine, memory, rule) and isinstance(read[2], fm8502.Rule)
    for version in (0, 3, 255):
        bad = image[:3] + bytes([version]) + image[4:]
        refuses(fm8502.Refused, "refused 11: the version is", fm8502.read_image, bad, 4)
        refuses(fm8502.Refused, "refused 11", fm8502.write_image, memory, machine, version)
    refuses(fm8502.Refused, "refused 1:", fm8502.write_image, memory[:0], machine, 3)
    refuses(ValueError, "a count of 32 bits", fm8502.write_image, memory, machine, 1 << 32)


def check_numpy():
    """What is lent is the array itself, also a wait list and a part of an array."""
    words = numpy.array([*PROGRAM, 0, 0], dtype=numpy.uint32)
    for lend in (fm8502._lent, fm8502._shown):
        assert ctypes.addressof(lend(ctypes.c_uint32, words[1:])) == words[1:].ctypes.data
    waits = numpy.array([2, 3], dtype=numpy.uint16)
    assert ctypes.addressof(fm8502._shown(ctypes.c_uint16, waits)) == waits.ctypes.data
    resets = numpy.array([3, 5], dtype=numpy.uint64)
    assert ctypes.addressof(fm8502._reset_list(resets)) == resets.ctypes.data
    assert fm8502._reset_list(list(resets))[:] == [3, 5]
    memory = numpy.array(STORING, dtype=numpy.uint32)
    machine = fm8502.Machine(registers=[0, 0, 3, 0, 0, 0, 0, 0])
    assert fm8502.run(memory, waits, machine, 1).clocks == 21 and memory[3] == 42
    files = [(numpy.uint32(3), numpy.array([7], dtype=numpy.uint32), 0, 1)]
    assert fm8502.traverse(memory, files, machine, 1).pairs == 1 and memory[3] == 8
    for shape, error in (
        (memory.reshape(2, 2), "one dimension"),
        (memory[::2], "one behind the other"),
        (memory.astype(numpy.int32), "4 bytes"),
        (memory.astype(">u4"), "4 bytes"),
    ):
        refuses(TypeError, error, fm8502.run, shape, waits, machine, 1)
        refuses(TypeError, error, fm8502.write_image, shape, machine, 1)
    refuses(ValueError, "share places", fm8502.file_run, memory, memory[3:], machine, 0)


check_machine()
check_shared()
check_shapes()
check_undone()
check_wait_list()
check_going_on()
check_halted()
check_bottom()
check_below_bottom()
check_reset()
check_reset_lists()
check_full()
check_full_traverse()
check_rule_1()
check_rule_2()
check_files()
check_one_file()
check_files_refused()
check_traverse_order()
check_file_types()
check_versions()
if numpy is not None:
    check_numpy()
print("python: checked", "with numpy" if numpy is not None else "without numpy")
