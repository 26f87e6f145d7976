"""Calls of the proved FM8502 emulator.

Memory and journal are lent as array('I') or a numpy array of uint32, wait lists
as array('H') or of uint16, reset lists as array('Q') or of uint64, or as a list or
tuple, images as bytes. What can be written is lent without a copy; no two arrays of
a call may share places. A file's words are array('I'), a numpy array of uint32, a
list or a tuple, and are copied. A call that is turned down raises Refused with the
papers' number and leaves everything it was lent as it was.

Every run takes the memory's bottom by name: how many words at its front hold the
board's loader, at most its length. A store to one of them takes its clocks and
waits and alters nothing, and the journal does not note it. By default it is 0, and
every word can be stored to.
"""

import ctypes
import operator
import os
from array import array
from collections.abc import Sequence
from ctypes import c_size_t, c_uint8, c_uint16, c_uint32, c_uint64
from dataclasses import dataclass, field
from enum import IntEnum
from pathlib import Path
from typing import NamedTuple

_DONE = 0
_STOPPED = 100
_HALTED = 101
_FULL = 102
_MISFIT = 200

# The papers' reasons to turn a call down, by number.
_REASONS = {
    1: "the memory has no words",
    2: "the memory has more than 16,777,216 words",
    3: "the wait list has more than 65,536 entries",
    4: "the row, the list position or the access is bad",
    7: "the output is shorter than the image",
    8: "the image ends inside a field or before its end field",
    9: "a tag is not the one due",
    10: "a length is not the one due",
    11: "the version is neither 1 nor 2",
    12: "a flag byte exceeds 1",
    13: "the word count is 0 or above 16,777,216",
    14: "the memory is shorter than the word count",
    15: "bytes follow the end field",
    16: "the traverse has more than 64 files",
    17: "a file's place plus words exceeds the memory, or a word of it lies below the bottom",
    18: "the files' words do not add up to the list of words",
    21: "the bottom exceeds the memory's length",
    22: "the reset list does not rise strictly",
}


class Refused(Exception):
    """A call was turned down; `number` is the papers'."""

    def __init__(self, number):
        super().__init__(number)
        self.number = number

    def __str__(self):
        return f"refused {self.number}: {_REASONS[self.number]}"


@dataclass
class Machine:
    """Eight registers, r0 being the program counter, and the flags C, V, N, Z."""

    registers: list = field(default_factory=lambda: [0] * 8)
    flags: list = field(default_factory=lambda: [False] * 4)

    def _words(self):
        if len(self.registers) != 8 or len(self.flags) != 4:
            raise ValueError("a machine has eight registers and four flags")
        return [*map(int, self.registers), *map(int, self.flags)]

    def _take(self, words):
        self.registers = list(words[:8])
        self.flags = [word != 0 for word in words[8:12]]


@dataclass
class GateState:
    """The gate machine between two clocks; by default, between instructions. In row 12 it
    has halted until a reset.

    position is that of the next entry of the wait list: below the list's length,
    or 0 for an empty list.
    """

    machine: Machine = field(default_factory=Machine)
    row: int = 0
    instruction: int = 0
    address: int = 0
    a: int = 0
    b: int = 0
    result: int = 0
    position: int = 0
    begun: bool = False
    left: int = 0

    _NAMES = ("row", "instruction", "address", "a", "b", "result", "position", "begun", "left")

    def _words(self):
        return [*self.machine._words(), *(int(getattr(self, name)) for name in self._NAMES)]

    def _take(self, words):
        self.machine._take(words)
        for name, word in zip(self._NAMES, words[12:]):
            setattr(self, name, word)
        self.begun = bool(self.begun)


@dataclass(frozen=True)
class Run:
    """How an interpreter run ended; not finished: outside, or halted, where the next
    word is no instruction."""

    finished: bool
    halted: bool
    ran: int
    # Clock total of the instructions that ran, their waits included.
    clocks: int
    # List position after the instructions that ran, for a run that goes on.
    position: int


@dataclass(frozen=True)
class FileRun:
    """How a file run ended; not finished: undone, or full, where a store needed one address
    more than the journal has pairs; either way with its start put back."""

    finished: bool
    full: bool
    ran: int
    # Pairs of address and former word in the journal.
    pairs: int


class Rule(IntEnum):
    """What a traverse takes back where a file of it is undone; as a number, an image's version."""

    # That file alone; the next one follows.
    PER_FILE = 1
    # The whole traverse; later files do not run.
    PER_TRAVERSE = 2


class File(NamedTuple):
    """A file of a traverse; a tuple of these four will do."""

    # The address of the first of its words.
    place: int
    # What is laid at the place before it runs.
    words: Sequence
    # r0 when it begins to run.
    entry: int
    # How many instructions are to run.
    count: int


@dataclass(frozen=True)
class Traverse:
    """How a traverse ended; not finished: a file was undone, and what the rule says taken back."""

    finished: bool
    # Per traverse: whether the file was undone because the journal was full.
    full: bool
    # Numbers of the undone files, from 0; per traverse one at most, with which all were taken back.
    undone: tuple
    # Instructions that ran in the last file run, also if undone; 0 with no files.
    ran: int
    # Pairs of address and former word in the journal; per file those of the last file.
    pairs: int


def _load():
    folder = Path(__file__).resolve().parents[2] / "target" / "python"
    path = os.environ.get("FM8502_SO", str(folder / "libfm8502.so"))
    try:
        return ctypes.CDLL(path)
    except OSError as error:
        raise OSError(f"{error}; bindings/python/build.sh makes the library") from error


_library = _load()


# The element formats that a buffer may have for each type.
_FORMATS = {c_uint8: "B", c_uint16: "H", c_uint32: "IL", c_uint64: "LQ"}


def _places(kind, buffer):
    """How many elements of the right type a buffer has."""
    view = memoryview(buffer)
    if view.itemsize != ctypes.sizeof(kind) or view.format.lstrip("@=<") not in _FORMATS[kind]:
        raise TypeError(f"unsigned elements of {ctypes.sizeof(kind)} bytes are needed")
    if view.ndim != 1:
        raise TypeError(f"an array of one dimension is needed, not of {view.ndim}")
    if not view.c_contiguous:
        raise TypeError("an array whose elements lie one behind the other is needed")
    return len(view)


def _lent(kind, buffer):
    """A buffer that the call may write, without a copy."""
    return (kind * _places(kind, buffer)).from_buffer(buffer)


def _shown(kind, buffer):
    """A buffer that the call only reads; ctypes takes one that is not to be written as a copy."""
    if memoryview(buffer).readonly:
        return (kind * _places(kind, buffer)).from_buffer_copy(buffer)
    return _lent(kind, buffer)


def _apart(*arrays):
    """Pointer and length of each array; no two may share places."""
    ends = sorted((ctypes.addressof(a), ctypes.addressof(a) + ctypes.sizeof(a)) for a in arrays if len(a))
    if any(end > start for (_, end), (start, _) in zip(ends, ends[1:])):
        raise ValueError("two arrays that are lent share places")
    return [argument for a in arrays for argument in (a, c_size_t(len(a)))]


def _call(name, *arguments):
    """The code of a call that was carried out."""
    call = getattr(_library, "fm8502_" + name)
    call.restype = c_uint32
    code = call(*arguments)
    assert code != _MISFIT, "this module lends words and results of the lengths due"
    if code not in (_DONE, _STOPPED, _HALTED, _FULL):
        raise Refused(code)
    return code


def _word_array(values):
    # c_uint32 drops higher bits silently, so refuse them here.
    if any(not 0 <= value < 1 << 32 for value in values):
        raise ValueError("a register, latch or flag is not a word of 32 bits")
    return (c_uint32 * len(values))(*values)


def _count(number, bits):
    if not 0 <= number < 1 << bits:
        raise ValueError(f"{number} is not a count of {bits} bits")
    return c_uint32(number) if bits == 32 else c_uint64(number)


def _numbers(kind, values, name):
    """An array as it is; a list or tuple of numbers as a copy."""
    if not isinstance(values, (list, tuple)):
        return _shown(kind, values)
    numbers = [operator.index(value) for value in values]
    bits = 8 * ctypes.sizeof(kind)
    # ctypes drops higher bits silently, so refuse them here.
    if any(not 0 <= number < 1 << bits for number in numbers):
        raise ValueError(f"{name} of {bits} bits")
    return (kind * len(numbers))(*numbers)


def _reset_list(resets):
    return _numbers(c_uint64, resets, "a reset is not a clock number")


def _file_words(file):
    return _numbers(c_uint32, file.words, "a file has a word that is not one")


def _board(memory, bottom, *beside):
    """Arguments of a run: memory, its bottom, and the arrays that are lent beside it."""
    memory, words, *beside = _apart(_lent(c_uint32, memory), *beside)
    return [memory, words, _count(bottom, 32), *beside]


def _changing(name, lent, state, middle, places):
    """A call that changes a machine or state in place; its code and result."""
    former = state._words()
    words = _word_array(former)
    result = (c_uint64 * places)()
    code = _call(name, *lent, words, c_size_t(len(words)), *middle, result, c_size_t(places))
    # "Undone" and "journal full" leave the words, and so the machine, as they were.
    if words[:] != former:
        state._take(words[:])
    return code, result


def run(memory, waits, machine, count, *, bottom=0, position=0):
    """Runs up to count instructions with the wait list, by default from its beginning.

    Each access to memory takes the next entry and waits so many clocks; after the
    last entry the list begins again, and an empty list means no waits. The position
    of the first entry to take is below the list's length, or 0.

    To go on, give the next run the memory and machine that were left, and the
    position of this Run. To go on from a GateState in row 0, as a reset leaves it,
    give it the state's machine and position.
    """
    lent = [*_board(memory, bottom, _shown(c_uint16, waits)), _count(position, 32)]
    code, (ran, clocks, after) = _changing("run", lent, machine, [_count(count, 32)], 3)
    return Run(finished=code == _DONE, halted=code == _HALTED, ran=ran, clocks=clocks, position=after)


def file_run(memory, journal, machine, count, *, bottom=0):
    """Runs up to count instructions; a run that stops before the end is taken back whole.

    The journal notes each address that is stored to once, in the order of the first stores:
    pair i has the address and the word from before that store, at places 2i and 2i + 1. It
    has half as many pairs as places, and is full where a store needs one address more; then
    the run stops before that store. Two places for each word of memory are always enough,
    and so are two for each instruction.
    """
    lent = _board(memory, bottom, _lent(c_uint32, journal))
    code, (ran, pairs) = _changing("file_run", lent, machine, [_count(count, 32)], 2)
    return FileRun(finished=code == _DONE, full=code == _FULL, ran=ran, pairs=pairs)


def _file_list(files, memory_words):
    """The files' words, joined, and their places; a file has four.

    A file of more words than the memory has is misplaced (17), also where its length is cut
    to 32 bits. This comes before a list that does not fit (18), so its words are left out.
    """
    words, places = array("I"), []
    for file in files:
        laid = _file_words(file)
        if len(laid) <= memory_words:
            words.extend(laid)
        places += [file.place, min(len(laid), (1 << 32) - 1), file.entry, file.count]
    return words, _numbers(c_uint32, places, "a file's place, entry or count is not a number")


def journal_places(files, memory_words):
    """Places with which the journal of a traverse is never full, on a memory of so many words:
    two for each word and instruction, or for each word of the memory if those are fewer."""
    return 2 * min(memory_words, sum(len(words) + operator.index(count) for _, words, _, count in files))


def _own_journal(files, memory_words):
    return array("I", bytes(4 * journal_places(files, memory_words)))


def traverse(memory, files, machine, rule, *, bottom=0, journal=None):
    """Runs up to 64 files in turn: lays a file's words from its place on, sets r0 to its entry,
    and runs up to its count of instructions as file_run does. The other registers, flags and
    memory go on from file to file.

    The journal notes a laid word as it does a store. Per file it starts empty with each file,
    and places past the last file's pairs keep what an earlier file wrote; per traverse the
    files share the pairs. With journal_places(files, len(memory)) places it is never full;
    without a journal there are as many, and the pairs are dropped.

    A file that stops before its end is undone, and the rule says what is then taken back:
    the file, from before its words were laid, or the traverse, whose memory and machine are
    then those of its start. The pairs stay. The rule may be a version's number; another than
    1 or 2 is refused.
    """
    files = [File(*file) for file in files]
    room = _places(c_uint32, memory)
    words, places = _file_list(files, room)
    journal = _own_journal(files, room) if journal is None else journal
    lent = _board(memory, bottom, _lent(c_uint32, journal), _lent(c_uint32, words), places)
    code, (answer, ran, pairs) = _changing("traverse", lent, machine, [_count(rule, 32)], 3)
    if rule == Rule.PER_FILE:
        undone = tuple(file for file in range(len(files)) if answer >> file & 1)
    else:
        undone = () if code == _DONE else (answer,)
    return Traverse(finished=not undone, full=code == _FULL, undone=undone, ran=ran, pairs=pairs)


def gate_run(memory, waits, state, clocks, *, bottom=0, resets=()):
    """Does so many clocks of the gate machine; returns the instructions finished, before a
    reset too.

    The wait list is as for run, but goes on from the state's position.

    resets has the numbers of the clocks on which the reset line is held, each above
    the one before. They count from 0 at the beginning of this run, and anew in a run
    that follows on; numbers at or past clocks have no effect. A reset clock does no
    row's work: r0 and the row become 0, and an access that has begun is dropped, its
    wait entry used up. The other registers, flags, latches, list position and memory
    stay, with all that the cut instruction has done to them; it does not count as
    finished. On the next clock the machine begins with the instruction at address 0,
    also where a missing word or row 12 had held it.
    """
    lent = _board(memory, bottom, _shown(c_uint16, waits), _reset_list(resets))
    return _changing("gate_run", lent, state, [_count(clocks, 64)], 1)[1][0]


def clock(memory, waits, state, *, bottom=0):
    """Does one clock, without a reset; returns whether an instruction finished."""
    lent = _board(memory, bottom, _shown(c_uint16, waits))
    return bool(_changing("clock", lent, state, [], 1)[1][0])


def image_size(words):
    """Bytes of the image of a memory of so many words."""
    return 56 + 4 * words + 3 * ((words + 1023) // 1024)


def read_image(image, room):
    """The machine and the memory of an image of at most `room` words, and its version's Rule."""
    memory = array("I", bytes(4 * room))
    machine = Machine()
    lent = _apart(_shown(c_uint8, image), _lent(c_uint32, memory))
    words, version = _changing("image_read", lent, machine, [], 2)[1]
    return machine, memory[:words], Rule(version)


def write_image(memory, machine, rule):
    """The image of a memory and a machine, of the rule's version: that of the image they
    came from is what read_image returned."""
    shown = _shown(c_uint32, memory)
    out = (c_uint8 * image_size(len(shown)))()
    start = _apart(shown, _word_array(machine._words()))
    _call("image_write", *start, _count(rule, 32), *_apart(out, (c_uint64 * 1)()))
    return bytes(out)
