"""Mizzengrape: the proved checker and interpreter for routine tables, over the shared library.

    import mizzengrape
    routine = mizzengrape.Routine.load("late.tbl")          # raises Refused where the rules refuse it
    run = routine.run(directory=[1, 4], cells=[0] * 5, values=[1, 4, 77], origins=[1, 0, 0])
    run.outcome, run.steps, run.values, run.cells           # "done", 5, [..], [..]
    editor = mizzengrape.Editor(routine.table, places=64)   # takes a table to change it a statement at a time
    editor.insert(0, [1, 1, 5, 0, 0, 0, 0]).refusal         # None where the table is accepted as it then is
    mizzengrape.check_set(tables)                           # routines that call each other
    run = mizzengrape.run_set(tables, directory, cells, values, origins)

The library is found by the variable MIZZENGRAPE_LIBRARY, beside this file, in the folder `lib` above it, or by the system.
"""

import ctypes
import ctypes.util
import os
import struct
from dataclasses import dataclass
from pathlib import Path
from typing import List, Optional, Sequence

REFUSALS = {
    1: "the table has too few or too many words",
    2: "its sections do not fit, or hold too many or too few records",
    3: "an object's length is not 1 to 1,000,000 cells",
    4: "a variable's record or a bounds row is wrong",
    5: "a statement's record is wrong",
    6: "a block does not fit, is too deep, or is no bundle",
    8: "declared bounds are not shown",
    9: "an access in a bundle before the bounds are right",
    10: "the memory or its directory does not fit",
    11: "not one value and one origin for each variable",
    12: "an origin is wrong, or bounds are untrue at entry",
    13: "bounds that depend on the way",
    14: "an object has a cell in common with an earlier routine's",
    15: "not 1 to 8 routines, or turns of other than 1 to 1,000 steps",
    16: "the last cell of a terminated object is not 0",
    17: "a loop fact that is not shown or does not fit",
    18: "an edit that has no such place, or no room",
    19: "a call of a routine that is not before its caller",
    20: "the arguments of a call do not fit the routine it calls",
}
STOPS = {
    1: "a dynamic check is false",
    2: "an access through null",
    3: "an access outside of the declared bounds",
    4: "arithmetic on null",
    5: "no address",
    6: "a letter where only 0 may stand",
}
REPORT_WORDS = 1024
PLACE_WORDS = 307
TABLE_WORDS = 7704
SET_MEMBER_WORDS, SET_ENDS, SET_SUCCESSORS = 7720, 4096, 16384


class Refused(Exception):
    """A routine or a run that is refused: its number, its place, for 8 the pointer, what the number means; of a set the routine."""

    def __init__(self, number: int, place: int, pointer: int, routine: Optional[int] = None):
        self.number, self.place = number, place
        self.pointer = pointer if number == 8 else None
        self.routine = routine if number != 15 else None
        self.text = REFUSALS.get(number, "refused")
        of_set = "" if self.routine is None else f"routine {self.routine} "
        super().__init__(f"refused {of_set}{number} {place}: {self.text}")


class Stopped(Exception):
    """A run that stopped, where it was asked to raise: the run has its values and cells."""

    def __init__(self, run: "Run"):
        self.run, self.number, self.place = run, run.check, run.statement
        self.text = STOPS.get(run.check or 0, "stopped")
        super().__init__(f"stopped at check {run.check}, statement {run.statement}: {self.text}")


@dataclass
class Run:
    """How a run ended: `done`, `spent` or `stopped`, and what it left."""

    outcome: str
    steps: int
    statement: Optional[int]
    check: Optional[int]
    values: List[int]
    cells: List[int]
    routine: Optional[int] = None  # of a set, where it is spent or stopped


def _load() -> ctypes.CDLL:
    here = Path(__file__).resolve()
    folders = [here.parent] + [parent / "lib" for parent in here.parents]
    names = [os.environ.get("MIZZENGRAPE_LIBRARY")] + [str(folder / "libmizzengrape.so") for folder in folders]
    for name in names + [ctypes.util.find_library("mizzengrape")]:
        if name and (os.sep not in name or Path(name).exists()):
            return ctypes.CDLL(name)
    raise OSError("libmizzengrape.so is not found: set MIZZENGRAPE_LIBRARY to its path")


_library = _load()
for _name in ("check_with_facts", "run_with_facts", "edit_start", "edit", "check_set", "run_set"):
    getattr(_library, f"mizzengrape_{_name}").restype = ctypes.c_bool
_library.mizzengrape_version.restype = ctypes.c_uint32


def version() -> str:
    number = _library.mizzengrape_version()
    return f"{number // 10000}.{number // 100 % 100}.{number % 100}"


def _signed(words: Sequence[int]) -> ctypes.Array:
    for word in words:
        if not -(2**31) <= word < 2**31:
            raise ValueError(f"{word} is no word of a table")
    return (ctypes.c_int32 * max(1, len(words)))(*words)


def _unsigned(words: Sequence[int]) -> ctypes.Array:
    for word in words:
        if not 0 <= word < 2**32:
            raise ValueError(f"{word} is no word: 0 to 4294967295")
    return (ctypes.c_uint32 * max(1, len(words)))(*words)


def _slices(*parts):
    """Pointer and length of each slice."""
    return [argument for part, length in parts for argument in (part, ctypes.c_size_t(length))]


def check(table: Sequence[int], facts: Sequence[int] = ()) -> List[int]:
    """The statements of the accesses that stop no run at check 2 or 3; raises Refused."""
    report, answer = (ctypes.c_uint32 * REPORT_WORDS)(), (ctypes.c_uint32 * 4)()
    words, listed = _signed(table), _signed(facts)
    _library.mizzengrape_check_with_facts(*_slices((words, len(table)), (listed, len(facts)), (report, REPORT_WORDS), (answer, 4)))
    number, place, pointer, count = answer
    if number != 0:
        raise Refused(number, place, pointer)
    return list(report[:count])


def run(table, directory, cells, values, origins, limit=1_000_000, facts=(), raise_stop=False) -> Run:
    """Runs a routine on copies of cells and values; raises Refused, and Stopped where that is asked for."""
    answer, memory, variables = (ctypes.c_uint32 * 4)(), _unsigned(cells), _unsigned(values)
    _library.mizzengrape_run_with_facts(
        *_slices((_signed(table), len(table)), (_signed(facts), len(facts)), (_unsigned(directory), len(directory))),
        *_slices((memory, len(cells)), (variables, len(values)), (_unsigned(origins), len(origins))),
        ctypes.c_uint32(_limit(limit)),
        *_slices((answer, 4)),
    )
    return _ended(answer, list(variables)[: len(values)], list(memory)[: len(cells)], None, raise_stop)


def _ended(answer, values, cells, routine, raise_stop) -> Run:
    outcome, first, second, third = answer[:4]
    if outcome == 3:
        raise Refused(first, second, third, routine)
    ended = Run(
        outcome=("done", "spent", "stopped")[outcome],
        steps=first,
        statement=second if outcome != 0 else None,
        check=third if outcome == 2 else None,
        values=values,
        cells=cells,
        routine=routine if outcome != 0 else None,
    )
    if raise_stop and outcome == 2:
        raise Stopped(ended)
    return ended


def _set(tables):
    """The tables one behind the other, and their lengths."""
    words, lengths = [word for table in tables for word in table], [len(table) for table in tables]
    return _slices((_signed(words), len(words)), (_unsigned(lengths), len(lengths)))


def check_set(tables: Sequence[Sequence[int]]) -> None:
    """Checks routines of which later ones call earlier ones; raises Refused with the routine."""
    member, answer = (ctypes.c_int32 * SET_MEMBER_WORDS)(), (ctypes.c_uint32 * 4)()
    _library.mizzengrape_check_set(*_set(tables), *_slices((member, SET_MEMBER_WORDS), (answer, 4)))
    number, place, pointer, routine = answer
    if number != 0:
        raise Refused(number, place, pointer, routine)


def run_set(tables, directory, cells, values, origins, limit=1_000_000, raise_stop=False) -> Run:
    """Runs a set from its last routine on, with that routine's values; as `run`."""
    answer, memory, variables = (ctypes.c_uint32 * 5)(), _unsigned(cells), _unsigned(values)
    member, ends, successors = (ctypes.c_int32 * SET_MEMBER_WORDS)(), (ctypes.c_uint64 * SET_ENDS)(), (ctypes.c_uint32 * SET_SUCCESSORS)()
    _library.mizzengrape_run_set(
        *_set(tables),
        *_slices((_unsigned(directory), len(directory)), (memory, len(cells)), (variables, len(values)), (_unsigned(origins), len(origins))),
        ctypes.c_uint32(_limit(limit)),
        *_slices((member, SET_MEMBER_WORDS), (ends, SET_ENDS), (successors, SET_SUCCESSORS), (answer, 5)),
    )
    return _ended(list(answer), list(variables)[: len(values)], list(memory)[: len(cells)], answer[4], raise_stop)


def _limit(limit: int) -> int:
    if not 0 <= limit < 2**32:
        raise ValueError(f"{limit} is no limit: 0 to 4294967295")
    return limit


def load_words(path) -> List[int]:
    """The words of a file that `mizzengrape asm` wrote: a table, or a list of loop facts."""
    content = Path(path).read_bytes()
    if len(content) % 4 != 0:
        raise Refused(1, 0, 0)
    return list(struct.unpack(f"<{len(content) // 4}i", content))


@dataclass
class Routine:
    """A checked routine: its table, its loop facts, the accesses that cannot stop."""

    table: List[int]
    facts: List[int]
    safe: List[int]

    @classmethod
    def load(cls, table, facts=None) -> "Routine":
        words, listed = load_words(table), load_words(facts) if facts else []
        return cls(words, listed, check(words, listed))

    def run(self, directory, cells, values, origins, limit=1_000_000, raise_stop=False) -> Run:
        return run(self.table, directory, cells, values, origins, limit, self.facts, raise_stop)


@dataclass
class Walked:
    """The verdict on a table that is edited: its refusal, or None; and how many statements were walked for it."""

    refusal: Optional[Refused]
    statements: int


class Editor:
    """A table that is changed one statement outside of all blocks at a time, with the verdict on it each time, in `verdict`.

    Positions are numbers of statements in the table. With each call the positions of `keep` are stored, in so many places: an edit behind one of them is
    walked from there. Raises Refused where the table or an edit is not taken; nothing is changed then."""

    def __init__(self, table: Sequence[int], places: int = 0, keep: Sequence[int] = ()):
        self._buffer = _signed(list(table) + [0] * (TABLE_WORDS - len(table)))
        self._store = (ctypes.c_uint64 * (1 + places * PLACE_WORDS))()
        self._length = len(table)
        self.verdict = self._call(_library.mizzengrape_edit_start, [ctypes.c_size_t(self._length)], keep)

    def insert(self, position: int, text: Sequence[int], keep: Sequence[int] = ()) -> Walked:
        """One statement with its blocks, before the one at the position or behind the last."""
        return self._edit(0, position, text, keep)

    def replace(self, position: int, text: Sequence[int], keep: Sequence[int] = ()) -> Walked:
        return self._edit(1, position, text, keep)

    def remove(self, position: int, keep: Sequence[int] = ()) -> Walked:
        return self._edit(2, position, (), keep)

    @property
    def table(self) -> List[int]:
        return list(self._buffer[: self._length])

    @property
    def kept(self) -> List[int]:
        """The positions that are stored now."""
        return [self._store[1 + place * PLACE_WORDS] for place in range(self._store[0])]

    def _edit(self, operation: int, position: int, text: Sequence[int], keep: Sequence[int]) -> Walked:
        at = _unsigned([position])[0]
        change = [ctypes.c_uint32(operation), ctypes.c_uint32(at), *_slices((_signed(text), len(text)))]
        self.verdict = self._call(_library.mizzengrape_edit, change, keep)
        return self.verdict

    def _call(self, call, change, keep: Sequence[int]) -> Walked:
        answer = (ctypes.c_uint32 * 6)()
        lent = _slices((self._store, len(self._store)), (_unsigned(keep), len(keep)), (answer, 6))
        call(*_slices((self._buffer, len(self._buffer))), *change, *lent)
        number, place, pointer, statements, length, made = answer
        refusal = Refused(number, place, pointer) if number != 0 else None
        if not made:
            raise refusal
        self._length = length
        return Walked(refusal, statements)
