"""Cantuvesh for Python: reads an event trace of PICL, says whether its clocks agree with the messages in it, and where they do
not gives the least later times at which all agree. The library behind it is proved; ./library makes it.

>>> import cantuvesh
>>> trace = b'''-3 -21 0.000010 0 0 3 2 8 1 1
... -4 -21 0.000012 0 0 0
... -4 -52 0.000009 1 0 3 2 8 1 0
... -3 -21 0.000011 1 0 3 2 8 2 0
... -4 -51 0.000013 0 0 3 2 8 2 1
... '''
>>> answer = cantuvesh.judge(trace, cantuvesh.table({}, default=5), "strict", levels="off", statistics="off", share=0)
>>> answer.verdict, answer.matched, list(answer.times)
('corrected', 2, [10, 12, 15, 15, 20])

Messages may be blocking, or posted and finished later: a send is the entry of -21 or -27, a receive the exit of -51, -52, -58,
-60 or -61. Nodes that write a file each have them merged before, by `merge`. `messages` lists the messages of a trace, and `chain`
tells why a time moved.

The library is looked for in the folder that CANTUVESH_LIBRARY names, else in the checkout's target/library. A call keeps nothing
and may be made from several threads at once; to judge takes some 180,000 bytes of the calling thread's stack, to merge some 90,000,
to list the messages some 210,000, and a chain up to some 370,000.
"""

from __future__ import annotations

import ctypes
import os
from array import array
from collections.abc import Mapping
from dataclasses import dataclass
from pathlib import Path
from typing import Literal, Tuple, Union

VERSION = "0.9.0"  # of the library: another one's call may be another
TRACE_LIMIT = 65_536  # the most bytes that a trace may have
PROCESSORS = 64  # processors are 0 to 63
LATENCIES = PROCESSORS * PROCESSORS  # the exact number of latencies in a table
LATENCY_LIMIT = 1_000_000  # the highest latency, in microseconds
SHARE_LIMIT = 1_000  # the highest share of a gap, in thousandths: all of it
TIMES = 2_048  # the most listed records
ROOM = TRACE_LIMIT + 8 * TIMES  # so many bytes are enough for every written trace

Choice = Literal["strict", "lenient"]
Levels = Union[Literal["off"], Tuple[int, int, int]]
Statistics = Literal["off", "on"]
Verdict = Literal["consistent", "corrected", "nothing to judge"]

_CHOICES: dict[Choice, int] = {"strict": 1, "lenient": 2}
_OFF, _ON = 0, 1  # whether levels are expected
_SWITCHES: dict[Statistics, int] = {"off": 0, "on": 1}
_VERDICTS: dict[int, Verdict] = {1: "consistent", 2: "corrected", 3: "nothing to judge"}

_SENTENCES = {
    1: "the choice is neither 1 (strict) nor 2 (lenient), or the levels' or the statistics' switch is neither 0 (off) nor 1 (on)",
    2: "the table or the lent times have the wrong length, or the share is above 1,000",
    3: "a latency is above 1,000,000",
    4: "the trace is longer than 65,536 bytes",
    5: "the form of the line, or of a field of it other than the timestamp, is bad (bad data too)",
    6: "the form of the timestamp is bad",
    7: "the record type or the event type is not listed, and the choice is strict",
    8: "the event is a message event that is not handled, under either choice",
    9: "a listed record's processor is outside 0 to 63, or its process is not 0",
    10: "a send or a receive is without its three good data",
    11: "the time is below the last listed one of its processor",
    12: "there is a listed record number 2,049",
    13: "the receive has no matching send",
    14: "the receive's length is above its send's",
    15: "no times exist: a ring of waits adds up to more than 0, or a time would be beyond the format's end",
    16: "the trace to be written, corrected or merged, is longer than the room, or the list to be filled is too short",
    17: "a processor with listed records has no tracing-level mark that counts, or its last one is not what is expected",
    18: "both of the traces to be merged hold a listed record of the same processor",
    19: "a statistics record tells another time, count or volume of an event than its processor's records before it give",
    22: "there is no such listed record: the place is not below their number, or none stands on the asked line",
}


@dataclass(frozen=True)
class Accepted:
    """The answer on a trace that is accepted.

    verdict     "consistent", no time had to move; "corrected", some time moved; "nothing to judge", no message matched
    listed      listed records
    passed      lines passed over
    matched     messages, each a receive with its send
    unreceived  sends that no receive belongs to
    rounds      the first round of corrections that the next one repeats
    times       the corrected times in microseconds, an array("q") with one for each listed record, in file order
    written     the trace with these times, or None where it was not asked for
    """

    verdict: Verdict
    listed: int
    passed: int
    matched: int
    unreceived: int
    rounds: int
    times: array[int]
    written: bytes | None


class Refused(Exception):
    """The trace, or the whole call, is refused: `number` and `sentence` say why, `which`, `line` and `column` say where.

    which   1 or 2, the trace that is meant where two were to be merged; 0 for both or the whole call, and where there was one
    line    counted from 1 in its own trace; 0 where no line is meant
    column  where the field that decides begins in the line, counted from 1 in bytes; one past the line's last byte where a field
            or the LF is missing. The refusals 5 to 10 have it, and it is 0 for the others
    """

    def __init__(self, number: int, line: int, column: int, which: int = 0) -> None:
        super().__init__(number, line, column, which)
        self.number = number
        self.line = line
        self.column = column
        self.which = which
        self.sentence = _SENTENCES[number]

    def __str__(self) -> str:
        places = {"trace": self.which, "line": self.line, "column": self.column}
        where = "".join(f" {name} {place}" for name, place in places.items() if place)
        return f"refused {self.number}{where}: {self.sentence}"


def table(latencies: Mapping[tuple[int, int], int], *, default: int) -> array[int]:
    """A table of latencies: from (sender, receiver) to the least microseconds that a message takes. A pair that is not named has
    the default, which has to be said.

    >>> fives = table({}, default=5)
    >>> one_way = table({(0, 1): 1}, default=0)

    A table file needs nothing of this: it is read by `array("I", file.read())`.
    """
    entries = array("I", [_latency(default, "the default")]) * LATENCIES
    for pair, latency in latencies.items():
        if not (isinstance(pair, tuple) and len(pair) == 2 and all(_is_whole(end, PROCESSORS - 1) for end in pair)):
            raise ValueError(f"{pair!r} should be (sender, receiver), two processors from 0 to 63")
        sender, receiver = pair
        entries[PROCESSORS * sender + receiver] = _latency(latency, f"the latency from {sender} to {receiver}")
    return entries


def judge(
    trace: bytes | bytearray | memoryview,
    table: array[int] | memoryview,
    choice: Choice,
    levels: Levels,
    statistics: Statistics,
    share: int,
    *,
    written: bool = False,
) -> Accepted:
    """Judges one trace, and raises Refused where it is refused.

    trace    bytes, or whatever lends contiguous bytes; any may be given: what is no good trace is refused
    table    the latencies as `table` makes them, or whatever lends contiguous unsigned numbers of 32 bits
    choice   "strict" or "lenient": whether a line whose record type or event type is not listed is refused or passed over
    levels   "off", or the tracing levels that are expected, of PICL, user and trace events: the last mark of each processor
             with listed records has to tell them, a record of type -2 and event -904 with three data under descriptor 2. They
             may be any numbers of 64 bits; one that no field can hold is never met
    statistics
             "on" or "off": whether what statistics records of event -1 tell of times (-101), counts (-102) and volumes (-103)
             has to agree with the earlier records of their processor, times to within one microsecond for each entry
    share    how much is kept of the gap between each listed record and the one before it on its processor, in thousandths: 0 to
             1,000, and a higher one is refused (2). Where a receive moves, what follows it on its processor is squeezed: at share
             0 records that were apart may come to one time. At 500 each lies behind the one before it by half of the
             microseconds that were between them at least, rounded down for each gap by itself; at 1,000 no gap shrinks. A trace
             whose times need not move at share 0 has these times at every share; others come to no earlier ones at a higher
             share, or to none
    written  whether the trace with the corrected times is wanted, too

    >>> trace = b"-2 -904 0.000000 0 0 3 2 4 4 0\\n-3 7 0.000001 0 0 0\\n"
    >>> judge(trace, table({}, default=0), "strict", levels=(4, 4, 0), statistics="on", share=0).listed
    2
    >>> try:
    ...     judge(trace, table({}, default=0), "strict", levels=(4, 4, 1), statistics="on", share=0)
    ... except Refused as refused:
    ...     print(refused.number, refused.line)
    17 2
    >>> try:
    ...     judge(b'-102 -1 0.000001 0 0 1 "%d%d" 7 2\\n', table({}, default=0), "strict", levels="off", statistics="on", share=0)
    ... except Refused as refused:
    ...     print(refused.number, refused.line)
    19 1

    What processor 1 does 1 and then 7 microseconds later goes with what it received:

    >>> trace = b'''-3 -21 0.000100 0 0 3 2 8 1 1
    ... -4 -52 0.000010 1 0 3 2 8 1 0
    ... -3 7 0.000011 1 0 0
    ... -4 7 0.000018 1 0 0
    ... '''
    >>> for share in (0, 500, 1_000):
    ...     list(judge(trace, table({}, default=5), "strict", levels="off", statistics="off", share=share).times)
    [100, 105, 105, 105]
    [100, 105, 105, 108]
    [100, 105, 106, 113]
    """
    asked = _asked(choice, levels, statistics, share)
    text = _text(trace, "the trace")
    latencies = _latencies(table)
    times = (ctypes.c_int64 * TIMES)()
    room = (ctypes.c_char * (ROOM if written else 0))()

    answer = _judge(
        text, len(text), latencies, len(latencies), asked, times, len(times), bool(written), room, len(room)
    )
    if answer.number != 0:
        raise Refused(answer.number, answer.line, answer.column)
    return Accepted(
        verdict=_VERDICTS[answer.verdict],
        listed=answer.listed,
        passed=answer.passed,
        matched=answer.matched,
        unreceived=answer.unreceived,
        rounds=answer.rounds,
        times=array("q", times[: answer.listed]),
        written=room[: answer.written] if written else None,
    )


def merge(first: bytes | bytearray | memoryview, second: bytes | bytearray | memoryview, choice: Choice) -> bytes:
    """Merges two traces, as of nodes that write one file each, and raises Refused where one of them, or both, are refused.

    first, second  bytes, or whatever lends contiguous bytes; any may be given: what is no good trace is refused
    choice         "strict" or "lenient", for both

    At each step, of the two lines at the heads, the one with the smaller timestamp goes next, the first trace's where equal;
    lines that are passed over go by their timestamps, too. So every line appears once and each trace's own order stays. Each
    trace has limits of its own; a merged one that passes them is refused by `judge`.

    >>> first = b"-3 7 0.000001 0 0 0\\n-4 7 0.000005 0 0 0\\n"
    >>> merge(first, b"-3 7 0.000002 1 0 0\\n", "strict").splitlines()
    [b'-3 7 0.000001 0 0 0', b'-3 7 0.000002 1 0 0', b'-4 7 0.000005 0 0 0']
    >>> try:
    ...     merge(first, b"-3 7 0.000002 1 0 one\\n", "strict")
    ... except Refused as refused:
    ...     print(refused.number, refused.which, refused.line, refused.column)
    5 2 1 19
    """
    number = _numbered(choice)
    ours, theirs = _text(first, "the first trace"), _text(second, "the second trace")
    room = (ctypes.c_char * (len(ours) + len(theirs)))()

    merged = _merge(ours, len(ours), theirs, len(theirs), number, room, len(room))
    if merged.number != 0:
        raise Refused(merged.number, merged.line, merged.column, merged.which)
    return room[: merged.written]


def messages(
    trace: bytes | bytearray | memoryview,
    table: array[int] | memoryview,
    choice: Choice,
    levels: Levels,
    statistics: Statistics,
    share: int,
) -> list[tuple[int, int]]:
    """Lists the messages of one trace, one for each receive and in file order of the receives: the places of its send and of its
    receive. Places count the listed records from 0 in file order, as the times of `judge` do.

    The arguments are those of `judge`, and what that refuses raises the same Refused.

    >>> trace = b"-4 -52 0.000009 1 0 3 2 8 1 0\\n-3 -21 0.000010 0 0 3 2 8 1 1\\n"
    >>> messages(trace, table({}, default=5), "strict", levels="off", statistics="off", share=0)
    [(1, 0)]
    """
    asked = _asked(choice, levels, statistics, share)
    text = _text(trace, "the trace")
    latencies = _latencies(table)
    places = (_Message * (TIMES // 2))()  # each has two records

    filled = _messages(text, len(text), latencies, len(latencies), asked, places, len(places))
    if filled.number != 0:
        raise Refused(filled.number, filled.line, filled.column)
    return [(message.send, message.receive) for message in places[: filled.filled]]


def chain(
    trace: bytes | bytearray | memoryview,
    table: array[int] | memoryview,
    choice: Choice,
    levels: Levels,
    statistics: Statistics,
    share: int,
    place: int,
) -> list[int]:
    """Tells why one record's time moved: the places of the records from it back to one that is still at its original time.

    Each step goes to the record before on the same processor, if that plus the gap that is kept between them is its time, or from
    a receive to its send, if that plus the latency is. So the time of the last record in the chain, and the latencies and kept
    gaps on the way, add up to the time of the first. It is a chain with the fewest steps, and of those, at the first step where
    two differ, the one that goes to the record before on the processor. A record that has not moved is alone in its chain.

    place  the asked record: places count the listed records from 0 in file order, as the times of `judge` do. One that is not
           below their number is refused (22)

    The other arguments are those of `judge`, and what that refuses raises the same Refused.

    >>> trace = b"-3 -21 0.000010 0 0 3 2 8 1 1\\n-4 -52 0.000009 1 0 3 2 8 1 0\\n-3 7 0.000011 1 0 0\\n"
    >>> chain(trace, table({}, default=5), "strict", levels="off", statistics="off", share=0, place=2)
    [2, 1, 0]
    """
    asked = _asked(choice, levels, statistics, share)
    if not _is_whole(place, 2**64 - 1):
        raise ValueError(f"the place should be a whole number of 64 bits from 0, and is {place!r}")
    text = _text(trace, "the trace")
    latencies = _latencies(table)
    places = (ctypes.c_uint64 * TIMES)()

    filled = _chain(text, len(text), latencies, len(latencies), asked, place, places, len(places))
    if filled.number != 0:
        raise Refused(filled.number, filled.line, filled.column)
    return places[: filled.filled]


def _numbered(choice: Choice) -> int:
    if choice not in _CHOICES:
        raise ValueError(f'the choice should be "strict" or "lenient", and is {choice!r}')
    return _CHOICES[choice]


def _asked(choice: Choice, levels: Levels, statistics: Statistics, share: int) -> _Asked:
    number = _numbered(choice)
    if not (isinstance(statistics, str) and statistics in _SWITCHES):
        raise ValueError(f'the statistics should be "on" or "off", and are {statistics!r}')
    switch = _SWITCHES[statistics]
    if not _is_whole(share, 2**32 - 1):
        raise ValueError(f"the share should be a whole number of thousandths from 0 to 1,000, and is {share!r}")
    if isinstance(levels, str) and levels == "off":
        return _Asked(choice=number, levels=_OFF, statistics=switch, share=share)
    if not (isinstance(levels, tuple) and len(levels) == 3 and all(_is_level(level) for level in levels)):
        raise ValueError(f'the levels should be "off" or three whole numbers of 64 bits, and are {levels!r}')
    picl, user, trace = levels
    return _Asked(choice=number, levels=_ON, picl=picl, user=user, trace=trace, statistics=switch, share=share)


def _is_level(value: object) -> bool:
    return isinstance(value, int) and not isinstance(value, bool) and -(2**63) <= value < 2**63


def _is_whole(value: object, limit: int) -> bool:
    return isinstance(value, int) and not isinstance(value, bool) and 0 <= value <= limit


def _latency(value: int, what: str) -> int:
    if not _is_whole(value, LATENCY_LIMIT):
        raise ValueError(f"{what} should be a whole number of microseconds from 0 to 1,000,000, and is {value!r}")
    return value


def _text(trace: object, what: str) -> bytes:
    """A trace's bytes, copied: other threads run during a call, and cannot change what it reads."""
    return bytes(_lent(trace, what, {"B", "b", "c"}, "contiguous bytes"))


def _latencies(table: object) -> ctypes.Array[ctypes.c_uint32]:
    """A table's latencies, copied for the same reason."""
    entries = _lent(table, "the table", {"I"}, "contiguous unsigned numbers of 32 bits, as cantuvesh.table makes them")
    return (ctypes.c_uint32 * (entries.nbytes // 4)).from_buffer_copy(entries)


def _lent(buffer: object, what: str, formats: set[str], kind: str) -> memoryview:
    """What a buffer lends, if its items are of one of these formats and stand side by side."""
    try:
        view = memoryview(buffer)  # type: ignore[arg-type]
    except TypeError:
        raise TypeError(f"{what} should be {kind}, and is of type {type(buffer).__name__}") from None
    if not view.c_contiguous or view.format.lstrip("@=<") not in formats:
        raise TypeError(f"{what} should be {kind}")
    return view


# include/cantuvesh.h for ctypes.


class _Asked(ctypes.Structure):
    _fields_ = [
        ("choice", ctypes.c_uint32),
        ("levels", ctypes.c_uint32),
        *((name, ctypes.c_int64) for name in ("picl", "user", "trace")),
        ("statistics", ctypes.c_uint32),
        ("share", ctypes.c_uint32),
    ]


class _Answer(ctypes.Structure):
    _fields_ = [
        (name, ctypes.c_uint64)
        for name in ("number", "line", "column", "verdict", "listed", "passed", "matched", "unreceived", "rounds", "written")
    ]


class _Merged(ctypes.Structure):
    _fields_ = [(name, ctypes.c_uint64) for name in ("number", "which", "line", "column", "written")]


class _Message(ctypes.Structure):
    _fields_ = [(name, ctypes.c_uint64) for name in ("send", "receive")]


class _Filled(ctypes.Structure):
    _fields_ = [(name, ctypes.c_uint64) for name in ("number", "line", "column", "filled")]


def _loaded() -> ctypes.CDLL:
    beside = Path(__file__).resolve().parent / "../../target/library"
    folder = Path(os.environ.get("CANTUVESH_LIBRARY") or beside).resolve()
    try:
        return ctypes.CDLL(str(folder / f"lib/libcantuvesh.so.{VERSION}"))
    except OSError as error:
        raise ImportError(f"{error}: run ./library, which makes it for x86-64, or name its folder in CANTUVESH_LIBRARY") from error


_library = _loaded()

_judge = _library.cantuvesh_judge
_judge.restype = _Answer
_judge.argtypes = [
    *(ctypes.c_char_p, ctypes.c_size_t),  # the trace
    *(ctypes.POINTER(ctypes.c_uint32), ctypes.c_size_t),  # the latencies
    _Asked,
    *(ctypes.POINTER(ctypes.c_int64), ctypes.c_size_t),  # the times
    ctypes.c_bool,
    *(ctypes.POINTER(ctypes.c_char), ctypes.c_size_t),  # the room
]

_merge = _library.cantuvesh_merge
_merge.restype = _Merged
_merge.argtypes = [
    *(ctypes.c_char_p, ctypes.c_size_t),  # the first trace
    *(ctypes.c_char_p, ctypes.c_size_t),  # the second
    ctypes.c_uint32,
    *(ctypes.POINTER(ctypes.c_char), ctypes.c_size_t),  # the room
]

_messages = _library.cantuvesh_messages
_messages.restype = _Filled
_messages.argtypes = [
    *(ctypes.c_char_p, ctypes.c_size_t),  # the trace
    *(ctypes.POINTER(ctypes.c_uint32), ctypes.c_size_t),  # the latencies
    _Asked,
    *(ctypes.POINTER(_Message), ctypes.c_size_t),  # the list
]

_chain = _library.cantuvesh_chain
_chain.restype = _Filled
_chain.argtypes = [
    *(ctypes.c_char_p, ctypes.c_size_t),  # the trace
    *(ctypes.POINTER(ctypes.c_uint32), ctypes.c_size_t),  # the latencies
    _Asked,
    ctypes.c_uint64,
    *(ctypes.POINTER(ctypes.c_uint64), ctypes.c_size_t),  # the list
]
