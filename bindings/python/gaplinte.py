"""A plan of rounds for one recorder: the calls of the proved library, in document 01's terms.

>>> plan = Plan()
>>> plan.open(4, 12)
0
>>> plan.owner(24)
Owner(line=4, rest=None)
>>> plan.owner(25)
Owner(line=None, rest=11)
>>> plan.open(4, 12)
Traceback (most recent call last):
    ...
gaplinte.Refused: refused with 3: the line is open already

A refused call raises Refused, and leaves plan, walker and buffer as found. A number that does not fit raises
OverflowError, so that none is cut: a line, a period, a round, a level, an offset and a class have 64 bits, the number
of rounds that turns takes has 32, and that of a sheet 16. Different plans may be used in different threads; while one
thread changes a plan, no other may use it.

The shared library is the file that the environment variable GAPLINTE_LIBRARY names, or else
target/staticlib/libgaplinte.so of the repository. In the repository it is made by

    bash bindings/build
    cd target/staticlib
    cc -shared -o libgaplinte.so -Wl,--whole-archive libgaplinte.a -Wl,--no-whole-archive
"""

from __future__ import annotations

import ctypes
import operator
import os
import pathlib
import struct
from typing import NamedTuple

KIND_OPEN = 0
KIND_CLOSE = 1

_LINES = 64
_ROWS = 11
_IDLE_FROM = 64
_STEP_DOES_NOT_DIVIDE = 64
_ORDER_BYTES = 3
_IMAGE_BYTES = 2193

# In the words of include/gaplinte.h.
_TEXTS = {
    1: "the line is above 63",
    2: "the period is not 1 to 4095",
    3: "the line is open already",
    4: "the line is not open",
    5: "no node of the plan is a candidate for the period",
    6: "no order: the kind is above 1, a close has a period, or one of the last four bits is 1",
    7: "the list is longer than 65535 bytes or ends inside an order",
    8: "the buffer is too short for the answers or the image",
    9: "the walker's next round or count is 2^64 - 1",
    10: "no node has this level and offset",
    11: "the node has no such class for the period",
    12: "no line stands in the class",
    13: "bits of the image are missing, or bytes follow its last one",
    14: "no image: a field is out of range, a bit that fills the last byte is 1, or the tree is not legal",
    15: "a line is open in both plans",
    16: "a doubled period is above 4095",
}


class Refused(Exception):
    """A call was refused: with a number of documents 01 and 02, 1 to 16, and what that means."""

    def __init__(self, number: int):
        super().__init__(number)
        self.number = number
        self.text = _TEXTS[number]

    def __str__(self) -> str:
        return f"refused with {self.number}: {self.text}"


class Row(NamedTuple):
    """One row of a path: a node's weight, and the edge taken there."""

    weight: int
    edge: int


class Trial(NamedTuple):
    """What an open would do: its start, how many more nodes the plan would have, whether one would be split."""

    start: int
    added: int
    split: bool


class Reason(NamedTuple):
    """What keeps a period from a class of a node: line is None where the node's step does not divide the period.

    Else it is the open line of lowest number that stands, at any depth, under an edge of the class. It can be 0.
    """

    line: int | None

    def __str__(self) -> str:
        if self.line is None:
            return "the node's step does not divide the period"
        return f"line {self.line} stands in the class"


class Owner(NamedTuple):
    """To whom a round belongs: line is None where it is idle, rest is None where a line owns it.

    The rest is how many rounds lie from the round to the next owned one: 1 to 4,094, and 0 for an empty plan only.
    """

    line: int | None
    rest: int | None


class Shown(NamedTuple):
    """What show gives: a line's period, its start, and the 11 rows of its path; those not used are 0 and 0."""

    period: int
    start: int
    path: tuple[Row, ...]


class Sheet(NamedTuple):
    """What sheet gives: the turns of each of the lines 0 to 63, 0 for a closed one, and the idle rounds."""

    turns: tuple[int, ...]
    idle: int

    @property
    def total(self) -> int:
        """The turns of all lines and the idle rounds, added up: the number of rounds."""
        return sum(self.turns) + self.idle


class OpenLine(NamedTuple):
    """An open line of a plan."""

    line: int
    period: int
    start: int


class Call(NamedTuple):
    """What an order asks for: KIND_OPEN with a period, or KIND_CLOSE with period 0."""

    kind: int
    line: int
    period: int


class Answer(NamedTuple):
    """What an order of a list is answered with: 0 or the number of its refusal, and the start if it opened a line."""

    result: int
    start: int | None


class _RowRecord(ctypes.Structure):
    _fields_ = [("weight", ctypes.c_uint16), ("edge", ctypes.c_uint16)]


class _PlanRecord(ctypes.Structure):
    _fields_ = [("paths", _RowRecord * _ROWS * _LINES)]


class _TriedRecord(ctypes.Structure):
    _fields_ = [("start", ctypes.c_uint16), ("added", ctypes.c_uint16), ("split", ctypes.c_uint16)]


class _ShownRecord(ctypes.Structure):
    _fields_ = [("period", ctypes.c_uint16), ("start", ctypes.c_uint16), ("path", _RowRecord * _ROWS)]


class _FiguresRecord(ctypes.Structure):
    _fields_ = [("turns", ctypes.c_uint16 * _LINES), ("idle", ctypes.c_uint16)]


class _PlaceRecord(ctypes.Structure):
    _fields_ = [("next", ctypes.c_uint64), ("owned", ctypes.c_uint64)]


class _OrderRecord(ctypes.Structure):
    _fields_ = [("bytes", ctypes.c_uint8 * _ORDER_BYTES)]


class _CallRecord(ctypes.Structure):
    _fields_ = [("kind", ctypes.c_uint16), ("line", ctypes.c_uint16), ("period", ctypes.c_uint16)]


def _loaded() -> ctypes.CDLL:
    """The shared library, with the types of its functions."""
    repository = pathlib.Path(__file__).resolve().parents[2]
    path = os.environ.get("GAPLINTE_LIBRARY") or str(repository / "target/staticlib/libgaplinte.so")
    try:
        library = ctypes.CDLL(path)
    except OSError as error:
        raise ImportError(f"{error}; the head of {__file__} says how the shared library is made") from error
    number = ctypes.c_uint64
    plan = ctypes.POINTER(_PlanRecord)
    order = ctypes.POINTER(_OrderRecord)
    for name, arguments in {
        "open": [plan, number, number],
        "trial": [plan, number, number, ctypes.POINTER(_TriedRecord)],
        "reason": [plan, number, number, number, number],
        "close": [plan, number],
        "owner": [plan, number],
        "show": [plan, number, ctypes.POINTER(_ShownRecord)],
        "turns": [plan, number, number, ctypes.c_uint32],
        "sheet": [plan, number, ctypes.c_uint16, ctypes.POINTER(_FiguresRecord)],
        "walk": [plan, ctypes.POINTER(_PlaceRecord)],
        "run_list": [plan, ctypes.c_char_p, ctypes.c_size_t, ctypes.c_char_p, ctypes.c_size_t],
        "write_image": [plan, ctypes.c_char_p, ctypes.c_size_t],
        "read_image": [plan, ctypes.c_char_p, ctypes.c_size_t],
        "weave": [plan, plan, plan],
        "pack": [number, number, number, order],
        "read": [order, ctypes.POINTER(_CallRecord)],
        "is_tree": [plan],
    }.items():
        function = getattr(library, "gaplinte_" + name)
        function.argtypes = arguments
        function.restype = ctypes.c_int64
    return library


_library = _loaded()


def _number(value: int, bits: int = 64) -> int:
    """The value, where it has no more than so many bits: ctypes would cut it without a word."""
    number = operator.index(value)
    if not 0 <= number < 1 << bits:
        raise OverflowError(f"the number is not 0 to 2**{bits} - 1")
    return number


def _bytes(value: bytes) -> bytes:
    """The bytes of anything that has some; bytes(5), say, would be five of them."""
    return bytes(memoryview(value))


def _lent(buffer: bytearray | memoryview) -> tuple[ctypes.Array[ctypes.c_char], int]:
    """The bytes of a buffer, to be written to, and how many they are."""
    length = memoryview(buffer).nbytes
    return (ctypes.c_char * length).from_buffer(buffer), length


def _value(answer: int) -> int:
    """The value of an answer that is not minus the number of a refusal."""
    if answer < 0:
        raise Refused(-answer)
    return answer


def _owner(value: int) -> Owner:
    """What a value of owner or of the walker tells."""
    return Owner(value, None) if value < _IDLE_FROM else Owner(None, value - _IDLE_FROM)


class Plan:
    """A plan of rounds, at first the empty one."""

    def __init__(self) -> None:
        self._record = _PlanRecord()

    @classmethod
    def from_bytes(cls, record: bytes) -> Plan:
        """The plan of a stored record, whatever it holds: each call treats one that is no tree as the empty plan."""
        record = _bytes(record)
        if len(record) != ctypes.sizeof(_PlanRecord):
            raise ValueError(f"the record of a plan has {ctypes.sizeof(_PlanRecord)} bytes")
        plan = cls()
        plan._record = _PlanRecord.from_buffer_copy(record)
        return plan

    def __copy__(self) -> Plan:
        """A plan with a record of its own."""
        return self.from_bytes(bytes(self))

    def __bytes__(self) -> bytes:
        """The plan's record, to be stored: 11 rows of weight and edge for each line, in the machine's byte order."""
        return bytes(self._record)

    def __eq__(self, other: object) -> bool:
        return bytes(self) == bytes(other) if isinstance(other, Plan) else NotImplemented

    def __repr__(self) -> str:
        return f"<Plan {self.lines()}>"

    def open(self, line: int, period: int) -> int:
        """Opens a line and gives its start: the smallest that a candidate offers, and 0 in an empty plan. Refused with 1, 2, 3 or 5."""
        return _value(_library.gaplinte_open(self._record, _number(line), _number(period)))

    def trial(self, line: int, period: int) -> Trial:
        """What the open of a line with a period would do; the plan is only read. Refused as open is."""
        tried = _TriedRecord()
        _value(_library.gaplinte_trial(self._record, _number(line), _number(period), tried))
        return Trial(tried.start, tried.added, tried.split == 1)

    def reason(self, period: int, level: int, offset: int, edge_class: int) -> Reason:
        """The reason behind a 5: what keeps a period from a class of the node at a level and an offset.

        The node of row k of a path has level k, so that the root has level 0. Its step is the product of the weights
        above it, 1 for the root, and its offset is the sum of the edges above it, each times the step of the node that
        it belongs to. Where the step divides the period, d is the greatest common divisor of the node's weight and the
        period divided by the step: the classes are 0 to d - 1, and an edge is of the class that it leaves when it is
        divided by d. Where the step does not divide the period, the class is not looked at.

        Refused with 2, with 10 where no node has this level and offset, with 11 where the class is not below d, or
        with 12 where no line stands in the class: the first that applies. On a plan with an open line, an open that
        passes 1, 2 and 3 is refused with 5 if and only if this call, asked of every level, offset and class, is never
        refused with 12.

        >>> plan = Plan()
        >>> plan.open(1, 4), plan.open(2, 6)
        (0, 1)
        >>> plan.reason(2, 0, 0, 1), plan.reason(3, 1, 0, 0)
        (Reason(line=2), Reason(line=None))
        >>> plan.close(2)
        >>> plan.reason(2, 0, 0, 1)
        Traceback (most recent call last):
            ...
        gaplinte.Refused: refused with 12: no line stands in the class
        """
        node = _number(level), _number(offset)
        value = _value(_library.gaplinte_reason(self._record, _number(period), *node, _number(edge_class)))
        return Reason(None if value == _STEP_DOES_NOT_DIVIDE else value)

    def close(self, line: int) -> None:
        """Closes a line. Other lines can have shorter paths then, and keep their periods and starts. Refused with 1 or 4."""
        _value(_library.gaplinte_close(self._record, _number(line)))

    def owner(self, round: int) -> Owner:
        """The owner of a round: its line or, where it is idle, the rest. round + rest can be 2**64 and more."""
        return _owner(_value(_library.gaplinte_owner(self._record, _number(round))))

    def show(self, line: int) -> Shown:
        """A line's period, start and path. Refused with 1 or 4."""
        shown = _ShownRecord()
        _value(_library.gaplinte_show(self._record, _number(line), shown))
        return Shown(shown.period, shown.start, tuple(Row(row.weight, row.edge) for row in shown.path))

    def lines(self) -> list[OpenLine]:
        """The open lines, in rising number."""
        lines = []
        for line in range(_LINES):
            try:
                shown = self.show(line)
            except Refused:
                continue
            lines.append(OpenLine(line, shown.period, shown.start))
        return lines

    def turns(self, line: int, first: int, rounds: int) -> int:
        """Exactly how many rounds the line owns among so many from first on, past 2**64 too. Refused with 1 or 4."""
        return _value(_library.gaplinte_turns(self._record, _number(line), _number(first), _number(rounds, 32)))

    def sheet(self, first: int, rounds: int) -> Sheet:
        """The turns of each line and the idle rounds among so many rounds from first on, past 2**64 too.

        They add up to the number of rounds, which is at most 65,535; for more ask for several sheets.
        """
        figures = _FiguresRecord()
        _value(_library.gaplinte_sheet(self._record, _number(first), _number(rounds, 16), figures))
        return Sheet(tuple(figures.turns), figures.idle)

    def run_list(self, orders: bytes) -> list[Answer]:
        """Runs a list of orders, three bytes each, and gives the answer of each. Refused with 7.

        An order that is refused does not end the list: its number stands among the answers.
        """
        orders = _bytes(orders)
        count = len(orders) // _ORDER_BYTES
        # One byte more, so that there is an address also where there are no answers.
        answers = ctypes.create_string_buffer(2 * count + 1)
        _value(_library.gaplinte_run_list(self._record, orders, len(orders), answers, 2 * count))
        results = [divmod(number, 1 << 12) for number in struct.unpack_from(f">{count}H", answers)]
        kinds = [byte >> 6 for byte in orders[::_ORDER_BYTES]]
        return [
            Answer(result, start if (result, kind) == (0, KIND_OPEN) else None)
            for kind, (result, start) in zip(kinds, results)
        ]

    @classmethod
    def from_image(cls, image: bytes) -> Plan:
        """The plan with an image's tree. Refused as read_image is."""
        plan = cls()
        plan.read_image(image)
        return plan

    def to_image(self) -> bytes:
        """The image of the plan: its paths as bits, to be read on any machine.

        7 bits say how many lines are open. Then come the open lines, the lowest first, with 6 bits for the line, 4 for
        how many rows its path has, and 24 for each row, half of them for the weight and half for the edge. Each number
        begins with its highest bit, and what is left of the last byte is 0. Two plans have the same image if and only
        if they have the same tree.

        >>> plan = Plan()
        >>> plan.open(5, 6)
        0
        >>> image = plan.to_image()
        >>> image.hex(" ")
        '02 28 80 30 00 00'
        >>> Plan.from_image(image) == plan
        True
        >>> Plan.from_image(image[:5])
        Traceback (most recent call last):
            ...
        gaplinte.Refused: refused with 13: bits of the image are missing, or bytes follow its last one
        """
        image = bytearray(_IMAGE_BYTES)
        length = self.write_image(image)
        return bytes(image[:length])

    def write_image(self, buffer: bytearray | memoryview) -> int:
        """Writes the image into anything that has bytes to write to, and gives its length. Refused with 8.

        Later bytes of the buffer are left alone. 2,193 bytes are enough for every plan.
        """
        return _value(_library.gaplinte_write_image(self._record, *_lent(buffer)))

    def read_image(self, image: bytes) -> None:
        """Reads an image: the plan, whatever it was, gets the image's tree.

        Refused at the first number of the image that cannot be read: with 13 where the bytes end inside it, and with 14
        where it says 65 lines or more, no rows or 12 and more, or the weight 0. Where all can be read, refused with 13
        if another byte comes behind them, else with 14 if what is left of the last byte is not 0, else with 14 for any
        of these: a line number that is not above the one before it, an edge that is not below its weight, a period
        above 4,095, a weight of 1 beside other rows, two weights at one place, a line at another's place or on the way
        to it.
        """
        image = _bytes(image)
        _value(_library.gaplinte_read_image(self._record, image, len(image)))

    def weave(self, other: Plan) -> Plan:
        """Weaves this plan and another into a third, for a recorder of twice the rate; both are only read.

        Where t is even, the owner of round t is then that of round t / 2 in this plan, and where t is odd, that of
        round (t - 1) / 2 in the other. Each period is doubled, and a start s becomes 2 * s for a line of this plan and
        2 * s + 1 for a line of the other. The root has weight 2, with this plan's tree under edge 0 and the other's
        under edge 1. The edge of a plan without lines is absent; where both have none, the woven plan is the empty
        one. Where a root has weight 1, its line alone stands under the edge. Refused with 15 where a line is open in
        both, else with 16 where a doubled period is above 4,095.

        >>> one, other = Plan(), Plan()
        >>> one.open(1, 4), other.open(2, 3)
        (0, 0)
        >>> woven = one.weave(other)
        >>> woven.lines()
        [OpenLine(line=1, period=8, start=0), OpenLine(line=2, period=6, start=1)]
        >>> woven.owner(13)
        Owner(line=2, rest=None)
        >>> woven.open(3, 6)
        3
        >>> woven.weave(one)
        Traceback (most recent call last):
            ...
        gaplinte.Refused: refused with 15: a line is open in both plans
        """
        woven = Plan()
        _value(_library.gaplinte_weave(self._record, other._record, woven._record))
        return woven

    def is_tree(self) -> bool:
        """Whether the record is a tree; where it is not, each call treats the plan as the empty one."""
        return _value(_library.gaplinte_is_tree(self._record)) == 1


class Walker:
    """The owners of rounds one after the other. It keeps the next round, and how many of those seen were owned."""

    def __init__(self, next: int = 0, owned: int = 0) -> None:
        self.next = _number(next)
        self.owned = _number(owned)

    def walk(self, plan: Plan) -> Owner:
        """The owner of the next round, as Plan.owner gives it; the walker moves on by one round. Refused with 9."""
        place = _PlaceRecord(_number(self.next), _number(self.owned))
        owner = _owner(_value(_library.gaplinte_walk(plan._record, place)))
        self.next, self.owned = place.next, place.owned
        return owner


def pack(kind: int, line: int, period: int = 0) -> bytes:
    """The three bytes of an order; a close has period 0. Refused with 6, 1 or 2."""
    order = _OrderRecord()
    _value(_library.gaplinte_pack(_number(kind), _number(line), _number(period), order))
    return bytes(order)


def read(order: bytes) -> Call:
    """The call that the three bytes of an order ask for. Refused with 6."""
    order = _bytes(order)
    if len(order) != _ORDER_BYTES:
        raise ValueError(f"an order has {_ORDER_BYTES} bytes")
    call = _CallRecord()
    _value(_library.gaplinte_read(_OrderRecord.from_buffer_copy(order), call))
    return Call(call.kind, call.line, call.period)
