"""A trace as the recorder wrote it: one line, and then its events, thread by thread."""

import itertools
import mmap
import os
import re
import struct
from collections.abc import Iterator
from typing import NamedTuple

EVENTS = os.path.join(os.path.dirname(os.path.dirname(os.path.abspath(__file__))), "recorder", "event.h")


def numbers_of(text: str) -> dict[str, int]:
    """The numbers of all names in the enumerations of a C text."""
    text = re.sub(r"/\*.*?\*/", "", text, flags=re.S)
    found = {}
    for body in re.findall(r"enum\s*\w*\s*\{(.*?)\}", text, re.S):
        number = -1
        for name, value in re.findall(r"(\w+)\s*(?:=\s*(\w+))?\s*(?:,|$)", body.strip()):
            number = int(value, 0) if value else number + 1
            found[name] = number
    return found


def numbers(names: str) -> list[int]:
    """Those of these names, as the recorder and the judge have them."""
    with open(EVENTS, encoding="utf-8") as file:
        found = numbers_of(file.read())
    return [found[name] for name in names.split()]


(CREATE, ITEM, START, END, WAIT, WAIT_ITEM, WAIT_ITEMS, GROUP_OPEN, GROUP_CLOSE, REGION_BEGIN, REGION_END, IMPLICIT_BEGIN,
 BARRIER_BEGIN, BARRIER_END, READ, WRITE, MEMORY, LOCK, UNLOCK, NOTE, COPY, CHUNK, ENDED, LOOP_BEGIN, ITERATION, LOOP_END,
 SINGLE_BEGIN, SINGLE_END, MASKED_BEGIN, MASKED_END, ORDERED_BEGIN, ORDERED_END, POST, AWAIT, RELEASE, ACQUIRE, FULFIL,
 RESUME, LAST_BEGIN, LAST_END, LANES_BEGIN, LANE, LANES_END, CHAIN, STRIDES) = numbers(
    "CREATE ITEM START END WAIT WAIT_ITEM WAIT_ITEMS GROUP_OPEN GROUP_CLOSE REGION_BEGIN REGION_END IMPLICIT_BEGIN "
    "BARRIER_BEGIN BARRIER_END READ WRITE MEMORY LOCK UNLOCK NOTE COPY CHUNK ENDED LOOP_BEGIN ITERATION LOOP_END "
    "SINGLE_BEGIN SINGLE_END MASKED_BEGIN MASKED_END ORDERED_BEGIN ORDERED_END POST AWAIT RELEASE ACQUIRE FULFIL RESUME "
    "LAST_BEGIN LAST_END LANES_BEGIN LANE LANES_END CHAIN STRIDES")
NOTES = ("", "reductions", "detach clauses", "priority clauses", "cancellations", "tasks too deep to follow",
         "calls that ask for the thread's number", "teams of one thread by the program", "runs without OMPT",
         "pieces without room", "processes that were forked", "words that regions have one thread from there on",
         "words that regions have more threads from there on", "leagues of one team by the program")
(ATOMIC, FREED, LIBRARY, FRAME, OUTERMOST, STACK, COUNTED, ROW_SHIFT, LARGE, SET, LONGEST_NUMBER, LANE_STEPS, FLAGS, FLAGS_SHIFT,
 FLAGS_EXPLICIT, BEGINS) = numbers("ATOMIC FREED LIBRARY FRAME OUTERMOST STACK COUNTED ROW_SHIFT LARGE SET LONGEST_NUMBER "
                                   "LANE_STEPS FLAGS FLAGS_SHIFT FLAGS_EXPLICIT BEGINS")
MARKS = (1 << ROW_SHIFT) - 1
WRITES = 32      # of a step: the program writes there, be the step a load or a store
UNDEFERRED, FINAL = 0x8000000, 0x20000000
FORMAT = struct.Struct("<QqIIiHBB")
HEADER = b"taskback trace 5 "
PAGE = 4096     # bytes of text in front of the events
PIECE = 2048    # events
FAMILIES, CONTROL, END_MARK = 128, 2, 8     # of packed pieces (packing.h)
STAMP_PART, PARTS = 4, struct.Struct("<8I")


class Event(NamedTuple):
    """One event; what its fields say depends on its kind (recorder.h)."""

    address: int
    value: int
    stamp: int
    task: int
    place: int
    size: int
    kind: int
    mark: int


def takes_number(event: Event) -> bool:
    """Whether the event raises the one counter (event.h); the others have the number that it had."""
    if event.kind == WRITE:
        return event.mark & (FREED | FRAME) == FREED
    if event.kind == START:
        return event.mark & COUNTED != 0
    return event.kind not in (WAIT, READ, CHAIN, MEMORY, ITEM, WAIT_ITEM, ITERATION, LANE, STRIDES, COPY, NOTE)


class BadTrace(Exception):
    """The file isn't a whole trace."""


class Trace:
    """The program's path, and the events in their order, each with its place in it as its stamp."""

    def __init__(self, path: str) -> None:
        try:
            with open(path, "rb") as file:
                data = file.read()
        except OSError as fault:
            raise BadTrace(f"can't read {path}: {fault.strerror}") from fault
        if not data.startswith(HEADER) or len(data) < PAGE or (len(data) - PAGE) % FORMAT.size:
            raise BadTrace(f"{path} is no whole trace")
        first, _, _ = data.partition(b"\n")
        self.program = first[len(HEADER):].decode("utf-8", "surrogateescape")
        # Of one number the event that has taken it comes first; then those that have only read it.
        events = sorted(in_order(data), key=lambda event: (event.stamp, not takes_number(event)))
        # Where a number is missing, an event couldn't be written.
        self.is_cut = data[:PAGE].endswith(b"no room\n") or bool(events) and events[-1].stamp != sum(map(takes_number, events))
        self.events = [event._replace(stamp=number) for number, event in enumerate(events, 1)]


def pieces_of(data: bytes | memoryview) -> Iterator[tuple[Event, int, int]]:
    """Of each piece that is whole: its first event, and where the rest begins and ends."""
    at = PAGE
    while at + FORMAT.size <= len(data):
        head = Event._make(FORMAT.unpack_from(data, at))
        begin, packed = at + FORMAT.size, head.value if head.kind == CHUNK else 0
        if head.kind == 0:
            at = begin      # between two pieces
        elif packed:
            end = begin + packed
            if data[end:end + END_MARK] == b"\xff" * END_MARK:
                yield head, begin, end
            at = -(-(end + END_MARK) // FORMAT.size) * FORMAT.size
        else:
            at = min(at + PIECE * FORMAT.size, len(data))
            yield head, begin, at


def unpacked(head: Event, data: bytes | memoryview) -> Iterator[Event]:
    """The events of a packed piece, behind its first one (packing.h)."""
    before, at = PARTS.unpack(FORMAT.pack(*head._replace(value=0))), 0
    last = [before] * FAMILIES
    while at < len(data):
        control = int.from_bytes(data[at:at + CONTROL], "little")
        parts = [*last[control % FAMILIES]]
        parts[STAMP_PART:STAMP_PART + 2] = (before[STAMP_PART] + (control >> 15)) % 2**32, before[STAMP_PART + 1]
        at += CONTROL
        for number in range(len(parts)):
            if control >> 7 + number & 1:
                parts[number] = int.from_bytes(data[at:at + 4], "little")
                at += 4
        before = last[control % FAMILIES] = tuple(parts)
        yield Event._make(FORMAT.unpack(PARTS.pack(*parts)))


def farther(event: Event, distance: int) -> Event:
    """The step of another lane, of whose number nothing is known."""
    shift, address = event.size.bit_length() - 1, (event.address + distance) % 2**64
    return event._replace(address=address >> shift + 6 << shift + 6, value=1 << (address >> shift & 63), size=SET,
                          mark=event.mark | 1 + shift << ROW_SHIFT)


def lanes(lane: Event, events: list[Event]) -> Iterator[Event]:
    """The steps of a lane, and of those that follow it, behind which stand these events."""
    count = next(number for number, event in enumerate(events) if event.kind not in (READ, WRITE))
    told = itertools.takewhile(lambda event: event.kind == STRIDES, events[count:])
    strides = struct.unpack(f"<{4 * -(-count // 4)}i", b"".join(struct.pack("<Qq", *event[:2]) for event in told))
    for number in range(lane.size + 1):
        yield lane._replace(size=0)
        for event, stride in zip(events[:count], strides):
            yield (farther(event, number * stride) if number else event)._replace(stamp=lane.stamp)


def making(event: Event, stack: int) -> Iterator[Event]:
    """The events of a task's making, which says of its record, and maybe of its start on a thread with this stack."""
    child, used = event.value & 0xffffffff, event.value >> 32
    yield event._replace(kind=MEMORY, value=event.size, stamp=event.stamp - 1, place=0, size=0, mark=0)
    yield event._replace(address=child, value=(event.mark & FLAGS) << FLAGS_SHIFT | FLAGS_EXPLICIT, size=0, mark=0)
    if event.mark & BEGINS:
        yield Event(stack if used else 0, used, event.stamp, child, 0, 0, START, STACK if used else 0)


def unfolded(events: list[Event], stack: int) -> Iterator[Event]:
    """These events of a thread with this stack, of which some stand for several (event.h)."""
    left = iter(range(len(events)))
    for at in left:
        event = events[at]
        size, before = event.size, event.stamp - 1
        if event.kind == LANE and size:
            yield from lanes(event, events[at + 1:at + 1 + LANE_STEPS + LANE_STEPS // 4])
            while events[at + 1].kind in (READ, WRITE):
                at = next(left)
        elif event.kind == CREATE and size:
            yield from making(event, stack)
        elif event.kind == END and size:
            is_long = size > LONGEST_NUMBER
            yield event._replace(kind=WRITE, mark=FREED | FRAME | OUTERMOST, address=event.address + event.value - size,
                                 value=size if is_long else 0, size=LARGE if is_long else size, stamp=before)
            yield event._replace(place=0, size=0)
        elif event.kind != STRIDES:
            yield event


def in_order(data: bytes) -> list[Event]:
    """The events of each thread in its order: its first piece, which it fills again and again, has its newest ones."""
    threads: dict[int | None, list[list[Event]]] = {}
    stacks: dict[int | None, int] = {}
    for head, begin, end in pieces_of(data):
        own = memoryview(data)[begin:end]
        if head.kind == CHUNK and head.value:
            piece = list(unpacked(head, own))
        else:
            piece = [Event._make(fields) for fields in FORMAT.iter_unpack(own)]
            piece = piece[:next((number for number, event in enumerate(piece) if event.kind == 0), len(piece))]
        thread = head.address if head.kind == CHUNK else None
        stacks[thread] = head.stamp | head.task << 32
        threads.setdefault(thread, []).append(piece if head.kind == CHUNK else [head, *piece])
    for thread, pieces in threads.items():
        if thread is not None:
            pieces.append(pieces.pop(0))
            if len(pieces) > 1 and len(pieces[-1]) == PIECE - 1 and pieces[-1] == pieces[-2]:
                pieces.pop()
    return [event for thread, pieces in threads.items() for piece in pieces for event in unfolded(piece, stacks[thread])]


def count_events(path: str) -> int:
    """How many events the trace has, at most; BadTrace where it can't be read."""
    try:
        with open(path, "rb") as file:
            size = os.path.getsize(path)
            if size <= PAGE:
                return 0
            with mmap.mmap(file.fileno(), size, access=mmap.ACCESS_READ) as data, memoryview(data) as bytes_of:
                return sum((PIECE - 1 if head.value else (end - begin) // FORMAT.size) + head.place if head.kind == CHUNK
                           else (end - begin) // FORMAT.size for head, begin, end in pieces_of(bytes_of))
    except OSError as fault:
        raise BadTrace(f"can't read {path}: {fault.strerror}") from fault
