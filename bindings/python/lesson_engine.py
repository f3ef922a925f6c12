"""The lesson engine: MiniJava from bytes to printed numbers.

A lesson goes in, an answer comes out. The operations are proved; this module, which lends them what they need, is tested.

>>> run(b"class M{public static void main(String[] a){System.out.println(1+2);}}").printed
[3]
>>> try:
...     check(b"class M{public static void main(String[] a){x=1;}}")
... except Refusal as refusal:
...     print(refusal.number, refusal.position, refusal.name)
30 44 name unknown

A lesson can also be written as frames, stack code for readers (`frames`), whose runs go on in parts and can be stored between them (`run_frames`, `parts`, `Paused`).

It takes libengine.so from the folder that the environment names as ENGINE_LIBRARY, or from where ./build of the repository writes it. A call needs up to STACK_BYTES of stack
beside the interpreter's own. Any number of threads may call at once.
"""
import ctypes
import dataclasses
import os
import pathlib
import re
import struct
import typing

# [words/write constants: what words/operations.txt says
VERSION = 5  # the version of these declarations; it goes up when one of them or its meaning changes
TABLE_WORDS = 16384  # the work table has at least so many words
SOURCE_MOST = 16384  # a lesson has at most so many bytes; a longer one is refused, and never read past its end
HEAP_MOST = 16384  # the heap strip has at most so many words
CALLS_MOST = 64  # the call limit is 1 to this
REGISTERS = 16  # the register strip has exactly so many bytes
CLASSES_MOST = 2048  # no lesson has more classes: a strip of so many words is long enough for Menu
JOIN_MOST = 33281  # no joined text has more bytes: a strip of so many is long enough for Join, and so is one of the lengths of lesson and library and 513 more
PRINT_MOST = 18432  # no printed text has more bytes, nor more than the lesson and 2,048: a strip of so many is long enough for Print
FRAMES_MOST = 373417  # the frames of no lesson have more bytes: a strip of so many is long enough for Encode
STACK_ENTRIES = 140000  # the stack strip of frames has at least so many entries
STACK_BYTES = 1048576  # a call takes at most so many bytes of stack
# words/write]


class Words(typing.NamedTuple):
    """What a number means. `cause` is `call` where what was lent does not fit, `lesson`, `library` or `frames` where that is refused, `fault` or `limit` where a run ended so."""

    name: str
    sentence: str
    cause: str


WORDS = {
    # [words/write numbers: what words/refusals.txt says
    1: Words("table too short", "The work table has fewer than 16,384 words.", "call"),
    2: Words("call limit out of range", "The call limit is not 1 to 64.", "call"),
    3: Words("heap too long", "The heap strip has more than 16,384 words.", "call"),
    4: Words("strip too short", "The strip has fewer words than the lesson has classes beside main's.", "call"),
    10: Words("source too long", "The lesson has more than 16,384 bytes.", "lesson"),
    11: Words("no token", "No word, number or mark of the language begins with this byte.", "lesson"),
    12: Words("comment not closed", "A block comment is opened and never closed; comments nest, so each opening needs its own closing.", "lesson"),
    13: Words("name too long", "A name has more than 255 letters, digits and underscores.", "lesson"),
    14: Words("literal too large", "A number is larger than 2147483647, or one with a point larger than 2147483.647.", "lesson"),
    15: Words("too many tokens", "The lesson has more than 2,048 words, numbers and marks.", "lesson"),
    16: Words("not in grammar", "No program goes on like this from here: something is missing, misplaced or too much.", "lesson"),
    17: Words("too deep", "A statement or an expression lies inside more than 63 others.", "lesson"),
    20: Words("class repeated", "Another class before this one has the same name.", "lesson"),
    21: Words("parent unknown", "The lesson has no class of the name after `extends`; the main class cannot be extended.", "lesson"),
    22: Words("chain endless", "The class extends itself, or its parents lead into a loop.", "lesson"),
    23: Words("field repeated", "The class has another field of the same name.", "lesson"),
    24: Words("type unknown", "The lesson has no class of this name; the main class is no type.", "lesson"),
    25: Words("method repeated", "The class has another method of the same name.", "lesson"),
    26: Words("bad redeclaration", "A method of this name in a class above has other parameter types, or a result that this one's does not fit.", "lesson"),
    27: Words("variable repeated", "The method has another parameter or local of the same name.", "lesson"),
    28: Words("too many variables", "The method has more than 32 parameters and locals together.", "lesson"),
    30: Words("name unknown", "No local, parameter or field of this name can be seen here; main sees none at all.", "lesson"),
    31: Words("wrong type", "This part has another type than its place needs.", "lesson"),
    32: Words("method unknown", "Neither the class nor a class above it has a method of this name.", "lesson"),
    33: Words("argument count", "The method takes another number of arguments.", "lesson"),
    34: Words("this in main", "Main belongs to no object, so it has no `this`.", "lesson"),
    40: Words("null reference", "There is no object or array here: the reference is null.", "fault"),
    41: Words("index out of range", "The index is negative, or not below the array's length.", "fault"),
    42: Words("negative size", "An array cannot have a negative length.", "fault"),
    50: Words("budget spent", "The budget of steps or frames is spent, and another is due.", "limit"),
    51: Words("heap full", "The heap strip has no room for this object or array.", "limit"),
    52: Words("calls full", "As many calls are open as the call limit allows.", "limit"),
    53: Words("output full", "The output strip has no room for another number.", "limit"),
    60: Words("leading zero", "A number begins with 0 and another digit, which means another number in Java.", "lesson"),
    61: Words("text too long", "The strip is too short for the printed lesson.", "call"),
    62: Words("registers not sixteen", "The register strip has not exactly 16 bytes.", "call"),
    63: Words("register out of range", "The cable has registers 0 to 15 only.", "fault"),
    64: Words("value out of range", "A register takes 0 to 255 only.", "fault"),
    65: Words("not three digits", "A number with a point has other than three digits behind it.", "lesson"),
    66: Words("library refused", "The library has something other than class declarations, or Read's rules and bounds do not hold for it.", "library"),
    67: Words("joined too long", "The strip is too short for the lesson and the classes of the library.", "call"),
    68: Words("frames too short", "The strip is too short for the frames of the lesson, or the stack strip has fewer than 140,000 entries.", "call"),
    69: Words("other form", "The line is something other than ten lower-case hexadecimal digits and a line feed.", "frames"),
    70: Words("frame fault", "The code table does not allow this frame, by its code, its operand or a value that it takes; or the stack strip is full, or the line is past the last.", "fault"),
    71: Words("record unfit", "The record does not fit the frames, the limits or the strips, or its counts and the new budget are together above 4294967295.", "call"),
    72: Words("price unfit", "The price of a call is neither 1 nor 10.", "call"),
    # words/write]
}


class Refusal(Exception):
    """Why a lesson, a library or a text of frames is refused, or how a run ended otherwise than by itself, and where: a position in bytes, from 0. Of number 66, and of what
    `read_library` refuses, it counts the bytes of the library; of a run of frames those of the frames."""

    def __init__(self, number, position):
        super().__init__(number, position)
        self.number = number
        self.position = position
        self.name, self.sentence, self.cause = WORDS[number]

    def __str__(self):
        return "%d %s, at byte %d: %s" % (self.number, self.name, self.position, self.sentence)

    def __eq__(self, other):
        return isinstance(other, Refusal) and self.args == other.args

    def __hash__(self):
        return hash(self.args)


@dataclasses.dataclass(frozen=True)
class Size:
    """What Read counts; nodes are statements and expressions."""

    tokens: int
    nodes: int


@dataclasses.dataclass(frozen=True)
class Limits:
    """The limits of a run: steps; open calls, 1 to 64; words of objects and arrays, at most 16,384; printed numbers. The default are those of `bayrun`."""

    budget: int = 100000
    calls: int = 64
    heap: int = 4096
    output: int = 256


@dataclasses.dataclass(frozen=True)
class Run:
    """How a run went. `end` is the fault or limit that ended it, None where the lesson came to its end."""

    end: typing.Optional[Refusal]
    steps: int
    climbs: int
    words: int
    printed: typing.List[int]
    registers: bytes


@dataclasses.dataclass(frozen=True)
class FrameLimits:
    """The limits of a run of frames: what the frames of a part may cost, a call the price and every other frame 1; open calls, 1 to 64; words of objects and arrays, at most
    16,384; printed numbers; the price, 1 or 10. The default are those of `bayrun`; a lesson takes at most four frames a step, and one."""

    budget: int = 400001
    calls: int = 64
    heap: int = 4096
    output: int = 256
    price: int = 1


@dataclasses.dataclass(frozen=True)
class FrameRun:
    """How a run of frames went, over all its parts. `end` is the fault or limit that ended it, None where it came to its end; where the budget was spent, it goes on from
    `paused`, which is None otherwise."""

    end: typing.Optional[Refusal]
    frames: int
    words: int
    printed: typing.List[int]
    registers: bytes
    paused: typing.Optional["Paused"]


@dataclasses.dataclass(frozen=True)
class Part:
    """How a part of a run went. `end` is as in FrameRun, `frames` counts all parts so far, `printed` are the numbers of this part."""

    end: typing.Optional[Refusal]
    frames: int
    printed: typing.List[int]


# [words/write records: what words/operations.txt says
class ReadAnswer(ctypes.Structure):
    _fields_ = [
        ("number", ctypes.c_uint32),
        ("position", ctypes.c_size_t),
        ("tokens", ctypes.c_size_t),
        ("nodes", ctypes.c_size_t),
    ]


class CheckAnswer(ctypes.Structure):
    _fields_ = [
        ("number", ctypes.c_uint32),
        ("position", ctypes.c_size_t),
        ("classes", ctypes.c_size_t),
    ]


class WriteAnswer(ctypes.Structure):
    _fields_ = [
        ("number", ctypes.c_uint32),
        ("position", ctypes.c_size_t),
        ("count", ctypes.c_size_t),
    ]


class RunLimits(ctypes.Structure):
    _fields_ = [
        ("budget", ctypes.c_uint32),
        ("calls", ctypes.c_size_t),
    ]


class RunAnswer(ctypes.Structure):
    _fields_ = [
        ("number", ctypes.c_uint32),
        ("position", ctypes.c_size_t),
        ("steps", ctypes.c_size_t),
        ("climbs", ctypes.c_uint64),
        ("words", ctypes.c_size_t),
        ("printed", ctypes.c_size_t),
    ]


class PartLimits(ctypes.Structure):
    _fields_ = [
        ("budget", ctypes.c_uint32),
        ("calls", ctypes.c_size_t),
        ("price", ctypes.c_uint32),
    ]


class FrameRecord(ctypes.Structure):
    _fields_ = [
        ("line", ctypes.c_size_t),
        ("height", ctypes.c_size_t),
        ("calls", ctypes.c_size_t),
        ("words", ctypes.c_size_t),
        ("printed", ctypes.c_size_t),
        ("tape", ctypes.c_size_t),
        ("marks", ctypes.c_size_t),
        ("frames", ctypes.c_uint64),
        ("unspent", ctypes.c_uint64),
    ]


class FramesAnswer(ctypes.Structure):
    _fields_ = [
        ("number", ctypes.c_uint32),
        ("position", ctypes.c_uint64),
        ("frames", ctypes.c_uint64),
        ("words", ctypes.c_size_t),
        ("printed", ctypes.c_size_t),
        ("pause", FrameRecord),
    ]
# words/write]


def lent(kind):
    """A strip to be written, of numbers of a kind: a pointer and a length."""
    return [ctypes.POINTER(kind), ctypes.c_size_t]


def load():
    """The library, with its functions declared."""
    here = pathlib.Path(__file__).resolve().parent
    folder = pathlib.Path(os.environ.get("ENGINE_LIBRARY", here.parent.parent / "target" / "lib"))
    found = ctypes.CDLL(str(folder / "libengine.so"))
    given = [ctypes.c_char_p, ctypes.c_size_t]
    found.engine_version.argtypes, found.engine_version.restype = [], ctypes.c_uint32
    # [words/write functions: what words/operations.txt says
    found.engine_read.argtypes = given + lent(ctypes.c_uint32)
    found.engine_read.restype = ReadAnswer
    found.engine_check.argtypes = given + lent(ctypes.c_uint32)
    found.engine_check.restype = CheckAnswer
    found.engine_menu.argtypes = given + lent(ctypes.c_uint32) + lent(ctypes.c_uint32)
    found.engine_menu.restype = CheckAnswer
    found.engine_run.argtypes = given + lent(ctypes.c_uint32) + [RunLimits] + lent(ctypes.c_int32) + lent(ctypes.c_int32) + lent(ctypes.c_uint8) + given
    found.engine_run.restype = RunAnswer
    found.engine_join.argtypes = given + lent(ctypes.c_uint32) + given + lent(ctypes.c_uint8)
    found.engine_join.restype = WriteAnswer
    found.engine_print.argtypes = given + lent(ctypes.c_uint32) + lent(ctypes.c_uint8)
    found.engine_print.restype = WriteAnswer
    found.engine_encode.argtypes = given + lent(ctypes.c_uint32) + lent(ctypes.c_uint8)
    found.engine_encode.restype = WriteAnswer
    found.engine_run_frames.argtypes = given + [PartLimits] + lent(ctypes.c_int32) + lent(ctypes.c_int32) + lent(ctypes.c_uint8) + given + lent(ctypes.c_uint64)
    found.engine_run_frames.restype = FramesAnswer
    found.engine_continue_frames.argtypes = given + [FrameRecord] + [PartLimits] + lent(ctypes.c_int32) + lent(ctypes.c_int32) + lent(ctypes.c_uint8) + given + lent(ctypes.c_uint64)
    found.engine_continue_frames.restype = FramesAnswer
    # words/write]
    if found.engine_version() != VERSION:
        raise ImportError("libengine.so has version %d, not %d" % (found.engine_version(), VERSION))
    return found


LIBRARY = load()


def strip(kind, length):
    """Room for so many numbers of a kind, and the length; never null, as a pointer of ctypes to no elements could be."""
    return (kind * max(length, 1))(), length


def table():
    return strip(ctypes.c_uint32, TABLE_WORDS)


def accepted(answer):
    if answer.number:
        raise Refusal(answer.number, answer.position)
    return answer


WORD_MOST = (1 << 32) - 1
SIZE_MOST = (1 << 64) - 1


def fit(word, limits):
    """Raises a ValueError where a budget or a price is none of 32 bits, or a limit is below 0."""
    if not (0 <= word <= WORD_MOST and min(limits.calls, limits.heap, limits.output) >= 0):
        raise ValueError("a limit is below 0, or the budget or the price is above 4294967295")


def ending(answer):
    """How a run ended; raises a Refusal where it never began."""
    end = Refusal(answer.number, answer.position) if answer.number else None
    if end and end.cause not in ("fault", "limit"):
        raise end
    return end


def read(lesson):
    """Is the lesson in the grammar, and within the bounds? Raises a Refusal where it is not.

    >>> read(b"class M{public static void main(String[] a){{}}}")
    Size(tokens=18, nodes=1)
    """
    answer = accepted(LIBRARY.engine_read(lesson, len(lesson), *table()))
    return Size(answer.tokens, answer.nodes)


def check(lesson):
    """May the lesson run? How many classes it has beside main's; raises a Refusal where it may not.

    >>> check(b"class M{public static void main(String[] a){{}}} class A{}")
    1
    """
    return accepted(LIBRARY.engine_check(lesson, len(lesson), *table())).classes


def menu(lesson):
    """Where the names of the classes beside main's stand, a parent before the classes that extend it.

    >>> menu(b"class M{public static void main(String[] a){{}}} class B extends A{} class A{}")
    [75, 55]
    """
    positions, length = strip(ctypes.c_uint32, CLASSES_MOST)
    answer = accepted(LIBRARY.engine_menu(lesson, len(lesson), *table(), positions, length))
    return positions[: answer.classes]


def run(lesson, limits=Limits(), tape=b""):
    """Checks the lesson and runs it, with samples of a tape. Raises a Refusal where the lesson does not run; a run that began is answered, however it ended.

    >>> run(b"class M{public static void main(String[] a){while(true){}}}", Limits(budget=10)).end.name
    'budget spent'
    """
    fit(limits.budget, limits)
    # One word more than is allowed is refused as any longer heap is; no run prints more numbers than it has steps.
    heap = strip(ctypes.c_int32, min(limits.heap, HEAP_MOST + 1))
    output = strip(ctypes.c_int32, min(limits.output, limits.budget))
    registers = strip(ctypes.c_uint8, REGISTERS)
    bounds = RunLimits(limits.budget, min(limits.calls, SIZE_MOST))
    answer = LIBRARY.engine_run(lesson, len(lesson), *table(), bounds, *heap, *output, *registers, tape, len(tape))
    return Run(ending(answer), answer.steps, answer.climbs, answer.words, output[0][: answer.printed], bytes(registers[0]))


def join(lesson, library):
    """Puts a library, which is zero or more class declarations, under a lesson: the lesson, a line feed, and each class of the library whose name no class of the lesson has.
    All other functions take that text. What is wrong with a library that is refused `read_library` says.

    >>> join(b"class M{public static void main(String[] a){{}}} class A{}", b"class A{int a;} class B{}")
    b'class M{public static void main(String[] a){{}}} class A{}\\nclass B{}\\n'
    """
    text, length = strip(ctypes.c_uint8, JOIN_MOST)
    answer = accepted(LIBRARY.engine_join(lesson, len(lesson), *table(), library, len(library), text, length))
    return bytes(text[: answer.count])


def tidy(lesson):
    """Writes a lesson in the house layout: a line feed after each `;`, `{` and `}`, a space after every other token, no comments, and just the parentheses that its tree needs.
    A text of at most SOURCE_MOST bytes is accepted again, and tidy already.

    >>> print(tidy(b"class M{public static void main(String[] a){/* three */System.out.println((1)+2);}}").decode(), end="")
    class M {
    public static void main ( String [ ] a ) {
    System . out . println ( 1 + 2 ) ;
    }
    }
    """
    text, length = strip(ctypes.c_uint8, PRINT_MOST)
    answer = accepted(LIBRARY.engine_print(lesson, len(lesson), *table(), text, length))
    return bytes(text[: answer.count])


def read_library(library):
    """Is a library in the grammar, and within the bounds? Raises a Refusal, with the number that Read gives a lesson for the same fault, where it is not.

    >>> try:
    ...     read_library(b"class A{} main")
    ... except Refusal as refusal:
    ...     print(refusal.number, refusal.position, refusal.name)
    16 10 not in grammar
    """
    position = refused_at(library)
    if position is None:
        return
    try:
        read(library)
    except Refusal as found:
        # The bounds of bytes and tokens, and what is wrong with a token, come before the grammar, so Read finds the same in a library as Join does.
        if found.number not in (NOT_IN_GRAMMAR, TOO_DEEP):
            raise
    raise Refusal(NOT_IN_GRAMMAR if is_ungrammatical(library, position) else TOO_DEEP, position)


SMALLEST = b"class M{public static void main(String[]a){{}}}"  # a lesson to which every library can be joined
NOT_IN_GRAMMAR = 16
TOO_DEEP = 17
# The token at a position, or more tokens: one is a mark of one byte or two, or within a run of letters, digits, underscores and points.
TOKEN = re.compile(rb"[A-Za-z0-9_.]+|&&|.", re.DOTALL)


def refused_at(library):
    """Where Join refuses a library; None where it does not."""
    try:
        join(SMALLEST, library)
    except Refusal as refusal:
        return refusal.position


def is_ungrammatical(library, at):
    """Whether a library all of whose tokens are good, and which is refused at a position, is not in the grammar; else it is too deep there.

    What is refused at its end is not in the grammar. Else it is cut off behind the token at that place. If no library begins with the tokens up to this one, it is refused at the
    same place again; if the whole is in the grammar, it is cut off within a class, and refused at its end.
    """
    return at == len(library) or refused_at(library[: TOKEN.match(library, at).end()]) == at


def frames(lesson):
    """Writes a lesson as frames: stack code for a reader, a frame a line (docs/FRAMES.md). `run_frames` and `parts` run them.

    >>> frames(b"class M{public static void main(String[] a){System.out.println(7);}}")
    b'000000002c\\n000000003f\\n0100000007\\n0f0000002c\\n0700000000\\n'
    """
    text, length = strip(ctypes.c_uint8, FRAMES_MOST)
    answer = accepted(LIBRARY.engine_encode(lesson, len(lesson), *table(), text, length))
    return bytes(text[: answer.count])


class State:
    """A run of frames between two parts: what is lent to each, and the record of the last, None before the first."""

    def __init__(self, calls, heap, output_most):
        self.calls = min(calls, SIZE_MOST)
        self.output_most = output_most
        self.record = None
        self.printed = []
        # One word more than is allowed is refused as any longer heap is.
        self.heap = strip(ctypes.c_int32, min(heap, HEAP_MOST + 1))
        self.registers = strip(ctypes.c_uint8, REGISTERS)
        self.stack = strip(ctypes.c_uint64, STACK_ENTRIES)

    def copy(self):
        made = State(self.calls, self.heap[1], self.output_most)
        made.record, made.printed = self.record, self.printed
        for name in ("heap", "registers", "stack"):
            lent_strip, length = getattr(self, name)
            setattr(made, name, (type(lent_strip).from_buffer_copy(lent_strip), length))
        return made

    def part(self, text, budget, price, tape):
        """Carries a part out."""
        # No part prints more numbers than it can pay frames.
        room = min(self.output_most, len(self.printed) + budget + (self.record.unspent if self.record else 0))
        output = strip(ctypes.c_int32, room)
        output[0][: len(self.printed)] = self.printed
        limits = PartLimits(budget, self.calls, price)
        strips = *self.heap, *output, *self.registers, tape, len(tape), *self.stack
        if self.record:
            answer = LIBRARY.engine_continue_frames(text, len(text), self.record, limits, *strips)
        else:
            answer = LIBRARY.engine_run_frames(text, len(text), limits, *strips)
        self.record = answer.pause
        self.printed = output[0][: answer.printed]
        return answer


def run_of(state, answer, text, tape):
    """What is known after a part."""
    end = ending(answer)
    paused = Paused(state, hashed(text), hashed(tape)) if is_paused(end) else None
    return FrameRun(end, answer.frames, answer.words, state.printed, bytes(state.registers[0]), paused)


def is_paused(end):
    return end is not None and end.number == BUDGET_SPENT


def run_frames(text, limits=FrameLimits(), tape=b""):
    """Runs frames, with samples of a tape. Raises a Refusal where they do not run; a run that began is answered, however it ended.

    >>> run = run_frames(frames(b"class M{public static void main(String[] a){System.out.println(1+2);}}"))
    >>> run.end, run.frames, run.printed
    (None, 9, [3])
    """
    fit(limits.budget, limits)
    fit(limits.price, limits)
    state = State(limits.calls, limits.heap, limits.output)
    return run_of(state, state.part(text, limits.budget, limits.price, tape), text, tape)


class PauseError(ValueError):
    """Why a pause is not taken up: its bytes were changed, or it belongs to other frames or another tape."""


BUDGET_SPENT = 50
STORED_NAME = b"paused "
STORED_VERSION = b"1"
STORED_NUMBERS = "<16Q"  # the call limit, two lengths, two hashes, the record, two counts
HASH_BYTES = 8


def hashed(stored):
    """FNV-1a. It tells what was mistaken for something else, and protects against no one who means to deceive."""
    made = 0xCBF29CE484222325
    for byte in stored:
        made = (made ^ byte) * 0x100000001B3 & SIZE_MOST
    return made


def without_last_zeros(numbers):
    while numbers and not numbers[-1]:
        numbers.pop()
    return numbers


class Paused:
    """A run of frames that spent its budget, between two parts. It remembers by their hashes the frames and the tape that it belongs to, and it has its limits.

    >>> text = frames(b"class M{public static void main(String[] a){System.out.println(1+2);}}")
    >>> stored = run_frames(text, FrameLimits(budget=5)).paused.to_bytes()
    >>> run = Paused.from_bytes(stored).resume(text, 4)
    >>> run.end, run.frames, run.printed
    (None, 9, [3])
    >>> Paused.from_bytes(stored).resume(frames(b"class M{public static void main(String[] a){{}}}"), 4)
    Traceback (most recent call last):
    ...
    lesson_engine.PauseError: is a pause of other frames
    """

    def __init__(self, state, frames_hash, tape_hash):
        self.state = state
        self.frames_hash = frames_hash
        self.tape_hash = tape_hash

    @property
    def record(self):
        """Where the run is."""
        return self.state.record

    @property
    def printed(self):
        """The numbers that were printed so far."""
        return self.state.printed

    @property
    def heap(self):
        """What the heap strip holds."""
        return self.state.heap[0][: self.state.heap[1]]

    @property
    def stack(self):
        """What the stack strip holds."""
        return self.state.stack[0][:]

    def check(self, text, tape):
        """Raises a PauseError where it does not belong to these frames and this tape."""
        if self.frames_hash != hashed(text):
            raise PauseError("is a pause of other frames")
        if self.tape_hash != hashed(tape):
            raise PauseError("is a pause of a run with another tape")

    def resume(self, text, budget=FrameLimits.budget, price=FrameLimits.price, tape=b""):
        """Goes on with the run, with a further budget. What it counts, it counts over all parts."""
        self.check(text, tape)
        fit(budget, FrameLimits())
        fit(price, FrameLimits())
        state = self.state.copy()
        return run_of(state, state.part(text, budget, price, tape), text, tape)

    def parts(self, text, budget, price=FrameLimits.price, tape=b""):
        """Goes on with the run in parts of a budget each."""
        self.check(text, tape)
        return Parts(self.state.copy(), text, budget, price, tape)

    def to_bytes(self):
        """The bytes as which it can be stored; `from_bytes` reads them back. bindings/rust/src/paused.rs has their form."""
        state = self.state
        heap, stack = without_last_zeros(self.heap), without_last_zeros(self.stack)
        record = [getattr(state.record, name) for name, _ in FrameRecord._fields_]
        numbers = [state.calls, state.heap[1], state.output_most, self.frames_hash, self.tape_hash, *record, len(heap), len(stack)]
        words = struct.pack("<%di" % len(state.printed + heap), *state.printed, *heap)
        entries = struct.pack("<%dQ" % len(stack), *stack)
        made = STORED_NAME + STORED_VERSION + struct.pack(STORED_NUMBERS, *numbers) + bytes(state.registers[0]) + words + entries
        return made + struct.pack("<Q", hashed(made))

    @staticmethod
    def from_bytes(stored):
        """Reads back what was stored. Raises a PauseError where the bytes were changed."""
        version = stored[len(STORED_NAME) : len(STORED_NAME) + 1]
        if stored.startswith(STORED_NAME) and version and version != STORED_VERSION:
            raise PauseError("is a pause that another version stored")
        within, last = stored[:-HASH_BYTES], stored[-HASH_BYTES:]
        if not stored.startswith(STORED_NAME) or last != struct.pack("<Q", hashed(within)):
            raise PauseError("is no stored pause, or was changed")
        try:
            return paused_of(within[len(STORED_NAME + STORED_VERSION) :])
        except (struct.error, ValueError) as wrong:
            raise PauseError("is no stored pause, or was changed") from wrong


def paused_of(within):
    """The pause of what is stored between name and hash; a ValueError or struct.error where it is none."""
    calls, heap_length, output_most, frames_hash, tape_hash, *record, heap_count, stack_count = struct.unpack_from(STORED_NUMBERS, within)
    place = FrameRecord(*record)
    if heap_length > HEAP_MOST or heap_count > heap_length or place.printed > output_most or stack_count > STACK_ENTRIES:
        raise ValueError("a length does not fit")
    at = struct.calcsize(STORED_NUMBERS)
    registers, *words = struct.unpack_from("<%ds%di" % (REGISTERS, min(place.printed + heap_count, len(within))), within, at)
    at += REGISTERS + 4 * len(words)
    entries = struct.unpack_from("<%dQ" % stack_count, within, at)
    if at + 8 * stack_count != len(within):
        raise ValueError("there is more behind it")
    state = State(calls, heap_length, output_most)
    state.record, state.printed = place, words[: place.printed]
    state.heap[0][:heap_count] = words[place.printed :]
    state.registers[0][:] = registers
    state.stack[0][:stack_count] = entries
    return Paused(state, frames_hash, tape_hash)


class Parts:
    """A run of frames in parts of a budget each: an iterator whose last part ends otherwise than in number 50, or spends the last of 4294967295. Between two parts the caller can
    do something else, or end the run."""

    def __init__(self, state, text, budget, price, tape):
        self.state = state
        self.text = text
        self.budget = budget
        self.price = price
        self.tape = tape
        self.is_over = False

    def __iter__(self):
        return self

    def __next__(self):
        record = self.state.record
        budget = min(self.budget, WORD_MOST - (record.frames + record.unspent if record else 0))
        # A part that costs nothing would be followed by others without end.
        if self.is_over or (record and budget <= 0):
            raise StopIteration
        self.is_over = True
        before = len(self.state.printed)
        answer = self.state.part(self.text, budget, self.price, self.tape)
        end = ending(answer)
        self.is_over = not is_paused(end)
        return Part(end, answer.frames, self.state.printed[before:])

    def pause(self):
        """Where the run goes on; None before its first part, and where it came to an end."""
        if self.is_over or not self.state.record:
            return None
        return Paused(self.state.copy(), hashed(self.text), hashed(self.tape))


def parts(text, limits=FrameLimits(), tape=b""):
    """Runs frames in parts, each with the budget of the limits. They end as one run with all these budgets does.

    >>> endless = frames(b"class M{public static void main(String[] a){while(true){System.out.println(7);}}}")
    >>> printed = []
    >>> for part in parts(endless, FrameLimits(budget=100)):
    ...     printed += part.printed
    ...     if len(printed) > 20:  # a program looks at a flag here
    ...         break
    >>> printed == [7] * 22, part.end.name, part.frames
    (True, 'budget spent', 200)
    """
    fit(limits.budget, limits)
    fit(limits.price, limits)
    return Parts(State(limits.calls, limits.heap, limits.output), text, limits.budget, limits.price, tape)
