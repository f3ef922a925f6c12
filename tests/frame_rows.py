"""Rows of runs of frames, worked out by hand from docs/FRAMES.md."""
from encode_rows import frame

EMPTY = "00" * 16  # registers
VALUES = 2176  # where the values begin on the stack strip
STACK = 140000
ROOM = STACK - VALUES
LONG = [(1000, 1)]  # one part, and enough for it
NOTHING = (0,) * 9


def text_of(lines):
    """The text of lines as encode_rows.py writes them; what begins with `=` or has a `/` stands as it is. All positions are 0."""
    if not lines:
        return "-"
    return lines if lines[0] == "=" or "/" in lines else "".join(frame(line, [0]) for line in lines.split(","))


def parts_of(parts):
    return " ".join([str(len(parts))] + ["%d %d" % part for part in parts])


def held(strip):
    return " ".join([str(len(strip))] + ["%d %d" % entry for entry in sorted(strip.items())])


def summed(strip):
    """How many entries are not 0, and their sum."""
    total = 0
    for place, entry in sorted(strip.items()):
        total = (65537 * total + place + 1) % 2147483647
        total = (65537 * total + entry % 2147483647) % 2147483647
    return "%d %d" % (len(strip), total)


def paused(record, heap, stack):
    return " @ %s %s %s" % (" ".join(map(str, record)), summed(heap), summed(stack))


def end(number, line, frames, words=0, printed=(), total=None, part=1, registers=EMPTY, pause=""):
    """The answer; `total` says how many numbers were printed where these are not all."""
    counts = [number, 11 * line, frames, words, len(printed) if total is None else total, part, registers]
    return " ".join(map(str, counts)) + pause + "".join([" :"] * bool(printed) + [" %d" % n for n in printed])


def no(number, position=0, part=1):
    return "%d %d 0 0 0 %d -" % (number, position, part)


def run(lines, answer, parts=LONG, calls=64, heap=100, output=10, registers=16, stack=STACK, tape="-"):
    return "frames %d %d %d %d %d %s %s %s" % (calls, heap, output, registers, stack, tape, parts_of(parts), text_of(lines)), answer


def go_on(lines, record, answer, parts=LONG, calls=64, heap=100, output=10, registers=EMPTY, stack=STACK, tape="-", heap_held=(), stack_held=()):
    lent = "%d %d %d %s %d %s %s %s %s" % (calls, heap, output, registers, stack, tape, parts_of(parts), held(dict(heap_held)), held(dict(stack_held)))
    return "continue %s %s %s" % (" ".join(map(str, record)), lent, text_of(lines)), answer


def code_rows():
    """Each code does what its row says; the frames, the heap words and what is printed."""
    rows = [
        ("halt", 1, 0, []),
        ("mark 0,halt", 2, 0, []),
        ("push 5,print 0,halt", 3, 0, [5]),
        ("push 4294967295,print 0,halt", 3, 0, [-1]),
        ("push 1,negate,print 0,push 0,negate,print 0,halt", 7, 0, [0, 1]),
        ("push 7,push 5,operate 0,print 0,halt", 5, 0, [0]),
        ("push 5,push 7,operate 0,print 0,halt", 5, 0, [1]),
        ("push 4294967295,push 0,operate 0,print 0,halt", 5, 0, [1]),
        ("push 4294967295,push 2,operate 1,print 0,halt", 5, 0, [1]),
        ("push 2,push 3,operate 2,print 0,halt", 5, 0, [-1]),
        ("push 65536,push 65536,operate 3,print 0,halt", 5, 0, [0]),
        ("push 1500,push 2000,scale,print 0,halt", 5, 0, [3000]),
        ("push 4294965796,push 1,scale,print 0,halt", 5, 0, [-1]),
        ("jump 2,halt,push 3,print 0,halt", 4, 0, [3]),
        ("push 0,unless 3,halt,push 3,print 0,halt", 5, 0, [3]),
        ("push 1,unless 3,halt,print 0", 3, 0, []),
        ("push 0,keep 3,halt,print 0,halt", 4, 0, [0]),
        ("push 1,keep 3,halt,print 0", 3, 0, []),
        ("push 2,makeArray 0,measure 0,print 0,halt", 5, 3, [2]),
        ("push 2,makeArray 0,push 1,fetch 0,print 0,halt", 6, 3, [0]),
        ("push 2,makeArray 0,push 1,push 7,storeElement 0,push 1,push 1,fetch 0,print 0,halt", 10, 3, [7]),
        ("push 99,makeArray 0,halt", 3, 100, []),
        ("makeObject 3 2,print 0,makeObject 0 0,print 0,halt", 5, 4, [1, 4]),
        ("makeObject 0 99,halt", 2, 100, []),
        ("makeObject 0 0,call 3 0,halt,entry 4,return", 4, 1, []),
        ("makeObject 0 0,push 8,push 9,call 6 2,print 0,halt,entry 7,load 1,load 0,operate 2,return", 10, 1, [1]),
        ("makeObject 1 0,call 3 0,halt,none,entry 5,push 4,print 0,return", 6, 1, [4]),
        ("makeObject 0 1,call 4 0,print 0,halt,entry 5,push 6,save 32,load 32,self,print 0,return", 10, 2, [1, 6]),
        ("makeObject 0 0,call 4 0,print 0,halt,entry 5,push 6,save 31,load 31,return", 8, 1, [6]),
        ("push 15,get 0,print 0,halt", 4, 0, [0]),
    ]
    rows = [run(lines, end(0, 0, frames, words, printed)) for lines, frames, words, printed in rows]
    rows += [run("push 1,push 3,put 0,push 1,get 0,print 0,halt", end(0, 0, 7, 0, [3], registers="0003" + "00" * 14))]
    rows += [run("push 15,push 255,put 0,halt", end(0, 0, 4, registers="00" * 15 + "ff"))]
    # The hundredth mark brings a sample.
    marks = ",".join(["mark 0"] * 100) + ",halt"
    rows += [run(marks, end(0, 0, 101, registers="01002a" + "00" * 13), tape="2a2b"), run(marks, end(0, 0, 101))]
    rows += [run(marks.replace("mark 0,", "", 1), end(0, 0, 100), tape="2a2b")]
    return rows


def stuck_rows():
    """Each way to 70: at a line, after so many frames, with so many heap words."""
    rows = [("", 0, 0, 0), ("mark 0", 1, 1, 0), ("jump 1", 1, 1, 0), ("jump 4294967295", 4294967295, 1, 0), ("1800000000/", 0, 1, 0), ("ff00000000/", 0, 1, 0)]
    rows += [(lines, 0, 1, 0) for lines in ("entry 0", "none", "load 0", "self", "return", "self 1", "negate 1", "return 1", "halt 1", "scale 1", "operate 4", "none 1", "call 0 33")]
    rows += [(name + " 0", 0, 1, 0) for name in ("save", "negate", "unless", "keep", "measure", "makeArray", "print", "get", "call")]
    rows += [("push 0," + name, 1, 2, 0) for name in ("operate 1", "fetch 0", "put 0", "scale", "call 0 1", "save 0")]
    rows += [("push 0,push 0,storeElement 0", 2, 3, 0)]
    rows += [("push 2," + name, 1, 2, 0) for name in ("negate", "unless 2", "keep 2")]
    rows += [("push 1,measure 0", 1, 2, 0), ("push 1,push 0,fetch 0", 2, 3, 0), ("push 1,push 0,push 0,storeElement 0", 3, 4, 0)]
    # An object that is taken for an array, whose length would be its class.
    rows += [("makeObject 5 0,push 3,fetch 0", 2, 3, 1)]
    rows += [("push 1,call 0 0", 1, 2, 0), ("makeObject 0 0,call 0 0", 1, 2, 1), ("makeObject 0 0,call 2 0", 1, 2, 1), ("makeObject 0 0,call 2 0,none", 1, 2, 1), ("makeObject 65535 0,call 0 0", 1, 2, 1)]
    rows += [("makeObject 0 0,call 2 0,entry 3,load 32", 3, 3, 1), ("makeObject 0 0,call 2 0,entry 3,push 0,save 32", 4, 4, 1), ("makeObject 0 0,call 2 0,entry 7", 7, 2, 1)]
    return [run(lines, end(70, line, frames, words)) for lines, line, frames, words in rows]


def fault_rows():
    """The other ends, and what comes before what."""
    return [
        run("push 0,measure 0", end(40, 1, 2)),
        run("push 0,push 0,fetch 0", end(40, 2, 3)),
        run("push 0,push 0,push 0,storeElement 0", end(40, 3, 4)),
        run("push 0,call 0 0", end(40, 1, 2)),
        run("push 1,makeArray 0,push 1,fetch 0", end(41, 3, 4, 2)),
        run("push 1,makeArray 0,push 4294967295,fetch 0", end(41, 3, 4, 2)),
        run("push 0,makeArray 0,push 0,push 0,storeElement 0", end(41, 4, 5, 1)),
        run("push 2147483648,makeArray 0", end(42, 1, 2)),
        run("push 2147483647,makeArray 0", end(51, 1, 2)),
        run("push 100,makeArray 0", end(51, 1, 2)),
        run("makeObject 0 100", end(51, 0, 1)),
        run("push 1,print 0,push 2,print 0", end(53, 3, 4, 0, [1]), output=1),
        run("makeObject 0 0,call 2 0,entry 3,self,call 2 0", end(52, 4, 4, 1), calls=1),
        run("makeObject 0 0,call 2 0,entry 3,self,call 1 0", end(70, 4, 4, 1), calls=1),
        run("push 16,get 0", end(63, 1, 2)),
        run("push 16,push 256,put 0", end(63, 2, 3)),
        run("push 15,push 256,put 0", end(64, 2, 3)),
    ]


def refusal_rows():
    """Refusals touch nothing, and come in this order: 2, 3, 62, 72, 68, 69."""
    wrong = [("calls", 0, 2), ("heap", 16385, 3), ("registers", 15, 62), ("parts", [(1, 2)], 72), ("stack", STACK - 1, 68)]
    rows = []
    for k, (_, _, number) in enumerate(wrong):
        rows += [run("x/", no(number), **{name: value for name, value, _ in wrong[k:]}), run("halt", no(number), **{wrong[k][0]: wrong[k][1]})]
    rows += [run("halt", no(2), calls=65), run("halt", no(62), registers=17)] + [run("halt", no(72), parts=[(1, price)]) for price in (0, 9, 11, 4294967295)]
    texts = [("0700000000", 0), ("0700000000/0", 11), ("0700000000/070000000", 11), ("070000000A/", 0), ("0700000000//", 11), ("07 0000000/", 0), ("/", 0), ("0700000000\r", 0)]
    rows += [run("=" + text.replace("/", "\n").encode("ascii").hex(), no(69, at)) for text, at in texts]
    return rows + [run("halt", end(0, 0, 1), heap=16384, calls=1)]


def pause_rows():
    """Budgets, prices and parts."""
    call = "makeObject 0 0,call 3 0,halt,entry 4,return"
    before = (1, 1, 0, 1, 0, 0, 0, 1, 9)
    return [
        run("", end(70, 0, 0), parts=[(0, 1)]),
        run("halt", end(50, 0, 0, pause=paused(NOTHING, {}, {})), parts=[(0, 1)]),
        run("halt", end(50, 0, 0, pause=paused(NOTHING, {}, {}), part=3), parts=[(0, 1), (0, 10), (0, 1)]),
        run("halt", end(0, 0, 1), parts=[(1, 10), (1, 1)]),
        run("mark 0", end(70, 1, 1), parts=[(1, 1)]),
        run("push 5,halt", end(50, 1, 1, pause=paused((1, 1, 0, 0, 0, 0, 0, 1, 0), {}, {VALUES: 5})), parts=[(1, 1)]),
        run("push 5,halt", end(0, 0, 2, part=2), parts=[(1, 1), (1, 1)]),
        run("push 5,print 0,push 6,print 0,halt", end(0, 0, 5, 0, [5, 6], part=3), parts=[(2, 1), (1, 10), (9, 1)]),
        run("push 5,print 0,halt", no(72, part=2), parts=[(2, 1), (1, 2)]),
        run("mark 0,mark 0,halt", no(71, part=2), parts=[(1, 1), (4294967295, 1)]),
        run("mark 0,mark 0,halt", end(0, 0, 3, part=2), parts=[(1, 1), (4294967294, 1)]),
        # A call at a price of 10: what is left is carried, and the price is that of the part in which the call is carried out.
        run(call, end(50, 1, 1, 1, pause=paused(before, {}, {VALUES: 1})), parts=[(10, 10)]),
        run(call, end(50, 4, 2, 1, part=2, pause=paused((4, 0, 1, 1, 0, 0, 0, 2, 0), {}, {0: 1, 1: 2, VALUES: 1})), parts=[(10, 10), (1, 10)]),
        run(call, end(0, 0, 4, 1, part=2), parts=[(10, 10), (3, 10)]),
        run(call, end(0, 0, 4, 1, part=2), parts=[(10, 10), (0, 1)]),
        run(call, end(50, 4, 2, 1, pause=paused((4, 0, 1, 1, 0, 0, 0, 2, 0), {}, {0: 1, 1: 2, VALUES: 1})), parts=[(2, 1)]),
        run(call, end(0, 0, 4, 1), parts=[(13, 10)]),
        run("push 1,makeArray 0,halt", end(50, 2, 2, 2, pause=paused((2, 1, 0, 2, 0, 0, 0, 2, 0), {0: 1}, {VALUES: 1})), parts=[(2, 1)]),
    ]


def record_rows():
    """71: each part of a record at its bound and one above it."""
    names = ["line", "height", "calls", "words", "printed", "tape", "marks", "frames", "unspent"]
    bounds = {"line": 1, "height": ROOM, "calls": 64, "words": 100, "printed": 10, "tape": 2, "marks": 99, "frames": 4294967295 - 1000, "unspent": 4294967295 - 1000}
    # `halt` comes first and last, so a run from each line ends at once.
    lines = "halt,halt"
    rows = []
    for k, name in enumerate(names):
        at = [0] * 9
        at[k] = bounds[name]
        over = [0] * 9
        over[k] = bounds[name] + 1
        frames, words, printed = at[7] + 1, at[3], at[4]
        rows += [go_on(lines, at, end(0, 0, frames, words, total=printed), tape="0102"), go_on(lines, over, no(71), tape="0102")]
    rows += [go_on("", NOTHING, no(71)), go_on("halt", (0, 0, 2) + (0,) * 6, no(71), calls=1), go_on("x/", (1,) * 9, no(69)), go_on("halt", (4294967295,) * 9, no(71))]
    return rows + [go_on("halt", (0,) * 7 + (4294967295, 0), end(50, 0, 4294967295, pause=paused((0,) * 7 + (4294967295, 0), {}, {})), parts=[(0, 1)])]


def changed_rows():
    """Strips and records that no run leaves: what is taken must be there, and below 2^32."""
    wide, full = 4294967296, 18446744073709551615
    opened = (0, 0, 1, 0, 0, 0, 0, 0, 0)
    rows = [go_on(lines, (0, 1) + (0,) * 7, end(70, 0, 1), stack_held={VALUES: entry}) for lines in ("print 0,halt", "negate,halt", "get 0,halt") for entry in (wide, full)]
    return rows + [
        go_on("print 0,halt", (0, 2) + (0,) * 7, end(0, 0, 2, 0, [3]), stack_held={VALUES: wide, VALUES + 1: 3}),
        go_on("push 1,halt", (0, ROOM) + (0,) * 7, end(70, 0, 1)),
        go_on("makeObject 0 100", (0, ROOM) + (0,) * 7, end(70, 0, 1)),
        go_on("push 1,halt", (0, ROOM) + (0,) * 7, end(0, 0, 2), stack=STACK + 1),
        go_on("return,halt", opened, end(70, 0, 1), stack_held={1: wide}),
        go_on("return,halt", opened, end(0, 0, 2), stack_held={0: full, 1: 1}),
        go_on("return,halt", opened, end(70, 4294967295, 1), stack_held={1: 4294967295}),
        go_on("self,halt", opened, end(70, 0, 1), stack_held={0: wide}),
        go_on("load 31,halt", opened, end(70, 0, 1), stack_held={33: wide}),
        go_on("load 31,print 0,halt", opened, end(0, 0, 3, 0, [9]), stack_held={0: full, 33: 9}),
        go_on("load 32,halt", opened, end(70, 0, 1)),
        go_on("load 32,print 0,halt", (0, 0, 1, 2) + (0,) * 5, end(0, 0, 3, 2, [-7]), stack_held={0: 1}, heap_held={1: -7}),
        # What lies behind the made words of a changed heap strip is set to 0 as it is made.
        go_on("makeObject 0 1,halt", NOTHING, end(50, 1, 1, 2, pause=paused((1, 1, 0, 2, 0, 0, 0, 1, 0), {2: 8}, {VALUES: 1})), parts=[(1, 1)], heap_held={0: 6, 1: 7, 2: 8}),
        # Of register 0 the flags count, and bit 7 follows from them and the mask.
        go_on("halt", NOTHING, end(0, 0, 1, registers="03" + "00" * 15), registers="ff" + "00" * 15),
        go_on("halt", NOTHING, end(0, 0, 1, registers="8301" + "00" * 14), registers="7f01" + "00" * 14),
        go_on("mark 0,halt", (0,) * 5 + (1, 99, 0, 0), end(0, 0, 2, registers="01002b" + "00" * 13), tape="2a2b"),
        go_on("print 0,halt", (0, 1, 0, 0, 4, 0, 0, 5, 0), end(0, 0, 7, 0, [3], total=5), stack_held={VALUES: 3}),
    ]


def frame_rows():
    return code_rows() + stuck_rows() + fault_rows() + refusal_rows() + pause_rows() + record_rows() + changed_rows()
