"""Rows of encode, worked out by hand from docs/FRAMES.md."""
from lessons import EMPTY, class_of, main_with, method, places, program, unmarked

TABLE = 16384
LONG = 4000  # longer than every text of these rows
CODES = ["mark", "push", "load", "save", "self", "negate", "return", "halt", "operate", "jump", "unless", "keep", "fetch", "measure", "makeArray", "print", "storeElement", "makeObject", "call"]
CODES += ["get", "put", "scale", "entry", "none"]
AT_A_NODE = {"mark", "fetch", "measure", "makeArray", "print", "storeElement", "get", "put"}  # whose operand is a position
SHIFTS = {"makeObject": 16, "call": 8}  # of the first of two numbers


def row(lesson, answer, strip=LONG, table=TABLE):
    data = lesson if isinstance(lesson, bytes) else lesson.encode("ascii")
    return "encode %d %d %s" % (table, strip, data.hex() or "-"), answer


def no(number, position=0):
    return "%d %d 0" % (number, position)


def frame(line, positions):
    """A line: the name of a code, then its operand, where there is one. A position is the number of a mark (see lessons.py), from 0; of two numbers the first is the higher one."""
    name, *numbers = line.split()
    high, low = ([0, 0] + [int(n) for n in numbers])[-2:]
    operand = positions[low] if name in AT_A_NODE else (high << SHIFTS.get(name, 0)) + low
    return "%02x%08x/" % (CODES.index(name), operand)


def written(lesson, lines):
    """The answer where the marked lesson is written as these lines."""
    text = "".join(frame(line, places(lesson)) for line in lines.split(","))
    return "0 0 %d : %s" % (len(text), text)


def encoded(lesson, lines, **lent):
    return row(unmarked(lesson), written(lesson, lines), **lent)


def statement_rows():
    """Statements of main."""
    statements = [
        ("@{}", "mark 0,halt"),
        ("@{@{}@{@{}}}", "mark 0,mark 1,mark 2,mark 3,halt"),
        ("@if(@true)@{}else @{}", "mark 0,mark 1,push 1,unless 6,mark 2,jump 7,mark 3,halt"),
        ("@if(@false)@{@{}}else @{@{}@{}}", "mark 0,mark 1,push 0,unless 7,mark 2,mark 3,jump 10,mark 4,mark 5,mark 6,halt"),
        ("@while(@true)@{}", "mark 0,mark 1,push 1,unless 6,mark 2,jump 1,halt"),
        ("@while(@@1<@2)@while(@false)@{}", "mark 0,mark 1,mark 2,push 1,mark 3,push 2,operate 0,unless 15,mark 4,mark 5,push 0,unless 14,mark 6,jump 9,jump 1,halt"),
        ("@Port.put(@1,@2);", "mark 0,mark 1,push 1,mark 2,push 2,put 0,halt"),
        ("@{@Port.put(@0,@Port.get(@2));}", "mark 0,mark 1,mark 2,push 0,mark 3,mark 4,push 2,get 3,put 1,halt"),
        ("@System.out.println(@0);", "mark 0,mark 1,push 0,print 0,halt"),
    ]
    return [encoded(main_with(statement), lines) for statement, lines in statements]


def expression_rows():
    """What main prints: each is marked at its nodes, and lies between the marks of the statement and its two last lines."""
    expressions = [
        ("@2147483647", "mark 1,push 2147483647"),
        ("@2147483.647", "mark 1,push 2147483647"),
        ("@@1+@2", "mark 1,mark 2,push 1,mark 3,push 2,operate 1"),
        ("@@1-@@2*@3", "mark 1,mark 2,push 1,mark 3,mark 4,push 2,mark 5,push 3,operate 3,operate 2"),
        ("@@@1-@2-@3", "mark 1,mark 2,mark 3,push 1,mark 4,push 2,operate 2,mark 5,push 3,operate 2"),
        ("@@1.500*@2.000", "mark 1,mark 2,push 1500,mark 3,push 2000,scale"),
        ("@@@1.500*@2.000+@0.001", "mark 1,mark 2,mark 3,push 1500,mark 4,push 2000,scale,mark 5,push 1,operate 1"),
        ("@@new int[@3].length", "mark 1,mark 2,mark 3,push 3,makeArray 2,measure 1"),
        ("@(@new int[@3])[@0]", "mark 1,mark 2,mark 3,push 3,makeArray 2,mark 4,push 0,fetch 1"),
        ("@@new boolean[@0].length", "mark 1,mark 2,mark 3,push 0,makeArray 2,measure 1"),
        ("@Port.get(@@1+@2)", "mark 1,mark 2,mark 3,push 1,mark 4,push 2,operate 1,get 1"),
    ]
    rows = []
    for expression, lines in expressions:
        rows.append(encoded(program(expression).replace("System", "@System"), "mark 0," + lines + ",print 0,halt"))
    return rows


def test_rows():
    """Tests of a loop of main, between its mark and `unless`, behind which there are two lines and `halt`."""
    tests = [
        ("@!@true", "mark 1,mark 2,push 1,negate"),
        ("@!@!@false", "mark 1,mark 2,mark 3,push 0,negate,negate"),
        ("@@true&&@false", "mark 1,mark 2,push 1,keep 7,mark 3,push 0"),
        ("@@@true&&@false&&@true", "mark 1,mark 2,mark 3,push 1,keep 8,mark 4,push 0,keep 11,mark 5,push 1"),
        ("@@true&&(@@false&&@true)", "mark 1,mark 2,push 1,keep 11,mark 3,mark 4,push 0,keep 11,mark 5,push 1"),
        ("@@1.500<@0.001", "mark 1,mark 2,push 1500,mark 3,push 1,operate 0"),
        ("@(@new boolean[@1])[@0]", "mark 1,mark 2,mark 3,push 1,makeArray 2,mark 4,push 0,fetch 1"),
    ]
    rows = []
    for test, lines in tests:
        test = "@while(" + test + ")@{}"
        last = test.count("@") - 1
        end = 1 + len(lines.split(",")) + 3
        rows.append(encoded(main_with(test), "mark 0,%s,unless %d,mark %d,jump 1,halt" % (lines, end, last)))
    return rows


def class_rows():
    """Methods, fields, calls and tables. Main is `{}`, two lines, or makes an object and calls."""
    main, empty = main_with("@{}"), "mark 0,halt"
    call = program("@@new A().m()").replace("System", "@System")
    return [
        encoded(main + class_of("A"), empty),
        encoded(main + class_of("A", "int x;") + class_of("B", "int x;", "A"), empty),
        # A table for each name of a method, a line in it for each class.
        encoded(main + class_of("A", method(value="@1")), empty + ",mark 1,push 1,return,entry 2"),
        encoded(main + class_of("A", method(value="@1")) + class_of("B"), empty + ",mark 1,push 1,return,entry 2,none"),
        encoded(main + class_of("A", method(value="@1")) + class_of("B", "", "A"), empty + ",mark 1,push 1,return,entry 2,entry 2"),
        encoded(main + class_of("B", "", "A") + class_of("A", method(value="@1")), empty + ",mark 1,push 1,return,entry 2,entry 2"),
        encoded(main + class_of("A", method(value="@1")) + class_of("B", method(value="@2"), "A"), empty + ",mark 1,push 1,return,mark 2,push 2,return,entry 2,entry 5"),
        encoded(main + class_of("A", method(value="@1", name="n") + method(value="@2")) + class_of("B", method(value="@3") + method(value="@4", name="n")),
                empty + ",mark 1,push 1,return,mark 2,push 2,return,mark 3,push 3,return,mark 4,push 4,return,entry 2,entry 11,entry 5,entry 8"),
        # Calls name the begin of their table; the object has all its fields.
        encoded(call + class_of("A", method(value="@1")), "mark 0,mark 1,mark 2,makeObject 0 0,call 10 0,print 0,halt,mark 3,push 1,return,entry 7"),
        encoded(call + class_of("B", "int x;int y;" + method(value="@1")) + class_of("A", "int x;", "B"),
                "mark 0,mark 1,mark 2,makeObject 1 3,call 10 0,print 0,halt,mark 3,push 1,return,entry 7,entry 7"),
        encoded(call.replace("m()", "m(@1,@true)") + class_of("A", method(parameters="int p,boolean q", value="@p")),
                "mark 0,mark 1,mark 2,makeObject 0 0,mark 3,push 1,mark 4,push 1,call 14 2,print 0,halt,mark 5,load 0,return,entry 11"),
        encoded(main + class_of("A", method(name="t", result="A", value="@this") + method(value="@@@this.t().m()")),
                empty + ",mark 1,self,return,mark 2,mark 3,mark 4,self,call 12 0,call 13 0,return,entry 2,entry 5"),
    ]


def name_rows():
    """Places: parameters, then locals, then from 32 on the fields, those of the topmost class first; the nearest of a name is meant."""
    main, empty = main_with("@{}"), "mark 0,halt,"
    fields = class_of("A", "int x;int y;") + class_of("B", "int z;int x;", "A")
    return [
        encoded(main + fields + class_of("C", method(value="@x"), "B"), empty + "mark 1,load 35,return,none,none,entry 2"),
        encoded(main + fields + class_of("C", method(value="@y"), "B"), empty + "mark 1,load 33,return,none,none,entry 2"),
        encoded(main + fields + class_of("C", method("int x;@x=@z;", value="@x"), "B"), empty + "mark 1,mark 2,load 34,save 0,mark 3,load 0,return,none,none,entry 2"),
        encoded(main + class_of("A", "int x;" + method(value="@x")) + class_of("B", "int x;", "A"), empty + "mark 1,load 32,return,entry 2,entry 2"),
        encoded(main + class_of("A", method("int b;int c;@c=@b;", parameters="int p", value="@p")), empty + "mark 1,mark 2,load 1,save 2,mark 3,load 0,return,entry 2"),
        encoded(main + class_of("A", "int[] x;" + method("@x=@new int[@2];@x[@0]=@7;", value="@@x[@1]")),
                empty + "mark 1,mark 2,mark 3,push 2,makeArray 2,save 32,mark 4,load 32,mark 5,push 0,mark 6,push 7,storeElement 4,mark 7,mark 8,load 32,mark 9,push 1,fetch 7,return,entry 2"),
        encoded(main + class_of("A", "fixed x;" + method("fixed y;", "fixed", value="@@x*@y")), empty + "mark 1,mark 2,load 32,mark 3,load 0,scale,return,entry 2"),
        encoded(main + class_of("A", "int x;" + method("int y;", value="@@x*@y")), empty + "mark 1,mark 2,load 32,mark 3,load 0,operate 3,return,entry 2"),
        encoded(main + class_of("A", method(parameters="".join("int p%02d," % k for k in range(32))[:-1], value="@p31")), empty + "mark 1,load 31,return,entry 2"),
    ]


def refusal_rows():
    """What Check refuses is refused in the same way, and 68 comes after it; the strip needs just the length of the text."""
    refused = [("", 16, 0), ("#", 11, 0), ("/*", 12, 0), (" " * 16385, 10, 0), (program("00"), 60, 63), (program("1.5"), 65, 63), (program("2147483648"), 14, 63), (";" * 2049, 15, 2048)]
    refused += [(program("new int[2][0]"), 16, 73), (program("!" * 63 + "true"), 17, 126), (program("a"), 30, 63), (program("this"), 34, 63), (program("true"), 31, 63)]
    refused += [(program("new B()"), 24, 67), (EMPTY + "class M{}", 20, len(EMPTY) + 6), (EMPTY + "class B extends B{}", 22, len(EMPTY) + 6), (EMPTY + "class B extends C{}", 21, len(EMPTY) + 16)]
    rows = [row(lesson, no(number, position), strip) for lesson, number, position in refused for strip in (0, LONG)]
    for lesson, lines in ((main_with("@{}"), "mark 0,halt"), (main_with("@System.out.println(@1);"), "mark 0,mark 1,push 1,print 0,halt")):
        length = 11 * len(lines.split(","))
        rows += [row(unmarked(lesson), no(68), strip) for strip in (0, 1, 11, length - 1)] + [encoded(lesson, lines, strip=strip) for strip in (length, length + 1, 40000)]
    return rows


def table_rows():
    lesson, lines = main_with("@{}"), "mark 0,halt"
    rows = [row(text, no(1), strip, table) for table in (0, 1, 16383) for text, strip in ((EMPTY, LONG), ("#", 0))]
    return rows + [encoded(lesson, lines, table=table) for table in (16385, 20000)] + [row(EMPTY, no(68), 0, 20000), row("#", no(11), LONG, 20000)]


def encode_rows():
    return statement_rows() + expression_rows() + test_rows() + class_rows() + name_rows() + refusal_rows() + table_rows()
