"""Rows of print, worked out by hand from document 02, (v)."""
from lessons import EMPTY, class_of, main_with, method, names, program, tidy

TABLE = 16384
LONG = 4000  # longer than every text of these rows but those that say so
CLASS_A = class_of("A", method() + method(name="f", parameters="int p,int q") + method(name="t", result="A", value="this") + method(name="b", result="boolean", value="true")
                   + method(name="a", result="int[]", value="new int[1]"))


def row(lesson, answer, strip=LONG, table=TABLE):
    data = lesson if isinstance(lesson, bytes) else lesson.encode("ascii")
    return "print %d %d %s" % (table, strip, data.hex() or "-"), answer


def no(number, position=0):
    return "%d %d 0" % (number, position)


def written(lesson):
    """The answer where this lesson, which has no comment and no pair of parentheses too many, is written."""
    text = tidy(lesson).encode("ascii")
    return "0 0 %d : %s" % (len(text), text.hex())


def pairs_of(those):
    """What is written and how it is printed; alone what is printed as it is written."""
    return [(e, e) if isinstance(e, str) else e for e in those]


def number_rows():
    """Expressions that are printed numbers."""
    expressions = ["1+2", ("(1+2)", "1+2"), ("((1))", "1"), ("((1)+((2)))", "1+2"), "0", "2147483647", "0.000", "1.050", "2147483.647"]
    # Operators group to the left, `*` above `+` and `-`.
    expressions += ["1+2+3", ("(1+2)+3", "1+2+3"), "1+(2+3)", ("1+((2+3))", "1+(2+3)"), ("(1-2)+3", "1-2+3"), "1-(2+3)", "1-(2-3)", ("(1-(2-3))-4", "1-(2-3)-4")]
    expressions += ["1*2*3", ("(1*2)*3", "1*2*3"), "1*(2*3)", "1+2*3", ("1+(2*3)", "1+2*3"), ("(1*2)-3", "1*2-3"), "(1+2)*3", "1*(2-3)", "(1-2)*(3+4)", ("((1+2)*3)+4", "(1+2)*3+4")]
    expressions += ["1.500*(2.000-0.001)", ("(1.500*2.000)-0.001", "1.500*2.000-0.001")]
    # Postfix forms; a `[` may not directly follow `new T[e]`, a `.` may.
    expressions += ["new int[2].length", ("(new int[2]).length", "new int[2].length"), "(new int[2])[0]", ("((new int[2]))[(0)]", "(new int[2])[0]"), ("new int[(1+2)].length", "new int[1+2].length")]
    expressions += ["new boolean[2].length", ("(new A[2]).length", "new A[2].length"), "(new A[2])[0].m()", ("((new A[2])[0]).m()", "(new A[2])[0].m()"), ("((new A[2])[0].a())[1]", "(new A[2])[0].a()[1]")]
    expressions += ["new A().m()", ("(new A()).m()", "new A().m()"), ("((new A()).t()).m()", "new A().t().m()"), ("(new A().a())[1]", "new A().a()[1]"), ("(new A().a()).length", "new A().a().length")]
    expressions += [("(new int[2])[(new int[1]).length]", "(new int[2])[new int[1].length]"), ("new A().f((1),(2+(3)))", "new A().f(1,2+3)"), ("new A().f(1+(2+3),(4))", "new A().f(1+(2+3),4)")]
    expressions += ["Port.get(1)", ("(Port.get((1)))", "Port.get(1)"), ("Port.get(1+(2))*(3+4)", "Port.get(1+2)*(3+4)"), ("(new A().m())*(new A().m()+1)", "new A().m()*(new A().m()+1)")]
    return [row(program(e) + CLASS_A, written(program(due) + CLASS_A)) for e, due in pairs_of(expressions)]


def truth_rows():
    """Expressions that are tests: `!` above `*`, `<` above `&&`."""
    tests = ["true", ("(false)", "false"), "!true", ("!(true)", "!true"), ("(!true)", "!true"), ("!(!true)", "!!true"), ("!((!(true)))", "!!true"), "!(true&&false)", "!(1<2)"]
    tests += ["true&&false&&true", ("(true&&false)&&true", "true&&false&&true"), "true&&(false&&true)", ("(!true)&&(!false)", "!true&&!false"), ("!(true)&&false", "!true&&false")]
    tests += ["1<2&&3<4", ("(1<2)&&(3<4)", "1<2&&3<4"), "1+2<3*4", ("(1+2)<(3*4)", "1+2<3*4"), "!(1<2)&&(true&&!(3<4))", ("((1)+(2))*3<4", "(1+2)*3<4"), ("0.001<(1.500)", "0.001<1.500")]
    tests += ["!new A().b()", ("!(new A().b())", "!new A().b()"), ("!((new boolean[1])[0])", "!(new boolean[1])[0]")]
    return [row(main_with("while(" + e + "){}") + CLASS_A, written(main_with("while(" + due + "){}") + CLASS_A)) for e, due in pairs_of(tests)]


def lesson_rows():
    """Statements, declarations, names, comments and blanks."""
    body = "int x;int[] y;boolean[] z;A[] o;fixed v;x=1;y[0]=x+1;if(true)x=2;else{x=3;y=new int[x];}while(false)Port.put(1,x);{}{{}System.out.println(v);}"
    loose = "int x;int[]y;boolean[ ] z;A[]o;fixed v;x=(1);y[(0)]=(x+1);if((true))x=(2);else{x=3;y=(new int[(x)]);}while((false))Port.put((1),(x));{}{{}System.out.println((v));}"
    classes = "class A extends B{A a;int length_;" + method(body, parameters="int[] p,A q,fixed r") + "}class B{}"
    equal = [
        (EMPTY, EMPTY),
        (" \t\r\n\f" + EMPTY + "// the end", EMPTY),
        ("/* /* */ { */class M/**/{public static void main(String[ ]a) // ;\n{{}}}", EMPTY),
        (EMPTY.replace("[] a", "[] args"), EMPTY.replace("[] a", "[] args")),
        (EMPTY + classes, EMPTY + classes),
        (EMPTY + classes.replace(body, loose).replace("return 1", "return (1)"), EMPTY + classes),
        (EMPTY + class_of("n" * 255), EMPTY + class_of("n" * 255)),
    ]
    # The lesson has 16,301 bytes, and so the text, with a byte more after each token, over 16,384.
    wide = EMPTY + class_of("A", "".join("int %s;" % n for n in names("f" * 16, 675)))
    rows = [row(lesson, written(due)) for lesson, due in equal] + [row(wide, written(wide), strip=18432)]
    return rows + [row(tidy(EMPTY + classes), written(EMPTY + classes)), row(b"/*" + bytes(range(256)) + b"*/" + EMPTY.encode("ascii"), written(EMPTY))]


def refusal_rows():
    """What Check refuses is refused in the same way, and 61 comes after it; the strip needs just the length of the text."""
    refused = [("", 16, 0), ("#", 11, 0), ("/*", 12, 0), (" " * 16385, 10, 0), (program("00"), 60, 63), (program("1.5"), 65, 63), (program("2147483648"), 14, 63), (";" * 2049, 15, 2048)]
    refused += [(program("new int[2][0]"), 16, 73), (program("!" * 63 + "true"), 17, 126), (program("a"), 30, 63), (program("this"), 34, 63), (program("(true)"), 31, 64)]
    refused += [(program("new B()"), 24, 67), (EMPTY + "class M{}", 20, len(EMPTY) + 6), (EMPTY + "class B extends B{}", 22, len(EMPTY) + 6), (EMPTY + "class B extends C{}", 21, len(EMPTY) + 16)]
    rows = [row(lesson, no(number, position), strip) for lesson, number, position in refused for strip in (0, LONG)]
    for lesson, due in ((EMPTY, EMPTY), (program("1"), program("1")), (program("(1+2)"), program("1+2"))):
        length = len(tidy(due))
        rows += [row(lesson, no(61), strip) for strip in (0, 1, length - 1)] + [row(lesson, written(due), strip) for strip in (length, length + 1, 40000)]
    return rows


def table_rows():
    rows = [row(lesson, no(1), strip, table) for table in (0, 1, 16383) for lesson, strip in ((EMPTY, LONG), ("#", 0))]
    return rows + [row(EMPTY, written(EMPTY), table=table) for table in (16385, 20000)] + [row(EMPTY, no(61), 0, 20000), row("#", no(11), LONG, 20000)]


def errors():
    """Lines of print that are no case, and what the program says of each."""
    return [
        ("pritn 16384 1 -", "unknown operation"),
        ("prints 16384 1 -", "unknown operation"),
        ("print", "word missing"),
        ("print 16384 -", "word missing"),
        ("print 16384 1 ", "word missing"),
        ("print 16384 1 - -", "too many words"),
        ("print x 1 -", "malformed number"),
        ("print 16384 x -", "malformed number"),
        ("print 20001 x -", "table too large"),
        ("print 16384 40001 2", "strip too large"),
        ("print 16384 1 2", "odd number of hexadecimal digits"),
        ("print 16384 1 2G", "bad hexadecimal digit"),
    ]


def print_rows():
    return number_rows() + truth_rows() + lesson_rows() + refusal_rows() + table_rows()
