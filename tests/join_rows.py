"""Rows of join, worked out by hand from document 02, (x)."""
from lessons import EMPTY, class_of, main_with, method, places, program, unmarked

TABLE = 16384
LONG = 4000  # longer than every text of these rows but those that say so
WITH_A = EMPTY + "class A{}"


def row(lesson, library, answer, strip=LONG, table=TABLE):
    data = [text if isinstance(text, bytes) else text.encode("ascii") for text in (lesson, library)]
    return "join %d %d %s" % (table, strip, " ".join(d.hex() or "-" for d in data)), answer


def no(number, position=0):
    return "%d %d 0" % (number, position)


def written(lesson, kept):
    """The answer where the text is written: the lesson, a line feed, and the kept classes, a line feed after each."""
    text = b"".join((t if isinstance(t, bytes) else t.encode("ascii")) + b"\n" for t in [lesson] + kept)
    return "0 0 %d : %s" % (len(text), text.hex())


def kept_rows():
    """Which classes are kept, and from where to where."""
    long_name = "n" * 254
    whole = "class B extends C{int x;B[] y;" + method("fixed z;z=1.500;if(true){}else while(false){}", parameters="int p,boolean q") + "}"
    libraries = [
        ("", []),
        (" \t\r\n\f", []),
        ("// class B{}", []),
        ("/* class B{} /* class C{} */ */", []),
        ("class B{}", ["class B{}"]),
        ("class B{}class C{}", ["class B{}", "class C{}"]),
        ("  class B{}\n\n// C follows\nclass C{} // the end", ["class B{}", "class C{}"]),
        ("class/**/B // open\n{ }/* closed */", ["class/**/B // open\n{ }"]),
        ("class B{/* } class C{ */int x;// }\n}", ["class B{/* } class C{ */int x;// }\n}"]),
        (b"class B{/*\x00\xff\x80*/}/*\x00*/", [b"class B{/*\x00\xff\x80*/}"]),
        ("class B{}class B{int x;}", ["class B{}", "class B{int x;}"]),
        (whole, [whole]),
        ("class B extends M{}class C extends A{}", ["class B extends M{}", "class C extends A{}"]),
        ("class M{}", []),
        ("class M{int x;}class B{}class M{}class C{}class M{}", ["class B{}", "class C{}"]),
        ("class A{}", []),
        ("class A{" + method() + "}class AA{}class a{}", ["class AA{}", "class a{}"]),
        ("class MM{}class m{}class M_{}class Ma{}", ["class MM{}", "class m{}", "class M_{}", "class Ma{}"]),
        ("class main_{}class a{}", ["class main_{}", "class a{}"]),
    ]
    rows = [row(WITH_A, library, written(WITH_A, kept)) for library, kept in libraries]
    for lesson in (EMPTY + class_of(long_name + "x"), EMPTY.replace("class M", "class " + long_name + "x")):
        rows.append(row(lesson, class_of(long_name + "x") + class_of(long_name + "y") + class_of(long_name), written(lesson, [class_of(long_name + "y"), class_of(long_name)])))
    return rows


def lesson_rows():
    """Joining takes what Read takes, and copies it as it is; the lesson is refused before anything else of the case is looked at."""
    lessons = [" " + EMPTY + "\n", EMPTY + "// the end", EMPTY + "/* the end */", program("1+a"), EMPTY + "class B{}class B{}", EMPTY + "class B extends C{C x;}"]
    rows = [row(lesson, "class D{}", written(lesson, ["class D{}"])) for lesson in lessons]
    refused = [("", 16, 0), ("#", 11, 0), ("/*", 12, 0), ("class M{", 16, 8), (EMPTY + "}", 16, len(EMPTY)), (program("00"), 60, 63), ("class B{}", 16, 8)]
    refused += [(" " * 16385, 10, 0), (";" * 2049, 15, 2048), (main_with("{" * 65 + "}" * 65), 17, 108)]
    rows += [row(lesson, "class B{}", no(number, position)) for lesson, number, position in refused]
    return rows + [row("#", "#", no(11)), row("#", "class B{}", no(11), strip=0), row("class M{", "class B{", no(16, 8), strip=0)]


def library_rows():
    """66 stands where Read's rule puts its number. A mark (see lessons.py) stands there."""
    in_method = "class B{public int m(){"
    returned = in_method + "return "
    libraries = ["@;", "@x", "@{}", "@public", "@1", "class@", "class @1", "class @class", "class B@", "class B @C{}", "class B@;", "class B extends@", "class B extends @{}"]
    libraries += ["class B{@", "class B{}@}", "class B{}@x", "class B{}@;", "class B{@class C{}}", "class B{x@}", "class B{int x@}", "class B{int x;public@", "class B{public int m(){@}}"]
    libraries += ["class M{public @static void main(String[] a){{}}}", returned + "1@", returned + "1;@", returned + "1;}@", returned + "1;}@int x;}", in_method + "x=1;@int y;return 1;}}"]
    libraries += ["@#", "class B{}@&", "class B{}@/", "@/*", "class B{}@/* /* */", "class @" + "x" * 256, returned + "@00;}}", returned + "@1.5;}}", returned + "@2147483648;}}"]
    libraries += ["class B{}  @x class"]
    libraries += [returned + "!" * 64 + "@1;}}", "class C{}" + in_method + "{" * 64 + "@{}" + "}" * 64 + "return 1;}}"]
    rows = [row(EMPTY, unmarked(library), no(66, *places(library))) for library in libraries]
    # Bytes and tokens are bounded in the library by itself.
    rows += [row(EMPTY, " " * 16385, no(66)), row(EMPTY, " " * 16384, written(EMPTY, [])), row(EMPTY, ";" * 2049, no(66, 2048)), row(EMPTY, "}" + ";" * 2047, no(66))]
    deepest = returned + "!" * 63 + "1;}}"
    return rows + [row(EMPTY, deepest, written(EMPTY, [deepest]))]


def strip_rows():
    """67 comes last, and the strip needs just the length of the text."""
    rows = []
    for library, kept in (("", []), ("class B{}", ["class B{}"]), ("class M{}", []), ("class B{}class M{}class C{}", ["class B{}", "class C{}"])):
        due = written(EMPTY, kept)
        length = int(due.split(" ")[2])
        rows += [row(EMPTY, library, no(67), strip) for strip in (0, 1, length - 1)] + [row(EMPTY, library, due, strip) for strip in (length, length + 1, 40000)]
    return rows + [row(EMPTY, "#", no(66), strip=0), row(EMPTY, "class B{", no(66, 8), strip=0)]


def table_rows():
    rows = [row(lesson, library, no(1), strip, table) for table in (0, 1, 16383) for lesson, library, strip in ((EMPTY, "", LONG), ("#", "#", 0), (EMPTY, "#", LONG))]
    return rows + [row(EMPTY, "class B{}", written(EMPTY, ["class B{}"]), table=table) for table in (16385, 20000)] + [row(EMPTY, "#", no(66), table=20000)]


def errors():
    """Lines of join that are no case, and what the program says of each."""
    return [
        ("jion 16384 1 - -", "unknown operation"),
        ("joins 16384 1 - -", "unknown operation"),
        ("join", "word missing"),
        ("join 16384 1 -", "word missing"),
        ("join 16384 1 - ", "word missing"),
        ("join 16384 1  -", "word missing"),
        ("join 16384 1 - - -", "too many words"),
        ("join x 1 - -", "malformed number"),
        ("join 16384 x - -", "malformed number"),
        ("join 20001 x - -", "table too large"),
        ("join 16384 40001 2 -", "strip too large"),
        ("join 16384 4294967296 - -", "strip too large"),
        ("join 16384 1 2 2G", "odd number of hexadecimal digits"),
        ("join 16384 1 2G 2", "bad hexadecimal digit"),
        ("join 16384 1 20 2", "odd number of hexadecimal digits"),
        ("join 16384 1 20 2020G0", "bad hexadecimal digit"),
        ("join 16384 1 -- -", "bad hexadecimal digit"),
    ]


def join_rows():
    return kept_rows() + lesson_rows() + library_rows() + strip_rows() + table_rows()
