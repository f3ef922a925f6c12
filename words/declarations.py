"""What words/operations.txt declares, as lines of C, Rust and Python."""
import textwrap

WIDTH = 140
C = {"word": "uint32_t", "size": "size_t", "long": "uint64_t", "bytes": "uint8_t", "text": "uint8_t", "words": "uint32_t", "numbers": "int32_t",
     "entries": "uint64_t"}
RUST = {"word": "u32", "size": "usize", "long": "u64", "bytes": "u8", "text": "u8", "words": "u32", "numbers": "i32", "entries": "u64"}
PYTHON = {"word": "c_uint32", "size": "c_size_t", "long": "c_uint64", "bytes": "c_uint8", "text": "c_uint8", "words": "c_uint32",
          "numbers": "c_int32", "entries": "c_uint64"}
# The module has limits of its own, which are these and the lengths of the strips.
PYTHON_NAMES = {"limits": "RunLimits", "frame_limits": "PartLimits"}


def camel(name):
    return "".join(word.capitalize() for word in name.split("_"))


def sentence(words):
    return words[0].upper() + words[1:] + "."


def wrapped(text, first, rest):
    return textwrap.wrap(text, WIDTH, initial_indent=first, subsequent_indent=rest, break_long_words=False, break_on_hyphens=False)


def called(head, arguments, end):
    """A call or a declaration of C, with its arguments on as many lines as they need."""
    whole = [argument.replace(" ", "\0") for argument in arguments]
    return [line.replace("\0", " ") for line in wrapped(", ".join(whole) + end, head, " " * len(head))]


# The header.


def c_comment(text, listed=()):
    """A comment; `listed` are names with their words, in columns."""
    width = max((len(name) for name, _ in listed), default=0) + 2
    lines = wrapped(text, "/* ", " * ")
    for name, words in listed:
        lines += wrapped(words, " *   " + name.ljust(width), " *   " + " " * width)
    return lines[:-1] + [lines[-1] + " */"]


def c_type(kind):
    return C.get(kind) or "engine_" + kind


def c_field(field):
    return "    %s %s;%s" % (c_type(field.type), field.name, " /* %s */" % field.words if field.words else "")


def c_arguments(a):
    if not a.is_strip:
        return ["%s %s" % (c_type(a.kind), a.name)]
    return ["%s%s *%s" % ("" if a.after else "const ", C[a.kind], a.name), "size_t %s_length" % a.name]


def c_constants(surface):
    return ["#define ENGINE_%s %s /* %s */" % (c.name, c.value, c.words) for c in surface.constants]


def c_operations(surface):
    lines = []
    for r in surface.records:
        lines += ["", *c_comment(r.says), "typedef struct {", *map(c_field, r.fields), "} engine_%s;" % r.name]
    for o in surface.operations:
        told = [(a.name, a.words) for a in o.arguments if a.words]
        arguments = [part for a in o.arguments for part in c_arguments(a)]
        lines += ["", *c_comment(o.says, told), *called("engine_%s engine_%s(" % (o.answer, o.name), arguments, ");")]
    return lines[1:]


# bindings/rust/src/sys.rs.


def rust_comment(text, indent=""):
    return wrapped(text, indent + "/// ", indent + "/// ")


def rust_type(kind):
    return RUST.get(kind) or camel(kind)


def rust_field(field):
    return (rust_comment(sentence(field.words), "    ") if field.words else []) + ["    pub %s: %s," % (field.name, rust_type(field.type))]


def rust_arguments(a):
    if not a.is_strip:
        return ["%s: %s" % (a.name, rust_type(a.kind))]
    return ["%s: *%s %s" % (a.name, "mut" if a.after else "const", RUST[a.kind]), "%s_length: usize" % a.name]


def rust_function(o):
    arguments = [part for a in o.arguments for part in rust_arguments(a)]
    line = "    pub fn engine_%s(%s) -> %s;" % (o.name, ", ".join(arguments), camel(o.answer))
    if len(line) <= WIDTH:
        return [line]
    return ["    pub fn engine_%s(" % o.name, *("        %s," % part for part in arguments), "    ) -> %s;" % camel(o.answer)]


def rust_operations(surface):
    lines = []
    for c in surface.constants:
        lines += rust_comment(sentence(c.words)) + ["pub const %s: %s = %s;" % (c.name, RUST[c.type], c.value)]
    for r in surface.records:
        lines += ["", *rust_comment(r.says), "#[repr(C)]", "#[derive(Clone, Copy, Debug, Default, PartialEq, Eq)]", "pub struct %s {" % camel(r.name)]
        lines += [line for field in r.fields for line in rust_field(field)] + ["}"]
    lines += ["", 'extern "C" {', "    /// The version that belongs to the library: [`VERSION`] of these declarations.", "    pub fn engine_version() -> u32;"]
    for o in surface.operations:
        lines += rust_comment(o.says, "    ") + rust_function(o)
    return lines + ["}"]


# bindings/python/lesson_engine.py.


def python_name(record):
    return PYTHON_NAMES.get(record) or camel(record)


def python_type(kind):
    return "ctypes." + PYTHON[kind] if kind in PYTHON else python_name(kind)


def python_constants(surface):
    return ["%s = %s  # %s" % (c.name, c.value, c.words) for c in surface.constants]


def python_records(surface):
    lines = []
    for r in surface.records:
        fields = ['        ("%s", %s),' % (field.name, python_type(field.type)) for field in r.fields]
        lines += ["class %s(ctypes.Structure):" % python_name(r.name), "    _fields_ = [", *fields, "    ]", "", ""]
    return lines[:-2]


def python_argument(a):
    """Of `load`: a pointer and a length; or a record."""
    if not a.is_strip:
        return "[%s]" % python_name(a.kind)
    return "lent(%s)" % python_type(a.kind) if a.after else "given"


def python_functions(surface):
    lines = []
    for o in surface.operations:
        lines.append("    found.engine_%s.argtypes = %s" % (o.name, " + ".join(map(python_argument, o.arguments))))
        lines.append("    found.engine_%s.restype = %s" % (o.name, python_name(o.answer)))
    return lines


# tests/answer.c.


def lent(o, a):
    """The line that lends an argument what a case says."""
    at = {word: "word[%d]" % (k + 1) for k, word in enumerate(o.case)}
    if not a.after:
        return "    lent %s = given(%s);" % (a.name, at[a.name])
    return "    lent %s = room(%s, sizeof(%s));" % (a.name, at[a.name], C[a.kind])


def filled(o, a, surface):
    """The same for a record, whose fields are numbers of the case."""
    fields = next(r.fields for r in surface.records if r.name == a.kind)
    words = ["(%s)number_of(word[%d])" % (C[f.type], o.case.index(f.name) + 1) for f in fields]
    return "    engine_%s %s = {%s};" % (a.kind, a.name, ", ".join(words))


def is_as_due(a):
    if a.after == "cleared":
        return "is_cleared(%s, a.number)" % a.name
    if a.after == "ran":
        return "is_set_by_run(%s, a.number)" % a.name
    return "is_led(%s, a.%s)" % (a.name, a.after)


def answer_function(o, surface):
    passed = ["%s.at, %s.length" % (a.name, a.name) if a.is_strip else a.name for a in o.arguments]
    due = " && ".join(is_as_due(a) for a in o.arguments if a.after)
    strips = {a.name for a in o.arguments if a.is_strip}
    lines = ["static int answer_%s(char **word, text *to) {" % o.name]
    lines += [lent(o, a) if a.is_strip else filled(o, a, surface) for a in o.arguments]
    lines += called("    engine_%s a = engine_%s(" % (o.answer, o.name), passed, ");") + ["    int is_right = %s;" % due]
    for k, word in enumerate(o.answered):
        form = "    add_set(to, %s, a.number);" if word in strips else '    add_number(to, "%s", (long long)a.%%s);' % (" " if k else "")
        lines.append(form % word)
    if o.leading:
        leading = o.argument(o.leading)
        lines.append("    add_%s(to, %s.at, a.%s);" % (leading.kind, leading.name, leading.after))
    lines += ["    free(%s.at);" % a.name for a in o.arguments if a.is_strip]
    return lines + ["    return is_right;", "}", ""]


def answer_functions(surface):
    """What answers the cases of each operation; those that are answered by hand have as many words as they need, so 0 is said of them."""
    lines = [line for o in surface.operations if not o.by_hand for line in answer_function(o, surface)]
    lines += ["static const operation operations[] = {"]
    for o in surface.operations:
        name, words = (o.by_hand, 0) if o.by_hand else (o.name, len(o.case) + 1)
        lines.append('    {"%s", %d, answer_%s},' % (name, words, name))
    return lines + ["};"]


# crates/engine/src/lib.rt, which is not written but held to this.


def rattle_argument(a):
    if not a.is_strip:
        return "%s: %s" % (a.name, rust_type(a.kind))
    return "%s: &%s[%s]" % (a.name, "mut " if a.after else "", RUST[a.kind])


def rattle(surface):
    """Each declaration on one line, without blanks and commas that mean nothing."""
    records = ["pub struct %s {%s}" % (camel(r.name), ", ".join("pub %s: %s" % (f.name, rust_type(f.type)) for f in r.fields)) for r in surface.records]
    functions = ["fn engine_%s(%s) -> %s" % (o.name, ", ".join(map(rattle_argument, o.arguments)), camel(o.answer)) for o in surface.operations]
    version = next(c.value for c in surface.constants if c.name == "VERSION")
    return set(records + functions + ["const VERSION: u32 = %s;" % version, "fn engine_version() -> u32"])
