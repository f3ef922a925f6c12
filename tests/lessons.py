"""Lessons for the tests: pieces that they share, and marks that say where a refusal stands.

A mark is the byte `@`, which no lesson has: it stands directly before the token at which a lesson is refused.
"""
import re

HEAD = "class M{public static void main(String[] a){"
START = len(HEAD)  # main's statement begins here, after 14 tokens; 2 follow it
FIRST = START + len("System.out.println(")  # the printed expression begins here; there are 24 tokens beside it
TOKENS_MOST = 2048
BYTES_MOST = 16384


def main_with(statement):
    return HEAD + statement + "}}"


def program(expression):
    """The program of document 01's benches: 24 tokens and the statement's node beside the expression."""
    return main_with("System.out.println(" + expression + ");")


ONE = program("1")  # 25 tokens, 2 nodes
EMPTY = main_with("{}")  # 18 tokens: the shortest program


def tokens(lesson):
    """The tokens of a lesson without comments."""
    return re.findall(r"[A-Za-z][A-Za-z0-9_]*|[0-9]+(?:\.[0-9]+)?|&&|\S", lesson)


def fits(lesson):
    """Whether a lesson keeps within the bounds of bytes and tokens."""
    return len(lesson) <= BYTES_MOST and len(tokens(lesson)) <= TOKENS_MOST


def tidy(lesson):
    """A lesson without comments in the layout of document 02, (v): a line feed after `;`, `{` and `}`, a space after every other token. Its parentheses stay as they are."""
    return "".join(token + ("\n" if token in ";{}" else " ") for token in tokens(lesson))


def unmarked(lesson):
    return lesson.replace("@", "")


def places(lesson):
    """Where the marked tokens of a lesson begin, once the marks are taken out."""
    return [m.start() - k for k, m in enumerate(re.finditer("@", lesson))]


def method(body="", result="int", name="m", parameters="", value="1"):
    """A method; `body` is what stands before `return`."""
    return "public " + result + " " + name + "(" + parameters + "){" + body + "return " + value + ";}"


def class_of(name, content="", parent=None):
    return "class " + name + (" extends " + parent if parent else "") + "{" + content + "}"


def names(prefix, count):
    return ["%s%03d" % (prefix, k) for k in range(count)]


def menu_order(lesson):
    """Where the names of the classes other than main stand, in the order of document 02, (ii): again and again, the first class left whose parent is written or absent."""
    left = [(m.group(1), m.group(2), m.start(1)) for m in re.finditer(r"\bclass ([A-Za-z0-9_]+)(?:\s+extends\s+([A-Za-z0-9_]+))?", lesson)][1:]
    written = {None}
    listed = []
    while left:
        name, _, position = chosen = next(c for c in left if c[1] in written)
        left.remove(chosen)
        written.add(name)
        listed.append(position)
    return listed


def is_for_java(lesson):
    """Whether a lesson has neither the device behind the cable nor the type fixed, which Java does not have."""
    return re.search(r"\bPort\b|\bfixed\b|[0-9]\.[0-9]", re.sub(r"//[^\n]*", "", lesson)) is None


def as_printed(answer):
    """What bayrun prints where run's answer is this: all but the climbs and the registers, which its last line has no place for."""
    ending, _, printed = answer.partition(" : ")
    number, position, steps, _, words, _ = ending.split(" ")
    return "".join(p + "\n" for p in printed.split()) + "= %s %s %s %s\n" % (number, position, steps, words)
