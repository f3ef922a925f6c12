"""Makes lessons from a number: typed, ended by construction, and the same in Java. It knows document 01's grammar and types and nothing of the engine.

A lesson has some classes, one below the other or not, fields that may hide others, and methods m0, m1, .. that subclasses redeclare. A method calls only those of smaller numbers, or itself
with a smaller first argument, and loops turn a fixed number of times; so what a lesson can cost at most is added up as it is written, and kept below bayrun's limits.
Locals are assigned before anything else, as Java asks. A bold lesson now and then uses a field that may still be null, an index that may be outside, or a size that may be negative.
An array type fits only itself here, as document 02, (vi), has it, so that Java's tests of what is stored never fail; and but for bold lessons an array of a class is filled where it is made:
by statements that assign each element, or by a method row0, row1, .. that each class has.
A lesson that has the port of document 02, (viii), gets and puts registers besides, and one that has the type of (ix) calculates with thousandths; Java has no such lessons.
"""
from device import COUNT
from lessons import fits, main_with

INT, BOOLEAN, FIXED = "int", "boolean", "fixed"
NUMBERS = (INT, FIXED)  # the types of what is calculated with and printed
MARK = "[]"

# How tightly forms bind, from `&&` to what may stand before a dot.
AND, LESS, SUM, PRODUCT, NOT, POSTFIX = range(6)

# At most, for main: steps, heap words, printed numbers, open calls.
MOST = (90000, 3800, 240, 60)
NOTHING = (0, 0, 0, 0)


def array_of(element):
    return element + MARK


def is_array(wanted):
    return wanted.endswith(MARK)


def element_of(array):
    return array[: -len(MARK)]


def is_plain(wanted):
    """Whether there is no null of the type."""
    return wanted in (INT, BOOLEAN, FIXED)


def both(a, b):
    """What two parts cost, one after the other."""
    return a[0] + b[0], a[1] + b[1], a[2] + b[2], max(a[3], b[3])


def either(a, b):
    return tuple(max(x, y) for x, y in zip(a, b))


def times(k, a):
    return k * a[0], k * a[1], k * a[2], a[3]


def total(costs):
    sum_of = NOTHING
    for c in costs:
        sum_of = both(sum_of, c)
    return sum_of


def step(*costs):
    """A node and its parts."""
    return both((1, 0, 0, 0), total(costs))


class Dice:
    """Numbers that depend on the seed alone, whatever the version of Python."""

    def __init__(self, seed):
        self.state = seed * 2654435761 + 1

    def below(self, n):
        self.state = (self.state * 6364136223846793005 + 1442695040888963407) % 2**64
        return (self.state >> 33) % n

    def pick(self, those):
        return those[self.below(len(those))]

    def chance(self, percent):
        return self.below(100) < percent


class Expression:
    def __init__(self, text, binding, cost, is_new_array=False):
        self.text, self.binding, self.cost, self.is_new_array = text, binding, cost, is_new_array

    def at(self, binding):
        """The text, in parentheses where it binds less than that."""
        return self.text if binding <= self.binding else "(" + self.text + ")"


class Class:
    def __init__(self, k, parent):
        self.name, self.parent = "C%d" % k, parent
        self.row = "row%d" % k  # the name of the method that makes an array of this class, all of whose elements are the receiver
        self.fields = {}
        self.methods = []

    def chain(self):
        return [self] + (self.parent.chain() if self.parent else [])

    def visible(self):
        """The fields that a method declared here sees, by name."""
        seen = dict(self.parent.visible()) if self.parent else {}
        seen.update(self.fields)
        return seen


class Method:
    """A name, its types, the class that declares it first, and what a call costs at most."""

    def __init__(self, name, result, parameters, owner, turns):
        self.name, self.result, self.parameters, self.owner = name, result, parameters, owner
        self.turns = turns  # how often it may call itself, one call in the other; None where it does not
        self.cost = NOTHING


class Body:
    """Writes the body of a method, or an expression of main's."""

    def __init__(self, lesson, owner, names, room):
        self.lesson, self.dice = lesson, lesson.dice
        self.owner = owner  # the class, None in main
        self.names = names  # what the names mean: types of parameters, locals and fields
        self.room = room  # what may still be spent
        self.kept = set()  # names that are no target of an assignment: counters, and what bounds a recursion
        self.known = set()  # names that are not null
        self.counters = []

    # Expressions

    def of_type(self, wanted):
        return [n for n in sorted(self.names) if self.lesson.fits(self.names[n], wanted)]

    def expression(self, wanted, depth):
        if wanted == INT:
            return self.integer(depth)
        if wanted == BOOLEAN:
            return self.truth(depth)
        if wanted == FIXED:
            return self.fixed(depth)
        return self.array(wanted, depth) if is_array(wanted) else self.object(wanted, depth)

    def variable(self, wanted):
        """A name of the type, and not null unless the lesson is bold; None where there is none."""
        those = [n for n in self.of_type(wanted) if is_plain(wanted) or self.is_safe(n)]
        return Expression(self.dice.pick(those), POSTFIX, step()) if those else None

    def is_safe(self, name):
        return name in self.known or self.lesson.dares()

    def arrays(self, element=None):
        """The types of the arrays that have names, or of those whose elements fit; int[] or the element's own where there are none."""
        named = {t for t in self.names.values() if is_array(t)}
        return sorted(t for t in named if element is None or self.lesson.fits(element_of(t), element)) or [array_of(element or INT)]

    def element(self, array, index):
        before = "(" + array.text + ")" if array.is_new_array else array.at(POSTFIX)
        return Expression(before + "[" + index.text + "]", POSTFIX, step(array.cost, index.cost))

    def literal(self):
        small = self.dice.below(12)
        large = self.dice.pick([31, 255, 1000, 46341, 65536, 65537, 1000003, 2147483646, 2147483647])
        return Expression(str(large if self.dice.chance(self.lesson.large) else small), POSTFIX, step())

    def fixed_literal(self):
        """A few thousandths, some volts, or a count at the bounds of what a product keeps."""
        small = self.dice.pick([0, 1, 2, 999, 1000, 1001, self.dice.below(15000)])
        large = self.dice.pick([46341, 1465000, 65536000, 2147483646, 2147483647])
        count = large if self.dice.chance(self.lesson.large) else small
        return Expression("%d.%03d" % divmod(count, 1000), POSTFIX, step())

    def calculation(self, wanted, depth):
        sign, binding = self.dice.pick([("+", SUM), ("-", SUM), ("*", PRODUCT)])
        return self.binary(sign, binding, self.expression(wanted, depth - 1), self.expression(wanted, depth - 1))

    def binary(self, sign, binding, left, right):
        right_binding = SUM if binding == LESS else binding + 1
        left_binding = SUM if binding == LESS else binding
        return Expression(left.at(left_binding) + sign + right.at(right_binding), binding, step(left.cost, right.cost))

    def got(self, depth):
        """What a register holds. A bold lesson may name one that there is not."""
        register = self.integer(depth - 1) if 0 < depth and self.lesson.dares() else Expression(str(self.register()), POSTFIX, step())
        return Expression("Port.get(%s)" % register.text, POSTFIX, step(register.cost))

    def register(self):
        """The number of a register, more often of one that means something."""
        return self.dice.below(3) if self.dice.chance(75) else self.dice.below(COUNT)

    def integer(self, depth):
        if self.lesson.has_port and self.dice.chance(15):
            return self.got(depth)
        way = self.dice.below(12) if 0 < depth else self.dice.below(3)
        if way < 1:
            return self.literal()
        if way < 3:
            return self.variable(INT) or self.literal()
        if way < 7:
            return self.calculation(INT, depth)
        if way < 8:
            array = self.array(self.dice.pick(self.arrays()), depth - 1)
            return Expression(array.at(POSTFIX) + ".length", POSTFIX, step(array.cost))
        if way < 10:
            return self.element(self.array(array_of(INT), depth - 1), self.index(depth - 1))
        return self.call(INT, depth) or self.integer(depth - 1)

    def fixed(self, depth):
        way = self.dice.below(9) if 0 < depth else self.dice.below(3)
        if way < 1:
            return self.fixed_literal()
        if way < 3:
            return self.variable(FIXED) or self.fixed_literal()
        if way < 7:
            return self.calculation(FIXED, depth)
        return self.call(FIXED, depth) or self.fixed(depth - 1)

    def index(self, depth):
        """An index within every array of the lesson."""
        if self.lesson.dares():
            return self.integer(min(depth, 1))
        if self.counters and self.dice.chance(70):
            return Expression(self.dice.pick(self.counters), POSTFIX, step())
        return Expression(str(self.dice.below(self.lesson.length)), POSTFIX, step())

    def truth(self, depth):
        way = self.dice.below(12) if 0 < depth else self.dice.below(3)
        if way < 1:
            return Expression(self.dice.pick(["true", "false"]), POSTFIX, step())
        if way < 3:
            return self.variable(BOOLEAN) or Expression("true", POSTFIX, step())
        if way < 6:
            wanted = self.lesson.number_type()
            return self.binary("<", LESS, self.expression(wanted, depth - 1), self.expression(wanted, depth - 1))
        if way < 8:
            return self.binary("&&", AND, self.truth(depth - 1), self.truth(depth - 1))
        if way < 9:
            e = self.truth(depth - 1)
            return Expression("!" + e.at(NOT), NOT, step(e.cost))
        if way < 11:
            return self.element(self.array(array_of(BOOLEAN), depth - 1), self.index(depth - 1))
        return self.call(BOOLEAN, depth) or self.truth(depth - 1)

    def array(self, wanted, depth):
        way = self.dice.below(8)
        known = self.variable(wanted)
        if known and (way < 6 or depth < 1):
            return known
        called = self.call(wanted, depth) if 0 < depth and way < 7 else None
        if called:
            return called
        element = element_of(wanted)
        if self.lesson.dares():
            return Expression("new %s[%d-%d]" % (element, self.dice.below(3), 1 + self.dice.below(2)), POSTFIX, (4, 2, 0, 0), True)
        size = self.lesson.length + self.dice.below(3)
        return self.new_array(element, size) if is_plain(element) else self.row(self.lesson.class_of(element), size)

    def new_array(self, element, size):
        return Expression("new %s[%d]" % (element, size), POSTFIX, (2, size + 1, 0, 0), True)

    def row(self, c, size):
        """An array of a class that is filled: a new object's call, 10 steps of its method and 11 for each element."""
        return Expression("new %s().%s(%d)" % (c.name, c.row, size), POSTFIX, (13 + 11 * size, self.lesson.size(c) + 1 + size, 0, 1))

    def object(self, wanted, depth):
        known = self.variable(wanted)
        if self.owner and self.lesson.fits(self.owner.name, wanted) and self.dice.chance(50):
            return Expression("this", POSTFIX, step())
        rows = [n for n in sorted(self.names) if self.names[n] in self.arrays(wanted) and self.is_safe(n)]
        if rows and self.dice.chance(60):
            return self.element(Expression(self.dice.pick(rows), POSTFIX, step()), self.index(0))
        if known and self.dice.chance(70):
            return known
        called = self.call(wanted, depth) if 0 < depth and self.dice.chance(40) else None
        if called:
            return called
        made = self.dice.pick([c for c in self.lesson.classes if self.lesson.fits(c.name, wanted)])
        return Expression("new %s()" % made.name, POSTFIX, (1, self.lesson.size(made), 0, 0))

    def call(self, wanted, depth):
        """A call of a finished method whose result fits and that there is room for; None where there is none."""
        those = [m for m in self.lesson.finished if self.lesson.fits(m.result, wanted) and self.affords(m.cost)]
        return self.call_of(self.dice.pick(those), depth) if those else None

    def call_of(self, m, depth):
        receiver = self.object(m.owner.name, min(depth, 1) - 1)
        given = [self.expression(p, min(depth, 2) - 1) for p in m.parameters]
        if m.turns is not None:  # the first argument bounds the recursion
            given[0] = Expression(str(self.dice.below(m.turns + 1)), POSTFIX, step())
        text = "%s.%s(%s)" % (receiver.at(POSTFIX), m.name, ",".join(g.text for g in given))
        return Expression(text, POSTFIX, step(receiver.cost, m.cost, *[g.cost for g in given]))

    # Statements

    def affords(self, cost):
        return all(c <= r for c, r in zip(cost, self.room))

    def spend(self, cost):
        self.room = tuple(r - c for r, c in zip(self.room[:3], cost[:3])) + self.room[3:]

    def in_turns(self, k, write):
        """What `write` writes, with room for it k times."""
        outer = self.room
        self.room = tuple(r // k for r in outer[:3]) + outer[3:]
        text, cost = write()
        self.room = outer
        return text, cost

    def assignment(self, depth):
        targets = [n for n in sorted(self.names) if n not in self.kept]
        if not targets:
            return self.showing(depth)
        target = self.dice.pick(targets)
        wanted = self.names[target]
        if is_array(wanted) and target in self.known and self.dice.chance(80):
            return self.element_assignment(target, self.index(depth), self.expression(element_of(wanted), depth))
        if is_array(wanted) and not is_plain(element_of(wanted)) and self.dice.chance(50):
            return self.filling(target, element_of(wanted))
        value = self.expression(wanted, depth)
        return "%s=%s;" % (target, value.text), step(value.cost)

    def element_assignment(self, target, index, value):
        return "%s[%s]=%s;" % (target, index.text, value.text), step(index.cost, value.cost)

    def filling(self, target, element):
        """A new array of a class, and a value for each element. Before the last has one nothing is called and, but for bold lessons, none is read."""
        made = self.new_array(element, self.lesson.length)
        texts, costs = ["%s=%s;" % (target, made.text)], [step(made.cost)]
        self.known.discard(target)
        for k in range(self.lesson.length):
            text, cost = self.element_assignment(target, Expression(str(k), POSTFIX, step()), self.object(element, 0))
            texts.append(text)
            costs.append(cost)
        self.known.add(target)
        return "".join(texts), total(costs)

    def showing(self, depth):
        value = self.expression(self.lesson.number_type(), depth)
        return "System.out.println(%s);" % value.text, both(step(value.cost), (0, 0, 1, 0))

    def putting(self, depth):
        """A register and a value. A bold lesson may name one that there is not, or a value that is no byte."""
        value = self.integer(depth) if self.lesson.dares() else Expression(str(self.dice.below(256)), POSTFIX, step())
        return "Port.put(%d,%s);" % (COUNT if self.lesson.dares() else self.register(), value.text), step(step(), value.cost)

    def choice(self, depth):
        test = self.truth(depth)
        # What is not null after one branch need not be after the other.
        known = set(self.known)
        yes, yes_cost = self.block(depth - 1)
        self.known = set(known)
        no, no_cost = self.block(depth - 1) if self.dice.chance(70) else ("{}", step())
        self.known = known
        return "if(%s)%selse %s" % (test.text, yes, no), step(test.cost, either(yes_cost, no_cost))

    def loop(self, depth):
        free = [c for c in ("i", "j") if self.names.get(c) == INT and c in self.kept and c not in self.counters]
        if not free:
            return self.choice(depth)
        counter, turns = free[0], 1 + self.dice.below(self.lesson.length)
        known = set(self.known)
        self.counters.append(counter)
        body, cost = self.in_turns(turns, lambda: self.statements(1 + self.dice.below(3), depth - 1))
        self.counters.pop()
        self.known = known
        text = "%s=0;while(%s<%d){%s%s=%s+1;}" % (counter, counter, turns, body, counter, counter)
        return text, both((3 + 3 * (turns + 1), 0, 0, 0), times(turns, both(cost, (5, 0, 0, 0))))

    def block(self, depth):
        text, cost = self.statements(1 + self.dice.below(2), depth)
        return "{" + text + "}", step(cost)

    def statement(self, depth):
        if self.lesson.has_port and self.dice.chance(20):
            return self.putting(min(depth, 2))
        way = self.dice.below(10)
        if way < 4:
            return self.assignment(min(depth, 3))
        if way < 6 or depth < 1:
            return self.showing(min(depth, 2))
        return self.choice(depth) if way < 8 else self.loop(depth)

    def statements(self, count, depth):
        """Statements that there is room for; one that is too dear is left out."""
        texts, costs = [], []
        outer = self.room
        for _ in range(count):
            before = set(self.known)
            text, cost = self.statement(depth)
            if self.affords(cost):
                texts.append(text)
                costs.append(cost)
                self.spend(cost)
            else:
                self.known = before
        self.room = outer
        return "".join(texts), total(costs)


class Lesson:
    def __init__(self, seed, has_port, has_fixed):
        self.dice = Dice(seed)
        self.has_port, self.has_fixed = has_port, has_fixed
        self.bold = self.dice.pick([0, 3, 8, 15])  # of a hundred chances for a fault, how many are taken
        self.large = self.dice.pick([5, 30])  # of a hundred literals, how many are large
        self.length = 3 + self.dice.below(3)  # the least length of an array
        self.classes = []
        self.finished = []
        for k in range(2 + self.dice.below(4)):
            parent = self.dice.pick(self.classes) if self.classes and self.dice.chance(65) else None
            self.classes.append(Class(k, parent))
        for c in self.classes:
            for _ in range(self.dice.below(4)):
                c.fields["f%d" % self.dice.below(5)] = self.any_type()
        levels = 3 + self.dice.below(4)
        for k in range(levels):
            self.add_method("m%d" % k, tuple(w // 3 ** (levels - 1 - k) for w in (24000, 900, 60)))

    def dares(self):
        return self.dice.chance(self.bold)

    def number_type(self):
        """The type of something that is compared or printed."""
        return FIXED if self.has_fixed and self.dice.chance(40) else INT

    def any_type(self):
        if self.has_fixed and self.dice.chance(25):
            return FIXED
        way = self.dice.below(10)
        if way < 7:
            return INT if way < 4 else BOOLEAN if way < 5 else self.dice.pick(self.classes).name
        return array_of(self.dice.pick([INT, BOOLEAN, self.dice.pick(self.classes).name]))

    def class_of(self, name):
        return next(c for c in self.classes if c.name == name)

    def fits(self, given, wanted):
        if any(is_plain(t) or is_array(t) for t in (given, wanted)):
            return given == wanted
        return any(c.name == wanted for c in self.class_of(given).chain())

    def size(self, c):
        return 1 + sum(len(up.fields) for up in c.chain())

    def add_method(self, name, room):
        """Declares a method in a class and again in some of those below it."""
        is_recursive = self.dice.chance(30)
        parameters = [INT] if is_recursive else []
        parameters += [self.any_type() for _ in range(self.dice.below(3))]
        owner = self.dice.pick(self.classes)
        result = INT if self.dice.chance(60) else self.any_type()
        m = Method(name, result, parameters, owner, 2 + self.dice.below(4) if is_recursive else None)
        below = [c for c in self.classes if c is not owner and owner in c.chain()]
        room = tuple(max(r, least) for r, least in zip(room, (60, 12, 2))) + (40,)
        if is_recursive:
            room = tuple(r // (m.turns + 1) for r in room[:3]) + (40 - m.turns - 1,)
        cost = NOTHING
        for c in [owner] + [c for c in below if self.dice.chance(60)]:
            text, one = self.written(m, c, room)
            c.methods.append(text)
            cost = either(cost, one)
        turns = 1 if m.turns is None else m.turns + 1
        m.cost = times(turns, cost)[:3] + (cost[3] + turns,)
        self.finished.append(m)

    def written(self, m, c, room):
        """A declaration of a method in a class, and what a call costs at most, calls of itself left out."""
        body = Body(self, c, dict(c.visible()), room)
        parameters = ["p%d" % k for k in range(len(m.parameters))]
        # A parameter may hide a field, but the one that bounds a recursion keeps its name.
        for k in range(1 if m.turns is not None else 0, len(parameters)):
            if self.dice.chance(20):
                name = "f%d" % self.dice.below(5)
                parameters[k] = name if name not in parameters else parameters[k]
        for name, wanted in zip(parameters, m.parameters):
            body.names[name] = wanted
            body.known.add(name)
        if m.turns is not None:
            body.kept.add(parameters[0])
        declared = [("i", INT), ("j", INT)] + [("v%d" % k, self.any_type()) for k in range(self.dice.below(4))]
        first = []
        for name, wanted in declared:
            value = Expression("0", POSTFIX, step()) if name in ("i", "j") else body.expression(wanted, 1)
            first.append(("%s=%s;" % (name, value.text), step(value.cost)))
            body.names[name] = wanted
            body.known.add(name)
        body.kept.update(["i", "j"])
        for name, wanted in sorted(c.visible().items()):
            if body.names[name] == wanted and not is_plain(wanted) and name not in parameters and self.dice.chance(75):
                value = body.expression(wanted, 0)
                first.append(("%s=%s;" % (name, value.text), step(value.cost)))
                body.known.add(name)
        texts, costs = [t for t, _ in first], [k for _, k in first]
        body.spend(total(costs))
        text, cost = body.statements(2 + self.dice.below(4), 3)
        texts.append(text)
        costs.append(cost)
        if m.turns is not None:
            again, once = self.again(m, body, parameters)
            texts.append(again)
            costs.append(once)
        value = body.expression(m.result, 1)
        costs.append(value.cost)
        head = ",".join("%s %s" % pair for pair in zip(m.parameters, parameters))
        local = "".join("%s %s;" % (wanted, name) for name, wanted in declared)
        return "public %s %s(%s){%s\n%s\nreturn %s;}" % (m.result, m.name, head, local, "".join(texts), value.text), total(costs)

    def again(self, m, body, parameters):
        """The call of itself, with a smaller first argument, where that is above 0."""
        n = parameters[0]
        given = [body.expression(w, 0) for w in m.parameters[1:]]
        call = "this.%s(%s)" % (m.name, ",".join(["%s-1" % n] + [g.text for g in given]))
        # The conditional, its test, the assignment or the print, the call, `this`, and the first argument.
        cost = both((11, 0, 0, 0), total(g.cost for g in given))
        targets = [name for name in body.of_type(m.result) if body.names[name] == m.result and name not in body.kept]
        if not targets and m.result in NUMBERS:
            return "if(0<%s)System.out.println(%s);else{}" % (n, call), both(cost, (0, 0, 1, 0))
        if not targets:
            return "", NOTHING
        return "if(0<%s)%s=%s;else{}" % (n, self.dice.pick(targets), call), cost

    def text(self):
        shown = []
        body = Body(self, None, {}, MOST)
        body.spend((10, 0, 0, 0))
        for m in self.finished[::-1]:
            if m.result in NUMBERS and body.affords(m.cost):
                call = body.call_of(m, 1)
                if body.affords(call.cost):
                    shown.append("System.out.println(%s);" % call.text)
                    body.spend(both(call.cost, (1, 0, 1, 0)))
        declared = []
        for c in self.classes:
            fields = "".join("%s %s;" % (wanted, name) for name, wanted in sorted(c.fields.items()))
            head = "class " + c.name + (" extends " + c.parent.name if c.parent else "")
            row = "public %s[] %s(int n){%s[] r;int i;r=new %s[n];i=0;while(i<n){r[i]=this;i=i+1;}return r;}" % (c.name, c.row, c.name, c.name)
            declared.append(head + "{" + fields + "\n" + "\n".join(c.methods + [row]) + "}")
        return main_with("{" + "\n".join(shown) + "}") + "\n" + "\n".join(declared)


def generated(count, first=1, has_port=False, has_fixed=False):
    """As many lessons, with their seeds, which begin with `first`. Those that are too long, or whose main does nothing, are passed over."""
    made = []
    seed = first
    while len(made) < count:
        text = Lesson(seed, has_port, has_fixed).text()
        if fits(text) and not text.startswith(main_with("{}")):
            made.append(("seed %d" % seed, text))
        seed += 1
    return made
