"""Families of lessons that are accepted and grow with a number: tests/costs and tests/lexing measure their largest ones."""
from lessons import EMPTY, class_of, fits, method, names


def sums(name, count):
    """`count` uses of a name in assignments to x, a few in each."""
    whole, rest = divmod(count, 40)
    return "".join("x=" + "+".join([name] * k) + ";" for k in [40] * whole + [rest] if k)


def uses_of_a_field(k):
    fields = names("f", k)
    return EMPTY + class_of("A", "".join("int %s;" % f for f in fields) + method("int x;" + sums(fields[-1], 2 * k)))


def uses_of_a_local(k):
    fields = names("f", k)
    return EMPTY + class_of("A", "".join("int %s;" % f for f in fields) + method("int x;int y;" + sums("y", 2 * k)))


def inherited_fields(k):
    chain = names("C", k)
    classes = class_of(chain[0], "int f;") + "".join(class_of(c, "", p) for p, c in zip(chain, chain[1:]))
    return EMPTY + classes + class_of("A", method("int x;" + sums("f", 3 * k)), chain[-1])


def calls(k):
    methods = names("m", k)
    return EMPTY + class_of("A", "".join(method(name=m) for m in methods) + method("int x;" + ("x=this.%s();" % methods[-1]) * k))


def inherited_calls(k):
    chain = names("C", k)
    classes = class_of(chain[0], method()) + "".join(class_of(c, "", p) for p, c in zip(chain, chain[1:]))
    return EMPTY + classes + class_of("A", method("int x;" + "x=this.m();" * k), chain[-1])


def climbs(k):
    chain = names("C", k)
    classes = class_of(chain[0]) + "".join(class_of(c, "", p) for p, c in zip(chain, chain[1:]))
    return EMPTY + classes + class_of("A", method("%s x;" % chain[0] + "x=c;" * k, parameters="%s c" % chain[-1]))


def declared_fields(k):
    return EMPTY + class_of("A", "".join("int %s;" % f for f in names("f", k)))


def declared_classes(k):
    chain = names("C", k)
    return EMPTY + class_of(chain[0]) + "".join(class_of(c, "", p) for p, c in zip(chain, chain[1:]))


def fields_of_many(k):
    """Classes with a body each, below one of many fields."""
    fields = class_of("A", "".join("int %s;" % f for f in names("f", 6 * k)))
    return EMPTY + fields + "".join(class_of(c, method(value="f000"), "A") for c in names("C", k))


def members_in_a_chain(k):
    """Each class of a chain has a field and a method of its own."""
    chain = names("C", k)
    contents = ["int f%s;" % c + method(name="m%s" % c, value="f%s" % chain[0]) for c in chain]
    return EMPTY + "".join(class_of(c, t, p) for c, t, p in zip(chain, contents, [None] + chain))


FAMILIES = [
    uses_of_a_local,
    uses_of_a_field,
    inherited_fields,
    fields_of_many,
    members_in_a_chain,
    calls,
    inherited_calls,
    climbs,
    declared_fields,
    declared_classes,
]


def largest(family):
    k = 2
    while fits(family(k + 2)):
        k += 2
    return k
