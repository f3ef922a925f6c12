"""Cases of run, worked out by hand from documents 01 and 02. A position is where a mark stands (see lessons.py), steps are counted node by node, climbs class by class for each call that is
opened, registers by device.py; no answer comes from the program."""
import pathlib

from device import COUNT, Device
from lessons import FIRST, ONE, START, class_of, fits, main_with, method, places, program, unmarked

TABLE = 16384
HEAP_MOST = 16384


RUN_ENDS = {0, 40, 41, 42, 50, 51, 52, 53, 63, 64}  # all other numbers refuse the call


def line(lesson, table=TABLE, budget=100000, calls=64, heap=4096, out=256, registers=COUNT, tape=b""):
    data = lesson.encode("ascii").hex() or "-"
    return "run %d %d %d %d %d %d %s %s" % (table, budget, calls, heap, out, registers, tape.hex() or "-", data)


def end(number, position, steps=0, climbs=0, words=0, *printed, shown=None):
    """An answer; the registers are all 0 where nothing else is said."""
    registers = shown or Device().shown() if number in RUN_ENDS else "-"
    return "%d %d %d %d %d %s" % (number, position, steps, climbs, words, registers) + "".join([" :"] + [" %d" % p for p in printed] if printed else [])


def fine(lesson, steps, climbs, words, *printed, shown=None, **lent):
    """A lesson that runs to its end."""
    assert fits(lesson)
    return line(lesson, **lent), end(0, 0, steps, climbs, words, *printed, shown=shown)


def stopped(number, lesson, steps, climbs, words, *printed, shown=None, **lent):
    """A marked lesson that is refused, or whose run ends there."""
    (position,) = places(lesson)
    return line(unmarked(lesson), **lent), end(number, position, steps, climbs, words, *printed, shown=shown)


def bench_rows():
    """The rows of document 01's table of benches."""
    return [
        fine(program("1+2"), 4, 0, 0, 3),
        fine(program("46341*46341"), 4, 0, 0, -2147479015),
        fine(program("0-2147483647-2"), 6, 0, 0, 2147483647),
        stopped(14, program("@2147483648"), 0, 0, 0),
        stopped(31, program("!@1<2"), 0, 0, 0),
        stopped(34, program("@this"), 0, 0, 0),
        stopped(30, program("@a"), 0, 0, 0),
        stopped(42, program("@new int[0-1].length"), 6, 0, 0),
        stopped(16, program("new int[2]@[0]"), 0, 0, 0),
        stopped(41, program("@(new int[1])[1]"), 5, 0, 2),
        stopped(50, program("1+@2"), 3, 0, 0, budget=3),
        stopped(50, main_with("@System.out.println(1+2);"), 0, 0, 0, budget=0),
        stopped(16, "@", 0, 0, 0),
        stopped(12, "@/*/**/", 0, 0, 0),
        stopped(31, program("@" + "!" * 62 + "true"), 0, 0, 0),
        stopped(17, program("!" * 63 + "@true"), 0, 0, 0),
        stopped(22, ONE + " class @B extends B{}", 0, 0, 0),
    ]


def zero_rows():
    """Document 02, (i): what Java would read in base 8, or not at all, is refused; a lone 0 stays."""
    refused = ["@010", "@00", "@08", "1+@007", "new int[@00].length", "@02147483648"]
    return [stopped(60, program(e), 0, 0, 0) for e in refused] + [fine(program("0"), 2, 0, 0, 0), fine(program("10"), 2, 0, 0, 10), fine(program("0+100*0"), 6, 0, 0, 0)]


def strip_rows():
    """Strips of several lengths, in all ways to end; the program fills them beforehand and looks at all of them afterwards."""
    endings = [
        ("1+2", end(0, 0, 4, 0, 0, 3)),
        ("true", end(31, FIRST)),
        ("00", end(60, FIRST)),
        ("0.5", end(65, FIRST)),
        ("(0.000-1.500)*0.001", end(0, 0, 6, 0, 0, -1)),
        ("new int[0-1].length", end(42, FIRST, 6, 0, 0)),
        ("(new int[1])[1]", end(41, FIRST, 5, 0, 2)),
        ("new int[1].length", end(0, 0, 4, 0, 2, 1)),
    ]
    rows = []
    for e, answer in endings:
        rows += [(line(program(e), heap=heap), answer) for heap in (2, 3, 4095, HEAP_MOST - 1, HEAP_MOST)]
        rows += [(line(program(e), out=out), answer) for out in (1, 2, 3, 255, 2048)]
        rows += [(line(program(e), table=table), answer) for table in (TABLE, TABLE + 1, 20000)]
        rows += [(line(program(e), table=table), end(1, 0)) for table in (0, 1, TABLE - 1)]
        rows += [(line(program(e), calls=calls), end(2, 0)) for calls in (0, 65, 4294967295)]
        rows += [(line(program(e), heap=heap), end(3, 0)) for heap in (HEAP_MOST + 1, 17000)]
        rows += [(line(program(e), registers=registers, tape=b"\1\2"), end(62, 0)) for registers in (0, 1, 15, 17, 32)]
    return rows


def order_rows():
    """1, then 2, then 3, then 62, then what Check refuses; 1 to 3 and 62 do not look at the lesson."""
    rows = []
    for lesson in ("", "#", ONE.ljust(16385), program("true"), ONE):
        rows.append((line(lesson, table=TABLE - 1, calls=0, heap=HEAP_MOST + 1, registers=15), end(1, 0)))
        rows.append((line(lesson, calls=65, heap=HEAP_MOST + 1, registers=15), end(2, 0)))
        rows.append((line(lesson, heap=HEAP_MOST + 1, budget=0, out=0, registers=15), end(3, 0)))
        rows.append((line(lesson, budget=0, out=0, registers=15), end(62, 0)))
    rows += [(line(ONE.ljust(16385), heap=heap, out=out), end(10, 0)) for heap, out in ((0, 0), (1, 1), (HEAP_MOST, 256))]
    rows += [(line(ONE.ljust(16384), heap=heap), end(0, 0, 2, 0, 0, 1)) for heap in (0, HEAP_MOST)]
    rows += [(line("#", budget=0, calls=1, heap=0, out=0), end(11, 0)), (line(program("true"), budget=0, calls=1, heap=0, out=0), end(31, FIRST))]
    rows.append(stopped(22, ONE + "class A{}class @C extends B{}class B extends B{}", 0, 0, 0))
    return rows


def budget_rows():
    """Each node as the first that is not begun. A run whose last step uses the budget up ends in 0."""
    sum_at = [START, FIRST, FIRST, FIRST + 2]
    rows = [(line(program("1+2"), budget=k), end(50, at, k, 0, 0)) for k, at in enumerate(sum_at)]
    rows += [fine(program("1+2"), 4, 0, 0, 3, budget=budget) for budget in (4, 5, 4294967295)]
    # `while` is charged once, its test on each round, its body after true.
    loop = main_with("while(true){}")
    rows += [(line(loop, budget=k), end(50, START + (0 if k == 0 else 6 if k % 2 else 11), k, 0, 0)) for k in (0, 1, 2, 3, 4, 99, 100, 99999, 100000)]
    rows += [
        fine(main_with("while(false){}"), 2, 0, 0),
        fine(main_with("while(false&&true){}"), 3, 0, 0),
        fine(main_with("while(true&&false){}"), 4, 0, 0),
        fine(main_with("if(!false)System.out.println(8);else{}"), 5, 0, 0, 8),
        fine(main_with("if(!true)System.out.println(8);else{}"), 4, 0, 0),
        fine(main_with("if(true)System.out.println(7);else{}"), 4, 0, 0, 7),
        fine(main_with("{}"), 1, 0, 0),
        fine(main_with("{" * 64 + "}" * 64), 64, 0, 0),
        stopped(50, main_with("if(true){}else@{}").replace("true", "1<0"), 4, 0, 0, budget=4),
        stopped(50, main_with("{{}@{}}"), 2, 0, 0, budget=2),
    ]
    # Neither `return` nor a declaration is a step; an assignment's target is no node.
    body = program("new A().m()") + class_of("A", "public int m(){int x;int[] y;x=1;y=new int[x];y[0]=x;return y[0];}")
    rows.append(fine(body, 3 + 2 + 3 + 3 + 3, 1, 1 + 2, 1, budget=14))
    rows.append(stopped(50, body.replace("return y[0]", "return y[@0]"), 13, 1, 3, budget=13))
    return rows


def heap_rows():
    """Words: 1 and the fields, hidden ones too; 1 and the length. Just enough, and one less."""
    objects = class_of("A", "int x;int[] y;A z;boolean w;" + method()) + class_of("B", "int x;", "A")
    two = program("new int[1].length+@new int[2].length")
    rows = [
        fine(program("new A().m()") + objects, 4, 1, 5, 1, heap=5),
        stopped(51, program("@new A().m()") + objects, 3, 0, 0, heap=4),
        fine(program("new B().m()") + objects, 4, 2, 6, 1, heap=6),
        stopped(51, program("@new B().m()") + objects, 3, 0, 0, heap=5),
        fine(program("new int[0].length"), 4, 0, 1, 0, heap=1),
        stopped(51, program("@new int[0].length"), 4, 0, 0, heap=0),
        fine(program("new int[3].length"), 4, 0, 4, 3, heap=4),
        stopped(51, program("@new int[3].length"), 4, 0, 0, heap=3),
        fine(program("new int[16383].length"), 4, 0, 16384, 16383, heap=16384),
        stopped(51, program("@new int[16384].length"), 4, 0, 0, heap=16384),
        stopped(51, program("@new int[2147483647].length"), 4, 0, 0, heap=16384),
        stopped(42, program("@new int[0-1].length"), 6, 0, 0, heap=0),
        fine(unmarked(two), 8, 0, 5, 3, heap=5),
        stopped(51, two, 8, 0, 2, heap=4),
    ]
    return rows


def call_rows():
    """Open calls: main is none, arguments are carried out before a call opens, and a call is open until its return expression is done."""
    kept = class_of("A", "A n;" + method(name="m") + method(name="k", value="@this.m()") + method(name="f", parameters="int x", value="x") + method(name="q", value="n.m()"))
    plain = unmarked(kept)
    down = class_of("A", "public int d(int n){int r;if(n<1)r=0;else r=@this.d(n-1);return r;}")
    # Locals begin as 0 in every call, also where arguments of an earlier one lay.
    fresh = class_of("A", "public int f(int a,int b,int c){return a;}public int g(){int x;int y;int z;return x+y+z;}")
    rows = [
        fine(program("new A().f(1,2,3)+new A().g()") + fresh, 2 + 6 + 7, 2, 2, 1, calls=1),
        fine(program("new A().m()") + plain, 4, 1, 2, 1, calls=1),
        fine(program("new A().k()") + plain, 6, 2, 2, 1, calls=2),
        stopped(52, program("new A().k()") + kept, 5, 1, 2, calls=1),
        fine(program("new A().f(new A().f(new A().f(1)))") + plain, 11, 3, 6, 1, calls=1),
        fine(program("new A().m()+new A().k()") + plain, 2 + 3 + 5, 1 + 2, 4, 2, calls=2),
        stopped(40, program("new A().q()") + plain.replace("n.m()", "@n.m()"), 5, 1, 2, calls=1),
    ]
    # Of d(n): 3 nodes of main and the argument; in each call but the last the conditional, its test of 3, the assignment, the call, `this` and n-1 of 3, and `r`; in the last 4, 2 and 1.
    for n in (0, 1, 5, 63):
        rows.append(fine(program("new A().d(%d)" % n) + unmarked(down), 4 + n * 11 + 7, n + 1, 1, 0, calls=n + 1))
    for limit in (1, 2, 5, 64):
        # The call that is one too many: all but the `r` of each call that is open.
        rows.append(stopped(52, program("new A().d(100)") + down, 4 + limit * 10, limit, 1, calls=limit))
    return rows


def output_rows():
    """As many numbers as there is room for; 53 after the printed expression."""
    two = "{System.out.println(5);@System.out.println(6);}"
    many = ["System.out.println(%d);" % k for k in range(100)]
    marked = main_with("{" + "".join(many[:99]) + "@" + many[99] + "}")
    return [
        fine(main_with(unmarked(two)), 5, 0, 0, 5, 6, out=2),
        stopped(53, main_with(two), 5, 0, 0, 5, out=1),
        (line(program("1+2"), out=0), end(53, START, 4, 0, 0)),
        stopped(42, program("@new int[0-1].length"), 6, 0, 0, out=0),
        fine(main_with("{}"), 1, 0, 0, out=0),
        fine(unmarked(marked), 201, 0, 0, *range(100), out=100),
        stopped(53, marked, 201, 0, 0, *range(99), out=99),
        fine(program("0-2147483647-1"), 6, 0, 0, -2147483648),
        fine(program("0-1"), 4, 0, 0, -1),
        fine(program("2147483647"), 2, 0, 0, 2147483647),
    ]


def fault_rows():
    """40 after all parts, then 41; the node that faults and all its parts were charged. Main has 3 nodes before the method begins, and a call of `t` 6."""
    tail = "public int t(int k){System.out.println(k);return k;}"

    def in_method(body, value="1"):
        return program("new A().m()") + class_of("A", "int[] x;A o;" + method(body, value=value) + tail)

    return [
        stopped(40, in_method("", "@x[0-1]"), 3 + 5, 1, 3),
        stopped(40, in_method("", "@x.length"), 3 + 2, 1, 3),
        stopped(40, in_method("", "@o.t(this.t(4))"), 3 + 2 + 6, 2, 3, 4),
        stopped(40, in_method("@x[this.t(1)]=this.t(2);"), 3 + 1 + 6 + 6, 3, 3, 1, 2),
        stopped(41, in_method("x=new int[2];", "@x[2]"), 3 + 3 + 3, 1, 6),
        stopped(41, in_method("x=new int[2];@x[0-1]=3;"), 3 + 3 + 5, 1, 6),
        stopped(41, in_method("x=new int[2];", "@x[2147483647+1]"), 3 + 3 + 5, 1, 6),
        # The index gives the field another array; the one that was read is written.
        fine(program("new A().m()") + class_of("A", "int[] x;" + method("int[] y;x=new int[2];y=x;x[this.s()]=7;", value="y[1]+x.length") + "public int s(){x=new int[5];return 1;}"),
             3 + 3 + 2 + 8 + 6, 2, 2 + 3 + 6, 12),
    ]


def array_rows():
    """Document 02, (vi): arrays of booleans and of a class, whose elements begin as false and null; no objects are made. Main has 3 nodes before the method begins, and a call of `t` 6."""
    one = class_of("A", "int x;" + method())
    held = "c=new A[2];c[0]=this;c[1]=new B();"
    tail = "public int t(int k){System.out.println(k);return k;}"

    def in_method(body, value="1"):
        return program("new A().m()") + class_of("A", "boolean[] b;A[] c;" + method(body, value=value) + tail)

    return [
        fine(program("new boolean[3].length"), 4, 0, 4, 3, heap=4),
        stopped(51, program("@new boolean[3].length"), 4, 0, 0, heap=3),
        fine(program("new boolean[0].length"), 4, 0, 1, 0, heap=1),
        stopped(42, program("@new boolean[0-1].length"), 6, 0, 0, heap=0),
        fine(program("new A[3].length") + one, 4, 0, 4, 3, heap=4),
        stopped(51, program("@new A[3].length") + one, 4, 0, 0, heap=3),
        fine(program("new A[16383].length") + one, 4, 0, 16384, 16383, heap=16384),
        stopped(42, program("@new A[0-1].length") + one, 6, 0, 0, heap=0),
        stopped(50, program("new A[@1].length") + one, 3, 0, 0, budget=3),
        stopped(50, program("(new A[1])[@0].m()") + one, 5, 0, 2, budget=5),
        fine(main_with("if((new boolean[2])[1])System.out.println(1);else System.out.println(2);"), 7, 0, 3, 2),
        stopped(41, main_with("if(@(new boolean[2])[2]){}else{}"), 5, 0, 3),
        stopped(41, program("@(new A[1])[1].m()") + one, 6, 0, 2),
        stopped(40, program("@(new A[1])[0].m()") + one, 6, 0, 2),
        stopped(40, in_method("@b[this.t(1)]=this.t(2)<3;"), 3 + 1 + 6 + 8, 3, 3, 1, 2),
        stopped(40, in_method("@c[0-1]=this;"), 3 + 5, 1, 3),
        stopped(40, in_method("", "@c.length"), 3 + 2, 1, 3),
        stopped(40, in_method("", "@c[0].t(this.t(4))"), 3 + 4, 1, 3),
        stopped(40, in_method("c=new A[2];c[0]=this;", "c[0].t(1)+@c[1].t(this.t(4))"), 3 + 3 + 3 + 1 + 8 + 4 + 6, 3, 6, 1, 4),
        stopped(41, in_method("b=new boolean[2];b[1]=true;@b[2]=b[1];"), 3 + 3 + 3 + 5, 1, 6),
        stopped(41, in_method("c=new A[2];@c[2]=c[0];"), 3 + 3 + 5, 1, 6),
        fine(in_method("b=new boolean[2];b[1]=!b[0];if(b[0]&&b[1])System.out.println(4);else if(b[1])System.out.println(5);else{}"), 3 + 3 + 6 + 5 + 6 + 1, 1, 6, 5, 1),
        # An element holds an object of the class, or of one below it.
        fine(program("new A().m()") + class_of("A", "A[] c;" + method(held, value="c[0].k()+c[1].k()*10") + method(name="k")) + class_of("B", method(name="k", value="2"), "A"),
             3 + 3 + 3 + 3 + 13, 3, 2 + 3 + 2, 21),
        # The index gives the field another array; the one that was read is written.
        fine(program("new A().m()") + class_of("A", "A[] c;" + method("A[] d;c=new A[2];d=c;c[this.s()]=this;", value="d[1].t(7)+c.length") + tail + "public int s(){c=new A[5];return 1;}"),
             3 + 3 + 2 + 8 + 11, 3, 2 + 3 + 6, 7, 12),
    ]


def climb_rows():
    """Document 02, (vii): a call that is opened adds the classes from the object's to the one that declares the method. Main has 3 nodes before a method without parameters begins."""
    above = class_of("A", method(name="k", value="7") + method(name="f", parameters="int x", value="x")) + class_of("B", "int k;", "A") + class_of("C", method(name="k", value="8"), "B")
    above += class_of("D", "", "C")
    chain = class_of("C000", method()) + "".join(class_of("C%03d" % k, "", "C%03d" % (k - 1)) for k in range(1, 300))
    # B has nothing of its own; a call of `t` has 6 nodes.
    tail = "public int t(int k){System.out.println(k);return k;}"

    def below(body="", value="1", expression="new B().m()"):
        return program(expression) + class_of("A", "A o;int[] x;" + method(body, value=value) + tail) + class_of("B", "", "A")

    return [
        fine(program("1") + above, 2, 0, 0, 1),
        fine(program("new A().k()") + above, 4, 1, 1, 7),
        fine(program("new B().k()") + above, 4, 2, 2, 7),
        fine(program("new C().k()") + above, 4, 1, 2, 8),
        fine(program("new D().k()") + above, 4, 2, 2, 8),
        fine(program("new D().f(5)") + above, 4 + 1, 4, 2, 5),
        fine(program("new C000().m()") + chain, 4, 1, 1, 1),
        fine(program("new C001().m()") + chain, 4, 2, 1, 1),
        fine(program("new C299().m()") + chain, 4, 300, 1, 1),
        # The parents stand below their children.
        fine(program("new C().k()") + class_of("C", "", "B") + class_of("B", "", "A") + class_of("A", method(name="k")), 4, 3, 1, 1),
        # Calls as receiver, as argument, beside each other, and in the rounds of a loop.
        fine(program("new D().f(new B().f(new A().f(5)))") + above, 1 + 3 * 2 + 1 + 3, 4 + 2 + 1, 2 + 2 + 1, 5),
        fine(program("new D().k()*new B().k()-new A().k()") + above, 1 + 2 + 3 * 3, 2 + 2 + 1, 2 + 2 + 1, 49),
        fine(program("new B().s().s().k()") + class_of("A", method(name="s", result="A", value="this") + method(name="k")) + class_of("B", "", "A"), 1 + 1 + 2 * 2 + 2, 2 + 2 + 2, 1, 1),
        fine(below("int i;while(i<3)i=this.t(i)+1;", "i"), 3 + 1 + 4 * 3 + 3 * (1 + 2 + 6) + 1, 2 + 3 * 2, 3, 0, 1, 2, 3),
        # The object's class counts, not that of the variable, of the element or of the class in which the call stands.
        fine(below("A y;y=new B();", "y.t(5)", "new A().m()"), 3 + 2 + 3 + 3, 1 + 2, 3 + 3, 5, 5),
        fine(below("A[] y;y=new A[2];y[0]=this;y[1]=new A();", "y[0].t(5)+y[1].t(6)"), 3 + 3 + 3 + 3 + 1 + 2 * 8, 2 + 2 + 1, 3 + 3 + 3, 5, 6, 11),
        # What ends a call's receiver or arguments, 40 and 52 add nothing; what ends a call that is open has added.
        stopped(40, below("", "@o.t(this.t(4))"), 3 + 2 + 6, 2 + 2, 3, 4),
        stopped(41, below("x=new int[1];", "this.t(@x[1])"), 3 + 3 + 5, 2, 5),
        stopped(42, program("new B().f(@new int[0-1].length)") + above, 8, 0, 2),
        stopped(52, below("", "@this.m()"), 3 + 2 * 1, 2, 3, calls=1),
        stopped(52, below("", "@this.m()"), 3 + 2 * 64, 2 * 64, 3),
        stopped(52, below("", "this.t(@this.t(4))"), 3 + 2 + 3, 2, 3, calls=1),
        stopped(50, program("@new B().k()") + above, 2, 0, 0, budget=2),
        stopped(50, program("new B().k()") + above.replace("return 7", "return @7"), 3, 2, 2, budget=3),
        stopped(50, below("while(@true){}"), 3 + 1 + 2 * 98, 2, 3, budget=200),
        stopped(51, below("", "@new int[8].length"), 3 + 3, 2, 3, heap=11),
        stopped(53, below("@System.out.println(5);"), 3 + 2, 2, 3, out=0),
        stopped(31, program("new B().k()+@true") + above, 0, 0, 0),
    ]


def product_rows():
    """Products of type fixed: exact, divided by 1000 toward zero, then the low 32 bits."""
    least = "(0.000-2147483.647-0.001)"  # the least count, in 5 nodes
    worked = [
        ("(0.000-1.500)*0.001", 5, -1),
        ("1.500*0.001", 3, 1),
        ("0.001*0.001", 3, 0),
        ("0.001*0.999", 3, 0),
        ("0.001*1.000", 3, 1),
        ("(0.000-0.001)*0.001", 5, 0),
        ("(0.000-0.001)*0.999", 5, 0),
        ("(0.000-0.001)*1.000", 5, -1),
        ("(0.000-0.003)*0.500", 5, -1),
        ("0.003*(0.000-0.500)", 5, -1),
        ("(0.000-0.003)*(0.000-0.500)", 7, 1),
        ("2.000*2.000*2.000", 5, 8000),
        ("1.500*2.000+0.500*0.500", 7, 3250),
        ("(1.500+0.500)*(2.000-0.500)", 7, 3000),
        ("46.341*46.341", 3, 2147488),
        # 2147690000, which is 2^32 - 2147277296.
        ("1465.000*1466.000", 3, -2147277296),
        ("1465.000*1465.000", 3, 2146225000),
        ("65536.000*65536.000", 3, 0),
        ("2147483.647*0.001", 3, 2147483),
        ("2147483.647*1.000", 3, 2147483647),
        (least + "*0.001", 7, -2147483),
        (least + "*1.000", 7, -2147483648),
        # 2^31 does not fit.
        (least + "*(0.000-1.000)", 9, -2147483648),
        # 2^62 is 4611686018427387.904 thousand, and the whole part of that 1073741 * 2^32 + 3539053051, or - 755914245.
        (least + "*" + least, 11, -755914245),
        # 2^32 - 1 less, so the whole part is less by 4294967.
        ("2147483.647*2147483.647", 3, -760209212),
        # 2^31 less than 2^62, so the whole part is less by 2147483; and then the sign.
        (least + "*2147483.647", 7, 758061728),
        ("2147483.647*" + least, 7, 758061728),
    ]
    return [fine(program(e), 1 + nodes, 0, 0, printed) for e, nodes, printed in worked]


def fixed_rows():
    """Document 02, (ix): literals and their refusals, counts that wrap, the type of the left part, which decides what `*` means. Main has 3 nodes before a method without parameters begins."""
    one = class_of("A", "fixed v;" + method("", "fixed", value="v"))
    both = class_of("A", "int x;" + method("x=1500;", name="k", value="x*x")) + class_of("B", "fixed x;" + method("x=1.500;", "fixed", value="x*x"), "A")
    squared = class_of("A", method("", "fixed", "r", value="2.000") + method("", "fixed", value="this.r()*this.r()")) + class_of("B", method("", "fixed", "r", value="0.500"), "A")

    def tested(condition):
        return main_with("if(" + condition + ")System.out.println(1);else System.out.println(2);")

    refused = [(60, "@01.500"), (60, "@00.5"), (65, "@1.5"), (65, "@1.5000"), (65, "@2147483648.5"), (14, "@2147483.648"), (14, "@2147483648.000")]
    refused += [(16, "1.500.@500"), (16, "1 .@500"), (16, "1.@"), (31, "1.500+@1"), (31, "1*@1.500"), (31, "@true*1.500"), (31, "@1.500<2.000"), (31, "@1.length"), (31, "new int[@1.000].length")]
    rows = [stopped(number, program(e), 0, 0, 0) for number, e in refused]
    rows += [fine(program(e), 2, 0, 0, count) for e, count in (("0.000", 0), ("0.001", 1), ("1.500", 1500), ("1.050", 1050), ("2147483.647", 2147483647))]
    return rows + product_rows() + [
        fine(program("1.500+2.250"), 4, 0, 0, 3750),
        fine(program("1.500-2.250"), 4, 0, 0, -750),
        fine(program("2147483.647+0.001"), 4, 0, 0, -2147483648),
        fine(program("0.000-2147483.647-0.001"), 6, 0, 0, -2147483648),
        fine(program("0.000-2147483.647-0.002"), 6, 0, 0, 2147483647),
        fine(main_with("{System.out.println(1500*1500);System.out.println(1.500*1.500);}"), 9, 0, 0, 2250000, 2250),
        fine(tested("1.500<1.501"), 6, 0, 0, 1),
        fine(tested("1.500<1.500"), 6, 0, 0, 2),
        fine(tested("2.000<10.000"), 6, 0, 0, 1),
        fine(tested("0.000-0.001<0.000"), 8, 0, 0, 1),
        fine(tested("2147483.647+0.001<0.000"), 8, 0, 0, 1),
        stopped(50, program("1.500*@0.001"), 3, 0, 0, budget=3),
        stopped(50, program("@1.500*0.001"), 1, 0, 0, budget=1),
        stopped(53, main_with("@System.out.println(1.500);"), 2, 0, 0, out=0),
        stopped(42, program("1.500*new A().m(@new int[0-1].length)") + class_of("A", method("", "fixed", parameters="int x", value="0.000")), 3 + 2 + 5, 0, 1),
        # A field begins as 0 and is a word; so does a local.
        fine(program("new A().m()") + one, 4, 1, 2, 0, heap=2),
        stopped(51, program("@new A().m()") + one, 3, 0, 0, heap=1),
        fine(program("new A().m()") + class_of("A", method("fixed x;", "fixed", value="x-0.001")), 3 + 3, 1, 1, -1),
        # Parameters, results, and what calls give.
        fine(program("new A().m(1.500,0.500)") + class_of("A", method("", "fixed", parameters="fixed x,fixed y", value="x*y")), 5 + 3, 1, 1, 750),
        fine(program("new A().m()*new A().m()") + class_of("A", method("", "fixed", value="1.500")), 2 + 2 * 3, 2, 2, 2250),
        fine(program("new A().m()*new A().m()") + class_of("A", method(value="1500")) + class_of("B", method("", "fixed", value="1.500")), 2 + 2 * 3, 2, 2, 2250000),
        fine(program("new B().m()*new B().m()") + class_of("A", method(value="1500")) + class_of("B", method("", "fixed", value="1.500")), 2 + 2 * 3, 2, 2, 2250),
        fine(program("new A().m(3)*new A().m(4)") + class_of("A", method("", "fixed", parameters="int x", value="0.500")), 2 + 2 * 4, 2, 2, 250),
        fine(program("new A().m(1.500*1.500)*2") + class_of("A", method(parameters="fixed x", value="1000")), 3 + 4 + 1 + 1, 1, 1, 2000),
        fine(program("new A[2].length*3") + class_of("A", "fixed v;"), 6, 0, 3, 6),
        # The nearest name counts: a local, a parameter, a field of the class that declares the method.
        fine(program("new A().m()") + class_of("A", "int x;" + method("fixed x;x=1.500;", "fixed", value="x*x")), 3 + 2 + 3, 1, 2, 2250),
        fine(program("new A().m()") + class_of("A", "fixed x;" + method("int x;x=1500;", value="x*x")), 3 + 2 + 3, 1, 2, 2250000),
        fine(program("new A().m(1.500)") + class_of("A", "int x;" + method("", "fixed", parameters="fixed x", value="x*x")), 4 + 3, 1, 2, 2250),
        fine(program("new B().m()") + both, 3 + 2 + 3, 1, 3, 2250),
        fine(program("new B().k()") + both, 3 + 2 + 3, 2, 3, 2250000),
        # A method that is inherited calls one that is redeclared.
        fine(program("new A().m()") + squared, 3 + 7, 1 + 1 + 1, 1, 4000),
        fine(program("new B().m()") + squared, 3 + 7, 2 + 1 + 1, 1, 250),
        # Ten times a tenth more, cut off each time: 1000 1100 1210 1331 1464 1610 1771 1948 2142 2356 2591.
        fine(program("new A().m()") + class_of("A", "fixed v;" + method("int i;v=1.000;while(i<10){v=v*1.100;i=i+1;}", "fixed", value="v")), 3 + 2 + 1 + 11 * 3 + 10 * 9 + 1, 1, 2, 2591),
    ]


class Bench:
    """A lesson that works with the device, and what it leads to: its method is written statement by statement, and the nodes are charged beside it."""

    def __init__(self, tape):
        self.device, self.body, self.printed = Device(tape), "int i;", []
        self.device.charge(3)  # the nodes of main before the method begins

    def turn(self, rounds):
        """Passes time: the assignment, the loop, a test more than rounds, and the rounds."""
        self.body += "i=0;while(i<%d)i=i+1;" % rounds
        self.device.charge(2 + 1 + 3 * (rounds + 1) + 4 * rounds)
        return self

    def show(self, register):
        self.body += "System.out.println(Port.get(%d));" % register
        self.device.charge(3)
        self.printed.append(self.device.get(register))
        return self

    def put(self, register, value):
        self.body += "Port.put(%d,%d);" % (register, value)
        self.device.charge(3)
        self.device.put(register, value)
        return self

    def row(self):
        """The method's value is its last node, and main prints it."""
        self.device.charge(1)
        lesson = program("new A().m()") + class_of("A", method(self.body, value="7"))
        return fine(lesson, self.device.steps, 1, 1, *self.printed, 7, tape=self.device.tape, shown=self.device.shown())


def busy(budget, steps, first=""):
    """A lesson that turns in a loop, after other statements and so many steps; marked is what is due when the budget is spent, the loop's test or its body."""
    is_test = (budget - steps) % 2 == 0
    return main_with("{" + first + ("while(@true){}" if is_test else "while(true)@{}") + "}")


def sample_rows():
    """A sample comes as step 100, 200 and so on is charged, so under budget 99 not yet, and past the tape's end nothing happens."""
    rows = []
    for tape in (b"", b"\5", b"\5\6\7", b"\0\xff"):
        for budget in (0, 1, 2, 99, 100, 101, 199, 200, 201, 300, 399, 400, 1000):
            device = Device(tape)
            device.charge(budget)
            # The block and the loop are charged once, each round after them twice.
            if budget < 2:
                lesson = main_with("@{while(true){}}") if budget == 0 else main_with("{@while(true){}}")
            else:
                lesson = busy(budget, 2)
            rows.append(stopped(50, lesson, budget, 0, 0, budget=budget, tape=tape, shown=device.shown()))
    # The mask, put after 3 of the 4 steps before the loop.
    for mask in (0, 1, 2, 3, 4, 128, 252, 253, 254, 255):
        for budget in (99, 100, 200, 300):
            device = Device(b"\5\6")
            device.charge(4)
            device.put(1, mask)
            device.charge(budget - 4)
            rows.append(stopped(50, busy(budget, 5, "Port.put(1,%d);" % mask), budget, 0, 0, budget=budget, tape=b"\5\6", shown=device.shown()))
    return rows


def register_rows():
    """What getting and putting do, with and without samples between; 14 rounds take 107 steps."""
    tape = bytes([5, 250, 0, 99])
    rows = [Bench(tape).show(k).put(k, 255).show(k).put(k, 0).show(k).row() for k in range(COUNT)]
    rows += [Bench(b"").put(k, value).show(k).row() for k in range(COUNT) for value in (0, 1, 128, 255)]
    rows += [Bench(tape).turn(14).show(0).show(2).show(0).show(2).row(), Bench(tape).turn(28).show(0).show(2).show(0).put(0, 2).show(0).row()]
    for cleared in (0, 1, 2, 3, 4, 252, 253, 254, 255):
        rows.append(Bench(tape).put(1, 3).turn(28).show(0).put(0, cleared).show(0).show(2).show(0).row())
        rows.append(Bench(tape).put(1, 2).turn(28).put(0, cleared).show(0).turn(14).show(0).row())
    for mask in (0, 1, 2, 3, 252, 255):
        # Putting the mask settles bit 7, and so do a sample and getting register 2.
        rows.append(Bench(tape).turn(14).put(1, mask).show(0).show(1).turn(14).show(0).show(2).show(0).put(1, 0).show(0).row())
    rows.append(Bench(tape).turn(14).put(2, 77).show(2).show(0).row())
    rows.append(Bench(tape).put(3, 1).put(4, 2).put(15, 255).turn(70).show(3).show(4).show(15).show(0).show(2).row())
    return rows


def port_rows():
    """63 and 64 after all parts, 63 before 64; a sample that comes with the node or with its parts is seen."""
    tail = "public int t(int k){System.out.println(k);return k;}"

    def in_method(body, value="1"):
        return program("new A().m()") + class_of("A", "int[] x;" + method(body, value=value) + tail)

    rows = [
        fine(program("Port.get(3)"), 3, 0, 0, 0),
        fine(program("Port.get(Port.get(Port.get(15)))"), 5, 0, 0, 0),
        fine(main_with("Port.put(3,4);"), 3, 0, 0, shown="00000004" + "00" * 12),
        fine(program("Port.get(1)+2*Port.get(0)"), 8, 0, 0, 0),
    ]
    for register in ("16", "17", "255", "256", "2147483647", "0-1", "0-2147483647-1"):
        parts = 1 + 2 * register.count("-")
        rows.append(stopped(63, program("@Port.get(%s)" % register), 2 + parts, 0, 0))
        rows += [stopped(63, main_with("@Port.put(%s,%s);" % (register, value)), 2 + parts, 0, 0) for value in ("0", "255", "256")]
    for value in ("256", "257", "65536", "2147483647", "0-1", "0-255", "0-2147483647-1"):
        parts = 1 + 2 * value.count("-")
        rows += [stopped(64, main_with("@Port.put(%d,%s);" % (register, value)), 2 + parts, 0, 0) for register in (0, 1, 2, 3, 15)]
    rows += [
        # Faults, limits and prints of the parts come first.
        stopped(42, main_with("Port.put(16,@new int[0-1].length);"), 7, 0, 0),
        stopped(42, main_with("Port.put(@new int[0-1].length,256);"), 6, 0, 0),
        stopped(40, in_method("Port.put(16,@x.length);"), 3 + 4, 1, 2),
        stopped(41, in_method("x=new int[2];", "Port.get(@x[2])"), 3 + 3 + 4, 1, 5),
        stopped(63, in_method("@Port.put(this.t(16),this.t(256));"), 3 + 1 + 6 + 6, 3, 2, 16, 256),
        stopped(64, in_method("@Port.put(this.t(15),this.t(256));"), 3 + 1 + 6 + 6, 3, 2, 15, 256),
        stopped(63, in_method("", "@Port.get(this.t(16))"), 3 + 1 + 6, 2, 2, 16),
        stopped(52, in_method("", "Port.get(@this.t(16))"), 3 + 1 + 3, 1, 2, calls=1),
        stopped(53, main_with("@System.out.println(Port.get(0));"), 3, 0, 0, out=0),
        stopped(50, main_with("Port.put(@1,2);"), 1, 0, 0, budget=1),
        stopped(50, main_with("Port.put(1,@2);"), 2, 0, 0, budget=2),
        stopped(50, program("Port.get(@1)"), 2, 0, 0, budget=2),
        # What was put before an end stays.
        stopped(64, main_with("{Port.put(7,9);@Port.put(8,256);}"), 7, 0, 0, shown="00" * 7 + "09" + "00" * 8),
        stopped(42, main_with("{Port.put(1,3);System.out.println(@new int[0-1].length);}"), 10, 0, 0, shown="0003" + "00" * 14),
        # Names of the words that are not reserved.
        fine(program("new get().put(3)") + class_of("get", "int put;" + method("put=get;", name="put", parameters="int get", value="put+Port.get(0)")), 4 + 2 + 4, 1, 2, 3),
    ]
    # The first of the two numbers is got after step 96, 103 or 110, so that step 100 comes after it, with the loop, and before it.
    return rows + [Bench(bytes([1, 2, 3])).turn(rounds).show(2).show(0).show(2).show(0).row() for rounds in (12, 13, 14)]


def cable_answer(tape):
    """What lessons/cable.java leads to, method by method as it stands there, and node by node."""
    device, printed, climbs = Device(tape), [], 0

    def flags_above(least):
        device.charge(4)  # the comparison, the literal, `Port.get`, its number
        return least < device.get(0)

    def waits():
        nonlocal climbs
        device.charge(2)  # the call and `this`
        climbs += 1
        return flags_above(127)

    def is_due(rounds):
        device.charge(4)  # `&&`, the comparison and its parts
        if rounds == 0:
            return False
        device.charge(1)  # `!`
        return not waits()

    def reading(rounds):
        nonlocal climbs, lost
        device.charge(3)  # the call, the receiver, the argument
        climbs += 1
        device.charge(1)
        while is_due(rounds):
            device.charge(4)
            rounds -= 1
        device.charge(1)
        if waits():
            device.charge(2)  # the block and the conditional in it
            is_lost = flags_above(130)
            device.charge(4 if is_lost else 1)
            lost += is_lost
            device.charge(3)
            device.put(0, 2)
            device.charge(3)
            value = device.get(2)
        else:
            device.charge(4)
            value = -1
        device.charge(1)
        return value

    lost = taken = value = 0
    device.charge(4)
    climbs += 1  # main's call
    device.charge(3)
    climbs += 1  # open
    device.charge(3)
    device.put(1, 1)
    device.charge(1)
    device.charge(2 + 2 + 1)
    while True:
        device.charge(4)
        if taken == 3:
            break
        device.charge(4)
        if value < 0:
            break
        device.charge(2)  # the block and the assignment
        value = reading(20)
        device.charge(2)
        printed.append(value)
        device.charge(5)
        if value < 0:
            device.charge(1)
        else:
            # The assignment, both sums, their parts, the call with its; the fan's loop, 31 tests and 30 rounds, and its value.
            device.charge(1 + 2 + 2 + 3 + 1 + 31 * 3 + 30 * 4 + 1)
            climbs += 1
            taken += 1
    device.charge(3)
    climbs += 1
    device.charge(1)
    printed.append(lost)
    device.charge(1)
    printed.append(taken)
    return end(0, 0, device.steps, climbs, 1 + 2, *printed, shown=device.shown())


def cable_rows():
    """The lesson that waits for readings, with tapes of several lengths."""
    lesson = (pathlib.Path(__file__).resolve().parent.parent / "lessons" / "cable.java").read_text()
    tapes = [b"", bytes([82]), bytes([82, 85]), bytes([82, 85, 91]), bytes(range(60, 120)), bytes(1000), bytes([0, 255] * 20)]
    return [(line(lesson, tape=tape), cable_answer(tape)) for tape in tapes]


def errors():
    """Lines of run that are no case, and what the program says of each."""
    return [
        ("rnu 16384 1 1 1 1 16 - -", "unknown operation"),
        ("runs 16384 1 1 1 1 16 - -", "unknown operation"),
        ("ru", "unknown operation"),
        ("Run 16384 1 1 1 1 16 - -", "unknown operation"),
        ("run", "word missing"),
        ("run 16384 1 1 1 1 -", "word missing"),
        ("run 16384 1 1 1 1 16 -", "word missing"),
        ("run 16384 1 1 1 1 16 - ", "word missing"),
        ("run 16384 1 1 1 1 16  -", "word missing"),
        ("run 16384 1 1 1 1 16 - - ", "too many words"),
        ("run 16384 1 1 1 1 16 - - -", "too many words"),
        ("run x 1 1 1 1 16 - -", "malformed number"),
        ("run 16384 x 1 1 1 16 - -", "malformed number"),
        ("run 16384 4294967296 1 1 1 16 - -", "malformed number"),
        ("run 16384 1 -1 1 1 16 - -", "malformed number"),
        ("run 16384 1 1  1 16 - -", "malformed number"),
        ("run 16384 1 1 1 1x 16 - -", "malformed number"),
        ("run 16384 1 1 1 1 x 2 -", "malformed number"),
        ("run 16384 1 1 1 1 - - -", "malformed number"),
        ("run 20001 x 1 1 1 16 - -", "table too large"),
        ("run 16384 x 1 17001 1 16 - -", "malformed number"),
        ("run 16384 1 1 17001 x 16 - -", "heap strip too large"),
        ("run 16384 1 1 4294967295 2049 16 - -", "heap strip too large"),
        ("run 16384 1 1 1 2049 x - 2", "output strip too large"),
        ("run 16384 1 1 1 4294967295 16 - -", "output strip too large"),
        ("run 16384 1 1 1 1 33 2 -", "register strip too large"),
        ("run 16384 1 1 1 1 4294967296 - -", "register strip too large"),
        ("run 16384 1 1 1 1 16 2 2G", "odd number of hexadecimal digits"),
        ("run 16384 1 1 1 1 16 2G 2", "bad hexadecimal digit"),
        ("run 16384 1 1 1 1 16 -- -", "bad hexadecimal digit"),
        ("run 16384 1 1 1 1 16 - 2", "odd number of hexadecimal digits"),
        ("run 16384 1 1 1 1 16 - 2G", "bad hexadecimal digit"),
    ]


def run_rows():
    rows = bench_rows() + zero_rows() + strip_rows() + order_rows() + budget_rows() + heap_rows() + call_rows() + output_rows() + fault_rows() + array_rows() + climb_rows()
    return rows + sample_rows() + register_rows() + port_rows() + cable_rows() + fixed_rows()
