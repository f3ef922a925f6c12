"""Cases of check and menu, worked out by hand from documents 01 and 02. A refused lesson is marked where it is refused (see lessons.py); no answer comes from the program."""
from lessons import EMPTY, ONE, class_of, fits, main_with, menu_order, method, names, places, program, unmarked

TABLE = 16384


def line(operation, lesson, *lengths):
    data = lesson.encode("ascii").hex() or "-"
    return " ".join([operation] + [str(n) for n in lengths] + [data])


def fine(lesson, classes):
    """A lesson that is accepted."""
    assert fits(lesson)
    return line("check", lesson, TABLE), "0 0 %d" % classes


def refusal(number, lesson):
    """The answer to a marked lesson."""
    (position,) = places(lesson)
    return "%d %d 0" % (number, position)


def bad(number, lesson):
    """A marked lesson that is refused, for another reason than its size."""
    assert fits(unmarked(lesson))
    return line("check", unmarked(lesson), TABLE), refusal(number, lesson)


def after(*classes):
    """A program whose main prints 1, with these classes."""
    return ONE + "".join(classes)


def in_class(content):
    return after(class_of("A", content))


def in_method(body, parameters="int p,boolean q,int[] r,A s,B t", value="1", result="int"):
    """A method with a parameter of each type, in a class whose subclass is B."""
    return after(class_of("A", method(body, result, "m", parameters, value)), class_of("B", "", "A"))


def in_arrays(body, value="1", result="int"):
    """The same with arrays of each type too."""
    return in_method(body, "int p,boolean q,int[] r,A s,B t,boolean[] u,A[] v,B[] w", value, result)


def in_fixed(body, value="1", result="int"):
    """The same with a parameter of type fixed, and without arrays but int[]."""
    return in_method(body, "int p,boolean q,int[] r,A s,B t,fixed u", value, result)


def listed(type_name, those):
    return ",".join(type_name + " " + n for n in those)


def declared(type_name, those):
    return "".join(type_name + " " + n + ";" for n in those)


def bench_rows():
    """The rows of document 01's table of benches, as Check ends them: what goes wrong in a run only is accepted."""
    accepted = ["46341*46341", "0-2147483647-2", "new int[0-1].length", "(new int[1])[1]", "1+2"]
    refused = [
        (14, "@2147483648"),
        (31, "!@1<2"),
        (34, "@this"),
        (30, "@a"),
        (16, "new int[2]@[0]"),
        (31, "@" + "!" * 62 + "true"),
        (17, "!" * 63 + "@true"),
    ]
    rows = [fine(program(e), 0) for e in accepted] + [bad(n, program(e)) for n, e in refused]
    return rows + [bad(16, "@"), bad(12, "@/*/**/"), bad(22, ONE + " class @B extends B{}")]


TWICE = "class A{}class A{}"

# What Read refuses comes first.
READ_FIRST = [
    (11, after(TWICE) + "@#"),
    (12, after(TWICE) + "@/*"),
    (13, after(TWICE) + "class @" + "x" * 256),
    (14, program("@2147483648") + TWICE),
    (60, program("@010") + TWICE),
    (60, program("!" * 63 + "@00")),
    (60, program("x+@02147483648")),
    (60, program("@01.500") + TWICE),
    (65, program("@1.5") + TWICE),
    (65, program("!" * 63 + "@1.5")),
    (65, program("x+@2147483648.5")),
    (14, program("@2147483.648") + TWICE),
    (16, after(TWICE) + class_of("B", "fixed@[] x;")),
    (16, after(TWICE) + "class B{@"),
    (16, program("@}") + TWICE),
    (17, program("!" * 63 + "@true") + TWICE),
    (17, main_with("{" * 64 + "@x=1;" + "}" * 64) + TWICE),
]

# Each group has lessons that break one rule, and lessons that break it and a later one.
CLASS_NAMES = [
    (20, after("class A{}class @A{}")),
    (20, after("class @M{}")),
    (20, after("class A{}class B{}class @B{}class A{}")),
    (20, after("class A{}class B{}class C{}class @A{}class A{}")),
    (20, after("class A extends X{}class @A{}")),
    (20, after("class A extends A{}class @A{}")),
    (20, after("class A{X x;}class @A{}")),
    (20, program("x") + "class @M extends X{}"),
    (21, after("class A extends @X{}")),
    (21, after("class A extends @M{}")),
    (21, after("class A extends B{}class B extends @X{}class C extends Y{}")),
    (21, after("class A extends A{}class B extends @X{}")),
    (21, after("class A extends B{}class B extends A{}class C extends @M{}")),
    (21, after("class A{X x;}class B extends @X{}")),
    (21, after("class A extends @a{}class B extends A{}")),
    (22, after("class @A extends A{}")),
    (22, after("class A{}class @B extends B{}class C extends A{}")),
    (22, after("class A extends C{}class @B extends B{}class C{}")),
    (22, after("class A{X x;}class @B extends B{}")),
    (22, after("class A{int x;int x;}class @B extends B{}")),
    (22, after("class @A extends A{public X m(){return 1;}}")),
    (22, after("class @A extends B{}class B extends A{}")),
    (22, after("class @C extends A{}class A extends B{}class B extends A{}")),
    (22, after("class @A extends B{}class C extends A{}class B extends A{}")),
    (22, after("class @A extends B{}class B extends A{}class C extends A{}")),
    (22, after("class D{}class @C extends A{}class A extends B{}class B extends A{}")),
    (22, after("class @D extends C{}class C extends B{}class B extends A{}class A extends A{}")),
    (22, after("class E{}class @B extends C{}class C extends B{}class D extends D{}class A extends E{}")),
    (22, after("class E{}class @A extends D{}class B extends C{}class C extends B{}class D extends D{}")),
    (21, after("class A extends B{}class B extends B{}class C extends @X{}")),
    (20, after("class C extends A{}class A extends A{}class @C extends A{}")),
    (22, program("x") + "class @A extends A{}"),
]

FIELDS = [
    (24, in_class("@X x;")),
    (24, in_class("int x;@M y;")),
    (24, in_class("B b;A a;@C c;") + "class B{}"),
    (24, in_class("int x;@X x;")),
    (24, in_class("@X x;int x;int x;")),
    (24, in_class("@X x;" + method(result="Y"))),
    (24, in_class("@X x;") + class_of("B", "int y;int y;")),
    (23, in_class("int x;int @x;")),
    (23, in_class("int x;boolean y;int[] @x;")),
    (23, after("class A{int x;}class B extends A{int x;boolean @x;}")),
    (23, in_class("A a;B b;A @b;") + "class B{}"),
    (23, in_class("int x;int @x;X y;")),
    (23, in_class("int x;int @x;" + method(result="X"))),
    (23, in_class("int x;int @x;" + method(name="k") + method(name="k"))),
    (23, in_class("int x;int y;int @y;int x;")),
]

HEADS = [
    (24, in_class("public @X m(){return 1;}")),
    (24, in_class("public @M m(){return 1;}")),
    (24, in_class(method() + "public @X m(){return 1;}")),
    (24, in_class("public @X m(Y y){return 1;}")),
    (24, in_class("public @X m(int x,int x){return 1;}")),
    (24, in_class("public @X m(){return x;}")),
    (24, in_class("public @X m(){return 1;}") + class_of("B", "Y y;")),
    (24, in_class("int x;@Y y;public X m(){return 1;}")),
    (25, in_class(method() + "public int @m(){return 1;}")),
    (25, in_class(method() + "public int @m(int x){return 1;}")),
    (25, in_class(method() + method(name="k") + "public boolean @m(){return true;}")),
    (25, in_class(method() + "public int @m(X x){return 1;}")),
    (25, in_class(method() + "public int @m(int x,int x){return 1;}")),
    (25, in_class(method() + "public int @m(){return x;}")),
    (25, in_class(method() + "public int @m(){return 1;}" + method(result="X", name="k"))),
    (25, in_class(method() + "public int @m(){return 1;}") + class_of("B", "X x;")),
    (25, after(class_of("A", method()), class_of("B", method() + "public boolean @m(){return true;}", "A"))),
    (24, in_class("public int m(@X x){return 1;}")),
    (24, in_class("public int m(int x,@M y){return 1;}")),
    (24, in_class("public int m(int x,@X x){return 1;}")),
    (24, in_class("public int m(@X x,int y,int y){return 1;}")),
    (27, in_class("public int m(int x,int @x){return 1;}")),
    (27, in_class("public int m(int x,boolean y,int[] @x){return 1;}")),
    (27, in_class("public int m(A x,A y,A @y){return 1;}")),
    (27, in_class("public int m(int x,int @x,X y){return 1;}")),
    (27, in_class("public int m(int x,int @x){X y;return 1;}")),
    (27, in_class("public int m(int x,int @x){return 1;}" + method())),
    (28, in_class(method(parameters=listed("int", names("p", 32)) + ",int @q"))),
    (28, in_class(method(parameters=listed("A", names("p", 32)) + ",A @q,A r"))),
    (28, in_class(method(parameters=listed("int[]", names("p", 32)) + ",int[] @q," + listed("boolean", names("r", 300))))),
    (28, in_class(method(parameters=listed("int", names("p", 32)) + ",int @q,X r"))),
    (28, in_class(method(parameters=listed("int", names("p", 32)) + ",int @q,int q"))),
    (27, in_class(method(parameters=listed("int", names("p", 32)) + ",int @p000"))),
    (27, in_class(method(parameters=listed("int", names("p", 32)) + ",int @p031,int q"))),
    (24, in_class(method(parameters=listed("int", names("p", 32)) + ",@X q"))),
    (24, in_class(method(parameters=listed("int", names("p", 32)) + ",@X p000"))),
]

UPPER = class_of("A", method(parameters="int x"))

REDECLARATIONS = [
    (26, after(class_of("A", method()), class_of("B", "public boolean @m(){return true;}", "A"))),
    (26, after(UPPER, class_of("B", "public int @m(boolean x){return 1;}", "A"))),
    (26, after(UPPER, class_of("B", "public int @m(){return 1;}", "A"))),
    (26, after(UPPER, class_of("B", "public int @m(int x,int y){return 1;}", "A"))),
    (26, after(class_of("B", "public int @m(){return 1;}", "A"), UPPER)),
    (26, after(UPPER, class_of("B", "", "A"), class_of("C", "public int @m(){return 1;}", "B"))),
    (26, after(class_of("A", method("", "A", value="this")), class_of("B", method("", "B", value="this"), "A"), class_of("C", "public A @m(){return this;}", "B"))),
    (26, after(class_of("A", method(parameters="A x")), class_of("B", "public int @m(B x){return 1;}", "A"))),
    (26, after(class_of("A", method(parameters="B x")), class_of("B", "public int @m(A x){return 1;}", "A"))),
    (26, after(class_of("A", method("", "B", value="new B()")), class_of("B", "public A @m(){return this;}", "A"))),
    (26, after(UPPER, class_of("B", "public int @m(){return 1;}" + method(result="X", name="k"), "A"))),
    (26, after(UPPER, class_of("B", "public int @m(){return 1;}" + method(), "A"))),
    (26, after(UPPER, class_of("B", "public int @m(){return 1;}", "A"), class_of("C", "X x;"))),
    (26, after(UPPER, class_of("B", "public int @m(){X y;return z;}", "A"))),
    (26, program("x") + UPPER + class_of("B", "public int @m(){return 1;}", "A")),
    (26, after(class_of("B", "public int @m(int x){return 1;}", "A"), class_of("A", method(parameters="X x")))),
    (26, after(class_of("B", "public int @m(int x){return 1;}", "A"), class_of("A", method(parameters="M x")))),
    (26, after(class_of("B", "public int @m(){return 1;}", "A"), class_of("A", method(result="X")))),
    (26, after(class_of("B", "public int @m(int x){return 1;}", "A"), class_of("A", method() + method(parameters="int x")))),
    (25, after(class_of("B", method(), "A"), class_of("A", method() + "public int @m(int x){return 1;}"))),
    (24, after(UPPER, class_of("B", "public @X m(){return 1;}", "A"))),
    (24, after(UPPER, class_of("B", "public int m(@X x){return 1;}", "A"))),
    (27, after(UPPER, class_of("B", "public int m(int x,int @x){return 1;}", "A"))),
    (28, after(UPPER, class_of("B", method(parameters=listed("int", names("p", 32)) + ",int @q"), "A"))),
]

LOCALS = [
    (24, in_class(method("@X x;"))),
    (24, in_class(method("int x;@M y;"))),
    (24, in_class(method("int x;@X x;"))),
    (24, in_class(method("@X x;", parameters="int x"))),
    (24, in_class(method("@X x;int y;int y;"))),
    (24, in_class(method("@X x;y=1;"))),
    (24, in_class(method("@X x;", value="y"))),
    (27, in_class(method("int x;int @x;"))),
    (27, in_class(method("boolean @x;", parameters="int x"))),
    (27, in_class(method("int y;A z;int[] @y;", parameters="int x"))),
    (27, in_class(method("int @x;X y;", parameters="int x"))),
    (27, in_class(method("int x;int @x;y=1;"))),
    (27, in_class(method("int x;int @x;", value="y"))),
    (28, in_class(method(declared("int", names("p", 32)) + "int @q;"))),
    (28, in_class(method("int @q;", parameters=listed("int", names("p", 32))))),
    (28, in_class(method(declared("A", names("q", 16)) + "A @r;", parameters=listed("int", names("p", 16))))),
    (28, in_class(method(declared("int", names("q", 31)) + "int @r;int s;", parameters="boolean p"))),
    (28, in_class(method("int q;int @r;", parameters=listed("int", names("p", 31))))),
    (28, in_class(method(declared("int", names("p", 32)) + "int @q;" + declared("int", names("r", 300))))),
    (28, in_class(method("int @q;X r;", parameters=listed("int", names("p", 32))))),
    (28, in_class(method("int @q;x=1;", parameters=listed("int", names("p", 32))))),
    (27, in_class(method("int @p000;", parameters=listed("int", names("p", 32))))),
    (27, in_class(method(declared("int", names("p", 32)) + "int @p031;"))),
    (24, in_class(method("@X q;", parameters=listed("int", names("p", 32))))),
    (24, in_class(method("@X p000;", parameters=listed("int", names("p", 32))))),
]

# Heads of all classes come before any body, main's body before the others, and a method's locals after the whole body of the method before.
BODY_ORDER = [
    (24, program("x") + class_of("A", "@X x;")),
    (23, program("x") + class_of("A", "int x;int @x;")),
    (25, program("x") + class_of("A", method() + "public int @m(){return 1;}")),
    (28, program("x") + class_of("A", method(parameters=listed("int", names("p", 32)) + ",int @q"))),
    (24, after(class_of("A", method(value="x")), class_of("B", "public @X m(){return 1;}"))),
    (30, program("@x") + class_of("A", method("X x;"))),
    (34, program("@this") + class_of("A", method(value="x"))),
    (30, in_class(method(value="@x") + method("X y;", name="k"))),
    (30, in_class(method("@x=1;", value="y"))),
    (30, in_class(method("@x=1;y=1;"))),
    (31, in_class(method("int x;x=@true;y=1;"))),
    (30, after(class_of("A", method(value="@x")), class_of("B", method(value="y")))),
    (24, after(class_of("A", method("@X x;")), class_of("B", method(value="y")))),
]

UNKNOWN_NAMES = [
    (30, program("@x")),
    (30, program("@a.length")),
    (30, program("@M")),
    (30, program("@A") + "class A{}"),
    (30, main_with("@x=1;")),
    (30, main_with("@a=1;")),
    (30, main_with("@x[y]=z;")),
    (30, in_class(method(value="@x"))),
    (30, in_class(method("int x;", name="k") + method(value="@x"))),
    (30, in_class(method(name="k", parameters="int x") + method(value="@x"))),
    (30, after(class_of("A", method(value="@x")), class_of("B", "int x;", "A"))),
    (30, after(class_of("A", method(value="@x")), class_of("B", "int x;"))),
    (30, in_method("p=@x;")),
    (30, in_method("r[@x]=y;")),
    (30, in_method("r[0]=@y;")),
    (30, in_method("p=@x;p=y;")),
    (30, in_method("", value="@m")),
    (30, in_method("", value="s.m(p,q,r,s,@x)")),
    (30, in_method("{{@x=1;}}")),
    (30, in_method("if(q)p=@x;else p=y;")),
    (30, in_method("if(q)p=1;else p=@y;")),
    (30, in_method("while(@x)p=y;")),
    (30, in_method("System.out.println(@x);")),
]

# Parts go from the left; each is judged and must fit before the next.
TYPES = [
    (31, program("@true")),
    (31, program("@new int[1]")),
    (31, program("@new A()") + "class A{}"),
    (31, program("@true+1")),
    (31, program("1+@true")),
    (31, program("@true+true")),
    (31, program("(@true)+1")),
    (31, program("(@(1)<2)+1")),
    (31, program("1-(@1<2)")),
    (31, program("@true*x")),
    (30, program("@x*true")),
    (31, program("1*@true")),
    (31, program("@1<2")),
    (31, main_with("if(@true<1){}else{}")),
    (31, main_with("if(1<@true){}else{}")),
    (31, main_with("if(@1<1<2){}else{}")),
    (31, main_with("if(@1&&x){}else{}")),
    (30, main_with("if(@x&&1){}else{}")),
    (31, main_with("if(true&&@1){}else{}")),
    (31, main_with("if(!@1){}else{}")),
    (31, main_with("if(@1){x=1;}else{}")),
    (31, main_with("while(@1)x=1;")),
    (31, main_with("while(@new int[1]){}")),
    (31, program("@1[x]")),
    (31, program("@true.length")),
    (31, program("@new A().length") + "class A{}"),
    (31, program("(new int[1])[@true]")),
    (31, program("new int[@true].length")),
    (31, program("(@new A())[0]") + "class A{}"),
    (31, program("@new int[1].length[0]")),
    (31, in_method("p=@q;")),
    (31, in_method("q=@p;")),
    (31, in_method("r=@s;")),
    (31, in_method("p=@r;")),
    (31, in_method("t=@s;")),
    (31, in_method("t=@new A();")),
    (31, in_method("s=@r;")),
    (31, in_method("@p[q]=q;")),
    (31, in_method("@s[0]=1;")),
    (31, in_method("@q[x]=y;")),
    (31, in_method("r[@q]=x;")),
    (31, in_method("r[0]=@q;")),
    (31, in_method("r[0]=@r;")),
    (31, in_method("", value="@true")),
    (31, in_method("", value="@s", result="B")),
    (31, in_method("", value="@r", result="boolean")),
    (31, in_method("", value="@t", result="int[]")),
    (31, in_method("", value="s.m(@q,p,r,s,t)")),
    (31, in_method("", value="s.m(p,q,r,s,@s)")),
    (31, in_method("", value="s.m(p,@r,x,s,t)")),
    (31, after(class_of("A", "int x;"), class_of("B", "boolean x;" + method(value="@x"), "A"))),
    (31, in_class("int[] x;" + method("int x;@x[0]=1;"))),
    (31, in_class("int[] x;" + method("@x[0]=1;", parameters="boolean x"))),
    (31, in_class("int x;" + method(parameters="A x", value="@x"))),
    (31, in_method("if(q)p=@q;else p=q;")),
    (31, in_method("while(q){p=1;p=@q;}")),
    (31, in_method("while(q)System.out.println(@q);")),
]

CALLS = [
    (31, program("@1.m()")),
    (31, program("@true.m(x)")),
    (31, program("(@new int[1]).m()")),
    (30, program("@x.m()")),
    (24, program("new @X().m()")),
    (32, program("new A().@m()") + "class A{}"),
    (32, program("new A().@m(x)") + "class A{}"),
    (32, program("new A().@m(this)") + "class A{int m;}"),
    (32, program("new A().@m()") + "class A{}" + class_of("B", method(), "A")),
    (32, in_class(method(value="this.@k()"))),
    (32, in_class(method(value="this.@k(true+1)"))),
    (32, after(class_of("A", method()), class_of("B", method(value="new C().@m()", name="k"), "A"), class_of("C"))),
    (33, program("new A().@m(1)") + class_of("A", method())),
    (33, program("new A().@m()") + class_of("A", method(parameters="int x"))),
    (33, program("new A().@m(x)") + class_of("A", method())),
    (33, program("new A().@m(1,x)") + class_of("A", method(parameters="int x"))),
    (33, program("new A().@m(true)") + class_of("A", method(parameters="int x,int y"))),
    (33, program("new A().@m(this)") + class_of("A", method())),
    (33, program("new B().@m(1)") + class_of("A", method()) + class_of("B", "", "A")),
    (33, program("1+new A().@m(true+1)") + class_of("A", method(result="boolean", value="true"))),
    (31, program("@new A().m()") + class_of("A", method(result="boolean", value="true"))),
    (31, program("new A().m(@true,x)") + class_of("A", method(parameters="int x,int y"))),
    (30, program("new A().m(@x,true)") + class_of("A", method(parameters="int x,int y"))),
    (31, program("new A().m(1,@true)") + class_of("A", method(parameters="int x,int y"))),
    (31, program("new A().m(@new A())") + class_of("A", method(parameters="B x")) + class_of("B", "", "A")),
    (32, program("new A().@k(new A().m(1))") + class_of("A", method())),
    (33, program("new A().@m(1).k()") + class_of("A", method())),
    (33, program("new A().m(new A().@m())+new A().k()") + class_of("A", method(parameters="int x"))),
    (32, program("new A().m(new A().@k())") + class_of("A", method(parameters="int x"))),
    (31, program("@new A().m().m()") + class_of("A", method())),
]

THIS_AND_NEW = [
    (34, program("@this")),
    (34, program("@this.m(x)")),
    (34, program("1+@this")),
    (34, program("@this+true")),
    (34, program("new int[@this].length")),
    (34, main_with("if(!@this){}else{}")),
    (34, main_with("while(@this&&x){}")),
    (34, main_with("{{}if(true){}else System.out.println(@this[0]);}")),
    (34, program("new A().m(@this)") + class_of("A", method(parameters="int x"))),
    (34, program("@this") + class_of("A", method(value="x"))),
    (31, program("@true+this")),
    (31, program("(new int[1])[@true]+this")),
    (30, program("@x+this")),
    (30, main_with("@x=this;")),
    (24, program("new @X()")),
    (24, program("new @M()")),
    (24, program("1+new @X().m(this)")),
    (24, main_with("if(!new @X()){}else{}")),
    (24, in_method("s=new @X();")),
    (24, in_method("s=new @M();")),
    (24, in_class(method("A x;x=new @x();"))),
    (31, program("1+@new A()") + "class A{}"),
]

# Document 02, (vi): arrays of booleans and of a class. An array type fits only itself, and `new C[e]` is refused at C before e is judged.
ARRAY_TYPES = [
    (24, in_class("@X[] x;")),
    (24, in_class("boolean[] x;@M[] y;")),
    (24, in_class("@X[] x;boolean[] x;boolean[] x;")),
    (24, in_class("public @X[] m(){return 1;}")),
    (24, in_class("public @M[] m(){return 1;}")),
    (24, in_class("public int m(@X[] x){return 1;}")),
    (24, in_class("public int m(A[] x,@X[] x){return 1;}")),
    (24, in_class(method("@X[] x;"))),
    (24, in_class(method("A[] x;@M[] x;"))),
    (23, in_class("boolean[] x;A[] @x;")),
    (23, in_class("A[] x;A @x;X[] y;")),
    (25, in_class(method("", "A[]", value="new A[1]") + "public boolean[] @m(){return new boolean[1];}")),
    (27, in_class("public int m(A[] x,boolean[] @x){return 1;}")),
    (27, in_class(method("A[] x;boolean[] @x;"))),
    (27, in_class(method("A[] @x;", parameters="boolean[] x"))),
    (28, in_class(method(parameters=listed("boolean[]", names("p", 32)) + ",A[] @q"))),
    (28, in_class(method("A[] @q;", parameters=listed("A[]", names("p", 32))))),
    (26, after(class_of("A", method("", "A[]", value="new A[1]")), class_of("B", "public B[] @m(){return new B[1];}", "A"))),
    (26, after(class_of("A", method("", "B[]", value="new B[1]")), class_of("B", "public A[] @m(){return new A[1];}", "A"))),
    (26, after(class_of("A", method("", "A[]", value="new A[1]")), class_of("B", "public A @m(){return this;}", "A"))),
    (26, after(class_of("A", method("", "A", value="this")), class_of("B", "public A[] @m(){return new A[1];}", "A"))),
    (26, after(class_of("A", method(parameters="A[] x")), class_of("B", "public int @m(B[] x){return 1;}", "A"))),
    (26, after(class_of("A", method(parameters="B[] x")), class_of("B", "public int @m(A[] x){return 1;}", "A"))),
    (26, after(class_of("A", method(parameters="A[] x")), class_of("B", "public int @m(A x){return 1;}", "A"))),
    (26, after(class_of("A", method(parameters="boolean[] x")), class_of("B", "public int @m(int[] x){return 1;}", "A"))),
    (26, after(class_of("A", method(parameters="boolean[] x")), class_of("B", "public int @m(boolean x){return 1;}", "A"))),
    (26, after(class_of("B", "public int @m(A[] x){return 1;}", "A"), class_of("A", method(parameters="X[] x")))),
    (26, after(class_of("B", "public A[] @m(){return new A[1];}", "A"), class_of("A", method(result="X[]")))),
    (24, program("new @X[1].length")),
    (24, program("new @M[1].length")),
    (24, program("new @X[true].length")),
    (24, program("new @X[x].length")),
    (24, program("new @M[this].length")),
    (24, program("new @X[new Y[1].length].length")),
    (24, program("1+new @X[1]")),
    (24, main_with("if(new @X[1]){}else{}")),
    (24, in_arrays("v=new @X[y];")),
    (24, in_class(method("A x;x=new @x[1];"))),
    (30, program("new A[@x].length") + "class A{}"),
    (34, program("new A[@this].length") + "class A{}"),
    (31, program("new A[@true].length") + "class A{}"),
    (31, program("new boolean[@true].length")),
    (31, program("new boolean[@new int[1]].length")),
    (31, program("@new boolean[1]")),
    (31, program("@new A[1]") + "class A{}"),
    (31, program("@(new boolean[1])[0]")),
    (31, program("@(new A[1])[0]") + "class A{}"),
    (31, program("1+@new boolean[2]")),
    (31, main_with("if(@new boolean[1]){}else{}")),
    (31, main_with("while(!@new boolean[1]){}")),
    (31, main_with("if(@(new int[1])[0]){}else{}")),
    (31, program("(@new boolean[1]).m()")),
    (31, program("(@new A[1]).m()") + class_of("A", method())),
    (31, program("(@(new boolean[1])[0]).m()")),
    (31, program("@(new A[1])[0].length") + "class A{}"),
    (31, program("@(new boolean[1])[0][0]")),
    (31, program("(new A[1])[@new A[1]]") + "class A{}"),
    (32, program("(new A[1])[0].@k()") + class_of("A", method())),
    (33, program("(new A[1])[0].@m(1)") + class_of("A", method())),
    (31, in_arrays("v=@w;")),
    (31, in_arrays("w=@v;")),
    (31, in_arrays("r=@u;")),
    (31, in_arrays("u=@r;")),
    (31, in_arrays("v=@s;")),
    (31, in_arrays("s=@v;")),
    (31, in_arrays("u=@q;")),
    (31, in_arrays("q=@u;")),
    (31, in_arrays("v=@new B[1];")),
    (31, in_arrays("w=@new A[1];")),
    (31, in_arrays("v=@new A();")),
    (31, in_arrays("s=@new A[1];")),
    (31, in_arrays("u=@new int[1];")),
    (31, in_arrays("r=@new boolean[1];")),
    (31, in_arrays("u[0]=@1;")),
    (31, in_arrays("r[0]=@true;")),
    (31, in_arrays("u[0]=@u;")),
    (31, in_arrays("v[0]=@v;")),
    (31, in_arrays("v[0]=@w;")),
    (31, in_arrays("v[0]=@p;")),
    (31, in_arrays("w[0]=@s;")),
    (31, in_arrays("w[0]=@v[0];")),
    (31, in_arrays("w[0]=@new A();")),
    (31, in_arrays("v[@q]=x;")),
    (31, in_arrays("v[@v]=x;")),
    (31, in_arrays("u[@u[0]]=x;")),
    (31, in_arrays("@s[x]=x;")),
    (31, in_arrays("@q[x]=x;")),
    (30, in_arrays("@x[y]=z;")),
    (30, in_arrays("v[@x]=y;")),
    (30, in_arrays("u[0]=@y;")),
    (31, in_arrays("p=@u[0];")),
    (31, in_arrays("p=@v[0];")),
    (31, in_arrays("q=@r[0];")),
    (31, in_arrays("t=@v[0];")),
    (31, in_arrays("s=@u[0];")),
    (31, in_arrays("p=@v[0].length;")),
    (31, in_arrays("p=@u[0][1];")),
    (31, in_arrays("p=v[@q].m();")),
    (31, in_arrays("System.out.println(@u[0]);")),
    (31, in_arrays("System.out.println(@v);")),
    (31, in_arrays("", value="@w", result="A[]")),
    (31, in_arrays("", value="@v", result="B[]")),
    (31, in_arrays("", value="@v", result="A")),
    (31, in_arrays("", value="@u", result="int[]")),
    (31, in_arrays("", value="@r", result="boolean[]")),
    (31, in_arrays("", value="s.m(p,q,r,s,t,u,@w,w)")),
    (31, in_arrays("", value="s.m(p,q,r,s,t,u,v,@v)")),
    (31, in_arrays("", value="s.m(p,q,@u,s,t,u,v,w)")),
    (31, in_arrays("", value="s.m(p,q,r,s,t,@q,x,w)")),
    (31, in_class("A[] x;" + method("@x[0]=x;", parameters="A x"))),
    (31, after(class_of("A", "A[] x;"), class_of("B", "B[] x;" + method("x[0]=@y;", parameters="A y"), "A"))),
]


# Document 02, (viii): all parts are int, the register comes before the value, and what is got is an int.
PORT = [
    (31, program("Port.get(@true)")),
    (31, program("Port.get(@new int[1])")),
    (31, program("Port.get(Port.get(@1<2))")),
    (30, program("Port.get(@x)")),
    (34, program("Port.get(@this)")),
    (24, program("Port.get(new @A().m())")),
    (31, program("!@Port.get(1)")),
    (31, program("@Port.get(1)&&true")),
    (31, program("1+(@Port.get(1)&&true)")),
    (31, program("@Port.get(1).length")),
    (31, program("@Port.get(1)[0]")),
    (31, program("@Port.get(1).m()")),
    (31, main_with("Port.put(@true,1);")),
    (31, main_with("Port.put(1,@true);")),
    (31, main_with("Port.put(@true,x);")),
    (30, main_with("Port.put(@x,true);")),
    (30, main_with("Port.put(1,@x);")),
    (34, main_with("Port.put(@this,true);")),
    (31, main_with("Port.put(@true,this);")),
    (31, main_with("{Port.put(1,2);Port.put(1,@false);}")),
    (31, main_with("if(@Port.get(0)){}else{}")),
    (31, main_with("while(@Port.get(0)){}")),
    (31, in_method("Port.put(@q,p);")),
    (31, in_method("Port.put(@r,p);")),
    (31, in_method("Port.put(p,@r);")),
    (31, in_method("Port.put(p,@s);")),
    (31, in_method("q=@Port.get(p);")),
    (31, in_method("r=@Port.get(p);")),
    (31, in_method("s=@Port.get(p);")),
    (31, in_method("r[@q]=Port.get(p);")),
    (31, in_method("", value="@Port.get(1)", result="boolean")),
    (20, after("class get{}class put{}class @get{}")),
    (27, in_method("int get;int @get;")),
]

# Document 02, (ix): the left part decides, int or fixed; the right part must be of its type. But for these and println no place takes both.
FIXED = [
    (31, program("1.500+@1")),
    (31, program("1+@1.500")),
    (31, program("1.500-@1")),
    (31, program("1-@1.500")),
    (31, program("1.500*@2")),
    (31, program("2*@1.500")),
    (31, program("(1.500)+(@1)")),
    (31, program("1.500+@1+true")),
    (31, program("1.500*@1*2.000")),
    (31, program("1.500+2.000*@3")),
    (31, program("1+2.000*@3")),
    (31, program("1+@2.000*3.000")),
    (31, program("1.500-(@(1)-2)")),
    (31, program("@true+1.500")),
    (31, program("1.500+@true")),
    (31, program("@new int[1]*1.500")),
    (31, program("1.500*@new A()") + "class A{}"),
    (30, program("1.500+@x")),
    (30, program("@x+1.500")),
    (34, program("1.500*@this")),
    (31, program("1.500+@Port.get(1)")),
    (31, program("@1.500<2.000")),
    (31, program("!@1.500")),
    (31, program("@1.500&&true")),
    (31, program("@1.500[0]")),
    (31, program("@1.500.length")),
    (31, program("@1.500.m()")),
    (31, program("@1.length")),
    (31, program("new int[@1.000].length")),
    (31, program("new boolean[@1.000].length")),
    (31, program("new A[@1.000].length") + "class A{}"),
    (31, program("(new int[1])[@0.000]")),
    (31, program("Port.get(@1.000)")),
    (31, main_with("Port.put(@1.000,1);")),
    (31, main_with("Port.put(1,@1.000);")),
    (31, main_with("if(1.500<@1){}else{}")),
    (31, main_with("if(1<@1.500){}else{}")),
    (31, main_with("if(@true<1.500){}else{}")),
    (31, main_with("if(@1.500<2.000<3.000){}else{}")),
    (31, main_with("if(@1.500){}else{}")),
    (31, main_with("if(1.500<2.000&&@1.500){}else{}")),
    (31, main_with("while(@0.000){}")),
    (31, main_with("while(!@0.000){}")),
    (31, in_fixed("u=@p;")),
    (31, in_fixed("p=@u;")),
    (31, in_fixed("u=@0;")),
    (31, in_fixed("p=@0.000;")),
    (31, in_fixed("u=@q;")),
    (31, in_fixed("q=@u;")),
    (31, in_fixed("u=@r;")),
    (31, in_fixed("r=@u;")),
    (31, in_fixed("u=@s;")),
    (31, in_fixed("s=@u;")),
    (31, in_fixed("@u[x]=y;")),
    (31, in_fixed("r[@u]=x;")),
    (31, in_fixed("r[0]=@u;")),
    (31, in_fixed("u=@r[0];")),
    (31, in_fixed("u=u+@p;")),
    (31, in_fixed("p=p*@u;")),
    (31, in_fixed("u=@p*p;")),
    (31, in_fixed("p=@u*u;")),
    (31, in_fixed("u=@u<u;")),
    (31, in_fixed("q=u<@p;")),
    (31, in_fixed("q=p<@u;")),
    (31, in_fixed("u=u*@s.m(p,q,r,s,t,u);")),
    (31, in_fixed("p=@u.length;")),
    (31, in_fixed("System.out.println(@u<u);")),
    (31, in_fixed("System.out.println(u-@p);")),
    (31, in_fixed("", value="@u")),
    (31, in_fixed("", value="@1.000")),
    (31, in_fixed("", value="@p", result="fixed")),
    (31, in_fixed("", value="@0", result="fixed")),
    (31, in_fixed("", value="@u<u", result="fixed")),
    (31, in_fixed("", value="s.m(p,q,r,s,t,@p)")),
    (31, in_fixed("", value="s.m(p,q,r,s,t,@0)")),
    (31, in_fixed("", value="s.m(@u,q,r,s,t,x)")),
    (31, in_class("fixed x;" + method("int x;x=@1.000;"))),
    (31, in_class("int x;" + method("x=@1;", parameters="fixed x"))),
    (31, in_class("fixed x;" + method("boolean x;", value="@x*1.000"))),
    (31, after(class_of("A", "fixed x;"), class_of("B", "int x;" + method(value="x*@1.000"), "A"))),
    (31, after(class_of("A", "int x;"), class_of("B", "fixed x;" + method(value="x*@1"), "A"))),
    (23, in_class("fixed x;int y;fixed @x;")),
    (23, in_class("int x;fixed @x;")),
    (25, in_class(method("", "fixed", value="1.000") + "public fixed @m(){return 1.000;}")),
    (27, in_class("public int m(fixed x,fixed @x){return 1;}")),
    (27, in_class(method("fixed x;int @x;"))),
    (27, in_class(method("fixed @x;", parameters="int x"))),
    (28, in_class(method(parameters=listed("fixed", names("p", 32)) + ",fixed @q"))),
    (28, in_class(method("fixed @q;", parameters=listed("int", names("p", 32))))),
    (26, after(class_of("A", method(parameters="int x")), class_of("B", "public int @m(fixed x){return 1;}", "A"))),
    (26, after(class_of("A", method(parameters="fixed x")), class_of("B", "public int @m(int x){return 1;}", "A"))),
    (26, after(class_of("A", method()), class_of("B", "public fixed @m(){return 1.000;}", "A"))),
    (26, after(class_of("A", method("", "fixed", value="1.000")), class_of("B", "public int @m(){return 1;}", "A"))),
]


def refused_rows():
    groups = [READ_FIRST, CLASS_NAMES, FIELDS, HEADS, REDECLARATIONS, LOCALS, BODY_ORDER, UNKNOWN_NAMES, TYPES, CALLS, THIS_AND_NEW, ARRAY_TYPES, PORT, FIXED]
    return [row for group in groups for row in group]


def accepted():
    """Lessons that are accepted, with their numbers of classes."""
    ports = "p=Port.get(p)+Port.get(Port.get(2));Port.put(Port.get(1),p*2);r[Port.get(0)]=Port.get(3);r=new int[Port.get(1)];while(Port.get(0)<1){}"
    same = class_of("A", "int A;A m;" + method("int m;A=1;m=A;", parameters="boolean q", value="this.m(q)"))
    return [
        (EMPTY, 0),
        (ONE, 0),
        (program("Port.get(1)"), 0),
        (main_with("Port.put(1,2);"), 0),
        (main_with("{Port.put(16,256);Port.put(0-1,Port.get(99));}"), 0),
        (in_method(ports, value="Port.get(p)"), 2),
        (after(class_of("get", "int put;" + method("put=get;", name="put", parameters="int get", value="put"))), 1),
        (program("1.500"), 0),
        (program("(1.500+2.000)*0.001-1.000"), 0),
        (main_with("while(1.500<2.000&&!(0.000-1.500<0.000)){}"), 0),
        (in_fixed("u=1.500;u=u*u+2.000-u;q=u<2.000&&!(u<u);p=p*p;q=p<p;System.out.println(u);System.out.println(u*u);System.out.println(p);"), 2),
        (in_fixed("", value="s.m(p,q,r,s,t,u*1.500)*p"), 2),
        (in_fixed("", value="u", result="fixed"), 2),
        (in_class("fixed x;fixed fixed_;" + method("x=fixed_;fixed_=x*x;", "fixed", value="fixed_")), 1),
        (in_class("int x;" + method("fixed x;x=1.500;", "fixed", value="x*1.500")), 1),
        (in_class("fixed x;" + method("x=1*x;", parameters="int x", value="x*2")), 1),
        (program("new A().m(1.500)*2.000") + class_of("A", method("", "fixed", parameters="fixed x", value="x")), 1),
        (after(class_of("B", method("", "fixed", parameters="fixed x", value="x*x"), "A"), class_of("A", method("", "fixed", parameters="fixed y", value="y"))), 2),
        (in_class(method("fixed q;", parameters=listed("fixed", names("p", 31)))), 1),
        (after("class A{}"), 1),
        (after("class A{}class a{}class A_{}class A1{}"), 4),
        (after("class A extends B{}class B extends C{}class C{}"), 3),
        (after("class out{}class println extends out{}class a{}"), 3),
        (after(same), 1),
        (after(class_of("A", "int x;"), class_of("B", "boolean x;" + method(value="x", result="boolean"), "A")), 2),
        (after(class_of("A", "int x;"), class_of("B", "", "A"), class_of("C", method(value="x"), "B")), 3),
        (after(class_of("A", method("", "A", value="this")), class_of("B", method("", "B", value="this"), "A")), 2),
        (after(class_of("A", method(parameters="int x")), class_of("B", method(parameters="int y"), "A")), 2),
        (after(class_of("B", method(parameters="int[] x,B y"), "A"), class_of("A", method(parameters="int[] y,B x"))), 2),
        (in_method("s=t;s=new B();s=this;t=new B();r=new int[p];p=r.length;p=r[p];r[p]=p*p-p+1;q=p<p&&!q;"), 2),
        (in_method("", value="s.m(p,q,r,t,t)"), 2),
        (in_method("", value="t.m(1,!q&&1<2,new int[1],this,new B())"), 2),
        (in_method("", value="t", result="A"), 2),
        (in_method("{}{p=1;{q=true;}}if(q)p=1;else if(!q)p=2;else{}while(q)while(q)q=false;"), 2),
        (in_class("int[] x;" + method("x[0]=1;x=x;", value="x[x[0]]")), 1),
        (in_arrays("v[0]=s;v[p]=t;v[r[0]]=new B();v[1]=w[0];w[0]=t;u[0]=p<1&&!u[1];u[1]=q;r[0]=v.length+u.length+w.length;"), 2),
        (in_arrays("v=new A[p];w=new B[v.length];u=new boolean[r[0]];v=v;s=v[0];s=w[p];t=w[w.length-1];q=u[0]&&!u[p];if(u[0])s=this;else{}"), 2),
        (in_arrays("", value="v[0].m(p,u[0],r,w[0],w[p],u,v,w)"), 2),
        (in_arrays("", value="u", result="boolean[]"), 2),
        (in_arrays("", value="w", result="B[]"), 2),
        (in_arrays("", value="w[0]", result="A"), 2),
        (in_class("A[] A;boolean[] b;" + method("A[0]=A[1];b[0]=b[1];", value="A.length")), 1),
        (in_class("A[] A;" + method("A[] A;A A_;A[0]=A_;", value="A[0].m()")), 1),
        (in_class("int[] x;" + method("A[] x;boolean[] y;x[0]=this;y[x.length]=true;")), 1),
        (program("new A[2].length+new boolean[3].length+(new A[1])[0].m()*(new A[1])[0].all()[0].m()") + class_of("A", method() + method("", "A[]", "all", value="new A[1]")), 1),
        (after(class_of("B", method("", "A[]", parameters="B[] x,boolean[] y", value="new A[1]"), "A"), class_of("A", method("", "A[]", parameters="B[] y,boolean[] x", value="new A[2]"))), 2),
        (in_class(method("A[] q;", parameters=listed("boolean[]", names("p", 31)))), 1),
        (in_class("int x;" + method("boolean x;x=true;")), 1),
        (in_class("int x;" + method("x=true;", parameters="boolean x")), 1),
        (program("new A().m(new B())") + class_of("A", method(parameters="A x")) + class_of("B", "", "A"), 2),
        (program("new B().m().m().k()") + class_of("A", method("", "A", value="this") + method(name="k")) + class_of("B", "", "A"), 2),
        (in_class(method(parameters=listed("int", names("p", 32)))), 1),
        (in_class(method(declared("int", names("p", 32)))), 1),
        (in_class(method(declared("A", names("q", 16)), parameters=listed("A", names("p", 16)))), 1),
        (in_class(method(declared("A", names("q", 31)), parameters="int p")), 1),
        (in_class(method("int q;", parameters=listed("int[]", names("p", 31)))), 1),
        (in_class(method(declared("int", names("p", 32))) + method(declared("int", names("p", 32)), name="k", value="p031")), 1),
    ]


def many(count, prefix="A"):
    """That many classes, with names that differ in their last three bytes."""
    return EMPTY + "".join(class_of(n) for n in names(prefix, count))


def chain(is_reversed, count=333):
    """A chain of classes, as long as 2,048 tokens allow: main calls on the last one a method of the first one, which takes the last one for the first."""
    all_names = names("C", count)
    classes = [class_of("C000", method(parameters="C000 x", value="2"))]
    classes += [class_of(n, "", parent) for parent, n in zip(all_names, all_names[1:])]
    last = "new %s()" % all_names[-1]
    return program("%s.m(%s)" % (last, last)) + "".join(classes[::-1] if is_reversed else classes)


def long_names():
    """Names of 255 bytes that differ in the last one only."""
    b, c, d = ["n" * 254 + last for last in "bcd"]
    both = class_of(b, "int %s;boolean %s;" % (b, c) + method("%s %s;int %s;%s=%s;" % (b, b, c, c, c), name=b, value=c) + method(name=c), c) + class_of(c)
    accepted_rows = [(after(class_of(b), class_of(c), class_of(d)), 3), (after(both), 2), (program("new %s().%s()" % (b, c)) + both, 2)]
    refused = [
        (20, after(class_of(b), class_of(c), class_of("@" + c))),
        (21, after(class_of(b, "", c), class_of(c, "", "@" + d))),
        (23, in_class("int %s;int %s;int @%s;" % (b, c, b))),
        (24, in_class("%s x;@%s y;" % (b, d)) + class_of(b) + class_of(c)),
        (25, in_class(method(name=b) + method(name=c) + "public int @%s(){return 1;}" % c)),
        (27, in_class(method("int %s;int @%s;" % (c, b), parameters="int " + b))),
        (30, in_class(method("int %s;int %s;" % (b, c), value="@" + d))),
        (32, program("new A().@%s()" % d) + class_of("A", method(name=b) + method(name=c))),
        (26, after(class_of("A", method(name=b, parameters=b + " x")), class_of(b, "public int @%s(%s x){return 1;}" % (b, c), "A"), class_of(c, "", "A"))),
    ]
    return [fine(*row) for row in accepted_rows] + [bad(*row) for row in refused]


def bound_rows():
    """Lessons with as many classes as 2,048 tokens allow, and names as long as 255 bytes."""
    longest = many(507, "A" * 21)
    assert not fits(many(508)) and not fits(chain(False, 334))
    rows = [fine(longest, 507), fine(many(507), 507), fine(chain(False), 333), fine(chain(True), 333)]
    rows += [bad(20, many(506) + class_of("@" + n)) for n in ("A000", "A255", "A505")]
    rows.append((line("check", unmarked(many(506) + "class A000{}class B@{}"), TABLE), refusal(15, many(506) + "class A000{}class B@{}")))
    rows.append((line("check", after(TWICE).ljust(16385), TABLE), "10 0 0"))
    rows.append(bad(20, after("class A{}class @A{}").ljust(16385)))
    rows += [bad(21, many(506) + class_of("B", "", "@C")), bad(22, many(506) + class_of("@B", "", "B")), bad(24, many(505) + class_of("B", "@C x;"))]
    rows.append(bad(26, chain(False, 330) + class_of("B", "public int @m(){return 1;}", "C329")))
    rows.append(bad(26, chain(True, 330) + class_of("B", "public boolean @m(C000 x){return true;}", "C329")))
    rows += [bad(31, chain(is_reversed).replace("m(new C332()", "m(@true")) for is_reversed in (False, True)]
    rows.append(bad(31, chain(True, 330).replace("C000 x", "C329 x").replace("m(new C329()", "m(@new C328()")))
    return rows + long_names()


def table_rows():
    lessons = [("", "16 0 0"), ("class A", "16 7 0"), (ONE, "0 0 0"), (after("class A{}"), "0 0 1"), (program("true"), "31 63 0")]
    rows = []
    for lesson, answer in lessons:
        for table in (0, 1, 16383, 16384, 17000, 20000):
            expected = "1 0 0" if table < TABLE else answer
            rows.append((line("check", lesson, table), expected))
            rows.append((line("menu", lesson, table, 9), with_positions(lesson, expected)))
    return rows


def with_positions(lesson, answer):
    """Menu's answer where Check's is this one and the strip is long enough."""
    written = menu_order(lesson) if answer.startswith("0 ") else []
    return answer + "".join([" :"] + [" %d" % p for p in written] if written else [])


def menu_row(lesson, strip, answer):
    """A case of menu; the strip is what may be wrong where Check accepts."""
    if answer.startswith("0 ") and strip < int(answer.split()[2]):
        return line("menu", lesson, TABLE, strip), "4 0 0"
    return line("menu", lesson, TABLE, strip), with_positions(lesson, answer)


def families():
    """The largest lessons of parents and children: forwards, backwards, each child before its parent; children of one class before it; a tree in a mixed order."""
    parents, children = [class_of(n) for n in names("P", 202)], [class_of("Q" + n[1:], "", n) for n in names("P", 202)]
    siblings = [class_of(n, "", "R") for n in names("A", 337)] + [class_of("R")]
    tree = [class_of("T000")] + [class_of("T%03d" % k, "", "T%03d" % ((k - 1) // 2)) for k in range(1, 338)]
    orders = [parents + children, (parents + children)[::-1], [c for pair in zip(children, parents) for c in pair], siblings, [tree[k * 131 % 338] for k in range(338)]]
    return [EMPTY + "".join(o) for o in orders]


# children before their parents, siblings, several roots, a grandchild before and after the sibling of its parent
SMALL_FAMILIES = [
    after("class B extends A{}class A{}class C{}"),
    after("class C extends B{}class B extends A{}class A{}class D{}"),
    after("class B extends A{}class C extends A{}class A{}"),
    after("class A extends R{}class B extends R{}class X extends A{}class R{}"),
    after("class X extends A{}class A extends R{}class B extends R{}class R{}"),
    after("class R{}class A extends R{}class B extends R{}class X extends A{}"),
    after("class B extends A{}class C{}class D extends C{}class A{}class E extends B{}"),
]


def menu_rows():
    rows = []
    for count in range(7):
        lesson = ONE + " ".join(class_of(n) for n in names("Name", count))
        rows += [menu_row(lesson, strip, "0 0 %d" % count) for strip in range(count + 2)]
    rows += [menu_row(many(507), strip, "0 0 507") for strip in (0, 506, 507, 508, 2047, 2048)]
    rows += [menu_row(chain(is_reversed), strip, "0 0 333") for is_reversed in (False, True) for strip in (332, 333, 334)]
    rows += [menu_row(after(class_of("n" * 254 + "b"), class_of("n" * 254 + "c")), strip, "0 0 2") for strip in (1, 2, 3)]
    rows += [menu_row(lesson, 8, "0 0 %d" % count) for lesson, count in accepted()]
    rows += [menu_row(lesson, len(menu_order(lesson)) + more, "0 0 %d" % len(menu_order(lesson))) for lesson in SMALL_FAMILIES for more in (-1, 0, 2)]
    rows += [menu_row(lesson, 2048, "0 0 %d" % len(menu_order(lesson))) for lesson in families()]
    for k, (number, lesson) in enumerate(refused_rows()):
        if k % 5 == 0:
            rows.append(menu_row(unmarked(lesson), k % 4, refusal(number, lesson)))
    return rows


def errors():
    """Lines of check and menu that are no case, and what the program says of each."""
    return [
        ("chekc 16384 -", "unknown operation"),
        ("Check 16384 -", "unknown operation"),
        ("checks 16384 -", "unknown operation"),
        ("chec", "unknown operation"),
        ("menus 16384 0 -", "unknown operation"),
        ("men 16384 0 -", "unknown operation"),
        ("MENU 16384 0 -", "unknown operation"),
        ("check", "word missing"),
        ("check 16384", "word missing"),
        ("check 16384 ", "word missing"),
        ("check 16384 0 -", "too many words"),
        ("check 16384 - ", "too many words"),
        ("check x -", "malformed number"),
        ("check  -", "malformed number"),
        ("check 4294967296 -", "table too large"),
        ("check 20001 -", "table too large"),
        ("check 16384 2", "odd number of hexadecimal digits"),
        ("check 16384 2G", "bad hexadecimal digit"),
        ("menu", "word missing"),
        ("menu 16384", "word missing"),
        ("menu 16384 -", "word missing"),
        ("menu 16384 0", "word missing"),
        ("menu 16384 0 ", "word missing"),
        ("menu 16384 0 0 -", "too many words"),
        ("menu 16384 0 - ", "too many words"),
        ("menu x 0 -", "malformed number"),
        ("menu 16384 x -", "malformed number"),
        ("menu 16384 -1 -", "malformed number"),
        ("menu 16384  -", "malformed number"),
        ("menu  0 -", "malformed number"),
        ("menu 16384 4294967296 -", "strip too large"),
        ("menu 20001 0 -", "table too large"),
        ("menu 20001 x -", "table too large"),
        ("menu 16384 2049 -", "strip too large"),
        ("menu 0 2049 -", "strip too large"),
        ("menu 16384 4294967295 2", "strip too large"),
        ("menu 16384 0 2", "odd number of hexadecimal digits"),
        ("menu 16384 0 2x", "bad hexadecimal digit"),
        ("menu 16384 0 " + "20" * 33994, "line too long"),
    ]


def check_rows():
    rows = bench_rows() + [bad(*row) for row in refused_rows()] + [fine(*row) for row in accepted()]
    return rows + bound_rows() + table_rows() + menu_rows()
