"""What tests/speed measures: each kernel as a lesson and, statement by statement, as a Lua program.

A kernel does one thing in a loop of ROUNDS rounds. Lessons and programs loop by `while`, count down, and print the same numbers; Lua's integers of 64 bits are cut to 32 where they
are printed, which `+`, `-` and `*` allow, and no kernel compares a number that has outgrown 32 bits. Objects are tables in Lua, and a class is a table of methods with the class
above as its metatable's index, so that a method is looked for by its name upwards, as in the lesson. Where the heap or the output strip leaves too few rounds, the same
lesson is run many times (LINES).
"""
import collections

Kernel = collections.namedtuple("Kernel", "name rounds lines lesson_text lua_text")

LUA_HEAD = """
local function class(parent)
  local made = setmetatable({}, parent)
  made.__index = made
  return made
end
local function low32(x)
  return (x + 0x80000000 & 0xffffffff) - 0x80000000
end
"""


def lesson(local="", before="", body="", after="", members="", classes=""):
    return (
        "class M{public static void main(String[] a){System.out.println(new L().go(ROUNDS));}}"
        + "class L{" + members + "public int go(int n){int x;" + local + "x=0;" + before + "while(0<n){" + body + "n=n-1;}" + after + "return x;}}"
        + classes
    )


def lua(before="", body="", after="", fields="", methods="", classes=""):
    return (
        LUA_HEAD + classes + "\nlocal L = class()\n" + methods
        + "\nfunction L:go(n)\n  local x = 0\n  " + before + "\n  while 0 < n do\n" + body + "\n  n = n - 1\n  end\n  " + after + "\n  return x\nend\n"
        + "for _ = 1, LINES do print(low32(setmetatable({" + fields + "}, L):go(ROUNDS))) end\n"
    )


def methods_of(count):
    """As many methods; three of them are called."""
    return (
        "".join("public int m%d(int k){return k;}" % k for k in range(count)),
        "".join("function L:m%d(k) return k end\n" % k for k in range(count)),
    )


def chain_of(count):
    """A class with as many above it: the topmost has one method, the one in the middle another."""
    content, lua_methods = {0: "public int top(int k){return k;}", count // 2: "public int middle(int k){return k;}"}, {0: "top", count // 2: "middle"}
    classes = "".join("class C%d%s{%s}" % (k, " extends C%d" % (k - 1) if k else "", content.get(k, "")) for k in range(count + 1))
    made = "local C = {}\nC[0] = class()\nfor k = 1, %d do C[k] = class(C[k - 1]) end\n" % count
    return classes, made + "".join("C[%d].%s = function(self, k) return k end\n" % (k, name) for k, name in lua_methods.items())


NESTED = "((x+n)*(n-3)-(x*2-n))*((n+1)-(x-7))+((x-1)*(n*n-2))"
MANY_LESSON, MANY_LUA = methods_of(90)
CHAIN_LESSON, CHAIN_LUA = chain_of(40)

KERNELS = [
    Kernel("empty loop", 4000000, 1, lesson(), lua()),
    Kernel("arithmetic", 2000000, 1, lesson(body="x=x*3+n-1;"), lua(body="x = x * 3 + n - 1")),
    Kernel("nested expressions", 1000000, 1, lesson(body="x=" + NESTED + ";"), lua(body="x = " + NESTED)),
    # No count falls below 0, so that Lua's `//`, which rounds down, divides toward zero.
    Kernel(
        "thousandths", 2000000, 1,
        lesson(local="fixed y;", before="y=0.000;", body="y=y*0.999+1.500;", after="System.out.println(y);"),
        lua(before="local y = 0", body="y = y * 999 // 1000 + 1500", after="print(y)"),
    ),
    Kernel(
        "fields", 2000000, 1,
        lesson(members="int f;int g;", body="f=f+n;g=g-f;", after="x=f+g;"),
        lua(fields="f = 0, g = 0", body="self.f = self.f + n\n self.g = self.g - self.f", after="x = self.f + self.g"),
    ),
    # 64 different numbers in a mixed order, by bubbles
    Kernel(
        "array sort", 600, 1,
        lesson(
            local="int[] v;int i;int j;int t;", before="v=new int[64];t=0;",
            body="i=0;while(i<64){t=t+37;if(63<t){t=t-64;}else{}v[i]=t;i=i+1;}"
            "i=0;while(i<63){j=0;while(j<63-i){if(v[j+1]<v[j]){t=v[j];v[j]=v[j+1];v[j+1]=t;}else{}j=j+1;}i=i+1;}"
            "x=x+v[20]-v[3];t=n;while(63<t){t=t-64;}",
        ),
        lua(
            before="local v, i, j, t = {}, 0, 0, 0\n for k = 1, 64 do v[k] = 0 end",
            body="""
            i = 1
            while i < 65 do
              t = t + 37
              if 63 < t then t = t - 64 end
              v[i] = t
              i = i + 1
            end
            i = 1
            while i < 64 do
              j = 1
              while j < 65 - i do
                if v[j + 1] < v[j] then
                  t = v[j]
                  v[j] = v[j + 1]
                  v[j + 1] = t
                end
                j = j + 1
              end
              i = i + 1
            end
            x = x + v[21] - v[4]
            t = n
            while 63 < t do t = t - 64 end""",
        ),
    ),
    # the primes below 2,000, counted
    Kernel(
        "sieve", 300, 1,
        lesson(
            local="int[] v;int i;int j;", before="v=new int[2000];",
            body="i=0;while(i<2000){v[i]=0;i=i+1;}i=2;while(i<2000){if(v[i]<1){x=x+1;j=i+i;while(j<2000){v[j]=1;j=j+i;}}else{}i=i+1;}",
        ),
        lua(
            before="local v, i, j = {}, 0, 0\n for k = 1, 2000 do v[k] = 0 end",
            body="""
            i = 1
            while i < 2001 do
              v[i] = 0
              i = i + 1
            end
            i = 2
            while i < 2000 do
              if v[i] < 1 then
                x = x + 1
                j = i + i
                while j < 2000 do
                  v[j] = 1
                  j = j + i
                end
              end
              i = i + 1
            end""",
        ),
    ),
    Kernel(
        "fib", 40, 1,
        lesson(members="public int fib(int k){int r;if(k<2){r=k;}else{r=this.fib(k-1)+this.fib(k-2);}return r;}", body="x=x+this.fib(22);"),
        lua(
            methods="function L:fib(k) local r if k < 2 then r = k else r = self:fib(k - 1) + self:fib(k - 2) end return r end",
            body="x = x + self:fib(22)",
        ),
    ),
    Kernel(
        "calls, 1 argument", 2000000, 1,
        lesson(members="public int m(int k){return k;}", body="x=this.m(n);"),
        lua(methods="function L:m(k) return k end", body="x = self:m(n)"),
    ),
    Kernel(
        "calls, 6 arguments", 1000000, 1,
        lesson(members="public int m(int a,int b,int c,int d,int e,int f){return a+b-c+d-e+f;}", body="x=this.m(n,x,1,2,n,x);"),
        lua(methods="function L:m(a, b, c, d, e, f) return a + b - c + d - e + f end", body="x = self:m(n, x, 1, 2, n, x)"),
    ),
    Kernel(
        "90 methods", 1000000, 1,
        lesson(members=MANY_LESSON, body="x=this.m5(x)-this.m50(n)+this.m85(x);"),
        lua(methods=MANY_LUA, body="x = self:m5(x) - self:m50(n) + self:m85(x)"),
    ),
    Kernel(
        "40 parents", 1200000, 1,
        lesson(local="C40 c;", before="c=new C40();", body="x=c.top(n)+c.middle(x);", classes=CHAIN_LESSON),
        lua(before="local c = setmetatable({}, C[40])", body="x = c:top(n) + c:middle(x)", classes=CHAIN_LUA),
    ),
    Kernel(
        "&& and branches", 1000000, 1,
        lesson(body="if(0<n&&!(x<3)&&n<2000000){x=x-1;}else{if(x<10&&1<n){x=x+2;}else{x=0;}}"),
        lua(body="if 0 < n and not (x < 3) and n < 2000000 then x = x - 1 else if x < 10 and 1 < n then x = x + 2 else x = 0 end end"),
    ),
    Kernel(
        "list walk", 15000, 1,
        lesson(
            local="Node head;Node p;int i;", before="i=0;while(i<100){p=new Node();i=p.put(i+1,head);head=p;}",
            body="p=head;i=0;while(i<99){x=x+p.value();p=p.next();i=i+1;}",
            classes="class Node{int v;Node n;public int put(int a,Node b){v=a;n=b;return v;}public int value(){return v;}public Node next(){return n;}}",
        ),
        lua(
            before="local head, p, i = nil, nil, 0\n while i < 100 do p = setmetatable({v = 0}, Node) i = p:put(i + 1, head) head = p end",
            body="""
            p = head
            i = 0
            while i < 99 do
              x = x + p:value()
              p = p:next()
              i = i + 1
            end""",
            classes="""
            local Node = class()
            function Node:put(a, b) self.v = a self.n = b return self.v end
            function Node:value() return self.v end
            function Node:next() return self.n end""",
        ),
    ),
    # 7 words in each round
    Kernel(
        "allocation", 2300, 600,
        lesson(local="P p;int[] v;", body="p=new P();v=new int[3];x=x+v.length;", classes="class P{int a;P b;}"),
        lua(before="local p, v", body="p = setmetatable({a = 0, b = nil}, P)\n v = {0, 0, 0}\n x = x + #v", classes="local P = class()"),
    ),
    Kernel("println", 2000, 1000, lesson(body="System.out.println(n);"), lua(body="print(n)")),
]
