"""Lessons that are compared with Java: written by hand, of each kind, with the end that each should have. tests/java adds those of lesson_generator.py and of lessons/.

Each is accepted here and by javac, and means the same in both, so they keep out of what differs: nested comments, a carriage return in a `//` comment; locals that are
read before they are assigned; loops whose test is constant, which make what follows them unreachable; names that only Java reserves (`null`, `for`, `final`, ..) or that java.lang.Object
has as methods (`equals`, `wait`, ..); main's parameter; an array of a class where one of a class above it is due, which Java takes. They keep within bayrun's limits, which Java does
not have: 100,000 steps, 64 open calls, 4,096 heap words, 256 outputs.
"""
from lessons import class_of, main_with, method, program


def show(*expressions):
    return "".join("System.out.println(%s);\n" % e for e in expressions)


def lesson(statements, local="", fields="", methods="", classes=""):
    """The statements in a method `go` of a class T, since main has no names; T may have fields and further methods, and further classes may follow."""
    go = method(local + statements, name="go", value="0")
    return program("new T().go()") + "\n" + class_of("T", fields + go + methods) + "\n" + classes


BIT = "public int bit(boolean b){int r;if(b)r=1;else r=0;return r;}"  # truth values cannot be printed


def truths(*conditions):
    """Shows each condition as 1 or 0."""
    return show(*["this.bit(%s)" % c for c in conditions])


# A method for each truth value that prints its argument, so that the output tells what was carried out, and in which order.
SAYS = "public boolean yes(int k){System.out.println(k);return true;}public boolean no(int k){System.out.println(k);return false;}"
TELL = "public int tell(int k){System.out.println(k);return k;}"

ARITHMETIC = [
    program("1+2"),
    program("46341*46341"),
    program("0-2147483647-2"),
    lesson(show("2147483647+1", "2147483647+2147483647", "65536*65536", "65537*65537", "2147483647*2147483647", "123456789*987654321", "0-1-2147483647-1")),
    lesson(show("(0-2147483647-1)*(0-1)", "0-(0-2147483647-1)", "(0-2147483647-1)*(0-2147483647-1)", "(0-46341)*46341", "(0-3)*7", "3*(0-7)", "(0-3)*(0-7)")),
    lesson(show("1+2*3", "(1+2)*3", "1-2-3", "1-(2-3)", "2*3+4*5", "2*(3+4)*5", "1-2*3-4", "100-10*3-2*7+1", "((((7))))-(((2)))*3")),
    lesson("x=1;i=0;while(i<34){" + show("x") + "x=x+x;i=i+1;}", "int x;int i;"),
    lesson("x=1;i=1;while(i<21){x=x*i;" + show("x") + "i=i+1;}", "int x;int i;"),
    lesson("h=7;i=0;while(i<60){h=h*31+i;" + show("h") + "i=i+1;}", "int h;int i;"),
    lesson("a=0;b=1;i=0;while(i<60){c=a+b;a=b;b=c;" + show("a") + "i=i+1;}", "int a;int b;int c;int i;"),
    lesson("s=12345;i=0;while(i<40){s=s*1103515245+12345;" + show("s") + "i=i+1;}", "int s;int i;"),
    lesson("x=0-2147483647;" + show("x") + "x=x-1;" + show("x") + "x=x-1;" + show("x") + "x=x+1;" + show("x", "x-x", "x*x", "x*2", "x+x+1"), "int x;"),
]

TRUTHS = [
    lesson(truths("1<2", "2<1", "1<1", "0-1<0", "0<0-1", "!(1<2)", "!!(1<2)", "true", "false", "!true", "!false"), methods=BIT),
    lesson(truths("2147483647<0-2147483647-1", "0-2147483647-1<2147483647", "0-2147483647-1<0", "2147483647+1<0", "0<2147483647+1", "2147483646<2147483647"), methods=BIT),
    lesson(truths("true&&true", "true&&false", "false&&true", "false&&false", "!(true&&false)", "!true&&false", "!(false)&&!false", "1<2&&2<3&&3<4", "1<2&&2<1&&3<4"), methods=BIT),
    lesson(truths("1+1<3&&!(2*2<4)", "1-2-3<0&&0<1-(2-3)", "!(1<2)&&true", "!(1<2&&true)", "3*3<3+3*3", "(3<4)&&((4<5)&&(5<4))"), methods=BIT),
    lesson("a=true;b=false;i=0;while(i<8){c=a&&!b;b=!(a&&b);a=c;" + truths("a", "b", "c") + "i=i+1;}", "boolean a;boolean b;boolean c;int i;", methods=BIT),
    lesson("x=3<4;if(x)y=!x;else y=x;" + truths("x", "y") + "x=y;" + truths("x", "!x&&!y"), "boolean x;boolean y;", methods=BIT),
]

SHORT_CIRCUIT = [
    lesson(truths("this.yes(1)&&this.yes(2)", "this.no(3)&&this.yes(4)", "this.yes(5)&&this.no(6)", "this.no(7)&&this.no(8)"), methods=BIT + SAYS),
    lesson(truths("this.yes(1)&&this.yes(2)&&this.no(3)&&this.yes(4)", "this.yes(5)&&(this.no(6)&&this.yes(7))&&this.yes(8)", "!(this.yes(9)&&this.no(10))&&this.yes(11)"), methods=BIT + SAYS),
    lesson("x=new int[3];i=0;while(i<x.length&&x[i]<1){x[i]=i+1;i=i+1;}" + show("i") + "while(0-1<i&&i<x.length&&0<x[i]){i=i-1;}" + show("i"), "int[] x;int i;"),
    lesson("x=new int[0];if(0<x.length&&x[0]<1)y=1;else y=2;" + show("y"), "int[] x;int y;"),
    lesson("if(has&&next.ready())r=1;else r=2;" + show("r") + "next=new T();has=true;if(has&&next.ready())r=3;else r=4;" + show("r"), "int r;", "T next;boolean has;", "public boolean ready(){return !has;}"),
    lesson("i=0;while(this.yes(i)&&i<4&&!this.no(0-i))i=i+1;" + show("i"), "int i;", methods=SAYS),
    lesson("if(this.no(1)&&this.yes(2)){if(this.yes(3))r=1;else r=2;}else{if(this.yes(4)&&!this.no(5))r=3;else r=4;}" + show("r"), "int r;", methods=SAYS),
]

LOOPS = [
    lesson("i=0;while(i<0)i=i+1;" + show("i") + "while(i<7)i=i+3;" + show("i"), "int i;"),
    lesson("i=0;while(i<6){j=0;s=0;while(j<i){s=s+j*i;j=j+1;}" + show("s") + "i=i+1;}", "int i;int j;int s;"),
    lesson("n=27;k=0;while(1<n){h=n;while(1<h)h=h-2;if(h<1){m=0;while(m+m<n)m=m+1;n=m;}else{k=k+1;n=3*n+1;if(90<n)n=5;else{}}" + show("n") + "}" + show("k"), "int n;int k;int h;int m;"),
    lesson("a=1071;b=462;while(0<a&&0<b){if(a<b)b=b-a;else a=a-b;" + show("a", "b") + "}" + show("a+b"), "int a;int b;"),
    lesson("s=new int[60];i=2;while(i<60){if(s[i]<1){" + show("i") + "j=i+i;while(j<60){s[j]=1;j=j+i;}}else{}i=i+1;}", "int[] s;int i;int j;"),
    lesson("n=10;while(0<n){n=n-1;if(n<5)while(2<n)n=n-1;else{}" + show("n") + "}", "int n;"),
    lesson("left=6;while(this.turn()){" + show("left") + "}" + show("left"), "", "int left;", "public boolean turn(){left=left-2;return 0-4<left;}"),
    lesson("i=0;while(i<4){j=0;while(j<4){k=0;while(k<4){if(k<j&&j<i)" + show("100*i+10*j+k") + "else{}k=k+1;}j=j+1;}i=i+1;}", "int i;int j;int k;"),
    lesson("x=1000000;d=2;while(1<x){q=0;r=x;while(!(r<d)&&r<100){r=r-d;q=q+1;}if(r<1){x=q;" + show("d") + "}else{x=x-333333;d=d+1;}}" + show("x", "d"), "int x;int d;int q;int r;"),
    lesson("{{}{i=1;{i=i+1;{}}}}{}{if(i<2){}else{{i=i*10;}}}" + show("i"), "int i;"),
]

FILL = "public int[] fill(int n,int step){int[] x;int i;x=new int[n];i=0;while(i<n){x[i]=i*step;i=i+1;}return x;}"
EACH = "public int each(int[] x){int i;i=0;while(i<x.length){System.out.println(x[i]);i=i+1;}return i;}"

ARRAYS = [
    lesson("x=new int[4];" + show("this.each(x)") + "x[0]=7;x[3]=x[0]*6;x[x[1]]=x[3]-x[0];" + show("this.each(x)"), "int[] x;", methods=EACH),
    lesson(show("new int[3].length", "new int[0].length", "(new int[3])[2]", "this.fill(5,9)[3]", "this.fill(4,2).length", "this.fill(this.fill(3,2)[2],7)[this.fill(3,1)[1]]"), methods=FILL),
    lesson("x=this.fill(9,5);i=0;while(i<x.length-1-i){t=x[i];x[i]=x[x.length-1-i];x[x.length-1-i]=t;i=i+1;}" + show("this.each(x)"), "int[] x;int i;int t;", methods=FILL + EACH),
    lesson("x=new int[8];x[0]=5;x[1]=0-3;x[2]=9;x[3]=0;x[4]=5;x[5]=2147483647;x[6]=0-2147483647-1;x[7]=1;i=0;while(i<8){j=0;while(j<7-i){if(x[j+1]<x[j]){t=x[j];x[j]=x[j+1];x[j+1]=t;}else{}j=j+1;}i=i+1;}"
           + show("this.each(x)"), "int[] x;int i;int j;int t;", methods=EACH),
    lesson("x=this.fill(5,1);y=x;y[2]=50;" + show("x[2]") + "y=new int[5];y[2]=60;" + show("x[2]", "y[2]") + "z=this.change(x);" + show("x[0]", "z", "x.length"), "int[] x;int[] y;int z;",
           methods=FILL + "public int change(int[] p){p[0]=99;p=new int[2];p[0]=77;return p[0];}"),
    lesson("kept=this.fill(6,3);i=1;while(i<kept.length){kept[i]=kept[i]+kept[i-1];i=i+1;}" + show("this.each(kept)"), "int i;", "int[] kept;", FILL + EACH),
    lesson("m=new int[12];r=0;while(r<3){c=0;while(c<4){m[r*4+c]=(r+1)*(c+1);c=c+1;}r=r+1;}" + show("this.each(m)", "m[1*4+2]+m[2*4+3]"), "int[] m;int r;int c;", methods=EACH),
    lesson("x=this.fill(16,3);" + show("this.find(x,0)", "this.find(x,45)", "this.find(x,21)", "this.find(x,22)", "this.find(x,0-1)", "this.find(x,46)"), "int[] x;",
           methods=FILL + "public int find(int[] x,int v){int a;int b;int m;a=0;b=x.length;while(a<b){m=0;while(m+m<a+b-1)m=m+1;if(m<b){}else m=b-1;if(x[m]<v)a=m+1;else b=m;}"
           "if(a<x.length&&!(x[a]<v)&&!(v<x[a])){}else a=0-1;return a;}"),
    lesson("a=new int[3];b=a;a[this.swap()]=this.tell(8);" + show("b[1]", "a[1]", "a.length"), "int[] b;", "int[] a;", TELL + "public int swap(){a=new int[2];return 1;}"),
    lesson("a=new int[3];b=a;a[1]=this.swap();" + show("b[1]", "a[1]", "a.length"), "int[] b;", "int[] a;", "public int swap(){a=new int[2];return 6;}"),
    lesson("x=new int[5];i=0;while(i<5){x[i]=this.tell(x.length-i);i=i+1;}i=0;while(i<5){" + show("x[x[i]-1]") + "i=i+1;}", "int[] x;int i;", methods=TELL),
]

FLAGS = "public boolean[] flags(int n){boolean[] b;int i;b=new boolean[n];i=1;while(i<n){b[i]=!b[i-1];i=i+1;}return b;}"

ARRAYS_OF_TRUTHS = [
    lesson("b=new boolean[3];" + truths("b[0]", "b[1]", "b[2]") + "b[1]=true;b[0]=b[1]&&!b[2];b[2]=!b[0];" + truths("b[0]", "b[1]", "b[2]", "!b[2]&&b[0]") + show("b.length"),
           "boolean[] b;", methods=BIT),
    lesson(show("new boolean[3].length", "new boolean[0].length", "this.flags(6).length") + truths("(new boolean[3])[2]", "this.flags(6)[2]", "this.flags(6)[5]", "!this.flags(2)[0]"),
           methods=BIT + FLAGS),
    lesson("s=new boolean[60];i=2;while(i<60){if(!s[i]){" + show("i") + "j=i+i;while(j<60){s[j]=true;j=j+i;}}else{}i=i+1;}", "boolean[] s;int i;int j;"),
    lesson("b=this.flags(7);i=0;while(i<b.length&&!(b[i]&&3<i)){i=i+1;}" + show("i") + "while(0-1<i&&i<b.length){if(b[i])" + show("i") + "else{}i=i-1;}", "boolean[] b;int i;", methods=FLAGS),
    lesson("b=new boolean[4];b[this.tell(1)]=this.yes(2);b[this.tell(3)]=this.no(4)&&this.yes(5);" + truths("b[this.tell(1)]", "b[3]"), "boolean[] b;", methods=BIT + SAYS + TELL),
    lesson("b=new boolean[2];c=b;b[this.swap()]=true;" + truths("c[1]", "b[1]") + show("c.length", "b.length"), "boolean[] c;", "boolean[] b;", BIT + "public int swap(){b=new boolean[5];return 1;}"),
    lesson("c=new Y();" + show("c.start(2)", "c.count(3)") + truths("c.set(1)"), "Y c;", methods=BIT,
           classes="class X{boolean[] s;public int start(int n){s=new boolean[n];return s.length;}public boolean set(int k){s[k]=true;return s[k]&&!s[0];}}"
           "class Y extends X{int[] s;public int count(int n){s=new int[n];s[n-1]=n;return s[n-1]*10+s.length;}}"),
]

CELL = "class Cell{int v;public int put(int n){v=n;return v;}public int get(){return v;}}"
CELLS = "public Cell[] cells(int n){Cell[] x;int i;int t;x=new Cell[n];i=0;while(i<n){x[i]=new Cell();t=x[i].put(i*i);i=i+1;}return x;}"

ARRAYS_OF_OBJECTS = [
    lesson("x=this.cells(4);" + show("x[3].get()", "x[0].get()+x[1].get()+x[2].get()", "x.length") + "x[0]=x[2];" + show("x[0].put(9)", "x[2].get()", "x[1].get()"),
           "Cell[] x;", methods=CELLS, classes=CELL),
    lesson(show("this.cells(5)[4].get()", "this.cells(3).length", "new Cell[2].length", "new T[0].length", "this.cells(this.cells(3)[2].get())[3].get()"), methods=CELLS, classes=CELL),
    # A name and a `[` at the start of a body: an element of a field, and an array of a class.
    lesson("Cell=this.cells(2);" + show("this.first(6)", "this.other(7)", "Cell[0].get()"), "", "Cell[] Cell;",
           CELLS + "public int first(int n){Cell[0]=Cell[1];return Cell[0].put(n);}public int other(int n){Cell[] Cell;Cell=this.cells(3);Cell[0]=new Cell();return Cell[0].put(n)+Cell[2].get();}", CELL),
    lesson("x=new T[3];x[0]=this;x[1]=x[0];x[2]=x[1].self();" + show("x[2].up(1)", "x[0].up(2)", "n"), "T[] x;", "int n;", "public T self(){return this;}public int up(int k){n=n*10+k;return n;}"),
    lesson("x=this.cells(7);i=0;while(i<7){t=x[i].put((i*5+3)*(4-i));i=i+1;}i=0;while(i<7){j=0;while(j<6-i){if(x[j+1].get()<x[j].get()){c=x[j];x[j]=x[j+1];x[j+1]=c;}else{}j=j+1;}i=i+1;}i=0;while(i<7){"
           + show("x[i].get()") + "i=i+1;}", "Cell[] x;Cell c;int i;int j;int t;", methods=CELLS, classes=CELL),
    lesson("x=this.cells(3);y=x;" + show("this.change(x)", "y[0].get()", "x[1].get()", "x[2].get()") + "y=this.cells(2);" + show("x.length", "y.length"), "Cell[] x;Cell[] y;",
           methods=CELLS + "public int change(Cell[] p){int t;t=p[1].put(50);p[0]=p[2];p=new Cell[1];p[0]=new Cell();return p[0].put(77);}", classes=CELL),
    lesson("x=this.cells(3);x[this.tell(1)]=this.made(2);" + show("x[1].get()", "x[this.tell(2)].put(this.tell(8))", "this.sum(x[0],x[this.tell(1)])"), "Cell[] x;",
           methods=TELL + CELLS + "public Cell made(int k){Cell c;System.out.println(k);c=new Cell();k=c.put(k*100);return c;}public int sum(Cell a,Cell b){return a.get()+b.get();}", classes=CELL),
    lesson("r=new Row();" + show("r.grow(3)", "r.count()", "r.at(0).at(1).count()"), "Row r;",
           classes="class Row{Row[] below;boolean is;public int grow(int n){int i;int t;if(0<n){is=true;below=new Row[2];i=0;while(i<below.length){below[i]=new Row();t=below[i].grow(n-1);i=i+1;}}else{}return n;}"
           "public Row at(int k){return below[k];}public int count(){int r;r=1;if(is)r=r+below[0].count()+below[1].count();else{}return r;}}"),
]

LIST = "class Node{int v;Node next;public int set(int x,Node n){v=x;next=n;return x;}public int value(){return v;}public Node rest(){return next;}}"
TREE = ("class Tree{int key;Tree low;Tree high;boolean full;public int add(int k){int r;if(full){if(k<key)r=low.add(k);else r=high.add(k);}"
        "else{key=k;full=true;low=new Tree();high=new Tree();r=k;}return r;}"
        "public int walk(){int r;r=0;if(full){r=low.walk();System.out.println(key);r=r+1+high.walk();}else{}return r;}"
        "public int deep(){int a;int b;if(full){a=low.deep();b=high.deep();if(a<b)a=b+1;else a=a+1;}else a=0;return a;}}")

RECURSION = [
    lesson(show("this.f(0)", "this.f(1)", "this.f(10)", "this.f(13)", "this.f(30)"), methods="public int f(int n){int r;if(n<1)r=1;else r=n*this.f(n-1);return r;}"),
    lesson(show("this.f(0)", "this.f(5)", "this.f(15)"), methods="public int f(int n){int r;if(n<2)r=n;else r=this.f(n-1)+this.f(n-2);return r;}"),
    lesson(show("this.a(0,0)", "this.a(1,2)", "this.a(2,2)", "this.a(2,3)"), methods="public int a(int m,int n){int r;if(m<1)r=n+1;else if(n<1)r=this.a(m-1,1);else r=this.a(m-1,this.a(m,n-1));return r;}"),
    lesson(truths("this.even(10)", "this.even(7)", "this.odd(7)", "this.odd(0)"),
           methods=BIT + "public boolean even(int n){boolean r;if(n<1)r=true;else r=this.odd(n-1);return r;}public boolean odd(int n){boolean r;if(n<1)r=false;else r=this.even(n-1);return r;}"),
    lesson(show("this.h(5,1,3,2)"), methods="public int h(int n,int a,int b,int c){int r;if(n<1)r=0;else{r=this.h(n-1,a,c,b);System.out.println(n*100+a*10+b);r=r+1+this.h(n-1,c,b,a);}return r;}"),
    lesson(show("this.p(3,0)", "this.p(3,20)", "this.p(0-2,31)", "this.p(7,11)"), methods="public int p(int b,int n){int r;if(n<1)r=1;else r=b*this.p(b,n-1);return r;}"),
    lesson(show("this.down(62)"), methods="public int down(int n){int r;if(n<1)r=0;else r=1+this.down(n-1);return r;}"),
    lesson("head=new Node();i=head.set(0,head.rest());i=1;while(i<12){n=new Node();t=n.set(i*i,head);head=n;i=i+1;}" + show("this.sum(head,11)", "this.last(head,11)"), "Node head;Node n;int i;int t;",
           methods="public int sum(Node n,int left){int r;r=n.value();if(0<left)r=r+this.sum(n.rest(),left-1);else{}return r;}"
           "public int last(Node n,int left){int r;if(0<left)r=this.last(n.rest(),left-1);else r=n.value();System.out.println(n.value());return r;}", classes=LIST),
    lesson("t=new Tree();i=0;k=17;while(i<14){j=t.add(k);k=k*5+3;while(99<k)k=k-97;i=i+1;}" + show("t.walk()", "t.deep()"), "Tree t;int i;int j;int k;", classes=TREE),
    lesson("x=new int[9];i=0;k=4;while(i<9){x[i]=k;k=k*11+3;while(50<k)k=k-50;i=i+1;}i=this.sort(x,0,8);i=0;while(i<9){" + show("x[i]") + "i=i+1;}", "int[] x;int i;int k;",
           methods="public int sort(int[] x,int a,int b){int p;int i;int j;int t;if(a<b){p=x[b];i=a;j=a;while(j<b){if(x[j]<p){t=x[i];x[i]=x[j];x[j]=t;i=i+1;}else{}j=j+1;}"
           "t=x[i];x[i]=x[b];x[b]=t;t=this.sort(x,a,i-1);t=this.sort(x,i+1,b);}else{}return 0;}"),
    lesson("x=new int[4];" + show("this.all(x,0)"), "int[] x;",
           methods="public int all(int[] x,int k){int i;int n;if(k<x.length){i=0;n=0;while(i<2){x[k]=i;n=n+this.all(x,k+1);i=i+1;}}else{System.out.println(((x[0]*2+x[1])*2+x[2])*2+x[3]);n=1;}return n;}"),
    lesson(show("this.c(9,4)", "this.c(6,0)", "this.c(5,5)"), methods="public int c(int n,int k){int r;if(k<1)r=1;else if(n<k)r=0;else r=this.c(n-1,k-1)+this.c(n-1,k);return r;}"),
]

ABC = ("class A{int n;public int id(){return 1;}public int twice(){return this.id()+this.id();}public int set(int v){n=v;return n;}public int get(){return n;}}"
       "class B extends A{public int id(){return 20;}}class C extends B{int m;public int get(){return n*100+m;}public int mark(){m=7;return this.twice();}}")

INHERITANCE = [
    lesson("x=new A[3];x[0]=new C();x[1]=new A();x[2]=new B();i=0;while(i<x.length){" + show("x[i].twice()", "x[i].set(i+4)", "x[i].get()") + "i=i+1;}" + show("this.total(x)"), "A[] x;int i;",
           methods="public int total(A[] x){int i;int r;i=0;r=0;while(i<x.length){r=r*10+x[i].get();i=i+1;}return r;}", classes=ABC),
    lesson("a=new A();b=new B();c=new C();" + show("a.twice()", "b.twice()", "c.twice()", "a.set(5)", "b.set(6)", "c.set(8)", "c.mark()", "a.get()", "b.get()", "c.get()"), "A a;B b;C c;", classes=ABC),
    lesson("a=new C();" + show("a.id()", "a.set(3)", "a.get()") + "a=new B();" + show("a.id()", "a.get()") + "a=new A();" + show("a.id()", "a.get()"), "A a;", classes=ABC),
    lesson(show("this.ask(new A())", "this.ask(new B())", "this.ask(new C())", "this.ask(this.pick(0))", "this.ask(this.pick(1))"),
           methods="public int ask(A x){return x.id()*10+x.set(4);}public A pick(int k){A r;if(k<1)r=new B();else r=new C();return r;}", classes=ABC),
    lesson("s=new Square();" + show("this.both(s)", "this.both(new Circle())", "this.both(new Shape())") + "s=new Circle();" + show("s.area(3)"), "Shape s;",
           methods="public int both(Shape s){return s.area(2)*1000+s.corners();}",
           classes="class Shape{public int area(int r){return 0;}public int corners(){return 0-1;}}class Square extends Shape{public int area(int r){return r*r;}public int corners(){return 4;}}"
           "class Circle extends Shape{public int area(int r){return 3*r*r;}}"),
    lesson(show("new D().a()", "new D().b()", "new D().c()", "new D().d()"), classes="class D extends E{public int d(){return this.a()+this.b()+this.c();}public int b(){return 200;}}"
           "class E extends F{public int c(){return 30+this.b();}}class F{public int a(){return 1+this.b();}public int b(){return 2;}public int c(){return 3;}}"),
    lesson("x=new P().me();" + show("x.no()") + "x=new Q().me();" + show("x.no()", "new Q().me().extra()"), "P x;",
           classes="class P{public P me(){return this;}public int no(){return 1;}}class Q extends P{public Q me(){return this;}public int no(){return 2;}public int extra(){return 3;}}"),
    lesson("x=new W();" + show("x.run(3)"), "U x;", classes="class U{int log;public int run(int n){int r;log=log*10+1;if(n<1)r=log;else r=this.next(n);return r;}public int next(int n){log=log*10+2;return this.run(n-1);}}"
           "class W extends U{public int next(int n){log=log*10+3;return this.run(n-1);}}"),
    lesson("b=new B();" + show("b.set(9)", "b.up(b)", "b.get()"), "B b;", classes="class A{int n;public int set(int v){n=v;return v;}public int get(){return n;}}class B extends A{public int up(A o){n=n+o.get();return n;}}"),
    lesson(show("new X5().m()", "new X5().k()", "new X2().m()"), classes="class X1{public int m(){return this.k();}public int k(){return 1;}}class X2 extends X1{}class X3 extends X2{public int k(){return 3;}}class X4 extends X3{}"
           "class X5 extends X4{public int m(){return 50+this.k();}}"),
]

HIDING = ("class A{int x;public int setA(int v){x=v;return v;}public int getA(){return x;}}class B extends A{int x;public int setB(int v){x=v;return v;}public int getB(){return x;}}"
          "class C extends B{boolean x;public boolean flip(){x=!x;return x;}public int bit(){int r;if(x)r=1;else r=0;return r;}}")

HIDDEN_FIELDS = [
    lesson("b=new B();" + show("b.setA(1)", "b.setB(2)", "b.getA()", "b.getB()", "b.setA(3)", "b.getB()", "b.getA()"), "B b;", classes=HIDING),
    lesson("c=new C();t=c.flip();" + show("c.setA(5)", "c.setB(6)", "c.bit()", "c.getA()", "c.getB()") + "t=c.flip();" + show("c.bit()", "c.getA()", "c.getB()"), "C c;boolean t;", classes=HIDING),
    lesson("b=new B();" + show("b.put(4)", "b.get()", "b.mine()") + "a=b;" + show("a.put(9)", "a.get()", "b.mine()"), "A a;B b;",
           classes="class A{int v;public int put(int n){v=n;return n;}public int get(){return v;}}class B extends A{int v;public int get(){return v*10;}public int mine(){v=v+1;return v;}}"),
    lesson("x=5;" + show("this.local(2)", "x", "this.parameter(3)", "x", "this.field(4)", "x"), "", "int x;",
           "public int local(int n){int x;x=n*100;return x;}public int parameter(int x){x=x*1000;return x;}public int field(int n){x=n;return x;}"),
    lesson("k=new K3();" + show("k.fill()", "k.one()", "k.two()", "k.three()"), "K3 k;",
           classes="class K1{int f;int g;public int one(){return f*10+g;}}class K2 extends K1{int f;public int two(){return f*10+g;}}class K3 extends K2{int f;int g;public int fill(){f=1;g=2;return this.deep();}"
           "public int deep(){return this.one()+this.two();}public int three(){return f*10+g;}}"),
    lesson("y=new Y();" + show("y.start()", "y.size()", "y.count()"), "Y y;",
           classes="class X{int[] s;public int start(){s=new int[3];return s.length;}public int size(){return s.length;}}class Y extends X{int[] s;int n;public int count(){s=new int[5];n=s.length;return n*10+this.size();}}"),
    lesson("q=new Q();" + show("q.set(3)", "q.get()", "q.seen()"), "Q q;", classes="class P{int v;public int set(int n){v=n;return this.get();}public int get(){return v;}}class Q extends P{int v;public int get(){v=v+50;return v;}public int seen(){return v;}}"),
]

OBJECTS = [
    lesson("a=new Cell();b=new Cell();c=a;" + show("a.add(5)", "b.add(7)", "c.add(1)", "a.add(0)", "b.add(0)") + "c=b;" + show("c.add(2)", "b.add(0)", "a.add(0)"), "Cell a;Cell b;Cell c;",
           classes="class Cell{int v;public int add(int n){v=v+n;return v;}}"),
    lesson(show("new All().number()", "new All().truth()", "new All().array()", "new All().object()"),
           classes="class All{int n;boolean b;int[] x;All o;public int number(){return n;}public int truth(){int r;if(b)r=1;else r=0;return r;}"
           "public int array(){x=new int[2];return x[0]+x[1]+x.length;}public int object(){o=new All();return o.number();}}"),
    lesson("s=new Stack();i=0;while(i<9){t=s.push(i*i);i=i+1;}while(0<s.size()){" + show("s.pop()") + "}", "Stack s;int i;int t;",
           classes="class Stack{int[] x;int n;public int push(int v){int[] y;int i;if(n<1&&this.fresh())x=new int[2];else{}if(n<x.length){}else{y=new int[x.length*2];i=0;while(i<n){y[i]=x[i];i=i+1;}x=y;}"
           "x[n]=v;n=n+1;return n;}public boolean fresh(){return true;}public int pop(){n=n-1;return x[n];}public int size(){return n;}}"),
    lesson(show("new Chain().add(3).add(4).times(5).total()", "new Chain().times(9).total()"),
           classes="class Chain{int v;public Chain add(int n){v=v+n;return this;}public Chain times(int n){v=v*n;return this;}public int total(){return v;}}"),
    lesson("p=new Pair();p=p.init(new Pair());" + show("p.ping(6)"), "Pair p;",
           classes="class Pair{Pair other;int n;public Pair init(Pair o){Pair t;other=o;t=o.join(this);return this;}public Pair join(Pair o){other=o;return this;}"
           "public int ping(int k){int r;n=n+k;System.out.println(n);if(k<1)r=n;else r=other.ping(k-1);return r;}}"),
    lesson("x=4;" + show("this.change(x)", "x") + "b=new Box();" + show("this.fill(b)", "b.get()", "this.lose(b)", "b.get()"), "int x;Box b;",
           methods="public int change(int x){x=x+1;return x;}public int fill(Box b){return b.put(11);}public int lose(Box b){b=new Box();return b.put(22);}",
           classes="class Box{int v;public int put(int n){v=n;return v;}public int get(){return v;}}"),
    lesson(show("this.once(1)", "this.once(2)", "this.many(4)"),
           methods="public int once(int n){int a;boolean b;a=n;b=n<2;if(b)a=a*10;else{}return a;}public int many(int n){int k;int r;k=n*10;if(n<1)r=0;else r=this.many(n-1);System.out.println(k);return r+k;}"),
    lesson("g=new Gate();g=g.set(true);" + show("g.bit()") + "g=g.set(false);" + show("g.bit()") + "g=g.set(!g.is()&&!g.is());" + show("g.bit()"), "Gate g;",
           classes="class Gate{boolean b;public Gate set(boolean v){b=v;return this;}public boolean is(){return b;}public int bit(){int r;if(this.is())r=1;else r=0;return r;}}"),
]

ORDER = [
    lesson(show("this.sum(this.tell(1),this.tell(2),this.tell(3))", "this.tell(4)+this.tell(5)*this.tell(6)", "this.tell(7)-(this.tell(8)-this.tell(9))"), methods=TELL + "public int sum(int a,int b,int c){return a+b*10+c*100;}"),
    lesson(show("this.self(1).add(this.tell(2),this.tell(3))"), methods=TELL + "public T self(int k){System.out.println(k);return this;}public int add(int a,int b){return a+b;}"),
    lesson("n=3;" + show("n+this.bump()", "this.bump()+n", "n*this.bump()+n", "this.add(n,this.bump(),n)"), "", "int n;", "public int bump(){n=n*2;return n;}public int add(int a,int b,int c){return a*10000+b*100+c;}"),
    lesson("x=new int[4];x[this.tell(1)]=this.tell(9);x[this.tell(2)+x[1]-this.tell(9)]=x[this.tell(1)];" + show("x[1]", "x[2]"), "int[] x;", methods=TELL),
    lesson("x=new int[2];n=0;x[n]=this.bump();x[n]=n+this.bump();" + show("x[0]", "x[1]", "n"), "int[] x;", "int n;", "public int bump(){n=1-n;return 5+n;}"),
    lesson(show("this.f(this.f(this.f(1,2),this.f(3,4)),this.f(5,this.f(6,7)))"), methods="public int f(int a,int b){System.out.println(a*10+b);return a+b;}"),
    lesson("if(this.tell(1)<this.tell(2))" + show("this.tell(3)") + "else " + show("this.tell(4)") + "if(this.tell(5)<this.tell(5))" + show("6") + "else " + show("7"), methods=TELL),
    lesson("n=this.set(this.set(this.set(1)+n)+n);" + show("n"), "", "int n;", "public int set(int v){System.out.println(v);n=v+1;return v;}"),
]

# Names that mean different things, comments and blanks.
WRITING = [
    lesson("T=new T();" + show("T.T(4)"), "T T;", "int T;", "public int T(int n){T=n;return T;}"),
    lesson("out=1;println=2;" + show("out+println", "this.out(3)", "this.println(4)"), "", "int out;int println;", "public int out(int k){return out*10+k;}public int println(int out){return out*println;}"),
    "/* a lesson */class M // main\n{public static void main(String[] a){\tSystem . out\n.println ( 1 /* one */ + /**/ 2 // two\n ) ; } } /***/ // end",
    lesson("x_1=1;X_1=2;x1=3;" + show("x_1*100+X_1*10+x1"), "int x_1;int X_1;int x1;"),
    lesson("%s=3;%s=4;" % ("n" * 254 + "a", "n" * 254 + "b") + show("n" * 254 + "a", "n" * 254 + "b"), "int %s;int %s;" % ("n" * 254 + "a", "n" * 254 + "b")),
    lesson("if(true)if(false)r=1;else r=2;else r=3;" + show("r") + "if(1<2){if(2<1){r=4;}else{r=5;}}else{r=6;}" + show("r"), "int r;"),
    main_with("{{}{System.out.println(1);{System.out.println(2);}}if(true)System.out.println(3);else{}}"),
    main_with("if(1<2)System.out.println(new A().a(5));else System.out.println(0);") + "class A{int a;public int a(int A){a=A;return a*a;}}",
]

# How each way of a fault ends. What was printed before it counts too, so parts that come before it print.
NULL = "T none;int[] nothing;boolean[] flags;T[] row;"
FAULTS = [
    (40, lesson(show("none.id()"), "", NULL, "public int id(){return 1;}")),
    (40, lesson(show("nothing[0]"), "", NULL)),
    (40, lesson(show("nothing.length"), "", NULL)),
    (40, lesson(show("1") + "nothing[0]=1;", "", NULL)),
    (40, lesson(show("none.two(this.tell(1),this.tell(2))"), "", NULL, TELL + "public int two(int a,int b){return a;}")),
    (40, lesson("nothing[this.tell(5)]=this.tell(6);", "", NULL, TELL)),
    (40, lesson(show("nothing[this.tell(0-1)]"), "", NULL, TELL)),
    (40, lesson("nothing[0-1]=2;", "", NULL)),
    (40, lesson(show("this.give().give().give().id()"), "", NULL, "public T give(){T r;r=none;none=this;return r;}public int id(){return 1;}")),
    (40, lesson("n=new Node();t=n.set(1,n.rest());m=new Node();t=m.set(2,n);" + show("m.value()", "m.rest().value()", "m.rest().rest().value()"), "Node n;Node m;int t;", classes=LIST)),
    (40, lesson("i=0;while(none.yes()){i=i+1;}", "int i;", NULL, "public boolean yes(){return true;}")),
    (40, lesson("if(this.is()&&none.is())i=1;else i=2;" + show("i"), "int i;", NULL, "public boolean is(){System.out.println(3);return true;}")),
    (40, lesson(show("this.len(this.tell(1),nothing)"), "", NULL, TELL + "public int len(int k,int[] x){System.out.println(k);return x.length;}")),
    (40, lesson(show("1", "2-none.deep(3)"), "", NULL, "public int deep(int n){return n;}")),
    (40, lesson("a=new A();" + show("a.up(3)"), "A a;", classes="class A{A next;public int up(int n){int r;if(n<1)r=next.up(9);else r=this.up(n-1)+n;System.out.println(r);return r;}}")),
    (40, lesson(show("row.length"), "", NULL)),
    (40, lesson(show("row[0].id()"), "", NULL, "public int id(){return 1;}")),
    (40, lesson("row=new T[2];row[0]=this;" + show("row[0].id()", "row[this.tell(1)].id()"), "", NULL, TELL + "public int id(){return 1;}")),
    (40, lesson("row=new T[2];row[0]=row[1];" + show("row.length", "row[0].two(this.tell(3),this.tell(4))"), "", NULL, TELL + "public int two(int a,int b){return a;}")),
    (40, lesson("flags[this.tell(1)]=this.yes(2);", "", NULL, TELL + SAYS)),
    (40, lesson("if(this.yes(1)&&flags[this.tell(2)])" + show("3") + "else " + show("4"), "", NULL, TELL + SAYS)),
    (40, lesson("row[this.tell(0-7)]=this;", "", NULL, TELL)),
    (41, program("(new int[1])[1]")),
    (41, program("(new A[2])[0-1].m()") + class_of("A", method())),
    (41, lesson("if((new boolean[2])[this.tell(2)])" + show("1") + "else " + show("2"), methods=TELL)),
    (41, lesson("b=new boolean[2];b[1]=true;b[2]=this.yes(4);", "boolean[] b;", methods=SAYS)),
    (41, lesson("row=new T[2];row[1]=this;row[this.tell(2)]=row[0];" + show("3"), "", NULL, TELL)),
    (41, lesson("row=new T[0];" + show("row.length", "row[0].id()"), "", NULL, "public int id(){return 1;}")),
    (41, lesson("x=new int[3];" + show("x[2]", "x[3]"), "int[] x;")),
    (41, lesson("x=new int[3];" + show("x[0-1]"), "int[] x;")),
    (41, lesson("x=new int[0];" + show("x.length", "x[0]"), "int[] x;")),
    (41, lesson("x=new int[3];x[0]=4;" + show("x[0]") + "x[3]=5;" + show("6"), "int[] x;")),
    (41, lesson("x=new int[3];x[0-2147483647-1]=5;", "int[] x;")),
    (41, lesson("x=new int[3];" + show("x[2147483647]"), "int[] x;")),
    (41, lesson("x=new int[3];" + show("x[65536*65536]", "x[65536*65536+3]"), "int[] x;")),
    (41, lesson("x=new int[3];x[this.tell(4)]=this.tell(5);", "int[] x;", methods=TELL)),
    (41, lesson("x=new int[3];x[7]=x[this.tell(3)];", "int[] x;", methods=TELL)),
    (41, lesson("x=new int[5];i=0;while(0<1+i){x[i]=i*i;" + show("x[i]") + "i=i+1;}", "int[] x;int i;")),
    (41, lesson(show("this.at(new int[4],2)+this.at(new int[4],4)*this.tell(1)"), methods=TELL + "public int at(int[] x,int k){System.out.println(k);return x[k];}")),
    (41, lesson("x=new int[2];if(x[1]<1&&x[2]<1)" + show("1") + "else " + show("2"), "int[] x;")),
    (41, lesson("x=new int[2];" + show("this.back(x,3)"), "int[] x;", methods="public int back(int[] x,int n){int r;System.out.println(n);r=this.back(x,x[n-2]+n-1);return r;}")),
    (42, program("new int[0-1].length")),
    (42, program("new boolean[0-1].length")),
    (42, program("new A[0-1].length") + class_of("A")),
    (42, lesson(show("this.len(new T[this.tell(1)],new boolean[this.tell(0-3)])"), methods=TELL + "public int len(T[] a,boolean[] b){return 1;}")),
    (42, lesson("x=new int[2147483647+1];" + show("x.length"), "int[] x;")),
    (42, lesson("n=3;while(0-9<n){" + show("n") + "x=new int[n];n=n-2;}", "int n;int[] x;")),
    (42, lesson(show("this.len(new int[this.tell(2)],new int[this.tell(0-2)],new int[this.tell(3)])"), methods=TELL + "public int len(int[] a,int[] b,int[] c){return 1;}")),
    (42, lesson("x=new int[2];x[5]=new int[x[1]-1].length;", "int[] x;")),
    (42, lesson("nothing[new int[0-3].length]=1;", "", NULL)),
    (42, lesson(show("(new int[0-1])[this.tell(9)]"), methods=TELL)),
]

KINDS = [
    ("arithmetic", ARITHMETIC),
    ("truths", TRUTHS),
    ("short circuit", SHORT_CIRCUIT),
    ("loops", LOOPS),
    ("arrays", ARRAYS),
    ("arrays of truths", ARRAYS_OF_TRUTHS),
    ("arrays of objects", ARRAYS_OF_OBJECTS),
    ("recursion", RECURSION),
    ("inheritance", INHERITANCE),
    ("hidden fields", HIDDEN_FIELDS),
    ("objects", OBJECTS),
    ("order", ORDER),
    ("writing", WRITING),
]


def written():
    """Each as its name, the number with which it ends, and the lesson."""
    rows = [("%s %d" % (kind, k + 1), 0, text) for kind, texts in KINDS for k, text in enumerate(texts)]
    return rows + [("fault %d, %d" % (number, k + 1), number, text) for k, (number, text) in enumerate(FAULTS)]
