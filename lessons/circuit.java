// Lamps of 48 ohms. In series the ohms add up; side by side their product is divided by their sum.
// A circuit is a part that is made of parts, so its ohms are worked out by recursion.
// The mechanic should find, at 12 volts: the milliamperes of the four rear lamps; those of the whole, with the dash lamp in series; how many lamps burn.
class Lesson {
    public static void main(String[] a) {
        System.out.println(new Loom().measure());
    }
}

class Lamp {
    public int ohms() { return 48; }

    public int lamps() { return 1; }

    public int current(int volts) { return this.divide(volts * 1000, this.ohms()); }

    public int divide(int n, int by) {
        int k;
        k = 0;
        while (!(n < by)) {
            n = n - by;
            k = k + 1;
        }
        return k;
    }
}

class Series extends Lamp {
    Lamp left;
    Lamp right;

    public Lamp join(Lamp a, Lamp b) {
        left = a;
        right = b;
        return this;
    }

    public int ohms() { return left.ohms() + right.ohms(); }

    public int lamps() { return left.lamps() + right.lamps(); }
}

class SideBySide extends Series {
    public int ohms() { return this.divide(left.ohms() * right.ohms(), left.ohms() + right.ohms()); }
}

class Loom {
    public Lamp pair(Lamp a, Lamp b) { return new SideBySide().join(a, b); }

    public int measure() {
        Lamp rear;
        Lamp whole;
        rear = this.pair(this.pair(new Lamp(), new Lamp()), this.pair(new Lamp(), new Lamp()));
        System.out.println(rear.current(12));
        whole = new Series().join(new Lamp(), rear);
        System.out.println(whole.current(12));
        return whole.lamps();
    }
}
