// Ratios in hundredths. The engine turns 3000 times a minute, the final drive divides by 4, a turn of the wheel is two metres.
// Reverse is a gear like the others, but for its sign.
// The mechanic should find: the road speed in metres a minute in the gears 1 to 5, then in reverse.
class Lesson {
    public static void main(String[] a) {
        System.out.println(new Gearbox().test(3000));
    }
}

class Gear {
    int ratio;

    public Gear cut(int hundredths) {
        ratio = hundredths;
        return this;
    }

    public int direction() { return 1; }

    public int speed(int turns) { return this.direction() * this.divide(turns * 100 * 2, ratio * 4); }

    // Half of the quotient comes from twice the divisor, so few steps are enough.
    public int divide(int n, int by) {
        int result;
        result = 0;
        if (n < by) {} else {
            result = 2 * this.divide(n, by + by);
            if (n - result * by < by) {} else result = result + 1;
        }
        return result;
    }
}

class Reverse extends Gear {
    public int direction() { return 0 - 1; }
}

class Gearbox {
    public Gear choose(int k) {
        Gear g;
        if (k < 1) g = new Reverse().cut(350);
        else if (k < 2) g = new Gear().cut(360);
        else if (k < 3) g = new Gear().cut(210);
        else if (k < 4) g = new Gear().cut(140);
        else if (k < 5) g = new Gear().cut(100);
        else g = new Gear().cut(80);
        return g;
    }

    public int test(int turns) {
        int k;
        k = 1;
        while (k < 6) {
            System.out.println(this.choose(k).speed(turns));
            k = k + 1;
        }
        return this.choose(0).speed(turns);
    }
}
