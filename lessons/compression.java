// Compression of four cylinders in tenths of a bar. One that is more than a quarter below the best is weak.
// With a little oil in it, worn rings give a better reading; a burnt valve does not.
// The mechanic should find, for each weak cylinder: its number from 1, its reading, and then 1 for the rings or 2 for the valve.
// Last, the best reading.
class Lesson {
    public static void main(String[] a) {
        System.out.println(new Engine().test());
    }
}

class Cylinder {
    public int dry() { return 121; }

    public int wet() { return this.dry() + 3; }
}

class WornRings extends Cylinder {
    public int dry() { return 82; }

    public int wet() { return this.dry() + 31; }
}

class BurntValve extends Cylinder {
    public int dry() { return 47; }
}

class Engine {
    public Cylinder cylinder(int number) {
        Cylinder c;
        c = new Cylinder();
        if (number < 2) {} else if (number < 3) c = new BurntValve(); else if (number < 4) {} else c = new WornRings();
        return c;
    }

    public int best(int number) {
        int best;
        int here;
        here = this.cylinder(number).dry();
        if (number < 2) best = here; else best = this.best(number - 1);
        if (best < here) best = here; else {}
        return best;
    }

    public int test() {
        int number;
        Cylinder c;
        number = 1;
        while (number < 5) {
            c = this.cylinder(number);
            if (4 * c.dry() < 3 * this.best(4)) {
                System.out.println(number);
                System.out.println(c.dry());
                if (c.dry() + 10 < c.wet()) System.out.println(1); else System.out.println(2);
            } else {}
            number = number + 1;
        }
        return this.best(4);
    }
}
