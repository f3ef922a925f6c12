// A parked car drains its battery of 45 ampere hours. The current through each of six fuses is measured, in milliamperes, with a meter that was dropped and shows 4 too many.
// Readings, Bench and Numbers stand in the course library, workshop.java; so does a Meter, but this lesson has its own, and the library's Bench measures with it.
// The mechanic should find: what the meter shows of all fuses together; their mean; the largest, which is the radio's; then, with 4 taken from each,
// the current that really flows; and how many hours the battery lasts with it.
class Lesson {
    public static void main(String[] a) {
        System.out.println(new Parked().lasts(45));
    }
}

class Meter {
    public int shows(int value) { return value + this.tooMany(); }

    public int tooMany() { return 4; }
}

class Parked extends Bench {
    public Readings fuses() {
        Readings real;
        int taken;
        real = new Readings().room(6);
        taken = real.add(12) + real.add(0) + real.add(3) + real.add(310) + real.add(7) + real.add(0);
        return real;
    }

    public int lasts(int ampereHours) {
        Readings shown;
        int flows;
        shown = this.measure(this.fuses());
        System.out.println(shown.sum());
        System.out.println(shown.mean());
        System.out.println(shown.largest());
        flows = shown.sum() - shown.count() * new Meter().tooMany();
        System.out.println(flows);
        return new Numbers().divide(ampereHours * 1000, flows);
    }
}
