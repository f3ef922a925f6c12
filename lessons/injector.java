// An injector opens with a delay of its own. The workshop's trim is a field of the same name in a class below: the object then holds both,
// and each method means the one that its own class sees.
// The mechanic should find: the delay as delivered, the opening time for 4000 microseconds of fuel, the trim, and the opening time with the trim;
// last, the delay again, which the trim has not touched.
class Lesson {
    public static void main(String[] a) {
        System.out.println(new Workshop().adjust(new Trimmed()));
    }
}

class Injector {
    int delay;

    public int deliver() {
        delay = 900;
        return delay;
    }

    public int delivered() { return delay; }

    public int open(int fuel) { return fuel + delay; }
}

class Trimmed extends Injector {
    int delay;

    public int trim(int by) {
        delay = delay + by;
        return delay;
    }

    // `delay` is the trim here; the delay as delivered is already in what `open` answers.
    public int corrected(int fuel) { return this.open(fuel) + delay; }
}

class Workshop {
    public int adjust(Trimmed t) {
        System.out.println(t.deliver());
        System.out.println(t.open(4000));
        System.out.println(t.trim(0 - 120));
        System.out.println(t.corrected(4000));
        return t.delivered();
    }
}
