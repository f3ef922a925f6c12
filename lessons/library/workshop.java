// The course library: classes that any lesson may use. It has no main. A lesson that has a class of one of these names keeps its own, and the other classes here use that one too.

// What the language has no sign for, of numbers that are not negative.
class Numbers {
    public int divide(int n, int by) {
        int k;
        k = 0;
        while (!(n < by)) {
            n = n - by;
            k = k + 1;
        }
        return k;
    }

    public int larger(int a, int b) {
        int found;
        if (a < b) found = b; else found = a;
        return found;
    }
}

// Readings, in the order in which they were taken.
class Readings {
    int[] values;
    int count;

    public Readings room(int most) {
        values = new int[most];
        count = 0;
        return this;
    }

    public int add(int value) {
        values[count] = value;
        count = count + 1;
        return count;
    }

    public int count() { return count; }

    public int at(int k) { return values[k]; }

    public int sum() {
        int k;
        int sum;
        k = 0;
        sum = 0;
        while (k < count) {
            sum = sum + values[k];
            k = k + 1;
        }
        return sum;
    }

    public int mean() { return new Numbers().divide(this.sum(), count); }

    public int largest() {
        int k;
        int found;
        k = 1;
        found = values[0];
        while (k < count) {
            found = new Numbers().larger(found, values[k]);
            k = k + 1;
        }
        return found;
    }
}

/* A meter shows what it measures, and so does this one. A lesson about a worse meter
   has a class Meter { public int shows(int value) { .. } } of its own. */
class Meter {
    public int shows(int value) { return value; }
}

// Measures one thing after another.
class Bench {
    public Readings measure(Readings real) {
        Meter meter;
        Readings shown;
        int k;
        meter = new Meter();
        shown = new Readings().room(real.count());
        k = 0;
        while (k < real.count()) k = shown.add(meter.shows(real.at(k)));
        return shown;
    }
}
