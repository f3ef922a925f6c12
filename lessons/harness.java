// A wire is broken between two of its 40 connectors. Before the break there is a voltage, behind it there is none.
// Measuring in the middle halves what is left, so a few measurements find the break.
// The mechanic should find: each connector that is measured, then how often it was measured, last the connector behind the break.
class Lesson {
    public static void main(String[] a) {
        System.out.println(new Search().start(new Wire().breakAt(29)));
    }
}

class Wire {
    int broken;

    public Wire breakAt(int connector) {
        broken = connector;
        return this;
    }

    public int connectors() {
        return 40;
    }

    public boolean isLive(int connector) {
        return connector < broken;
    }
}

class Search {
    int measured;

    public int start(Wire w) {
        int found;
        found = this.between(w, 0, w.connectors());
        System.out.println(measured);
        return found;
    }

    // There is a voltage at `live`, and none at `dead`.
    public int between(Wire w, int live, int dead) {
        int middle;
        int found;
        if (live + 1 < dead) {
            middle = this.half(live + dead);
            measured = measured + 1;
            System.out.println(middle);
            if (w.isLive(middle)) found = this.between(w, middle, dead); else found = this.between(w, live, middle);
        } else found = dead;
        return found;
    }

    public int half(int n) {
        int k;
        k = 0;
        while (k + k + 1 < n) k = k + 1;
        return k;
    }
}
