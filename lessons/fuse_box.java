// A slow fuse bears twice its rating for a moment, when a motor starts; a plain one does not.
// The box asks every fuse in the same way, and each answers after its own kind.
// The mechanic should find: the slots that are blown, counted from 1, and last how many they are.
class Lesson {
    public static void main(String[] a) {
        System.out.println(new Box().start());
    }
}

class Fuse {
    int rating;
    Fuse next;

    public Fuse fit(int amperes, Fuse behind) {
        rating = amperes;
        next = behind;
        return this;
    }

    public Fuse behind() { return next; }

    public int bears() { return rating; }

    public boolean blows(int amperes) { return this.bears() < amperes; }
}

class SlowFuse extends Fuse {
    public int bears() { return 2 * rating; }
}

class Box {
    Fuse none;

    // Slots 1 to 4: wiper, heater, radio, starter.
    public Fuse fitted() {
        return new SlowFuse().fit(10, new Fuse().fit(20, new Fuse().fit(5, new SlowFuse().fit(30, none))));
    }

    public int start() {
        Fuse fuse;
        int slot;
        int blown;
        int[] peak;
        peak = new int[4];
        peak[0] = 19; peak[1] = 24; peak[2] = 2; peak[3] = 61;
        fuse = this.fitted();
        slot = 0;
        blown = 0;
        while (slot < peak.length) {
            slot = slot + 1;
            if (fuse.blows(peak[slot - 1])) {
                System.out.println(slot);
                blown = blown + 1;
            } else {}
            fuse = fuse.behind();
        }
        return blown;
    }
}
