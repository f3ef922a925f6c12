// A strip of four relays is switched after two patterns, and each relay is asked whether it is closed. The contacts of the third are welded.
// The mechanic should find, for each pattern, the relays that are closed, counted from 1: 1 and 3, then 2 and 3 though only 2 should be;
// last, the first relay that did not open.
class Lesson {
    public static void main(String[] a) {
        System.out.println(new Bench().fit().test());
    }
}

class Relay {
    boolean closed;

    public boolean close(boolean on) {
        closed = on;
        return closed;
    }
}

class WeldedRelay extends Relay {
    public boolean close(boolean on) {
        closed = true;
        return closed;
    }
}

class Bench {
    Relay[] strip;
    boolean[] stuck;

    public Bench fit() {
        strip = new Relay[4];
        strip[0] = new Relay();
        strip[1] = new Relay();
        strip[2] = new WeldedRelay();
        strip[3] = new Relay();
        stuck = new boolean[strip.length];
        return this;
    }

    public int drive(boolean[] pattern) {
        boolean closed;
        int i;
        i = 0;
        while (i < strip.length) {
            closed = strip[i].close(pattern[i]);
            if (closed) System.out.println(i + 1); else {}
            if (closed && !pattern[i]) stuck[i] = true; else {}
            i = i + 1;
        }
        return i;
    }

    public int test() {
        boolean[] pattern;
        int i;
        pattern = new boolean[strip.length];
        pattern[0] = true;
        pattern[2] = true;
        i = this.drive(pattern);
        pattern[0] = false;
        pattern[1] = true;
        pattern[2] = false;
        i = this.drive(pattern);
        i = 0;
        while (i < stuck.length && !stuck[i]) i = i + 1;
        return i + 1;
    }
}
