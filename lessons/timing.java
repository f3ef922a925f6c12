// The spark comes earlier as the engine turns faster: a table has the advance in tenths of a degree for every 1000 turns a minute, with a straight line between.
// A knocking engine gets 70 tenths less, but never less than 0.
// The mechanic should find, for 800, 1500, 3200 and 6500 turns: the advance of a sound engine, then of a knocking one.
class Lesson {
    public static void main(String[] a) {
        System.out.println(new Strobe().check(new Ignition(), new Knocking()));
    }
}

class Ignition {
    int[] table;

    public int[] tuned() {
        table = new int[7];
        table[0] = 20; table[1] = 80; table[2] = 160; table[3] = 220;
        table[4] = 270; table[5] = 300; table[6] = 310;
        return table;
    }

    public int retard() { return 0; }

    public int advance(int turns) {
        int k;
        int tenths;
        k = 0;
        tenths = this.tuned()[0];
        while (k + 1 < table.length && 0 < turns) {
            if (turns < 1000) tenths = tenths + this.thousandth((table[k + 1] - table[k]) * turns); else tenths = table[k + 1];
            turns = turns - 1000;
            k = k + 1;
        }
        if (tenths < this.retard()) tenths = 0; else tenths = tenths - this.retard();
        return tenths;
    }

    public int thousandth(int n) {
        int k;
        k = 0;
        while (999 < n - 1000 * k) k = k + 1;
        return k;
    }
}

class Knocking extends Ignition {
    public int retard() { return 70; }
}

class Strobe {
    public int both(Ignition sound, Ignition knocking, int turns) {
        System.out.println(sound.advance(turns));
        return knocking.advance(turns);
    }

    public int check(Ignition sound, Ignition knocking) {
        System.out.println(this.both(sound, knocking, 800));
        System.out.println(this.both(sound, knocking, 1500));
        System.out.println(this.both(sound, knocking, 3200));
        return this.both(sound, knocking, 6500);
    }
}
