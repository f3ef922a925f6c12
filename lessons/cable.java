// The coolant sensor hangs on the cable: with every hundredth step of the run a reading comes. The lesson waits for one, at most so many rounds, takes it, and
// lets the fan turn before it asks for the next; a reading that comes while another one waits takes its place, and a flag says that one was lost.
// The mechanic should find with no sensor on the cable, as bayrun has it: -1, since no reading comes; 0, since none is lost; and 0 readings taken.
// With a sensor: three readings, how often one was lost before them, and 3.
class Lesson {
    public static void main(String[] a) {
        System.out.println(new Gauge().watch(3));
    }
}

class Cable {
    int lost;

    // Bit 7 of the flags, in register 0, shows those of bits 0 and 1 that the mask in register 1 lets through: here bit 0, a reading waits in register 2.
    public Cable open() {
        Port.put(1, 1);
        return this;
    }

    public boolean waits() { return 127 < Port.get(0); }

    // A reading, which is gone once it is taken, or -1 where none comes.
    public int reading(int rounds) {
        int value;
        while (0 < rounds && !this.waits()) rounds = rounds - 1;
        if (this.waits()) {
            if (130 < Port.get(0)) lost = lost + 1; else {}
            Port.put(0, 2);
            value = Port.get(2);
        } else value = 0 - 1;
        return value;
    }

    public int lost() { return lost; }
}

class Gauge {
    public int fan(int rounds) {
        while (0 < rounds) rounds = rounds - 1;
        return rounds;
    }

    public int watch(int count) {
        Cable cable;
        int value;
        int taken;
        cable = new Cable().open();
        value = 0;
        taken = 0;
        while (taken < count && !(value < 0)) {
            value = cable.reading(20);
            System.out.println(value);
            if (!(value < 0)) taken = taken + 1 + this.fan(30); else {}
        }
        System.out.println(cable.lost());
        return taken;
    }
}
