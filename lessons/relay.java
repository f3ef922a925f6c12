// The fan relay closes when the coolant reaches 96 degrees and opens only below 90, so that it does not chatter.
// The mechanic should find, for each reading, the temperature and then 1 for a closed relay or 0 for an open one;
// last, how often the relay switched.
class Lesson {
    public static void main(String[] a) {
        System.out.println(new Bench().drive(new Sensor().plug(), new Relay()));
    }
}

class Sensor {
    int[] readings;
    int next;

    public Sensor plug() {
        readings = new int[7];
        readings[0] = 84; readings[1] = 93; readings[2] = 96; readings[3] = 99;
        readings[4] = 92; readings[5] = 89; readings[6] = 95;
        return this;
    }

    public boolean more() { return next < readings.length; }

    public int read() {
        next = next + 1;
        return readings[next - 1];
    }
}

class Relay {
    boolean closed;
    int switched;

    public int close(boolean on) {
        if (on && !closed) switched = switched + 1; else {}
        if (closed && !on) switched = switched + 1; else {}
        closed = on;
        return switched;
    }

    public boolean isClosed() { return closed; }
}

class Bench {
    public int drive(Sensor coolant, Relay fan) {
        int degrees;
        int switched;
        switched = 0;
        while (coolant.more()) {
            degrees = coolant.read();
            System.out.println(degrees);
            if (fan.isClosed()) switched = fan.close(!(degrees < 90)); else switched = fan.close(!(degrees < 96));
            if (fan.isClosed()) System.out.println(1); else System.out.println(0);
        }
        return switched;
    }
}
