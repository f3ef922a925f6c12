// A starter gets its current through the battery's own resistance and through a corroded cable; in both some volts are lost. Volts, ohms and amperes are of type
// fixed, with three digits after the point; what is printed are thousandths, so 12650 is 12.650 volts.
// The mechanic should find: the millivolts at the starter with nothing turned on; those with 150 amperes, too few of them; how many the cable loses;
// how many after it was cleaned; and what the starter has then. Last, the milliamperes, by tens of amperes, that leave the starter at least 9.600 volts.
class Lesson {
    public static void main(String[] a) {
        System.out.println(new Bay().test(new Circuit().connect(12.650, 0.012, 0.011)));
    }
}

class Circuit {
    fixed rest;
    fixed inner;
    fixed cable;

    public Circuit connect(fixed volts, fixed battery, fixed lead) {
        rest = volts;
        inner = battery;
        cable = lead;
        return this;
    }

    // Ohms times amperes are volts.
    public fixed lost(fixed amperes) { return cable * amperes; }

    public fixed starter(fixed amperes) { return rest - inner * amperes - this.lost(amperes); }

    // A quarter of the ohms stays: 0.00275, of which all below a thousandth is cut off.
    public Circuit clean() {
        cable = cable * 0.250;
        return this;
    }
}

class Bay {
    public fixed most(Circuit c, fixed volts) {
        fixed amperes;
        amperes = 0.000;
        while (!(c.starter(amperes + 10.000) < volts)) amperes = amperes + 10.000;
        return amperes;
    }

    public fixed test(Circuit c) {
        System.out.println(c.starter(0.000));
        System.out.println(c.starter(150.000));
        System.out.println(c.lost(150.000));
        c = c.clean();
        System.out.println(c.lost(150.000));
        System.out.println(c.starter(150.000));
        return this.most(c, 9.600);
    }
}
