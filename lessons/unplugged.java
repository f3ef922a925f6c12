// The second oil sensor was never plugged in: its field is null, and the run ends with fault 40 where it is asked.
// The reading before it is printed, and the argument of the failing call is still carried out, since a missing receiver shows only after all parts.
// The mechanic should find: 31, 7, and then 40 with the position of `rear.pressure` in this text. Nothing more is printed.
class Lesson {
    public static void main(String[] a) {
        System.out.println(new Panel().plugFront().check());
    }
}

class OilSensor {
    int tenths;

    public OilSensor set(int n) {
        tenths = n;
        return this;
    }

    public int pressure(int offset) {
        return tenths + offset;
    }
}

class Panel {
    OilSensor front;
    OilSensor rear;

    public Panel plugFront() {
        front = new OilSensor().set(30);
        return this;
    }

    public int offset() {
        System.out.println(7);
        return 2;
    }

    public int check() {
        System.out.println(front.pressure(1));
        System.out.println(rear.pressure(this.offset()));
        return 0;
    }
}
