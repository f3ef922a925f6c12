// Four pressures in hundredths of a bar: front left, front right, rear left, rear right.
// The mechanic should find: the mean pressure; then, for each wheel that is more than 15 below it, its number from 1 and what is missing;
// last, 1 if an axle is uneven by more than 10, else 0.
class Lesson {
    public static void main(String[] a) {
        System.out.println(new Tyres().measure(231, 238, 209, 246).report());
    }
}

class Tyres {
    int[] pressure;

    public Tyres measure(int a, int b, int c, int d) {
        pressure = new int[4];
        pressure[0] = a; pressure[1] = b; pressure[2] = c; pressure[3] = d;
        return this;
    }

    // There is no division, so the sum is shared out.
    public int mean() {
        int sum;
        int each;
        sum = pressure[0] + pressure[1] + pressure[2] + pressure[3];
        each = 0;
        while (!(sum < 4)) {
            sum = sum - 4;
            each = each + 1;
        }
        return each;
    }

    public boolean isEven(int left, int right) {
        int gap;
        gap = pressure[left] - pressure[right];
        return gap < 11 && 0 - 11 < gap;
    }

    public int report() {
        int mean;
        int wheel;
        int uneven;
        mean = this.mean();
        System.out.println(mean);
        wheel = 0;
        while (wheel < pressure.length) {
            if (pressure[wheel] + 15 < mean) {
                System.out.println(wheel + 1);
                System.out.println(mean - pressure[wheel]);
            } else {}
            wheel = wheel + 1;
        }
        if (this.isEven(0, 1) && this.isEven(2, 3)) uneven = 0; else uneven = 1;
        return uneven;
    }
}
