// Six cells in a row, each in hundredths of a volt. At rest the battery looks well; under load one cell gives way.
// The mechanic should find: the voltage at rest, the voltage under load, and the number of the weakest cell, counted from 1.
class Lesson {
    public static void main(String[] a) {
        System.out.println(new LoadTest().report(new Battery().charge(212)));
    }
}

class Battery {
    int[] cells;

    public Battery charge(int level) {
        int k;
        cells = new int[6];
        k = 0;
        while (k < cells.length) {
            cells[k] = level;
            k = k + 1;
        }
        cells[3] = level - 3;
        return this;
    }

    public int count() { return cells.length; }

    // A load takes something from every cell, and four times as much from a tired one.
    public int cell(int k, int load) {
        int drop;
        if (cells[k] < 212) drop = 4 * load; else drop = load;
        return cells[k] - drop;
    }

    public int volts(int load) {
        int sum;
        int k;
        sum = 0;
        k = 0;
        while (k < this.count()) {
            sum = sum + this.cell(k, load);
            k = k + 1;
        }
        return sum;
    }
}

class LoadTest {
    public int report(Battery b) {
        int weakest;
        int k;
        System.out.println(b.volts(0));
        System.out.println(b.volts(15));
        weakest = 0;
        k = 1;
        while (k < b.count()) {
            if (b.cell(k, 15) < b.cell(weakest, 15)) weakest = k; else {}
            k = k + 1;
        }
        return weakest + 1;
    }
}
