// Codes as the reader gives them, some more than once. Each is put in its place in a list as it comes, with a count of its own.
// The mechanic should find: each code once, the smallest first, and behind it how often it came; last, how many different ones there are.
class Lesson {
    public static void main(String[] a) {
        System.out.println(new Reader().read());
    }
}

class Code {
    int number;
    int count;
    Code next;

    public Code init(int n, Code behind) {
        number = n;
        count = 1;
        next = behind;
        return this;
    }

    // The list that begins here, with one code more.
    public Code with(int n) {
        Code first;
        first = this;
        if (n < number) first = new Code().init(n, this);
        else if (number < n) next = next.with(n);
        else count = count + 1;
        return first;
    }

    public int show() {
        System.out.println(number);
        System.out.println(count);
        return 1 + next.show();
    }
}

// The end of every list: all codes come before it.
class End extends Code {
    public Code with(int n) {
        return new Code().init(n, this);
    }

    public int show() {
        return 0;
    }
}

class Reader {
    public int read() {
        Code list;
        list = new End();
        list = list.with(301).with(420).with(171).with(301);
        list = list.with(128).with(420).with(301);
        return list.show();
    }
}
