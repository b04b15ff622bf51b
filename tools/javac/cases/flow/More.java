public class More extends Base {
    static {
        int a = h();
        for (int i = 0; i < a; i++) {
            try {
                if (p(i)) continue;
                one = new Base(a / i, one);
            } catch (ArithmeticException e) {
                break;
            } finally {
                count += i;
            }
        }
    }

    More(int a) {
        super(a);
    }

    void statics(More o, int a) {
        o.count = g(a);
        o.self(a).count++;
        o.self(1).one.count = o.h();
        run(o.self(a).g(3));
        o.one.next = ((Base) o).one;
        ((Base) o).run(a);
        this.count += a;
    }

    int cases(int a) {
        final int two = 2;
        final byte three = 3;
        switch (a) {
            case two:
                run(1);
            case three + two:
                run(2);
        }
        return switched(2);
    }

    int switched(int a) {
        switch (3) {
            case 1:
                return g(a);
            case 3:
                a = 5;
        }
        switch (a) {
            case 1:
                int x;
            default:
                x = 3;
                a = x;
        }
        return a;
    }

    int paren(int a, int[] b, More o) {
        (a)++;
        --(b[(a)]);
        int x = ((a)) + (o).v;
        (o.next).v = (x = (a));
        ((o)).next.v++;
        (b)[(x)] = (a);
        return (p(x) ? (a) : ((x)));
    }

    boolean ops(boolean x, boolean y, int a, long n) {
        x &= y = p(a);
        x |= y && p(a);
        x ^= !y;
        boolean z = x == y != p(a);
        z = !(a < g(a)) | ~a > 2;
        a >>>= n = 2;
        a = a << n >> (int) n;
        a = -a + +a;
        n += a;
        char c = 'a';
        c += a;
        c++;
        byte d = (byte) c;
        d--;
        a = c = (char) d;
        return x ? y : z;
    }

    void infinite(int a) {
        for (; ; ) {
            try {
                run(a);
            } finally {
                continue;
            }
        }
    }

    int never(int a) {
        try {
            throw new Error();
        } finally {
            return a;
        }
    }

    Error lost(Error e) throws Throwable {
        try {
            throw e;
        } catch (Throwable t) {
            e = null;
            throw t;
        } finally {
            run(1);
            if (q(e)) return e;
        }
    }
}

class Held extends Base {
    static int[][] held = { { g(1), count++ }, list(h()), null };

    Held(int a) {
        super(held[a][0]);
    }
}
