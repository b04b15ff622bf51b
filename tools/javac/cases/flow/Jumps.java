public class Jumps extends Base {
    Jumps() {
        super(1, null);
    }

    int groups(int k, Base o) {
        int x = 0;
        switch (g(k)) {
            case 1:
                x = o.v;
            case 2:
            case SEVEN:
                run(x);
                break;
            default:
                x = h();
            case 3:
                if (p(x)) {
                    return x;
                }
                k = x;
        }
        switch (k) {
            case 4:
                x = 1;
        }
        switch (x) {
        }
        return x + k;
    }

    int labels(int[][] a, int n) {
        int s = 0;
        outer: for (int i = 0; i < n; i++) {
            inner: for (int j = g(i); ; j += h()) {
                if (p(j)) {
                    continue outer;
                }
                s += a[i][j];
                while (p(s)) {
                    if (s == 3) {
                        continue inner;
                    }
                    if (s == 4) {
                        break outer;
                    }
                    s = g(s);
                    if (s == 5) {
                        break inner;
                    }
                }
                if (s == 6) {
                    break;
                }
            }
            run(s);
        }
        return s;
    }

    int fors(int n, Base o) {
        int i;
        int s = 0;
        for (i = h(), run(n); p(i); i++, s += o.v, run(s)) {
            if (i == n) {
                continue;
            }
            s = g(i);
        }
        for (int j = g(1), k = j + h(); k < n; ) {
            n = j;
        }
        for (; ; n++) {
            if (p(n)) {
                break;
            }
        }
        for (; n < 3; ) {
            for (int k = 1; k < 2; k++)
                ;
            n = h();
        }
        return s + i;
    }

    int dos(int n) {
        do {
            n = g(n);
            if (p(n)) {
                continue;
            }
            if (n == 3) {
                break;
            }
            run(n);
        } while (g(n) < h());
        l: do {
            do {
                if (p(n)) {
                    continue l;
                }
                n = 2;
            } while (n++ < 4);
        } while (p(n--));
        return n;
    }

    int whiles(int n, Base o) {
        while (true) {
            if (p(n)) {
                n = h();
                break;
            }
            o = o.next;
        }
        while ((n = g(n)) > 0) {
            o.v = n;
        }
        while (o != null && o.v != n) {
            o = o.next;
        }
        do {
            n++;
            if (p(n)) {
                return n;
            }
        } while (true);
    }

    int conditions(int a, Base o) {
        if (p(a) && q(o)) {
            a = 1;
        } else if (!p(a) || !(q(o) && p(o.v))) {
            a = h();
        }
        if ((a > 2 ? p(a) : q(o)) || o.v == a) {
            run(a);
        }
        while (!(a < 3 || p(a)) && !q(o)) {
            a = g(a);
        }
        for (int i = 0; p(i) || i < 5 && q(o); i++) {
            run(i);
        }
        do {
            a = o.v;
        } while (a < 3 && (p(a) || q(o)));
        boolean b;
        if (b = p(a) && q(o)) {
            run(4);
        }
        return b == true || a == 1 ? a : h();
    }

    int constants(int a) {
        final int two = 2;
        final boolean no = false;
        final int late;
        if (no) {
            run(two);
        } else {
            a += two;
        }
        late = g(two);
        if (SEVEN > two || p(a)) {
            a = late;
        }
        if (no && p(a)) {
            run(1);
        }
        int x = true ? g(late) : h();
        while (two == 2) {
            if (p(x)) {
                return x;
            }
            if (p(two)) {
                break;
            }
        }
        run(two);
        return a;
    }

    int looped(int k, Base o) {
        for (int i = 0; i < k; i++) {
            try {
                switch (o.v) {
                    case 1:
                        continue;
                    case 2:
                        break;
                    case 3:
                        return i;
                    default:
                        run(k);
                }
                k = g(i);
            } catch (RuntimeException e) {
                switch (k) {
                    case 1:
                        throw e;
                    default:
                        break;
                }
            } finally {
                switch (i) {
                    case 4:
                        o = o.next;
                        break;
                    case 5:
                        k = 0;
                }
            }
        }
        return k;
    }

    void blocks(int a, Base o) {
        a: {
            {
                int b = a;
                if (p(b)) break a;
                else {
                    ;
                }
            }
            if (q(o)) {
            } else run(a);
            b: if (p(1)) {
                if (p(2))
                    break b;
                else
                    break a;
            }
            int c, d = a, e = d++;
            c = e;
            run(c);
            return;
        }
        run(0);
    }
}
