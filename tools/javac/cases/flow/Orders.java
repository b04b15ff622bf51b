public class Orders extends Base {
    Orders(int a, Base b) {
        super(g(a), b.next);
        run(this.v);
    }

    int calls(Base o, int a) {
        int k = o.m(g(a), this.v, o.next.v) + h();
        k = o.self(a).self(k).next.m(k, a = h(), a);
        return m(k, count, Base.one.v) - super.v;
    }

    void writes(Base o, int a) {
        o.next.v = g(o.v);
        o.v = this.v = count = a = g(a);
        o.self(a).v = (a = 3) + a;
        super.next = one = o;
    }

    void places(int[] a, long[][] b, int i) {
        a[i] = a[g(i)] + a[i];
        a[i = 2] = i;
        b[g(i)][h()] = b[i][a[i]] + (i = 1);
        list(i)[h()] = list(h())[i];
        a[a.length - 1] = b[i].length;
    }

    void compounds(Base o, int[] a, int i) {
        i += g(i = 3);
        i -= 2;
        o.v += g(o.v);
        a[g(i)] *= a[i] + h();
        o.next.items[i] <<= o.next.v;
        count |= h();
        o.wide ^= i;
    }

    void steps(Base o, int[] a, int i, long n) {
        i++;
        --i;
        n++;
        o.v++;
        ++o.next.v;
        a[g(i)]--;
        a[i++]++;
        a[--i] = i-- + i;
        count--;
        n = n-- - ++n;
        run((int) o.wide++);
        a[i] = a[i]++ + ++a[i];
    }

    int divisions(Base o, int a, int b, long n) {
        a /= g(b);
        o.v %= o.next.v;
        list(a)[b] /= a % 3;
        n = n / (b = a) % n;
        b = 7 / 2 + a / (b / SEVEN);
        return g(a) / h() * (a % b);
    }

    Object casts(Object x, Base o, int a) {
        int k = ((Base) x).m((int) o.wide, (byte) a, (char) o.v);
        Object y = (Object) o.self(a);
        o = (Orders) o.self(k);
        int[] all = (int[]) (q(x) ? x : y);
        all[(short) k] = ((Orders) o).v;
        return (Base) (Orders) y;
    }

    Base creations(Base o, int a) {
        Base b = new Base(g(a), new Base(a = h(), o));
        b = new Orders(b.v, one).self(a);
        new Base(new Base(a).v);
        return new Base((a = 2) + a, new Orders(a, o.next));
    }

    int arrays(int a, Base o) {
        int[] one = { g(a), a = h(), a };
        int[][] two = { { o.v }, {}, { h(), one[0] } };
        long[][][] three = new long[g(a)][a = 2][];
        Base[] four = new Base[] { o, o.next, new Base(a) };
        Object[][] five = new Object[h()][];
        return (new int[] { h(), a })[g(one.length)] + new int[a].length;
    }

    int conditionals(int a, Base b) {
        int x = a > 0 ? g(a) : b == null ? h() : b.v;
        x += (a = x) == 2 ? b.v++ : x;
        Base c = q(b) ? b : b.next;
        c.v = (q(c) ? c : one).v;
        return x < g(x) ? list(x)[a] : a;
    }

    boolean shorts(Base b, int a) {
        boolean s = p(a) && q(b) || !p(b.v);
        boolean u = (a = h()) > 1 & p(a) | q(b) ^ p(h());
        s = s == !(u || b.v == 2) && b instanceof Orders;
        run((p(a) || q(b)) && u ? a : h());
        s &= p(a);
        return q(b) && (a = b.v) == 2 || a == count;
    }

    String sums(Object o, int a, Base b, String s, char[] c) {
        String x = "a" + o + g(a) + b.name;
        x = o + t(o);
        x += o;
        x += g(a) + b.v;
        b.name += o + x;
        x = s + (o + t(b));
        x = o + (b + t(o) + a);
        x = "k" + SEVEN + 'c' + a + "x" + 2;
        x = a + b.v + s + a + b.v;
        x = c + "" + (a = 3) + a;
        return (s = t(s)) + b.next + q(s);
    }

    void texts(String[] s, Object o, int a, Base b) {
        s[g(a)] += o;
        s[a] = s[a = 1] + s[h()] + null;
        s[a++] += t(o) + b.self(a) + t(b);
        String x = null + t(o);
        x = t(o + "k") + t("k" + (a > 1 ? o : b) + h());
        b.self(a).name += x + a;
        x = s[0] + (a + t(o));
    }
}
