public class Tries extends Base {
    Tries(int a) {
        super(a);
        try {
            run(a);
        } finally {
            a = h();
        }
    }

    int plain(int a, Base o) {
        int x = 0;
        try {
            x = g(a);
            x = o.v / x;
            return x;
        } catch (ArithmeticException e) {
            run(x);
            x = q(e) ? 1 : a;
        } catch (NullPointerException e) {
            throw e;
        } finally {
            a = x;
            run(a);
        }
        return x;
    }

    int jumps(int a, int[] b) {
        int s = 0;
        for (int i = 0; i < b.length; i++) {
            try {
                if (p(i)) {
                    continue;
                }
                try {
                    if (b[i] > a) {
                        break;
                    }
                    s += b[i];
                } finally {
                    run(s);
                }
                if (s == 9) {
                    return g(s);
                }
            } finally {
                s = h();
            }
            a = s;
        }
        return a + s;
    }

    int overrides(int a) {
        try {
            try {
                return g(a);
            } finally {
                a = 2;
                if (p(a)) {
                    throw new RuntimeException(t(null));
                }
            }
        } finally {
            if (a == 3) {
                return a;
            }
            run(a);
        }
    }

    int nested(int a, Base o) {
        try {
            a = g(a);
            try {
                o.v = a;
                try {
                    return o.next.v;
                } finally {
                    run(1);
                    a = o.v;
                }
            } catch (RuntimeException e) {
                a = 4;
                run(2);
                throw new Error(t(e));
            } finally {
                run(a);
            }
        } catch (Error e) {
            return a + g(3);
        } finally {
            a = h();
        }
    }

    void rethrows(int a, Base o) throws Exception {
        try {
            run(a);
            throw new Exception(o.name);
        } catch (RuntimeException e) {
            o.v = a;
            throw e;
        } catch (Exception e) {
            Exception f = e;
            try {
                throw f;
            } catch (Exception g) {
                run(o.v);
            }
        } finally {
            try {
                o.next.v++;
            } catch (NullPointerException e) {
                a = 0;
            }
            run(a);
        }
    }

    void within(int a, Base o) {
        try {
            a = o.v;
        } finally {
            for (int i = h(); i < a; i++) {
                if (p(i)) {
                    break;
                }
                if (p(a)) {
                    continue;
                }
                try {
                    run(i);
                    if (i == 3) {
                        return;
                    }
                } finally {
                    a = i;
                }
            }
            o.v = a;
        }
        run(a);
    }

    int discards(int a) {
        while (p(a)) {
            try {
                if (a == 1) {
                    return g(a);
                }
                a = h();
            } finally {
                if (a == 2) {
                    continue;
                }
                if (p(a + 1)) {
                    break;
                }
                a = g(3);
            }
            run(a);
        }
        return a;
    }

    int labeled(int a, Base o) {
        int x = 1;
        out: {
            try {
                if (p(a)) {
                    break out;
                }
                x = g(a);
                in: try {
                    if (q(o)) {
                        break in;
                    }
                    x = o.v;
                    if (p(x)) {
                        break out;
                    }
                    run(x);
                } catch (RuntimeException e) {
                    x = 5;
                    break out;
                } finally {
                    run(x + 1);
                }
                x = h();
            } finally {
                a = x;
                run(a);
            }
            x = 7;
        }
        return x + a;
    }

    int silent(int a) {
        int x = 1;
        try {
            x = 2;
        } finally {
            x = x + a;
        }
        try {
            a = x;
        } catch (RuntimeException e) {
            run(a);
        }
        try {
            run(x);
        } catch (RuntimeException e) {
        } catch (Error e) {
            return x;
        }
        return a;
    }

    int deep(int a, Base o) {
        try {
            run(0);
        } catch (RuntimeException e) {
            try {
                a = o.v;
            } catch (NullPointerException f) {
                try {
                    return g(a);
                } finally {
                    a = 3;
                }
            } finally {
                try {
                    run(a);
                } finally {
                    a = h();
                }
            }
        } finally {
            try {
                a += o.v;
                return a;
            } catch (RuntimeException e) {
                a = 9;
            }
        }
        return a;
    }

    void arguments(int a, Base o, int[] b) {
        int x = 0;
        try {
            o.m(x = 1, b[x = 2], (x = 3) / a);
            b[x = g(x)] = o.m(x = 5, h(), x = 6);
            new Base(x = 7, new Base(x = 8));
            o.self(x = 9).v = x = g(x = 10);
        } catch (NullPointerException e) {
            run(x);
        }
        run(x);
    }

    void thrown(int a, Error o) {
        int x = 0;
        try {
            if (p(a)) {
                throw (x = g(1)) > 1 ? o : null;
            }
            x = 3;
            throw o;
        } catch (NullPointerException e) {
            run(x);
        } finally {
            x = 4;
            while (p(x)) {
                if (a == x) {
                    throw new Error(t(o));
                }
                a++;
            }
        }
        run(x);
    }
}
