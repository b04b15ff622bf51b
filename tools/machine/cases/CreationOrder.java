package cases;

/** A creation initializes its class, superclasses first, before it evaluates its arguments (JLS 12.4.1, 15.9.4). */
class CreationOrder {
    static int log = 4;

    static int f(String s) {
        System.out.print(s + " ");
        return 1;
    }

    static int set(int n) {
        log = n;
        return n;
    }

    static int fail() {
        f("fail");
        throw new IllegalStateException();
    }

    static class Made {
        static int n = f("class");

        Made(int a) {
            f("constructor");
        }
    }

    static class High {
        static int n = f("high");
    }

    static class Low extends High {
        static int n = f("low");
        int own = f("field");

        Low(int a, Made b) {
            f("constructor");
        }
    }

    static class Reading {
        static int n = log;

        Reading(int a) {
        }
    }

    static class Failing {
        static int n = f("failing");

        Failing(int a) {
            f("not");
        }
    }

    static class Above {
        static int n = f("above");
    }

    class Inside extends Above {
        Inside(int a) {
            f("inside");
        }
    }

    static class Own {
        static Own one = new Own(f("within"));
        static int n = f("then");

        Own(int a) {
            f("own");
        }
    }

    static class Called {
        static int n = f("called");

        static int one(int a) {
            return a;
        }
    }

    static class Last {
        static int n = f("last");

        Last(int a) {
        }
    }

    Inside inside() {
        return new Inside(f("argument"));
    }

    public static void main(String[] args) {
        new Made(f("argument"));
        System.out.println();
        new Made(f("argument"));
        System.out.println();
        new Low(f("first"), new Made(f("second")));
        System.out.println();
        new Reading(set(7));
        System.out.println(Reading.n + " " + log);
        try {
            new Failing(fail());
        } catch (IllegalStateException e) {
            System.out.println("caught " + Failing.n);
        }
        new CreationOrder().inside();
        System.out.println();
        new Own(f("argument"));
        System.out.println();
        new Last(Called.one(f("argument")));
        System.out.println();
    }
}
