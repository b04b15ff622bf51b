package cases;

/** When and in which order classes are initialized. */
class StaticOrder {
    static int f(String s, int n) {
        System.out.print(s + n + " ");
        return n;
    }

    static class High {
        static int a = f("High.a", 1);
        static int none;
        static {
            none = f("High.init", none + 7);
        }
        static final int CONSTANT = 5;
        static int b = f("High.b", a + none);
    }

    static class Low extends High {
        static int c = f("Low.c", b);

        static void call() {
            System.out.print("call ");
        }
    }

    static class Made extends High {
        static int d = f("Made.d", 2);
        int e = f("Made.e", 3);
    }

    static class Forward {
        static int early = later();
        static int late = 9;

        static int later() {
            return late + 1;
        }
    }

    static class Near {
        static int n = f("Near", Far.m + 1);
    }

    static class Far {
        static int m = f("Far", Near.n + 1);
    }

    interface Face {
        int FIRST = f("Face", 1);
    }

    static class Faced implements Face {
        static int g = f("Faced", 2);
    }

    public static void main(String[] args) {
        System.out.println(High.CONSTANT);
        System.out.println(Low.a);
        System.out.println("then");
        Low.call();
        Low.call();
        System.out.println();
        Made none = null;
        System.out.println(none == null);
        new Made();
        new Made();
        System.out.println();
        System.out.println(Forward.early + " " + Forward.late);
        System.out.println(Near.n + " " + Far.m);
        System.out.println(Faced.g);
        System.out.println(Faced.FIRST);
        High[] array = new High[1];
        System.out.println(array.length);
    }
}
