package cases;

/** `this(..)` and `super(..)`, then the initializers in order of the text, then the rest of the body. */
class Constructors {
    static String log(String s) {
        System.out.print(s + " ");
        return s;
    }

    static class High {
        String h = log("h");

        High() {
            this(log("high argument"));
            log("High()");
        }

        High(String s) {
            log("High(" + s + ")");
            show();
        }

        void show() {
            log("show");
        }
    }

    static class Low extends High {
        int n = 7;
        String l = log("l");
        final String m;
        {
            log("init");
            m = "m";
        }
        String last = log("last" + n + m);

        Low() {
            this(1);
            log("Low()");
        }

        Low(int k) {
            super(log("low argument" + k));
            log("Low(" + k + ")" + n);
        }

        Low(String s) {
            log("Low(" + s + ")");
        }

        void show() {
            log("show " + n + l + m);
        }
    }

    static class Plain {
        int n;
        long l;
        boolean b;
        char c;
        byte y;
        short s;
        String t;
        int[] a;
    }

    static class Fails extends High {
        int n = log("fails").length() / 0;
    }

    public static void main(String[] args) {
        new High();
        System.out.println();
        new Low();
        System.out.println();
        System.out.println(new Low("s").n);
        Plain p = new Plain();
        System.out.println(p.n + " " + p.l + " " + p.b + " " + (int) p.c + " " + p.y + " " + p.s + " " + p.t + " " + p.a);
        try {
            new Fails();
        } catch (ArithmeticException e) {
            System.out.println("zero");
        }
    }
}
