package cases;

/**
 * A throw out of the initialization of a superclass. It ends the run at once, while in the language it goes on as an error, which a `finally` sees,
 * so what the reference machine prints stands apart.
 */
class InitThrowsAbove {
    static int fail() {
        System.out.println("fail");
        throw new IllegalStateException();
    }

    static class High {
        static int n = fail();
    }

    static class Low extends High {
        static int m = 3;

        static {
            System.out.println("not");
        }
    }

    public static void main(String[] args) {
        try {
            System.out.println(Low.m);
        } finally {
            System.out.println("finally");
        }
    }
}
