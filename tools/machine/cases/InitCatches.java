package cases;

/** An exception that an initialization catches itself does not end the run. */
class InitCatches {
    static class Careful {
        static int n;
        static {
            try {
                n = 1 / n;
            } catch (ArithmeticException e) {
                n = 4;
            } finally {
                n++;
            }
        }
    }

    static int fail() {
        throw new IllegalStateException();
    }

    public static void main(String[] args) {
        System.out.println(Careful.n);
        try {
            Careful.n = fail();
        } catch (IllegalStateException e) {
            System.out.println(Careful.n);
        }
    }
}
