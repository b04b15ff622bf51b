package cases;

/** The first catch that fits takes the exception. */
class Catches {
    static class Own extends Exception {
        int n;

        Own(String s, int n) {
            super(s);
            this.n = n;
        }
    }

    static void fail(int what) throws Own {
        switch (what) {
            case 0:
                throw new Own("own", 4);
            case 1:
                throw new ArithmeticException("arithmetic");
            case 2:
                throw new StringIndexOutOfBoundsException();
            case 3:
                throw new Error("error");
            default:
                System.out.print("nothing ");
        }
    }

    static void attempt(int what) {
        try {
            fail(what);
            System.out.print("done ");
        } catch (Own e) {
            System.out.print(e.getMessage() + e.n + " ");
        } catch (ArithmeticException e) {
            System.out.print(e.getMessage() + " ");
        } catch (RuntimeException e) {
            System.out.print("runtime " + (e instanceof IndexOutOfBoundsException) + " ");
        } catch (Throwable e) {
            System.out.print("throwable " + e.getMessage() + " ");
        } finally {
            System.out.println("finally");
        }
    }

    static void again() throws Own {
        try {
            fail(0);
        } catch (Own e) {
            System.out.print("again ");
            throw e;
        } catch (Exception e) {
            System.out.print("not here ");
        }
    }

    public static void main(String[] args) {
        for (int i = 0; i < 5; i++) {
            attempt(i);
        }
        try {
            again();
        } catch (Own e) {
            System.out.println(e.getMessage());
        }
        try {
            try {
                fail(1);
            } catch (IllegalStateException e) {
                System.out.println("not here");
            }
        } catch (Exception e) {
            System.out.println("outer");
        }
        Exception kept = new IllegalStateException();
        try {
            throw kept;
        } catch (Exception e) {
            System.out.println(e == kept);
        }
    }
}
