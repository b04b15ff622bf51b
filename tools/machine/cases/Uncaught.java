package cases;

/** A throw out of the start method. */
class Uncaught {
    static class Own extends RuntimeException {
    }

    static int depth(int n) {
        try {
            if (n == 0) {
                throw new Own();
            }
            return depth(n - 1) + 1;
        } finally {
            System.out.print(n + " ");
        }
    }

    public static void main(String[] args) {
        try {
            System.out.println(depth(3));
        } catch (IllegalStateException e) {
            System.out.println("not");
        }
    }
}
