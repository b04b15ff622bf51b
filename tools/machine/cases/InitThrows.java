package cases;

/** A throw out of the initialization of a class ends the run. */
class InitThrows {
    static class Failing {
        static int zero = 0;
        static int n = 1 / zero;
    }

    public static void main(String[] args) {
        System.out.println("before");
        System.out.println(Failing.n);
    }
}
