package cases;

/** Operands go from left to right, and the right one is not reached where the left one throws. */
class BinaryOrder {
    static int f(int n) {
        System.out.print("f" + n + " ");
        return n;
    }

    static int fail() {
        System.out.print("fail ");
        throw new IllegalStateException();
    }

    public static void main(String[] args) {
        System.out.println(f(1) - f(2) * f(3));
        System.out.println((f(1) - f(2)) * f(3));
        System.out.println(f(1) << f(2) < f(3) | f(4) == f(5));
        try {
            System.out.println(fail() + f(1));
        } catch (IllegalStateException e) {
            System.out.println("thrown");
        }
        try {
            System.out.println(f(1) / f(0) + f(2));
        } catch (ArithmeticException e) {
            System.out.println("zero");
        }
        int i = 2;
        System.out.println(i * (i = 3));
        System.out.println((i = 5) * i);
        int j = 1;
        System.out.println(j++ + j);
        System.out.println("" + f(1) + f(2) + (f(3) + f(4)));
    }
}
