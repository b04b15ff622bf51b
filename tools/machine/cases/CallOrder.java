package cases;

/** The receiver, then the arguments from left to right, then the null check, then the call. */
class CallOrder {
    int kept = 7;

    static int f(int n) {
        System.out.print("f" + n + " ");
        return n;
    }

    static CallOrder on(CallOrder object) {
        System.out.print("on ");
        return object;
    }

    int sum(int a, int b) {
        System.out.print("sum ");
        return kept + a * 10 + b;
    }

    static int twice(int a, int b) {
        return f(a) + f(b);
    }

    public static void main(String[] args) {
        System.out.println(on(new CallOrder()).sum(f(1), f(2)));
        try {
            on(null).sum(f(3), f(4));
        } catch (NullPointerException e) {
            System.out.println("null");
        }
        try {
            on(null).sum(f(5), f(1) / f(0));
        } catch (ArithmeticException e) {
            System.out.println("zero");
        }
        System.out.println(twice(f(1), twice(f(2), f(3))));
        System.out.println(on(null).twice(f(1), f(2)));
    }
}
