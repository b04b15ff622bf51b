package cases;

/** Frames, parameters and locals of their own. */
class Depth {
    static int sum(int n) {
        int own = n;
        if (n > 0) {
            int below = sum(n - 1);
            own += below;
        }
        return own;
    }

    static boolean even(int n) {
        return n == 0 || odd(n - 1);
    }

    static boolean odd(int n) {
        return n != 0 && even(n - 1);
    }

    static void change(int n, int[] a) {
        n = 5;
        a[0] = 5;
        a = null;
    }

    static long fib(int n) {
        return n < 2 ? n : fib(n - 1) + fib(n - 2);
    }

    public static void main(String[] args) {
        System.out.println(sum(1000));
        System.out.println(even(501));
        int n = 1;
        int[] a = {1};
        change(n, a);
        System.out.println(n + a[0]);
        System.out.println(fib(15));
        int late;
        if (n == 1) {
            late = 3;
        } else {
            late = 4;
        }
        {
            int inner = late;
            late = inner * 2;
        }
        {
            int inner = late + 1;
            System.out.println(inner);
        }
    }
}
