package cases;

/** Division and remainder. */
class Division {
    static int zero = 0;
    static long none = 0;

    static String attempt(int a, int b, long c, long d) {
        String s = "";
        try {
            s += a / b + " ";
        } catch (ArithmeticException e) {
            s += "/ ";
        }
        try {
            s += a % b + " ";
        } catch (ArithmeticException e) {
            s += "% ";
        }
        try {
            s += c / d + " ";
        } catch (ArithmeticException e) {
            s += "/ ";
        }
        try {
            s += c % d;
        } catch (ArithmeticException e) {
            s += "%";
        }
        return s;
    }

    public static void main(String[] args) {
        System.out.println(attempt(7, 2, 7, 2));
        System.out.println(attempt(-7, 2, -7, 2));
        System.out.println(attempt(7, -2, 7, -2));
        System.out.println(attempt(-2147483648, -1, -9223372036854775807L - 1, -1));
        System.out.println(attempt(1, 0, 1, 0));
        System.out.println(attempt(0, zero, 0, none));
        int x = 5;
        try {
            x /= zero;
        } catch (ArithmeticException e) {
            System.out.println(x);
        }
        x %= 3;
        System.out.println(x + 1 / 2);
        int least = -2147483648;
        least /= -1;
        System.out.println(least);
    }
}
