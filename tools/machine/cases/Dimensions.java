package cases;

/** A negative dimension throws after all dimensions are evaluated. */
class Dimensions {
    static int f(int n) {
        System.out.print("f" + n + " ");
        return n;
    }

    public static void main(String[] args) {
        try {
            int[][][] a = new int[f(2)][f(-1)][f(3)];
            System.out.println(a.length);
        } catch (NegativeArraySizeException e) {
            System.out.println("negative");
        }
        try {
            int[][] a = new int[f(-1)][f(1) / f(0)];
            System.out.println(a.length);
        } catch (ArithmeticException e) {
            System.out.println("zero");
        }
        try {
            int[][] a = new int[f(0)][f(-5)];
            System.out.println(a.length);
        } catch (NegativeArraySizeException e) {
            System.out.println("negative below zero items");
        }
        int[][][] a = new int[f(2)][f(3)][];
        System.out.println(a.length + " " + a[1].length + " " + (a[1][2] == null) + " " + (a[0] == a[1]));
        long[][] b = new long[2][2];
        b[0][1] = 5;
        System.out.println(b[0][1] + b[1][1]);
        byte small = 3;
        System.out.println(new String[small].length + " " + new boolean['\2'][1][0].length);
    }
}
