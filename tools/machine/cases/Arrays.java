package cases;

/** Arrays made of items, and default values. */
class Arrays {
    static int f(int n) {
        System.out.print("f" + n + " ");
        return n;
    }

    public static void main(String[] args) {
        int[] a = {f(1), f(2), f(3)};
        System.out.println(a.length + a[2]);
        int[][] b = {{1}, {}, {2, 3, f(4)}, null};
        System.out.println(b.length + " " + b[2][2] + " " + b[1].length + " " + (b[3] == null));
        long[] l = {1, 'a', f(2)};
        System.out.println(l[0] + l[1] + l[2]);
        System.out.println(new boolean[1][0].length + " " + (new boolean[1][1])[0][0] + " " + new char[] {'x'}[0]);
        byte[] bytes = {1, -1};
        bytes[0] = 127;
        System.out.println(bytes[0] + bytes[1]);
        String[] texts = new String[2];
        System.out.println(texts[0] + texts[1]);
        Object o = a;
        a[0] = 9;
        System.out.println(((int[]) o)[0] + " " + (o == a) + " " + a.equals(new int[] {9, 2, 3}));
        try {
            int[] c = {f(1), f(1) / 0, f(2)};
            System.out.println(c[0]);
        } catch (ArithmeticException e) {
            System.out.println("zero");
        }
        int[][] shared = new int[2][];
        shared[0] = shared[1] = a;
        shared[0][1]++;
        System.out.println(shared[1][1]);
    }
}
