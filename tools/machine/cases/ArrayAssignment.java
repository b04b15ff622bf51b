package cases;

/** In a plain assignment to a component, null, bounds and store are checked after the right side. */
class ArrayAssignment {
    static int f(int n) {
        System.out.print("f" + n + " ");
        return n;
    }

    static int[] array(int[] a) {
        System.out.print("array ");
        return a;
    }

    static Object text(String s) {
        System.out.print("text ");
        return s;
    }

    static int fail() {
        System.out.print("fail ");
        throw new IllegalStateException();
    }

    static void nulls() {
        try {
            array(null)[f(1)] = f(2);
        } catch (NullPointerException e) {
            System.out.println("null");
        }
        try {
            array(null)[f(9)] = fail();
        } catch (IllegalStateException e) {
            System.out.println("right side");
        }
    }

    static void bounds(int[] a) {
        try {
            array(a)[f(9)] = f(2);
        } catch (ArrayIndexOutOfBoundsException e) {
            System.out.println("bounds");
        }
        try {
            array(a)[fail()] = f(2);
        } catch (IllegalStateException e) {
            System.out.println("index");
        }
    }

    static void stores() {
        Object[] a = new ArrayAssignment[2];
        try {
            a[f(0)] = text("s");
        } catch (ArrayStoreException e) {
            System.out.println("store");
        }
        try {
            a[f(2)] = text("s");
        } catch (ArrayIndexOutOfBoundsException e) {
            System.out.println("bounds before store");
        }
        a[f(1)] = text(null);
        System.out.println(a[1] == null);
    }

    public static void main(String[] args) {
        int[] a = new int[3];
        System.out.println(array(a)[f(1)] = f(2));
        nulls();
        bounds(a);
        stores();
        int i = 0;
        a[i] = i = 2;
        System.out.println(a[0] + " " + a[1] + " " + a[2] + " " + i);
        int[] b = {10, 20, 30};
        a = b;
        a[i = 1] = (b = new int[] {7})[0];
        System.out.println(a[1] + " " + b.length);
    }
}
