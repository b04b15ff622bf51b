package cases;

/** Indices and places out of bounds. */
class Bounds {
    static int read(int[] a, int at) {
        try {
            return a[at];
        } catch (ArrayIndexOutOfBoundsException e) {
            return -1;
        }
    }

    static char place(String text, int at) {
        try {
            return text.charAt(at);
        } catch (StringIndexOutOfBoundsException e) {
            return '?';
        }
    }

    public static void main(String[] args) {
        int[] a = {5, 6, 7};
        for (int i = -2; i < 5; i++) {
            System.out.print(read(a, i) + " ");
        }
        System.out.println(read(a, -2147483648) + read(a, 2147483647));
        for (int i = -1; i < 4; i++) {
            System.out.print(place("abc", i));
        }
        System.out.println();
        System.out.println(read(new int[0], 0));
        byte b = 1;
        char c = 2;
        System.out.println(a[b] + a[c]);
        try {
            System.out.println(a[3]);
        } catch (IndexOutOfBoundsException e) {
            System.out.println("caught above");
        }
        System.out.println(args.length);
    }
}
