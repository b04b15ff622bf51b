package cases;

/** In a compound assignment to a component the checks and the reading of the old value come before the right side. */
class ArrayCompound {
    static int[] kept = {1, 2, 3};

    static int f(int n) {
        System.out.print("f" + n + " ");
        return n;
    }

    static int[] array(int[] a) {
        System.out.print("array ");
        return a;
    }

    static int change() {
        kept[1] = 100;
        return 5;
    }

    public static void main(String[] args) {
        try {
            array(null)[f(1)] += f(2);
        } catch (NullPointerException e) {
            System.out.println("null");
        }
        try {
            array(kept)[f(3)] += f(2);
        } catch (ArrayIndexOutOfBoundsException e) {
            System.out.println("bounds");
        }
        try {
            array(kept)[f(-1)]++;
        } catch (ArrayIndexOutOfBoundsException e) {
            System.out.println("bounds");
        }
        try {
            array(kept)[f(0)] /= f(0);
        } catch (ArithmeticException e) {
            System.out.println("zero " + kept[0]);
        }
        System.out.println(array(kept)[f(1)] += change());
        System.out.println(kept[1]);
        int i = 0;
        System.out.println(kept[i++] += 10);
        System.out.println(kept[i++]++ + " " + --kept[i] + " " + i);
        System.out.println(kept[0] + " " + kept[1] + " " + kept[2]);
        long[] longs = {1};
        longs[0] <<= 40;
        longs[0] += 1;
        System.out.println(longs[0]);
        char[] chars = {'a'};
        chars[0] += 1;
        chars[0]++;
        System.out.println(chars[0]);
        String[] texts = {"a", null};
        texts[0] += 1 + 'b';
        texts[1] += texts[0];
        System.out.println(texts[1]);
    }
}
