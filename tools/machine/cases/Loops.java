package cases;

/** Loops, with break and continue. */
class Loops {
    static boolean test(String s, boolean b) {
        System.out.print(s + " ");
        return b;
    }

    public static void main(String[] args) {
        int i = 0;
        while (test("w", i < 3)) {
            i++;
            if (i == 2) {
                continue;
            }
            System.out.print(i + " ");
        }
        System.out.println();
        do {
            i--;
            if (i == 1) {
                continue;
            }
            System.out.print(i + " ");
        } while (test("d", i > 0));
        System.out.println();
        do {
            System.out.print("once ");
        } while (false);
        for (int a = 0, b = 10; a < b; a++, b -= 2) {
            if (a == 1) {
                continue;
            }
            if (a == 3) {
                break;
            }
            System.out.print(a + ":" + b + " ");
        }
        System.out.println();
        for (; ; ) {
            if (i++ > 3) {
                break;
            }
        }
        System.out.println(i);
        int sum = 0;
        for (int x = 0; x < 4; x++) {
            for (int y = 0; y < 4; y++) {
                if (y > x) {
                    break;
                }
                sum += x * y;
            }
        }
        System.out.println(sum);
        for (i = 0; i < 2; i++)
            ;
        System.out.println(i);
        while (i != 2) {
            System.out.println("never");
        }
    }
}
