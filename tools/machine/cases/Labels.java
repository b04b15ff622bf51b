package cases;

/** Labeled statements. */
class Labels {
    public static void main(String[] args) {
        outer:
        for (int i = 0; i < 4; i++) {
            inner:
            for (int j = 0; j < 4; j++) {
                if (j == 2) {
                    continue outer;
                }
                if (i == 1) {
                    continue inner;
                }
                if (i == 3) {
                    break outer;
                }
                System.out.print(i + "" + j + " ");
            }
            System.out.print("not ");
        }
        System.out.println();
        block: {
            System.out.print("in ");
            if (args.length == 0) {
                break block;
            }
            System.out.print("not ");
        }
        System.out.println("out");
        int n = 0;
        two:
        while (n < 5) {
            n++;
            if (n == 2) {
                continue two;
            }
            if (n == 3) {
                continue two;
            }
            do {
                if (n == 4) {
                    break two;
                }
                System.out.print(n + " ");
                continue two;
            } while (true);
        }
        System.out.println(n);
        choice:
        switch (n) {
            case 4:
                for (;;) {
                    break choice;
                }
            default:
                System.out.print("not ");
        }
        System.out.println("end");
    }
}
