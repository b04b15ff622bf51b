package cases;

/** What null throws, and what it does not. */
class Nulls {
    int n;
    Nulls next;
    static int shared = 3;

    int get() {
        return n;
    }

    static int attempt(int what, Nulls none, int[] array, String text) {
        switch (what) {
            case 0:
                return none.n;
            case 1:
                return none.get();
            case 2:
                return array.length;
            case 3:
                return array[0];
            case 4:
                return text.length();
            case 5:
                none.next.n = 3;
                return 0;
            case 6:
                throw null;
            case 7:
                return none.next.next.n;
            case 8:
                if (none.equals(null)) {
                    return 1;
                }
                return 2;
            default:
                return none.shared;
        }
    }

    public static void main(String[] args) {
        for (int i = 0; i < 10; i++) {
            try {
                System.out.println(i + " " + attempt(i, null, null, null));
            } catch (NullPointerException e) {
                System.out.println(i + " null");
            }
        }
        Nulls none = null;
        System.out.println(none == null);
        System.out.println((Nulls) null == none);
        System.out.println(none instanceof Nulls);
        System.out.println("" + none + null);
        System.out.println(new Nulls().equals(null));
    }
}
