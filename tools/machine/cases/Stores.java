package cases;

/** A component takes only what its array's own type takes. */
class Stores {
    static class Low extends Stores {
    }

    static boolean takes(Object[] array, Object value) {
        try {
            array[0] = value;
            return true;
        } catch (ArrayStoreException e) {
            return false;
        }
    }

    public static void main(String[] args) {
        System.out.println(takes(new Object[1], "a"));
        System.out.println(takes(new String[1], "a"));
        System.out.println(takes(new String[1], "a" + args.length));
        System.out.println(takes(new String[1], new Object()));
        System.out.println(takes(new String[1], null));
        System.out.println(takes(new Stores[1], new Low()));
        System.out.println(takes(new Low[1], new Stores()));
        System.out.println(takes(new Object[1], new int[1]));
        System.out.println(takes(new Object[1][], new int[1]));
        System.out.println(takes(new Object[1][], new String[1]));
        System.out.println(takes(new int[1][], new int[1]));
        System.out.println(takes(new int[1][], new long[1]));
        System.out.println(takes(new Stores[1][], new Low[1]));
        System.out.println(takes(new Low[1][], new Stores[1]));
    }
}
