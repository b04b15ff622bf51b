package cases;

/** Equal constants are one object, `+` makes a new one. */
class Strings {
    static final String KEPT = "ab";
    static final int ONE = 1;
    static String made = "a";

    public static void main(String[] args) {
        String other = "ab";
        System.out.println(KEPT == other);
        System.out.println("a" + "b" == other);
        System.out.println(made + "b" == other);
        System.out.println((made + "b").equals(other));
        System.out.println("x" + ONE == "x1");
        String x = made + "b";
        System.out.println(x == x);
        System.out.println(x.equals(null));
        System.out.println(x.equals(new Object()));
        System.out.println("".length() + x.length() + " " + "abc".charAt(2));
        System.out.println(x.toString() == x);
        Object o = other;
        System.out.println(o == "ab");
        System.out.println(o.equals(x));
        String y = x;
        y += "c";
        System.out.println(x + " " + y);
        String empty = "";
        System.out.println(made + empty == made);
        System.out.println("\u00e9\t\\".length());
    }
}
