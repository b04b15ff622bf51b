package cases;

/** `&&`, `||`, `?:` and the operators on booleans. */
class Conditions {
    static boolean t(String s) {
        System.out.print(s + " ");
        return true;
    }

    static boolean f(String s) {
        System.out.print(s + " ");
        return false;
    }

    static int n(int k) {
        System.out.print("n" + k + " ");
        return k;
    }

    public static void main(String[] args) {
        System.out.println(f("a") && t("b"));
        System.out.println(t("a") && f("b"));
        System.out.println(t("a") || f("b"));
        System.out.println(f("a") || t("b"));
        System.out.println(f("a") & t("b"));
        System.out.println(t("a") | f("b"));
        System.out.println(t("a") ^ t("b"));
        System.out.println(t("a") == f("b"));
        System.out.println(t("a") != f("b"));
        System.out.println(!t("a") || !f("b") && t("c"));
        System.out.println(t("a") ? n(1) : n(2));
        System.out.println(f("a") ? n(1) : t("b") ? n(3) : n(4));
        System.out.println(f("a") ? 1 : 'b');
        System.out.println(f("a") ? n(1) : 2L);
        System.out.println(t("a") ? "s" : null);
        boolean b = true;
        b &= f("and");
        b |= t("or");
        b ^= t("xor");
        System.out.println(b);
        if (b = true) {
            System.out.println("set");
        }
        if (n(1) < n(2) == n(3) >= n(3)) System.out.println("less");
        else System.out.println("not");
    }
}
