package cases;

/** A static access through an expression evaluates it and makes no null check. */
class StaticThrough {
    static int n = 1;
    static StaticThrough none;

    static StaticThrough get(String s) {
        System.out.print(s + " ");
        return none;
    }

    static int twice(int k) {
        return 2 * k;
    }

    static StaticThrough fail() {
        throw new IllegalStateException();
    }

    public static void main(String[] args) {
        System.out.println(get("read").n);
        get("write").n = 5;
        System.out.println(n);
        get("add").n += get("inner").n;
        System.out.println(n);
        System.out.println(get("call").twice(get("argument").n));
        System.out.println(get("step").n++ + n);
        try {
            fail().n = 3;
        } catch (IllegalStateException e) {
            System.out.println(n);
        }
        System.out.println(none.twice(none.n));
    }
}
