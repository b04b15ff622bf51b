package cases;

/** In an assignment to a field the null check follows the right side; in a compound one it comes first. */
class FieldAssignment {
    int n = 1;
    static int shared = 4;

    static int f(int n) {
        System.out.print("f" + n + " ");
        return n;
    }

    static FieldAssignment on(FieldAssignment object) {
        System.out.print("on ");
        return object;
    }

    int change() {
        n = 50;
        return 2;
    }

    public static void main(String[] args) {
        FieldAssignment object = new FieldAssignment();
        System.out.println(on(object).n = f(2));
        try {
            on(null).n = f(3);
        } catch (NullPointerException e) {
            System.out.println("null");
        }
        try {
            on(null).n += f(4);
        } catch (NullPointerException e) {
            System.out.println("null first");
        }
        try {
            on(null).n++;
        } catch (NullPointerException e) {
            System.out.println("null first");
        }
        System.out.println(object.n += object.change());
        System.out.println(object.n-- + " " + ++object.n);
        System.out.println(on(null).shared = f(5));
        System.out.println(on(null).shared += f(6));
        System.out.println(on(null).shared++ + " " + shared);
        FieldAssignment other = object;
        other.n = (other = new FieldAssignment()).n + 6;
        System.out.println(object.n + " " + other.n);
    }
}
