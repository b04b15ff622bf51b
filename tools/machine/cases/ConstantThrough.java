package cases;

/** A static constant variable that is read through an expression: it is evaluated, null is fine, and no class is initialized. */
class ConstantThrough {
    static class Held {
        static final int X = 3;
        static final String S = "held";
        static final boolean YES = true;
        static final char C = 'c';
        static final byte B = -1;
        static final short SMALL = 300;
        static final long L = 1L << 40;
        static final int computed = twice(2);
        static int shared = 4;

        static {
            System.out.println("Held begins");
        }
    }

    interface Face {
        int Y = 7;
        Object made = say("Face begins");
    }

    static Object say(String s) {
        System.out.println(s);
        return null;
    }

    static int twice(int k) {
        return 2 * k;
    }

    static Held held(String s) {
        System.out.print(s + " ");
        return null;
    }

    static Face face(String s) {
        System.out.print(s + " ");
        return null;
    }

    static Held fail() {
        throw new IllegalStateException();
    }

    public static void main(String[] args) {
        System.out.println(held("int").X + 1);
        System.out.println(held("String").S + (held("same").S == "held"));
        System.out.println(held("boolean").YES);
        System.out.println(held("char").C);
        System.out.println(held("byte").B);
        System.out.println(held("short").SMALL);
        System.out.println(held("long").L);
        System.out.println(face("face").Y);
        try {
            System.out.println(fail().X);
        } catch (IllegalStateException e) {
            System.out.println("failed");
        }
        System.out.println("now");
        System.out.println(held("computed").computed);
        System.out.println(held("int").X);
        System.out.println(held("variable").shared);
        System.out.println(face("made").made == null);
        System.out.println(face("face").Y);
    }
}
