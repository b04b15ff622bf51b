public class Base {
    int v;
    long wide;
    Base next;
    int[] items;
    String name;
    static int count;
    static Base one;
    static final int SEVEN = 7;

    Base(int v, Base next) {
        super();
        count++;
        this.v = g(v);
        this.next = next;
    }

    Base(int v) {
        this(g(v), new Base(h(), null));
        run(v);
    }

    native int m(int a, int b, int c);

    native Base self(int a);

    static native int g(int a);

    static native int h();

    static native void run(int a);

    static native boolean p(int a);

    static native boolean q(Object o);

    static native String t(Object o);

    static native int[] list(int a);
}
