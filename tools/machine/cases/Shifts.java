package cases;

/** Shifts use the low 5 or 6 bits of the count. */
class Shifts {
    static void all(int a, long b, int count) {
        System.out.println((a << count) + " " + (a >> count) + " " + (a >>> count));
        System.out.println((b << count) + " " + (b >> count) + " " + (b >>> count));
    }

    public static void main(String[] args) {
        all(1, 1, 33);
        all(-8, -8, 1);
        all(-1, -1, 31);
        all(-1, -1, 32);
        all(5, 5, 64);
        all(123456789, 123456789012345L, -1);
        long far = 4294967297L;
        System.out.println(3 << far);
        byte b = -1;
        System.out.println(b >>> 28);
        b >>>= 1;
        System.out.println(b);
        short s = 16384;
        s <<= 1;
        System.out.println(s);
        char c = 'a';
        System.out.println((c << 1) + " " + (c >> 1));
        System.out.println((12 & 10) + " " + (12 | 10) + " " + (12 ^ 10) + " " + (-1L & 255));
    }
}
