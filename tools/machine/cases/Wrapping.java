package cases;

/** Arithmetic wraps, and narrowing conversions discard all but the lowest bits. */
class Wrapping {
    public static void main(String[] args) {
        int i = 2147483647;
        long l = 9223372036854775807L;
        System.out.println(i + 1);
        System.out.println(l + 1);
        System.out.println(i * i);
        System.out.println(l * l);
        System.out.println(-(i + 1));
        System.out.println(i + 1L);
        System.out.println(-2147483648 - i);
        System.out.println((byte) (i + 200) + " " + (short) 70000 + " " + (int) (char) -1 + " " + (int) l + " " + (long) i);
        byte b = 127;
        b++;
        System.out.print(b + " ");
        b -= 1;
        System.out.print(b + " ");
        b *= 3;
        System.out.println(b);
        short s = -32768;
        s--;
        System.out.println(s);
        char c = 65535;
        c++;
        System.out.println((int) c);
        c -= 1;
        System.out.println((int) c + " " + ++c);
        i += 5000000000L;
        System.out.println(i);
        i = 7;
        i *= l;
        System.out.println(i);
        b = (byte) (c = 'A');
        System.out.println(b + c + 1L);
        System.out.println(~i + " " + ~l + " " + +b + " " + -b);
    }
}
