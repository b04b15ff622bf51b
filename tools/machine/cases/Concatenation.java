package cases;

/** How `+` shows its operands. */
class Concatenation {
    private String name;

    Concatenation(String name) {
        this.name = name;
    }

    public String toString() {
        System.out.print("<" + name + ">");
        return name;
    }

    public static void main(String[] args) {
        char c = 'c';
        byte b = -1;
        short s = 300;
        long l = -9223372036854775807L - 1;
        boolean t = true;
        String none = null;
        Object object = new Concatenation("o");
        Object empty = new Concatenation(null);
        int[] array = null;
        System.out.println("" + c + b + s + l + t + none + null + array);
        System.out.println(c + b + s + l + "");
        System.out.println(1 + 2 + "a" + 1 + 2 + 'b' + ('b' + 1));
        System.out.println("x" + object);
        System.out.println(object + "x" + object);
        System.out.println("y" + empty);
        System.out.println(none + none);
        String text = null;
        text += null;
        text += c;
        text += object;
        text += 1 == 1;
        System.out.println(text);
        System.out.print(c);
        System.out.print(l);
        System.out.print(t);
        System.out.print(none);
        System.out.print(object);
        System.out.println((Object) null);
        System.out.println(-2147483648 + "" + 0);
    }
}
