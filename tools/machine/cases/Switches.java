package cases;

/** `switch` with fall-through. */
class Switches {
    static int f(int n) {
        System.out.print("f" + n + " ");
        return n;
    }

    static void choose(int n) {
        switch (f(n)) {
            case 1:
                System.out.print("one ");
            case 2:
                System.out.print("two ");
                break;
            default:
                System.out.print("other ");
            case 3:
            case 4:
                System.out.print("three ");
                {
                    int local = n;
                    System.out.print(local + " ");
                }
                break;
            case -1:
        }
        System.out.println("end");
    }

    static String letters(String s) {
        String out = "";
        for (int i = 0; i < s.length(); i++) {
            switch (s.charAt(i)) {
                case 'a':
                    out += "A";
                    continue;
                case 'b':
                    out += "B";
                    break;
                case 'z':
                    return out + "!";
            }
            out += ".";
        }
        return out;
    }

    static final int SIX = 6;

    public static void main(String[] args) {
        for (int i = -2; i < 6; i++) {
            choose(i);
        }
        System.out.println(letters("abcazb"));
        byte b = 6;
        switch (b) {
            case SIX - 1:
                System.out.println("five");
            case SIX:
                System.out.println("six");
                switch (b + 1) {
                    case 7:
                        System.out.println("seven");
                        break;
                    default:
                        System.out.println("not");
                }
            case 100:
                System.out.println("hundred");
        }
        switch (b) {
        }
        try {
            switch (1 / (b - 6)) {
                default:
                    System.out.println("not");
            }
        } catch (ArithmeticException e) {
            System.out.println("zero");
        }
    }
}
