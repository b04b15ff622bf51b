package cases;

/** `finally` with break, continue and throw. */
class FinallyJumps {
    static void f(String s) {
        System.out.print(s + " ");
    }

    static void breaks() {
        while (true) {
            try {
                break;
            } finally {
                f("break");
            }
        }
        for (int i = 0;; i++) {
            try {
                if (i == 2) {
                    break;
                }
                f("i" + i);
            } finally {
                f("f" + i);
            }
        }
    }

    static void continues() {
        for (int i = 0; i < 3; i++) {
            try {
                if (i == 1) {
                    continue;
                }
                f("i" + i);
            } finally {
                f("f" + i);
            }
        }
    }

    static void labels() {
        outer:
        for (int i = 0; i < 3; i++) {
            try {
                for (int j = 0; j < 3; j++) {
                    try {
                        if (j == 1) {
                            continue outer;
                        }
                        if (i == 2) {
                            break outer;
                        }
                        f(i + "" + j);
                    } finally {
                        f("inner");
                    }
                }
            } finally {
                f("outer");
            }
        }
    }

    static void replaced() {
        for (int i = 0; i < 2; i++) {
            try {
                throw new IllegalStateException();
            } finally {
                f("swallowed");
                continue;
            }
        }
        try {
            try {
                throw new IllegalStateException("first");
            } finally {
                f("finally");
                throwNew();
            }
        } catch (IllegalArgumentException e) {
            f(e.getMessage());
        }
    }

    static void throwNew() {
        throw new IllegalArgumentException("second");
    }

    static void through() {
        try {
            try {
                f("try");
                throwNew();
                f("not");
            } finally {
                f("finally");
            }
            f("not");
        } catch (IllegalArgumentException e) {
            f("catch");
        } finally {
            f("last");
        }
        f("after");
    }

    public static void main(String[] args) {
        breaks();
        System.out.println();
        continues();
        System.out.println();
        labels();
        System.out.println();
        replaced();
        System.out.println();
        through();
        System.out.println();
    }
}
