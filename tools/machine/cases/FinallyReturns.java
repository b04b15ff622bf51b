package cases;

/** `finally` with return. */
class FinallyReturns {
    static int n;

    static int f(int k) {
        System.out.print("f" + k + " ");
        return k;
    }

    static int plain() {
        try {
            return f(1);
        } finally {
            f(2);
        }
    }

    static int replaced() {
        try {
            return f(1);
        } finally {
            return f(2);
        }
    }

    static int swallowed() {
        try {
            throw new IllegalStateException();
        } finally {
            return f(3);
        }
    }

    static int kept() {
        int local = 1;
        try {
            return local;
        } finally {
            local = 2;
        }
    }

    static int nested() {
        try {
            try {
                return f(1);
            } finally {
                f(2);
            }
        } finally {
            f(3);
        }
    }

    static int fromCatch() {
        try {
            throw new IllegalStateException();
        } catch (IllegalStateException e) {
            return f(4);
        } finally {
            n = f(5);
        }
    }

    static void empty() {
        try {
            return;
        } finally {
            f(6);
        }
    }

    public static void main(String[] args) {
        System.out.println(plain());
        System.out.println(replaced());
        System.out.println(swallowed());
        System.out.println(kept());
        System.out.println(nested());
        System.out.println(fromCatch() + n);
        empty();
        System.out.println();
    }
}
