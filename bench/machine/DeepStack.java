package cases;

/** The same loop below 100,000 frames. */
class DeepStack {
    static int next(int n) {
        return n * 31 + 7;
    }

    static void loop() {
        int[] kept = new int[16];
        int n = 1;
        while (true) {
            n = next(n);
            kept[n & 15] += n;
        }
    }

    static void below(int depth) {
        if (depth == 0) {
            loop();
        }
        below(depth - 1);
    }

    public static void main(String[] args) {
        below(100000);
    }
}
