package cases;

/** A loop in one frame, with calls, over a heap that does not grow. */
class Loop {
    static int next(int n) {
        return n * 31 + 7;
    }

    public static void main(String[] args) {
        int[] kept = new int[16];
        int n = 1;
        while (true) {
            n = next(n);
            kept[n & 15] += n;
        }
    }
}
