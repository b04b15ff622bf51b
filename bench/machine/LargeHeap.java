package cases;

/** The same loop behind 100,000 objects and an array of 100,000 components. */
class LargeHeap {
    LargeHeap below;

    LargeHeap(LargeHeap below) {
        this.below = below;
    }

    static int next(int n) {
        return n * 31 + 7;
    }

    static void loop(LargeHeap[] all) {
        int[] kept = new int[100000];
        int n = 1;
        while (true) {
            n = next(n);
            kept[n & 65535] += n;
        }
    }

    public static void main(String[] args) {
        LargeHeap last = null;
        LargeHeap[] all = new LargeHeap[100000];
        for (int i = 0; i < all.length; i++) {
            last = new LargeHeap(last);
            all[i] = last;
        }
        loop(all);
    }
}
