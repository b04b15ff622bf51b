package cases;

/** Each turn makes an object, and prints and joins strings. */
class GrowingHeap {
    GrowingHeap below;
    String name;

    GrowingHeap(GrowingHeap below, int n) {
        this.below = below;
        name = "n" + n;
    }

    public static void main(String[] args) {
        GrowingHeap last = null;
        int n = 0;
        while (true) {
            last = new GrowingHeap(last, n++);
            System.out.print(last.name);
        }
    }
}
