package cases;

/** Each turn puts a frame on. */
class GrowingStack {
    static int deeper(int n) {
        return deeper(n + 1) + 1;
    }

    public static void main(String[] args) {
        deeper(0);
    }
}
