package cases;

/** An exception of the machine itself, out of the start method. */
class UncaughtCast {
    public static void main(String[] args) {
        Object o = "text";
        System.out.println("before");
        System.out.println(((int[]) o).length);
    }
}
