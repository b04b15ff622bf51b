package cases;

/** A native method that the machine does not do ends the run. */
class Natives {
    public static void main(String[] args) {
        System.out.println("before");
        int h = new Natives().hashCode();
        System.out.println("after");
    }
}
