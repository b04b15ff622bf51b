package cases;

/** The method that a call runs. */
class Dispatch {
    interface Face {
        String name();
    }

    static abstract class High implements Face {
        public String name() {
            return "High";
        }

        private String secret() {
            return "High.secret";
        }

        String secrets() {
            return secret() + " " + kind() + " " + name();
        }

        abstract String kind();

        static String fixed() {
            return "High.fixed";
        }
    }

    static class Low extends High {
        public String name() {
            return "Low" + super.name();
        }

        private String secret() {
            return "Low.secret";
        }

        String kind() {
            return "low " + secret();
        }

        static String fixed() {
            return "Low.fixed";
        }

        String n = "Low.n";
    }

    static class Lowest extends Low {
        public String name() {
            return "Lowest" + super.name();
        }

        String n = "Lowest.n";
    }

    static String over(Object o) {
        return "object";
    }

    static String over(High h) {
        return "high";
    }

    static String over(long l) {
        return "long" + l;
    }

    static String over(int i) {
        return "int" + i;
    }

    public static void main(String[] args) {
        High[] all = {new Low(), new Lowest()};
        for (int i = 0; i < all.length; i++) {
            Face face = all[i];
            System.out.println(face.name() + " " + all[i].secrets());
            System.out.println(over(face) + over(all[i]) + over('c') + over(7L));
            System.out.println(all[i].fixed() + " " + Low.fixed());
        }
        Lowest lowest = new Lowest();
        Low low = lowest;
        System.out.println(low.n + " " + lowest.n + " " + ((Low) lowest).n);
        Object o = new int[1];
        System.out.println(o.equals(o));
        System.out.println(low.equals(lowest));
        System.out.println("a".equals("b"));
    }
}
