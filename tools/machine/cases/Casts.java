package cases;

/** Casts and `instanceof`. */
class Casts {
    interface Face {
    }

    interface Wide extends Face {
    }

    static class Low extends Casts implements Wide {
    }

    static String kinds(Object o) {
        return (o instanceof Casts ? "C" : "-") + (o instanceof Low ? "L" : "-") + (o instanceof Face ? "F" : "-")
                + (o instanceof Wide ? "W" : "-") + (o instanceof String ? "S" : "-") + (o instanceof int[] ? "I" : "-")
                + (o instanceof Object[] ? "A" : "-") + (o instanceof Object ? "O" : "-");
    }

    static String cast(Object o) {
        try {
            Low low = (Low) o;
            return low == o ? "same" : "other";
        } catch (ClassCastException e) {
            return "no";
        }
    }

    public static void main(String[] args) {
        System.out.println(kinds(null) + " " + cast(null));
        System.out.println(kinds("a") + " " + cast("a"));
        System.out.println(kinds(new Casts()) + " " + cast(new Casts()));
        System.out.println(kinds(new Low()) + " " + cast(new Low()));
        System.out.println(kinds(new int[0]) + " " + cast(new int[0]));
        System.out.println(kinds(new Low[0]) + " " + cast(new Low[0]));
        System.out.println(kinds(new int[0][0]) + " " + cast(new int[0][0]));
        Object o = new Low[] {new Low()};
        System.out.println(kinds(((Casts[]) o)[0]) + " " + ((Face[]) o).length);
        try {
            System.out.println(((String[]) o).length);
        } catch (ClassCastException e) {
            System.out.println("no");
        }
    }
}
