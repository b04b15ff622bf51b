package cases;

/** Constant variables of an instance have their values before their initializers run, and null is checked where they are read. */
class ConstantFields {
    static class High {
        High() {
            show();
        }

        void show() {
            System.out.println("high");
        }
    }

    static class Low extends High {
        final int z = 7;
        final String s = "low";
        final int computed = five();
        int variable = 3;

        static int five() {
            System.out.print("five ");
            return 5;
        }

        void show() {
            System.out.println(this.z + " " + this.s + " " + this.computed + " " + this.variable);
            Low same = this;
            System.out.println(same.z + same.computed);
        }
    }

    static Low none(String s) {
        System.out.print(s + " ");
        return null;
    }

    static int attempt(int what) {
        switch (what) {
            case 0:
                return none("constant").z;
            case 1:
                return none("computed").computed;
            case 2:
                return none("variable").variable;
            case 3:
                return none("String").s.length();
            default:
                return new Low().z;
        }
    }

    public static void main(String[] args) {
        new Low().show();
        for (int i = 0; i < 5; i++) {
            try {
                System.out.println(attempt(i));
            } catch (NullPointerException e) {
                System.out.println("null");
            }
        }
        System.out.println(none("uncaught").z);
    }
}
