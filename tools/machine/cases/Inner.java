package cases;

/** Inner classes and the instances round them. */
class Inner {
    String name;
    int count;

    Inner(String name) {
        this.name = name;
    }

    class Middle {
        String name = "middle of " + Inner.this.name;

        class Deep {
            String all() {
                count++;
                return name + " in " + Inner.this.name + " " + Middle.this.name + " " + count + step();
            }
        }

        Deep deep() {
            return new Deep();
        }
    }

    class Other extends Middle {
        String own = name + "!";
    }

    Middle middle() {
        return new Middle();
    }

    int step() {
        return ++count;
    }

    public static void main(String[] args) {
        Inner a = new Inner("a");
        Inner b = new Inner("b");
        Middle m = a.middle();
        Middle n = b.new Middle();
        System.out.println(m.name + ", " + n.name);
        System.out.println(m.deep().all());
        System.out.println(n.new Deep().all());
        Middle.Deep d = m.new Deep();
        System.out.println(d.all());
        System.out.println(a.count + " " + b.count);
        System.out.println(b.new Other().own);
    }
}
