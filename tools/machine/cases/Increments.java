package cases;

/** `++` and `--`, and old values in compound assignments. */
class Increments {
    int n = 10;
    static int s = 20;

    public static void main(String[] args) {
        int i = 1;
        System.out.println(i++ + ++i * i--);
        i = i++ + ++i;
        System.out.println(i);
        i += i++ * 2 + i;
        System.out.println(i);
        int k = 5;
        System.out.println(k += (k = 7));
        System.out.println(k -= k++ - --k);
        Increments object = new Increments();
        System.out.println(object.n++ + object.n + --object.n);
        object.n += object.n++;
        System.out.println(object.n);
        System.out.println(s-- - --s);
        s *= s++;
        System.out.println(s);
        int[] a = {0, 10, 20, 30};
        i = 0;
        a[i++] += a[i++] + i;
        System.out.println(a[0] + " " + i);
        a[++i] = i++;
        System.out.println(a[3] + " " + i);
        i = 1;
        a[i] = i = 3;
        System.out.println(a[1] + " " + a[3]);
        int x = 1, y = 2;
        x = y = x + y;
        System.out.println(x + y);
        long l = 1;
        l++;
        l += i;
        System.out.println(l);
        char c = 'y';
        System.out.println(c++ + "" + c + --c);
        short h = 1;
        h += 70000;
        System.out.println(h);
    }
}
