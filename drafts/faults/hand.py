"""Small programs, broken and right ones, with the rules that they break: name of the row and rule, as rows rise; D is rule 2 of types outside bodies. A method or
constructor that is not accessible is not applicable, so its call is unbound and breaks no rule here."""
A = lambda text: [('A.java', text)]
PROGRAMS = [
    # ---- 2
    ('2', A('class A { class B { } interface B { } static class C { class D { } class D { } } }'), 'B 2, D 2'),
    ('2', A('class A { class B { class A { } class C { class B { } } } }'), 'A 2, B 2'),
    ('2 right', A('class A { class B { } class C { class D { } } } class B { class D { } }'), ''),
    ('2 top', [('p/A.java', 'package p; class A { } class B { } class A { }'), ('p/B.java', 'package p; class B { }'), ('q/A.java', 'package q; class A { }')], 'A D, B D'),
    ('2 top', [('p/A.java', 'package p; class A { } class b { }'), ('p/A/X.java', 'package p.A; class X { }'), ('p/b/c/Y.java', 'package p.b.c; class Y { }')], 'A D'),
    ('2 top right', [('A.java', 'class A { } class p { }'), ('A/X.java', 'package A; class X { }'), ('q/A.java', 'package q; class A { class B { } }'), ('q/B/C.java', 'package q.B; class C { }')], ''),
    # ---- 3
    ('3', A('class A { int x; int y, x; String x; static int y; }'), 'x 3, x 3, y 3'),
    ('3 right', A('class A { int x; int x() { return x; } class x { int x; } static class B extends A { int x; } }'), ''),
    ('3', A('interface I { int A = 1; long A = 2; } class C { class D { boolean z; boolean z; } }'), 'A 3, z 3'),
    # ---- 4
    ('4', A('class A { void f() { } int f() { return 1; } void g(int a) { } void g(long a) { } void g(int b) { } static void g(int[] c) { } void g(int c[]) { } }'), 'f 4, g 4, g 4'),
    ('4', A('class A { void f(A a) { } void f(B b) { } class B { void f(A a) { } void f(A b, B c) { } } void f(A.B b) { } }'), 'f 4'),
    ('4 right', A('class A { void f() { } void f(int a) { } void f(Object a) { } void f(String a) { } void f(int a, int b) { } void g() { } }'), ''),
    # ---- 5
    ('5', A('class A { A() { } A(int a) { } A(int b) { } private A() { } A(Object o) { } A(long a) { } A(Object[] o) { } A(Object p) { } }'), 'A 5, A 5, A 5'),
    ('5 right', A('class A { A() { } A(int a) { } class B { B() { } B(int b) { } } }'), ''),
    ('5 and 20', A('class A { A(int a) { } B(int b) { } }'), 'B 5, B 20'),
    # ---- 6
    ('6', A('class A { void f(int a) { int a; { int b; int b; } int b; for (int b = 0; ; ) { int b; } } void g(int c, int d, int c) { } }'), 'a 6, b 6, b 6, b 6, c 6'),
    ('6', A('class A { void f(int k) { try { int a; } catch (Exception a) { int a; int k; } catch (RuntimeException k) { } finally { int k; } switch (k) { case 1: int z; case 2: int z; { int z; } } int z; } }'), 'a 6, k 6, k 6, k 6, z 6, z 6'),
    ('6 right', A('class A { int a; void f(int b) { { int c; } { int c; } int c; for (int d = 0; ; ) { } } void g(int b) { int a; for (int i = 0; ; ) { if (b > 1) break; } for (int i = 0; ; ) { } } A(int b) { int c; } { int c; } static { int c; } }'), ''),
    ('6', A('class A { void f() { int a = 1, a = 2; int b, c, b; } { int x; { int x; } } A(int a) { for (int a = 0, e = 1; ; ) { } int e; } }'), 'a 6, b 6, x 6, a 6'),
    # ---- 7
    ('7', A('class A { void f() { l: l: ; m: { n: { m: ; } } n: ; m: n: m: ; } }'), 'l 7, m 7, m 7'),
    ('7 right', A('class A { void f() { l: ; l: { } l: m: ; m: l: ; int l; } void g() { l: ; } }'), ''),
    # ---- 8
    ('8', [('p/C.java', 'package p; public class C { public static class D { } }'), ('q/C.java', 'package q; public class C { } class D { }'), ('r/A.java', 'package r; import p.C; import q.C; import p.C; class A { }')], 'C 8, C 8'),
    ('8', [('p/C.java', 'package p; public class C { public static class D { } }'), ('r/A.java', 'package r; import p.C; class A { } class C { }'), ('r/B.java', 'package r; import p.C.D; class B { } interface D { }')], 'C 8, D 8'),
    ('8 right', [('p/C.java', 'package p; public class C { public static class D { } }'), ('r/C.java', 'package r; import r.C; class C { class D { } }'), ('r/B.java', 'package r; import p.C; import p.C; import p.C.D; class B { }')], ''),
    # ---- 9
    ('9', [('p/C.java', 'package p; public class C { public static class D { } } '), ('p/E.java', 'package p; public class E extends C { }'), ('r/A.java', 'package r; import p.E.D; import p.C.D; import p.E.*; class A { }')], 'D 9'),
    ('9', [('p/C.java', 'package p; public class C { public static class D { public static class F { public static int x; } } } '), ('p/E.java', 'package p; public class E extends C { }'), ('r/A.java', 'package r; import p.E.D.F; import p.E.D.*; import static p.E.D.F.x; import static p.C.D.F.x; class A { }')], 'F 9, D 9, F 9'),
    # ---- 10
    ('10', [('p/C.java', 'package p; public class C { private int x; int y; protected int z; public int w; protected C() { } private void m() { } protected void n() { } protected static int s; }'),
            ('q/A.java', 'package q; import p.C; class A extends C { void f(C c, A a) { c.z = 1; a.z = 1; z = 1; a.w = 2; c.w = 3; c.n(); a.n(); n(); C.s = 1; new C(); } }')], 'z 10'),
    ('10', [('p/C.java', 'package p; public class C { private int x; int y; private C() { } private static class D { int d; } D d; D d() { return d; } }'), ('p/B.java', 'package p; class B { void f(C c) { c.x = 1; c.y = 2; c.d = null; c.d.d = 1; c.d().d = 1; new C(); C.D e; } }')], 'x 10, d 10, d 10, D 10'),
    ('10', [('p/C.java', 'package p; class C { int y; public int z; } '), ('q/B.java', 'package q; import p.C; class B extends p.C { int f(C c) { return c.z; } }')], 'C 10, C 10, C 10, z 10'),
    ('10 right', A('class A { private int x; private class B { private int y; } int f(B b) { return b.y + new B().y + x; } private A() { } static A make() { return new A(); } } class C { A a; int f() { return A.make().f(null); } }'), ''),
    # ---- 13
    ('13', A('final class F { } interface I { } class O { class N { } static class S { } class P extends N { } } class A extends F { } class B extends I { } class C extends O.N { } class D extends O.S { }'), 'N 13, F 13, I 13, N 13'),
    ('13', A('interface I { } interface J { } class C { } class A implements I, C, J, I { } interface K extends C, J, J { } interface L extends I, J { }'), 'C 13, I 13, C 13, J 13'),
    ('13 right', A('interface I { } interface J extends I { } class A implements I, J { } class B extends A implements I { } class C extends Exception { }'), ''),
    # ---- 14
    ('14', A('interface I { void f(); void g(); } class A implements I { public void f() { } } abstract class B implements I { public void g() { } } class C extends B { } class D extends B { public void f() { } } class E extends D { }'), 'A 14, C 14'),
    ('14', A('abstract class A { abstract void f(); protected abstract int g(Object o); } class B extends A { void f() { } protected int g(String s) { return 1; } } class C extends A { void f() { } protected int g(Object s) { return 1; } }'), 'B 14'),
    ('14 right', A('interface I { boolean equals(Object o); String toString(); void f(); } class X { public void f() { } } class A extends X implements I { } class B extends A { }'), ''),
    ('14', [('a/A.java', 'package a; public abstract class A { abstract void f(); }'), ('a/D.java', 'package a; public class D extends A { void f() { } }'), ('b/B.java', 'package b; import a.A; import a.D; class B extends A { void f() { } } class C extends D { }'),
             ('b/M.java', 'package b; import a.A; public abstract class M extends A { void f() { } }'), ('a/E.java', 'package a; import b.M; class E extends M { } class F extends M { void f() { } }')], 'B 14, E 14'),
    # ---- 15
    ('15', A('class A { int f() { return 1; } Object g() { return null; } void h() { } A i() { return null; } static int s() { return 1; } } class B extends A { long f() { return 1; } String g() { return null; } int h() { return 1; } Object i() { return null; } static void s() { } }'), 'f 15, h 15, i 15, s 15'),
    ('15', A('interface I { int f(); } interface J { long f(); } interface K extends I, J { } abstract class C implements I, J { } interface O { Object g(); } interface S { String g(); } interface T extends O, S { } abstract class X { public Object g() { return null; } } abstract class Y extends X implements S { }'), 'K 15, C 15, Y 15'),
    ('15 right', A('class A { Object f() { return null; } A g() { return this; } Object[] h() { return null; } } class B extends A { String f() { return null; } B g() { return this; } String[] h() { return null; } } class C extends B { String f() { return null; } B g() { return this; } }'), ''),
    # ---- 16
    ('16', A('class A { public void a() { } protected void b() { } void c() { } public static void d() { } } class B extends A { void a() { } private void b() { } private void c() { } protected static void d() { } } interface I { void i(); } class C implements I { void i() { } } class D { public String toString() { return ""; } }'), 'a 16, b 16, c 16, d 16, i 16'),
    ('16', A('interface I { void f(); } class A { protected void f() { } } abstract class B extends A implements I { } class C extends A implements I { } abstract class E { abstract void f(); } abstract class F extends E implements I { }'), 'B 16, C 14, C 16'),
    ('16 right', A('class A { void a() { } protected void b() { } private void c() { } } class B extends A { protected void a() { } public void b() { } void c() { } }'), ''),
    # ---- 17
    ('17', A('class A { static void a() { } void b() { } static void c() { } private static void d() { } } class B extends A { void a() { } static void b() { } static void c() { } void d() { } } class C { static boolean equals(Object o) { return true; } }'), 'a 17, b 17, equals 16, equals 17'),
    ('17', A('interface I { void f(); } class A { public static void f() { } } abstract class B extends A implements I { } class C extends A implements I { }'), 'B 17, C 14, C 17'),
    # ---- 18
    ('18', A('class A { final void a() { } static final void b() { } private final void c() { } final void d(int i) { } } class B extends A { void a() { } static void b() { } void c() { } void d(long i) { } } class C extends B { final void a() { } }'), 'a 18, b 18, a 18'),
    ('18 right', A('final class A { void f() { } } class B { final void f() { } } class C extends B { void f(int a) { } }'), ''),
    # ---- 19
    ('19', A('class X extends Exception { } class Y extends X { } class A { void a() { } void b() throws X { } void c() throws Exception { } void d() throws Y { } static void e() { } } class B extends A { void a() throws X { } void b() throws Y, RuntimeException { } void c() { } void d() throws X, Error, NullPointerException { } static void e() throws Throwable { } }'), 'a 19, d 19, e 19'),
    ('19', A('interface I { void f(); } interface J { void f() throws Exception; } class A { public void f() throws Exception { } } abstract class B extends A implements I { } class C extends A implements J { } class D extends A implements J, I { } abstract class E implements I, J { }'), 'B 19, D 19'),
    # ---- 20
    ('20', A('abstract class A { void a(); abstract void b() { } native void c() { } native void d(); abstract void e(); void f() { } B() { } A() { } } class C { abstract void g(); abstract void h() { } } interface I { void i() { } int X; int Y = 1; void j(); { } }'), 'a 20, b 20, c 20, B 20, A 5, C 14, g 20, h 20, i 20, X 20, - 20'),
    ('20', A('interface I { I() { } static { } class C { C() { } { } static { } } } class D { I() { } D(int x) { } }'), 'I 20, - 20, I 20'),
    # ---- 21
    ('21', A('class A { class B { static int x; static final int y = 1; static void f() { } static class C { } interface D { } static { } final static Object o = null; static final int z = A.k; } static int k; static class S { static int x; static { } interface T { } } }'), 'x 21, f 21, C 21, D 21, - 21, o 21, z 21'),
    ('21 right', A('class A { static int x; static { } interface I { int X = 1; class J { static int y; } } static class C { static int z; } class D { static final String s = "a" + 1; { } int i; } }'), ''),
    # ---- 47
    ('47', [('p/C.java', 'package p; public class C { public static int x; public int y; static int z; private static int w; public static void m() { } public static class S { } public class N { } protected static int v; }'),
            ('q/A.java', 'package q; import static p.C.x; import static p.C.y; import static p.C.z; import static p.C.w; import static p.C.m; import static p.C.S; import static p.C.N; import static p.C.o; import static p.C.v; class A { }')],
     'y 47, z 47, w 47, N 47, o 47, v 47'),
    ('47', [('p/C.java', 'package p; public class C { public static class S { } public static class T { } public static class U { } public static int X; } '), ('p/D.java', 'package p; public class D extends C { public static class S { } public static void X() { } }'), ('r/T.java', 'package r; public class T { }'),
            ('q/A.java', 'package q; import static p.C.S; import static p.D.S; import static p.C.T; import r.T; import static p.C.U; import static p.C.X; import static p.D.X; class A { } class U { }'), ('q/B.java', 'package q; import static p.C.U; import static p.D.U; class B { }')],
     'S 47, S 47, T 47, U 47'),
]
