class A { int x; int f(int y) { return x + y; } }
