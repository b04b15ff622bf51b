LANG='''package java.lang;
public class Object {
  public Object() { }
  public boolean equals(Object o) { return this == o; }
  public native int hashCode();
  public String toString() { return "object"; }
}
public final class String {
  private String() { }
  public native int length();
  public native char charAt(int i);
  public native boolean equals(Object o);
  public native int hashCode();
  public String toString() { return this; }
}
public final class System {
  public static final java.io.PrintStream out = new java.io.PrintStream();
  private System() { }
}
public class Throwable {
  private String message;
  public Throwable() { }
  public Throwable(String m) { message = m; }
  public String getMessage() { return message; }
}
'''
for x,s in [('Exception','Throwable'),('Error','Throwable'),('RuntimeException','Exception')]+[(x,'RuntimeException') for x in 'ArithmeticException NullPointerException ClassCastException ArrayStoreException NegativeArraySizeException IndexOutOfBoundsException IllegalArgumentException IllegalStateException'.split()]+[('ArrayIndexOutOfBoundsException','IndexOutOfBoundsException'),('StringIndexOutOfBoundsException','IndexOutOfBoundsException')]:
    LANG+=f'public class {x} extends {s} {{ public {x}() {{ }} public {x}(String m) {{ super(m); }} }}\n'
IO='package java.io; public class PrintStream { public native void print(String s);'
for t in 'boolean char int long Object'.split(): IO+=f' public void print({t} v) {{ print("" + v); }}'
IO+=' public void println() { print("\\n"); } public void println(String v) { print(v + "\\n"); }'
for t in 'boolean char int long Object'.split(): IO+=f' public void println({t} v) {{ print("" + v + "\\n"); }}'
IO+=' }'
