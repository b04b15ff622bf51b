import java.net.URI;
import java.util.*;
import javax.tools.*;

/** `java Modifiers RELEASE FOLDER`: reads programs from standard input, one a line as `NAME TAB TEXT`, compiles each by itself into the folder, and prints `NAME TAB CODES`. */
class Modifiers {
  static class Text extends SimpleJavaFileObject {
    final String text;
    Text(String text) { super(URI.create("string:///A.java"), Kind.SOURCE); this.text = text; }
    @Override public CharSequence getCharContent(boolean ignore) { return text; }
  }

  public static void main(String[] args) {
    JavaCompiler compiler = ToolProvider.getSystemJavaCompiler();
    Scanner in = new Scanner(System.in);
    while (in.hasNextLine()) {
      String[] line = in.nextLine().split("\t", 2);
      DiagnosticCollector<JavaFileObject> found = new DiagnosticCollector<>();
      compiler.getTask(null, null, found, List.of("--release", args[0], "-proc:none", "-d", args[1]), null, List.of(new Text(line[1]))).call();
      StringBuilder codes = new StringBuilder();
      for (Diagnostic<?> d : found.getDiagnostics()) if (d.getKind() == Diagnostic.Kind.ERROR) codes.append(' ').append(d.getCode());
      System.out.println(line[0] + "\t" + codes.toString().trim());
    }
  }
}
