import java.io.*;
import java.net.URI;
import java.nio.charset.StandardCharsets;
import java.util.*;
import javax.tools.*;

/** Prints the errors that javac finds in programs: "path offset code message", with "." behind each program. */
public class Diags {
    static class Source extends SimpleJavaFileObject {
        final String text, path;
        Source(String path, String text) { super(URI.create("string:///" + path), Kind.SOURCE); this.text = text; this.path = path; }
        @Override public CharSequence getCharContent(boolean b) { return text; }
    }

    public static void main(String[] args) throws Exception {
        String all = new String(System.in.readAllBytes(), StandardCharsets.UTF_8);
        JavaCompiler compiler = ToolProvider.getSystemJavaCompiler();
        PrintStream out = new PrintStream(System.out, true, StandardCharsets.UTF_8);
        for (String program : all.split("\u0001")) {
            List<Source> sources = new ArrayList<>();
            for (String unit : program.split("\0")) {
                if (unit.isEmpty()) continue;
                String[] parts = unit.split("\u0002", 2);
                sources.add(new Source(parts[0], parts[1]));
            }
            DiagnosticCollector<JavaFileObject> found = new DiagnosticCollector<>();
            List<String> options = List.of("-XDshould-stop.ifError=FLOW", "-Xlint:-options", "--release", "7", "-proc:none", "-Xmaxerrs", "10000", "-d", "/tmp/h2j/out");
            new File("/tmp/h2j/out").mkdirs();
            try { compiler.getTask(new StringWriter(), null, found, options, null, sources).call(); } catch (Throwable t) { out.println("E crash " + t); }
            for (Diagnostic<? extends JavaFileObject> d : found.getDiagnostics()) {
                if (d.getKind() != Diagnostic.Kind.ERROR) continue;
                String path = d.getSource() == null ? "-" : ((d.getSource() instanceof Source) ? ((Source) d.getSource()).path : d.getSource().getName());
                out.println("E " + path + " " + d.getPosition() + " " + d.getCode() + " " + d.getMessage(Locale.ENGLISH).replace('\n', '|'));
            }
            out.println(".");
        }
    }
}
