import java.io.IOException;
import java.io.StringWriter;
import java.nio.file.Files;
import java.nio.file.Path;
import java.util.List;
import javax.tools.JavaCompiler;
import javax.tools.ToolProvider;

/** Says of each folder named in the file of the first argument whether javac compiles its A.java: a line `true` or `false` each. */
public class Compiles {
    public static void main(String[] args) throws IOException {
        JavaCompiler compiler = ToolProvider.getSystemJavaCompiler();
        Path out = Files.createTempDirectory("classes");
        try (var files = compiler.getStandardFileManager(null, null, null)) {
            for (String folder : Files.readAllLines(Path.of(args[0]))) {
                var units = files.getJavaFileObjects(Path.of(folder, "A.java"));
                var options = List.of("-proc:none", "-nowarn", "-d", out.toString());
                System.out.println(compiler.getTask(new StringWriter(), files, null, options, null, units).call());
            }
        }
    }
}
