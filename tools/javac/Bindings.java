// Says of each program on standard input what javac makes of it: errors, declarations, what each name refers to, families of methods, and what its Main prints.
// A program is a count of files, and for each a path, a count of characters and the characters; behind the first count `run` where it is to run, or `names` where names are all that is asked; a line of answers each, and `.` at the end.
import com.sun.source.tree.*;
import com.sun.source.util.*;
import com.sun.tools.javac.code.Symbol;
import com.sun.tools.javac.tree.JCTree;
import java.io.*;
import java.lang.reflect.InvocationTargetException;
import java.net.URI;
import java.nio.charset.StandardCharsets;
import java.util.*;
import java.util.regex.*;
import javax.lang.model.element.*;
import javax.lang.model.type.*;
import javax.lang.model.util.*;
import javax.tools.*;

public class Bindings {
    static final class Source extends SimpleJavaFileObject {
        final String text;
        final int number;

        Source(String path, String text, int number) {
            super(URI.create("string:///" + path.replace(" ", "%20")), Kind.SOURCE);
            this.text = text;
            this.number = number;
        }

        @Override
        public CharSequence getCharContent(boolean ignored) {
            return text;
        }
    }

    static final class Made extends SimpleJavaFileObject {
        final ByteArrayOutputStream bytes = new ByteArrayOutputStream();

        Made(String name) {
            super(URI.create("mem:///" + name.replace('.', '/') + ".class"), Kind.CLASS);
        }

        @Override
        public OutputStream openOutputStream() {
            return bytes;
        }
    }

    static final class Memory extends ForwardingJavaFileManager<StandardJavaFileManager> {
        final Map<String, Made> made = new HashMap<>();

        Memory(StandardJavaFileManager files) {
            super(files);
        }

        @Override
        public JavaFileObject getJavaFileForOutput(Location place, String name, JavaFileObject.Kind kind, FileObject near) {
            Made one = new Made(name);
            made.put(name, one);
            return one;
        }
    }

    static final class Loader extends ClassLoader {
        final Map<String, Made> made;

        Loader(Map<String, Made> made) {
            super(ClassLoader.getPlatformClassLoader());
            this.made = made;
        }

        @Override
        protected Class<?> findClass(String name) throws ClassNotFoundException {
            Made one = made.get(name);
            if (one == null) {
                throw new ClassNotFoundException(name);
            }
            byte[] all = one.bytes.toByteArray();
            return defineClass(name, all, 0, all.length);
        }
    }

    static StringBuilder out;
    // javac wraps the files that it is given.
    static final Map<URI, Source> SOURCES = new HashMap<>();

    static Source sourceOf(FileObject file) {
        return file == null ? null : SOURCES.get(file.toUri());
    }

    static Trees trees;
    static final PrintStream PRINTED = new PrintStream(new FileOutputStream(FileDescriptor.out), false);

    static String line(DataInputStream in) throws IOException {
        ByteArrayOutputStream b = new ByteArrayOutputStream();
        for (int c = in.read(); c != '\n'; c = in.read()) {
            if (c < 0) {
                return null;
            }
            b.write(c);
        }
        return b.toString(StandardCharsets.UTF_8);
    }

    static int nameAt(String text, int from, String name) {
        Matcher m = Pattern.compile("(?<![\\w$])" + Pattern.quote(name) + "(?![\\w$])").matcher(text);
        return from >= 0 && m.find(from) ? m.start() : -1;
    }

    static int declaredAt(Source s, JCTree t, String name) {
        int at = t.pos;
        if (t instanceof JCTree.JCClassDecl) {
            at = nameAt(s.text, at, name);
        }
        return at;
    }

    static String target(Element e) {
        if (e == null) {
            return "-";
        }
        if (e instanceof PackageElement) {
            return "pkg:" + e;
        }
        TreePath p = trees.getPath(e);
        if (p == null || sourceOf(p.getCompilationUnit().getSourceFile()) == null) {
            return e.getKind() == ElementKind.CONSTRUCTOR && trees.getPath(e.getEnclosingElement()) != null ? "dflt/" + target(e.getEnclosingElement()) : "ext:" + e.getEnclosingElement() + "." + e;
        }
        Source s = sourceOf(p.getCompilationUnit().getSourceFile());
        JCTree t = (JCTree) p.getLeaf();
        if (e.getKind() == ElementKind.CONSTRUCTOR) {
            Element c = e.getEnclosingElement();
            String n = c.getSimpleName().toString();
            if (!s.text.startsWith(n, t.pos) || !s.text.substring(t.pos + n.length()).trim().startsWith("(")) {
                return "dflt/" + target(c);
            }
            return "d/" + s.number + "/" + t.pos;
        }
        return "d/" + s.number + "/" + declaredAt(s, t, e.getSimpleName().toString());
    }

    static void say(String text) {
        out.append(text.replace('\n', ' ')).append('\n');
    }

    static boolean isPlace(Element e) {
        return e instanceof PackageElement || e instanceof TypeElement;
    }

    static final class Scan extends TreePathScanner<Void, Void> {
        final CompilationUnitTree cu;
        final SourcePositions pos;
        final int unit;
        final Source source;

        Scan(CompilationUnitTree cu, SourcePositions pos) {
            this.cu = cu;
            this.pos = pos;
            this.source = sourceOf(cu.getSourceFile());
            this.unit = source.number;
        }

        void ref(long at, Element e, String name) {
            Tree parent = getCurrentPath().getParentPath().getLeaf();
            Tree here = getCurrentPath().getLeaf();
            String flag = "-";
            if (isPlace(e) && parent instanceof MemberSelectTree && ((MemberSelectTree) parent).getExpression() == here) {
                String next = ((MemberSelectTree) parent).getIdentifier().toString();
                Element up = trees.getElement(getCurrentPath().getParentPath());
                flag = next.equals("this") ? "this" : "q";
            } else if (isPlace(e)) {
                Tree up = parent;
                TreePath path = getCurrentPath().getParentPath();
                while (up instanceof ArrayTypeTree) {
                    path = path.getParentPath();
                    up = path.getLeaf();
                }
                flag = up instanceof TypeCastTree ? "cast" : "-";
            }
            String kind = e == null ? "none" : e instanceof PackageElement ? "pkg" : e instanceof TypeElement ? "type" : e instanceof ExecutableElement ? "method" : "var";
            say("R " + unit + " " + at + " " + kind + " " + flag + " " + name + " " + target(e));
        }

        @Override
        public Void visitIdentifier(IdentifierTree n, Void v) {
            String s = n.getName().toString();
            if (s.equals("this") || s.equals("super")) {
                return null;
            }
            ref(pos.getStartPosition(cu, n), trees.getElement(getCurrentPath()), s);
            return null;
        }

        @Override
        public Void visitMemberSelect(MemberSelectTree n, Void v) {
            super.visitMemberSelect(n, v);
            String s = n.getIdentifier().toString();
            if (!s.equals("this") && !s.equals("class") && !s.equals("*") && !s.equals("super")) {
                ref(pos.getEndPosition(cu, n) - s.length(), trees.getElement(getCurrentPath()), s);
            }
            return null;
        }

        @Override
        public Void visitMethodInvocation(MethodInvocationTree n, Void v) {
            if (n.getMethodSelect() instanceof IdentifierTree) {
                String s = ((IdentifierTree) n.getMethodSelect()).getName().toString();
                if (s.equals("this") || s.equals("super")) {
                    say("R " + unit + " " + pos.getStartPosition(cu, n) + " ctor - " + s + " " + target(trees.getElement(getCurrentPath())));
                }
            }
            return super.visitMethodInvocation(n, v);
        }

        @Override
        public Void visitNewClass(NewClassTree n, Void v) {
            say("R " + unit + " " + pos.getStartPosition(cu, n) + " ctor - new " + target(trees.getElement(getCurrentPath())));
            return super.visitNewClass(n, v);
        }

        void label(String name) {
            if (name == null) {
                return;
            }
            TreePath p = getCurrentPath();
            long from = pos.getStartPosition(cu, p.getLeaf());
            while (p != null && !(p.getLeaf() instanceof LabeledStatementTree && ((LabeledStatementTree) p.getLeaf()).getLabel().contentEquals(name))) {
                p = p.getParentPath();
            }
            long to = p == null ? -1 : pos.getStartPosition(cu, p.getLeaf());
            say("R " + unit + " " + nameAt(source.text, (int) from + 5, name) + " label - " + name + " d/" + unit + "/" + to);
        }

        @Override
        public Void visitBreak(BreakTree n, Void v) {
            label(n.getLabel() == null ? null : n.getLabel().toString());
            return null;
        }

        @Override
        public Void visitContinue(ContinueTree n, Void v) {
            label(n.getLabel() == null ? null : n.getLabel().toString());
            return null;
        }

        void decl(String kind, int at, String name) {
            say("D " + unit + " " + at + " " + kind + " " + name);
        }

        @Override
        public Void visitLabeledStatement(LabeledStatementTree n, Void v) {
            decl("label", (int) pos.getStartPosition(cu, n), n.getLabel().toString());
            return super.visitLabeledStatement(n, v);
        }

        @Override
        public Void visitVariable(VariableTree n, Void v) {
            Element e = trees.getElement(getCurrentPath());
            decl(e == null ? "?" : e.getKind().toString(), ((JCTree) n).pos, n.getName().toString());
            return super.visitVariable(n, v);
        }

        @Override
        public Void visitMethod(MethodTree n, Void v) {
            Element e = trees.getElement(getCurrentPath());
            int at = ((JCTree) n).pos;
            String name = n.getName().toString();
            if (name.equals("<init>")) {
                String c = e.getEnclosingElement().getSimpleName().toString();
                boolean written = source.text.startsWith(c, at) && source.text.substring(at + c.length()).trim().startsWith("(");
                if (written) {
                    decl("CONSTRUCTOR", at, c);
                }
            } else {
                decl("METHOD", at, name);
            }
            return super.visitMethod(n, v);
        }

        @Override
        public Void visitClass(ClassTree n, Void v) {
            boolean top = getCurrentPath().getParentPath().getLeaf() instanceof CompilationUnitTree;
            if (top) {
                say("T " + unit + " " + n.getSimpleName());
            }
            decl(n.getKind().toString(), declaredAt(source, (JCTree) n, n.getSimpleName().toString()), n.getSimpleName().toString());
            return super.visitClass(n, v);
        }

        @Override
        public Void visitImport(ImportTree n, Void v) {
            say("P " + unit + " " + pos.getStartPosition(cu, n));
            return super.visitImport(n, v);
        }
    }

    static void families(Iterable<? extends CompilationUnitTree> units, JavacTask task) {
        Elements elements = task.getElements();
        Types types = task.getTypes();
        List<TypeElement> all = new ArrayList<>();
        for (CompilationUnitTree cu : units) {
            new TreePathScanner<Void, Void>() {
                @Override
                public Void visitClass(ClassTree n, Void v) {
                    Element e = trees.getElement(getCurrentPath());
                    if (e instanceof TypeElement) {
                        all.add((TypeElement) e);
                    }
                    return super.visitClass(n, v);
                }
            }.scan(cu, null);
        }
        for (TypeElement low : all) {
            for (TypeElement high : all) {
                if (low != high && types.isSubtype(low.asType(), high.asType())) {
                    say("S " + target(low) + " " + target(high));
                }
            }
        }
        for (TypeElement c : all) {
            List<ExecutableElement> members = new ArrayList<>();
            for (Element m : elements.getAllMembers(c)) {
                if (m.getKind() == ElementKind.METHOD) {
                    members.add((ExecutableElement) m);
                }
            }
            List<ExecutableElement> above = new ArrayList<>();
            collect(c, types, above, new HashSet<>());
            for (ExecutableElement one : members) {
                for (ExecutableElement two : above) {
                    if (one != two && elements.overrides(one, two, c)) {
                        say("F " + target(one) + " " + target(two));
                    }
                }
                for (ExecutableElement two : members) {
                    if (one != two && !hides(one, two, types) && one.getSimpleName().equals(two.getSimpleName()) && types.isSubsignature((ExecutableType) one.asType(), (ExecutableType) two.asType())) {
                        say("F " + target(one) + " " + target(two));
                    }
                }
            }
        }
    }

    /** Whether these are static methods of which one may hide the other: javac counts both among the members. */
    static boolean hides(Element one, Element two, Types types) {
        TypeMirror here = one.getEnclosingElement().asType();
        TypeMirror there = two.getEnclosingElement().asType();
        return one.getModifiers().contains(Modifier.STATIC) && two.getModifiers().contains(Modifier.STATIC) && (types.isSubtype(here, there) || types.isSubtype(there, here));
    }

    static void collect(TypeElement c, Types types, List<ExecutableElement> into, Set<Element> seen) {
        if (!seen.add(c)) {
            return;
        }
        for (Element m : c.getEnclosedElements()) {
            if (m.getKind() == ElementKind.METHOD) {
                into.add((ExecutableElement) m);
            }
        }
        for (TypeMirror up : types.directSupertypes(c.asType())) {
            Element e = types.asElement(up);
            if (e instanceof TypeElement) {
                collect((TypeElement) e, types, into, seen);
            }
        }
    }

    static void run(Map<String, Made> made) throws Exception {
        if (!made.containsKey("Main")) {
            return;
        }
        ByteArrayOutputStream all = new ByteArrayOutputStream();
        String[] end = {"late"};
        Thread runner = new Thread(null, () -> {
            try {
                new Loader(made).loadClass("Main").getMethod("main", String[].class).invoke(null, (Object) new String[0]);
                end[0] = "end";
            } catch (InvocationTargetException e) {
                Throwable cause = e.getCause();
                end[0] = cause.getClass().getClassLoader() == null ? cause.getClass().getSimpleName() : "thrown";
            } catch (Throwable e) {
                end[0] = "unrun " + e;
            }
        }, "run", 4 << 20);
        PrintStream kept = System.out;
        System.setOut(new PrintStream(all, true));
        runner.setDaemon(true);
        runner.start();
        runner.join(4000);
        System.setOut(kept);
        if (runner.isAlive()) {
            end[0] = "late";
        }
        say("O " + end[0].replace(' ', '_') + " " + Base64.getEncoder().encodeToString(all.toByteArray()));
    }

    public static void main(String[] args) throws Exception {
        DataInputStream in = new DataInputStream(new BufferedInputStream(System.in));
        JavaCompiler compiler = ToolProvider.getSystemJavaCompiler();
        StandardJavaFileManager files = compiler.getStandardFileManager(null, null, null);
        for (String head = line(in); head != null; head = line(in)) {
            String[] words = head.split(" ");
            boolean wantsRun = words.length > 1 && words[1].equals("run");
            boolean wantsNames = words.length > 1 && words[1].equals("names");
            out = new StringBuilder();
            List<Source> sources = new ArrayList<>();
            SOURCES.clear();
            for (int k = 0; k < Integer.parseInt(words[0]); k++) {
                String path = line(in);
                byte[] text = new byte[Integer.parseInt(line(in))];
                in.readFully(text);
                Source source = new Source(path, new String(text, StandardCharsets.UTF_8), k);
                sources.add(source);
                SOURCES.put(source.toUri(), source);
            }
            DiagnosticCollector<JavaFileObject> found = new DiagnosticCollector<>();
            Memory memory = new Memory(files);
            JavacTask task = (JavacTask) compiler.getTask(null, memory, found, List.of("-source", "7", "-target", "7", "-proc:none", "-Xlint:none", "-nowarn", "-XDsuppressNotes"), null, sources);
            try {
                Iterable<? extends CompilationUnitTree> units = task.parse();
                task.analyze();
                trees = Trees.instance(task);
                boolean bad = false;
                for (Diagnostic<? extends JavaFileObject> d : found.getDiagnostics()) {
                    if (d.getKind() == Diagnostic.Kind.ERROR) {
                        bad = true;
                        int unit = sourceOf(d.getSource()) != null ? sourceOf(d.getSource()).number : -1;
                        say("E " + unit + " " + d.getPosition() + " " + d.getMessage(null));
                    }
                }
                if (!bad) {
                    for (CompilationUnitTree cu : units) {
                        say("U " + sourceOf(cu.getSourceFile()).number);
                        new Scan(cu, trees.getSourcePositions()).scan(cu, null);
                    }
                }
                if (!bad && !wantsNames) {
                    families(units, task);
                    task.generate();
                    for (Diagnostic<? extends JavaFileObject> d : found.getDiagnostics()) {
                        if (d.getKind() == Diagnostic.Kind.ERROR) {
                            say("E -1 -1 generating: " + d.getMessage(null));
                        }
                    }
                    if (wantsRun) {
                        run(memory.made);
                    }
                }
            } catch (Throwable e) {
                say("E -1 -1 javac: " + e);
            }
            PRINTED.print(out);
            PRINTED.println(".");
            PRINTED.flush();
        }
        System.exit(0);
    }
}
