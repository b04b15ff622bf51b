// Prints the tree that javac reads from each source on standard input, one line a source; the sources end with a zero byte.
// A line is `fault WHY at OFFSET` where javac's parser refuses, `left out: WHAT` where the tree has a form outside the profile, and else the outline.
import com.sun.source.tree.*;
import com.sun.source.util.JavacTask;
import java.io.*;
import java.net.URI;
import java.nio.charset.StandardCharsets;
import java.util.*;
import javax.lang.model.element.Modifier;
import javax.tools.*;

public class Outlines {
    static final class LeftOut extends RuntimeException {
        LeftOut(String what) {
            super(what);
        }
    }

    static final class Source extends SimpleJavaFileObject {
        final String text;

        Source(String text) {
            super(URI.create("string:///A.java"), Kind.SOURCE);
            this.text = text;
        }

        @Override
        public CharSequence getCharContent(boolean ignored) {
            return text;
        }
    }

    final StringBuilder out = new StringBuilder();

    public static void main(String[] args) throws IOException {
        String all = new String(System.in.readAllBytes(), StandardCharsets.UTF_8);
        JavaCompiler compiler = ToolProvider.getSystemJavaCompiler();
        StandardJavaFileManager files = compiler.getStandardFileManager(null, null, null);
        PrintStream printed = new PrintStream(new BufferedOutputStream(new FileOutputStream(FileDescriptor.out)), false, "UTF-8");
        int from = 0;
        for (int end = all.indexOf('\0', from); end >= 0; from = end + 1, end = all.indexOf('\0', from)) {
            printed.println(lineOf(compiler, files, all.substring(from, end)));
        }
        printed.flush();
    }

    static String lineOf(JavaCompiler compiler, StandardJavaFileManager files, String text) throws IOException {
        DiagnosticCollector<JavaFileObject> found = new DiagnosticCollector<>();
        List<String> options = List.of("-source", "7", "-proc:none", "-Xlint:none");
        JavacTask task = (JavacTask) compiler.getTask(null, files, found, options, null, List.of(new Source(text)));
        CompilationUnitTree unit = task.parse().iterator().next();
        for (Diagnostic<?> one : found.getDiagnostics()) {
            if (one.getKind() == Diagnostic.Kind.ERROR) {
                return "fault " + one.getMessage(null).split("\n")[0] + " at " + one.getPosition();
            }
        }
        Outlines outlines = new Outlines();
        try {
            outlines.unit(unit);
        } catch (LeftOut left) {
            return "left out: " + left.getMessage();
        }
        return outlines.out.toString();
    }

    void open(String head) {
        out.append('(').append(head);
    }

    void word(String word) {
        out.append(' ').append(word);
    }

    void close() {
        out.append(')');
    }

    void unit(CompilationUnitTree unit) {
        open("unit");
        if (unit.getPackage() != null) {
            if (!unit.getPackage().getAnnotations().isEmpty()) {
                throw new LeftOut("annotation");
            }
            out.append(' ');
            open("package");
            word(dotted(unit.getPackageName()));
            close();
        }
        for (ImportTree one : unit.getImports()) {
            String name = dotted(one.getQualifiedIdentifier());
            boolean star = name.endsWith(".*");
            if (one.isStatic() && star) {
                throw new LeftOut("static import on demand");
            }
            out.append(' ');
            open("import");
            word(one.isStatic() ? "static" : star ? "demand" : "single");
            word(star ? name.substring(0, name.length() - 2) : name);
            close();
        }
        for (Tree type : unit.getTypeDecls()) {
            if (type instanceof ClassTree) {
                out.append(' ');
                type((ClassTree) type);
            } else if (type.getKind() != Tree.Kind.EMPTY_STATEMENT) {
                throw new LeftOut("declaration " + type.getKind());
            }
        }
        close();
    }

    void type(ClassTree tree) {
        boolean isInterface = tree.getKind() == Tree.Kind.INTERFACE;
        if (!isInterface && tree.getKind() != Tree.Kind.CLASS) {
            throw new LeftOut("declaration " + tree.getKind());
        }
        if (!tree.getTypeParameters().isEmpty()) {
            throw new LeftOut("generic type");
        }
        open(isInterface ? "interface" : "class");
        modifiers(tree.getModifiers());
        word(tree.getSimpleName().toString());
        out.append(' ');
        open("extends");
        if (tree.getExtendsClause() != null) {
            word(dotted(tree.getExtendsClause()));
        }
        close();
        out.append(' ');
        open("faces");
        for (Tree face : tree.getImplementsClause()) {
            word(dotted(face));
        }
        close();
        for (Tree member : tree.getMembers()) {
            out.append(' ');
            member(member, tree.getSimpleName().toString());
        }
        close();
    }

    void member(Tree member, String around) {
        if (member instanceof ClassTree) {
            type((ClassTree) member);
        } else if (member instanceof VariableTree) {
            variable("field", (VariableTree) member);
        } else if (member instanceof BlockTree) {
            BlockTree block = (BlockTree) member;
            open(block.isStatic() ? "static-init" : "init");
            out.append(' ');
            block(block);
            close();
        } else if (member instanceof MethodTree) {
            method((MethodTree) member, around);
        } else {
            throw new LeftOut("member " + member.getKind());
        }
    }

    void method(MethodTree tree, String around) {
        if (!tree.getTypeParameters().isEmpty()) {
            throw new LeftOut("generic method");
        }
        if (tree.getDefaultValue() != null || tree.getReceiverParameter() != null) {
            throw new LeftOut("annotation member or receiver parameter");
        }
        boolean isConstructor = tree.getReturnType() == null;
        open(isConstructor ? "constructor" : "method");
        modifiers(tree.getModifiers());
        if (!isConstructor) {
            out.append(' ');
            typeUse(tree.getReturnType());
        }
        String name = tree.getName().toString();
        word(name.equals("<init>") ? around : name);
        out.append(' ');
        open("params");
        for (VariableTree param : tree.getParameters()) {
            out.append(' ');
            variable("param", param);
        }
        close();
        out.append(' ');
        open("throws");
        for (ExpressionTree thrown : tree.getThrows()) {
            word(dotted(thrown));
        }
        close();
        if (tree.getBody() != null) {
            out.append(' ');
            block(tree.getBody());
        }
        close();
    }

    static final Set<Modifier> SERVED = EnumSet.of(Modifier.PUBLIC, Modifier.PROTECTED, Modifier.PRIVATE, Modifier.ABSTRACT, Modifier.STATIC, Modifier.FINAL, Modifier.NATIVE);

    // A repeated modifier is an error of javac's parser, and none of the profile's.
    void modifiers(ModifiersTree tree) {
        if (!tree.getAnnotations().isEmpty()) {
            throw new LeftOut("annotation");
        }
        out.append(" [");
        TreeSet<String> names = new TreeSet<>();
        for (Modifier one : tree.getFlags()) {
            if (!SERVED.contains(one)) {
                throw new LeftOut("modifier " + one);
            }
            names.add(one.toString());
        }
        out.append(String.join(" ", names)).append(']');
    }

    void variable(String head, VariableTree tree) {
        open(head);
        modifiers(tree.getModifiers());
        out.append(' ');
        if (tree.getType() == null || tree.toString().contains("...")) {
            throw new LeftOut("variable arity");
        }
        typeUse(tree.getType());
        word(tree.getName().toString());
        if (tree.getInitializer() != null) {
            out.append(' ');
            expr(tree.getInitializer());
        }
        close();
    }

    void typeUse(Tree tree) {
        int dims = 0;
        Tree base = tree;
        while (base instanceof ArrayTypeTree) {
            dims++;
            base = ((ArrayTypeTree) base).getType();
        }
        out.append(baseName(base));
        for (int i = 0; i < dims; i++) {
            out.append("[]");
        }
    }

    String baseName(Tree base) {
        if (base instanceof PrimitiveTypeTree) {
            String name = ((PrimitiveTypeTree) base).getPrimitiveTypeKind().toString().toLowerCase();
            if (name.equals("float") || name.equals("double")) {
                throw new LeftOut(name);
            }
            return name;
        }
        return dotted(base);
    }

    String dotted(Tree tree) {
        if (tree instanceof IdentifierTree) {
            return ((IdentifierTree) tree).getName().toString();
        }
        if (tree instanceof MemberSelectTree) {
            MemberSelectTree select = (MemberSelectTree) tree;
            return dotted(select.getExpression()) + "." + select.getIdentifier();
        }
        throw new LeftOut("type " + tree.getKind());
    }

    static boolean isName(Tree tree) {
        if (tree instanceof IdentifierTree) {
            String name = ((IdentifierTree) tree).getName().toString();
            return !name.equals("this") && !name.equals("super");
        }
        if (tree instanceof MemberSelectTree) {
            MemberSelectTree select = (MemberSelectTree) tree;
            String name = select.getIdentifier().toString();
            if (name.equals("class")) {
                throw new LeftOut("class literal");
            }
            return !name.equals("this") && !name.equals("super") && isName(select.getExpression());
        }
        return false;
    }

    void block(BlockTree tree) {
        open("block");
        for (StatementTree one : tree.getStatements()) {
            out.append(' ');
            stmt(one);
        }
        close();
    }

    void maybe(String head, Tree tree) {
        out.append(' ');
        open(head);
        if (tree != null) {
            out.append(' ');
            if (tree instanceof StatementTree) {
                stmt((StatementTree) tree);
            } else {
                expr((ExpressionTree) tree);
            }
        }
        close();
    }

    void one(String head, Tree... parts) {
        open(head);
        for (Tree part : parts) {
            out.append(' ');
            if (part instanceof StatementTree) {
                stmt((StatementTree) part);
            } else {
                expr((ExpressionTree) part);
            }
        }
        close();
    }

    static ExpressionTree bare(ExpressionTree condition) {
        return ((ParenthesizedTree) condition).getExpression();
    }

    void stmt(StatementTree tree) {
        switch (tree.getKind()) {
            case BLOCK:
                block((BlockTree) tree);
                break;
            case VARIABLE:
                variable("local", (VariableTree) tree);
                break;
            case EMPTY_STATEMENT:
                out.append("(skip)");
                break;
            case DO_WHILE_LOOP:
                one("do", ((DoWhileLoopTree) tree).getStatement(), bare(((DoWhileLoopTree) tree).getCondition()));
                break;
            case WHILE_LOOP:
                one("while", bare(((WhileLoopTree) tree).getCondition()), ((WhileLoopTree) tree).getStatement());
                break;
            case IF: {
                IfTree whole = (IfTree) tree;
                if (whole.getElseStatement() == null) {
                    one("if", bare(whole.getCondition()), whole.getThenStatement());
                } else {
                    one("if", bare(whole.getCondition()), whole.getThenStatement(), whole.getElseStatement());
                }
                break;
            }
            case EXPRESSION_STATEMENT:
                eval((ExpressionStatementTree) tree);
                break;
            case FOR_LOOP:
                loop((ForLoopTree) tree);
                break;
            case SWITCH:
                choice((SwitchTree) tree);
                break;
            case LABELED_STATEMENT:
                open("label");
                word(((LabeledStatementTree) tree).getLabel().toString());
                out.append(' ');
                stmt(((LabeledStatementTree) tree).getStatement());
                close();
                break;
            case BREAK:
                out.append(((BreakTree) tree).getLabel() == null ? "(break)" : "(break " + ((BreakTree) tree).getLabel() + ")");
                break;
            case CONTINUE:
                out.append(((ContinueTree) tree).getLabel() == null ? "(continue)" : "(continue " + ((ContinueTree) tree).getLabel() + ")");
                break;
            case RETURN:
                if (((ReturnTree) tree).getExpression() == null) {
                    out.append("(return)");
                } else {
                    one("return", ((ReturnTree) tree).getExpression());
                }
                break;
            case THROW:
                one("throw", ((ThrowTree) tree).getExpression());
                break;
            case TRY:
                attempt((TryTree) tree);
                break;
            default:
                throw new LeftOut("statement " + tree.getKind());
        }
    }

    void eval(ExpressionStatementTree tree) {
        ExpressionTree value = tree.getExpression();
        if (value instanceof MethodInvocationTree) {
            MethodInvocationTree call = (MethodInvocationTree) value;
            if (call.getMethodSelect() instanceof IdentifierTree) {
                String name = ((IdentifierTree) call.getMethodSelect()).getName().toString();
                if (name.equals("this") || name.equals("super")) {
                    open("call-" + name);
                    arguments(call.getArguments());
                    close();
                    return;
                }
            }
        }
        one("eval", value);
    }

    void loop(ForLoopTree tree) {
        open("for");
        out.append(' ');
        open("first");
        for (StatementTree one : tree.getInitializer()) {
            out.append(' ');
            if (one instanceof ExpressionStatementTree) {
                expr(((ExpressionStatementTree) one).getExpression());
            } else {
                stmt(one);
            }
        }
        close();
        maybe("test", tree.getCondition());
        out.append(' ');
        open("update");
        for (ExpressionStatementTree one : tree.getUpdate()) {
            out.append(' ');
            expr(one.getExpression());
        }
        close();
        out.append(' ');
        stmt(tree.getStatement());
        close();
    }

    void choice(SwitchTree tree) {
        open("switch");
        out.append(' ');
        expr(bare(tree.getExpression()));
        for (CaseTree one : tree.getCases()) {
            if (one.getCaseKind() != CaseTree.CaseKind.STATEMENT || one.getExpressions().size() > 1) {
                throw new LeftOut("case with an arrow or several values");
            }
            out.append(' ');
            if (one.getExpressions().isEmpty()) {
                out.append("(default)");
            } else {
                one("case", one.getExpressions().get(0));
            }
            for (StatementTree inner : one.getStatements()) {
                out.append(' ');
                stmt(inner);
            }
        }
        close();
    }

    void attempt(TryTree tree) {
        if (!tree.getResources().isEmpty()) {
            throw new LeftOut("try with resources");
        }
        open("try");
        out.append(' ');
        block(tree.getBlock());
        for (CatchTree one : tree.getCatches()) {
            if (one.getParameter().getType() instanceof UnionTypeTree) {
                throw new LeftOut("catch of several types");
            }
            out.append(' ');
            open("catch");
            out.append(' ');
            variable("param", one.getParameter());
            out.append(' ');
            block(one.getBlock());
            close();
        }
        if (tree.getFinallyBlock() != null) {
            out.append(' ');
            open("finally");
            out.append(' ');
            block(tree.getFinallyBlock());
            close();
        }
        close();
    }

    void arguments(List<? extends ExpressionTree> all) {
        for (ExpressionTree one : all) {
            out.append(' ');
            expr(one);
        }
    }

    static final Map<Tree.Kind, String> SIGNS = new EnumMap<>(Tree.Kind.class);

    static {
        String[] pairs = {
            "MULTIPLY *", "DIVIDE /", "REMAINDER %", "PLUS +", "MINUS -", "LEFT_SHIFT <<", "RIGHT_SHIFT >>", "UNSIGNED_RIGHT_SHIFT >>>",
            "LESS_THAN <", "GREATER_THAN >", "LESS_THAN_EQUAL <=", "GREATER_THAN_EQUAL >=", "EQUAL_TO ==", "NOT_EQUAL_TO !=", "AND &", "XOR ^",
            "OR |", "CONDITIONAL_AND &&", "CONDITIONAL_OR ||", "MULTIPLY_ASSIGNMENT *=", "DIVIDE_ASSIGNMENT /=", "REMAINDER_ASSIGNMENT %=",
            "PLUS_ASSIGNMENT +=", "MINUS_ASSIGNMENT -=", "LEFT_SHIFT_ASSIGNMENT <<=", "RIGHT_SHIFT_ASSIGNMENT >>=",
            "UNSIGNED_RIGHT_SHIFT_ASSIGNMENT >>>=", "AND_ASSIGNMENT &=", "XOR_ASSIGNMENT ^=", "OR_ASSIGNMENT |=", "UNARY_PLUS +",
            "UNARY_MINUS -", "BITWISE_COMPLEMENT ~", "LOGICAL_COMPLEMENT !"
        };
        for (String pair : pairs) {
            String[] both = pair.split(" ");
            SIGNS.put(Tree.Kind.valueOf(both[0]), both[1]);
        }
    }

    void expr(ExpressionTree tree) {
        Tree.Kind kind = tree.getKind();
        if (isName(tree)) {
            open("name");
            word(dotted(tree));
            close();
        } else if (tree instanceof LiteralTree) {
            literal((LiteralTree) tree);
        } else if (tree instanceof BinaryTree) {
            one("binary " + SIGNS.get(kind), ((BinaryTree) tree).getLeftOperand(), ((BinaryTree) tree).getRightOperand());
        } else if (tree instanceof UnaryTree) {
            unary((UnaryTree) tree);
        } else if (tree instanceof AssignmentTree) {
            one("assign =", ((AssignmentTree) tree).getVariable(), ((AssignmentTree) tree).getExpression());
        } else if (tree instanceof CompoundAssignmentTree) {
            one("assign " + SIGNS.get(kind), ((CompoundAssignmentTree) tree).getVariable(), ((CompoundAssignmentTree) tree).getExpression());
        } else if (tree instanceof ConditionalExpressionTree) {
            ConditionalExpressionTree whole = (ConditionalExpressionTree) tree;
            one("cond", whole.getCondition(), whole.getTrueExpression(), whole.getFalseExpression());
        } else if (tree instanceof ParenthesizedTree) {
            one("paren", ((ParenthesizedTree) tree).getExpression());
        } else if (tree instanceof ArrayAccessTree) {
            one("index", ((ArrayAccessTree) tree).getExpression(), ((ArrayAccessTree) tree).getIndex());
        } else if (tree instanceof TypeCastTree) {
            open("cast ");
            typeUse(((TypeCastTree) tree).getType());
            out.append(' ');
            expr(((TypeCastTree) tree).getExpression());
            close();
        } else if (tree instanceof InstanceOfTree) {
            open("is-a ");
            typeUse(((InstanceOfTree) tree).getType());
            out.append(' ');
            expr(((InstanceOfTree) tree).getExpression());
            close();
        } else {
            primary(tree);
        }
    }

    void unary(UnaryTree tree) {
        switch (tree.getKind()) {
            case PREFIX_INCREMENT:
                one("pre ++", tree.getExpression());
                break;
            case PREFIX_DECREMENT:
                one("pre --", tree.getExpression());
                break;
            case POSTFIX_INCREMENT:
                one("post ++", tree.getExpression());
                break;
            case POSTFIX_DECREMENT:
                one("post --", tree.getExpression());
                break;
            default:
                one("unary " + SIGNS.get(tree.getKind()), tree.getExpression());
        }
    }

    void primary(ExpressionTree tree) {
        if (tree instanceof IdentifierTree) {
            out.append("(").append(((IdentifierTree) tree).getName()).append(")");
        } else if (tree instanceof MemberSelectTree) {
            select((MemberSelectTree) tree);
        } else if (tree instanceof MethodInvocationTree) {
            call((MethodInvocationTree) tree);
        } else if (tree instanceof NewClassTree) {
            creation((NewClassTree) tree);
        } else if (tree instanceof NewArrayTree) {
            array((NewArrayTree) tree);
        } else {
            throw new LeftOut("expression " + tree.getKind());
        }
    }

    void select(MemberSelectTree tree) {
        String name = tree.getIdentifier().toString();
        if (name.equals("this")) {
            out.append("(this ").append(dotted(tree.getExpression())).append(")");
        } else if (tree.getExpression().toString().equals("super")) {
            out.append("(super-select ").append(name).append(")");
        } else if (name.equals("class")) {
            throw new LeftOut("class literal");
        } else {
            open("select " + name);
            out.append(' ');
            object(tree.getExpression());
            close();
        }
    }

    // What stands before a dot: `T.super` is left out.
    void object(ExpressionTree tree) {
        if (tree instanceof MemberSelectTree && ((MemberSelectTree) tree).getIdentifier().contentEquals("super")) {
            throw new LeftOut("T.super");
        }
        expr(tree);
    }

    void call(MethodInvocationTree tree) {
        if (!tree.getTypeArguments().isEmpty()) {
            throw new LeftOut("generic call");
        }
        ExpressionTree method = tree.getMethodSelect();
        if (method instanceof IdentifierTree) {
            String name = ((IdentifierTree) method).getName().toString();
            if (name.equals("this") || name.equals("super")) {
                throw new LeftOut("call of a constructor in an expression");
            }
            open("call " + name + " (on)");
        } else if (method instanceof MemberSelectTree) {
            MemberSelectTree select = (MemberSelectTree) method;
            if (select.getIdentifier().contentEquals("super") || select.getIdentifier().contentEquals("this")) {
                throw new LeftOut("call of a superclass's constructor with an object");
            }
            open("call " + select.getIdentifier());
            out.append(" (on ");
            if (select.getExpression().toString().equals("super")) {
                out.append("super");
            } else {
                object(select.getExpression());
            }
            out.append(')');
        } else {
            throw new LeftOut("call of " + method.getKind());
        }
        arguments(tree.getArguments());
        close();
    }

    void creation(NewClassTree tree) {
        if (tree.getEnclosingExpression() != null || tree.getClassBody() != null || !tree.getTypeArguments().isEmpty()) {
            throw new LeftOut("creation with an object, a body or type arguments");
        }
        open("new " + dotted(tree.getIdentifier()));
        arguments(tree.getArguments());
        close();
    }

    void array(NewArrayTree tree) {
        if (tree.getType() == null) {
            open("list");
            arguments(tree.getInitializers());
            close();
            return;
        }
        int extra = 0;
        Tree base = tree.getType();
        while (base instanceof ArrayTypeTree) {
            extra++;
            base = ((ArrayTypeTree) base).getType();
        }
        open("new-array " + baseName(base));
        if (tree.getInitializers() != null) {
            word(String.valueOf(extra + 1));
            out.append(' ');
            open("list");
            arguments(tree.getInitializers());
            close();
        } else {
            word(String.valueOf(extra));
            arguments(tree.getDimensions());
        }
        close();
    }

    void literal(LiteralTree tree) {
        Object value = tree.getValue();
        if (value instanceof Float || value instanceof Double) {
            throw new LeftOut("floating point");
        }
        open("literal");
        if (value == null) {
            word("null");
        } else if (value instanceof String || value instanceof Character) {
            word(value instanceof String ? "string" : "char");
            for (char unit : value.toString().toCharArray()) {
                word(String.valueOf((int) unit));
            }
        } else {
            word(value instanceof Integer ? "int" : value instanceof Long ? "long" : "boolean");
            word(value.toString());
        }
        close();
    }
}
