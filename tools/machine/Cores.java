import com.sun.source.util.JavacTask;
import com.sun.tools.javac.api.BasicJavacTask;
import com.sun.tools.javac.code.Flags;
import com.sun.tools.javac.code.Symbol;
import com.sun.tools.javac.code.Symbol.ClassSymbol;
import com.sun.tools.javac.code.Symbol.MethodSymbol;
import com.sun.tools.javac.code.Symbol.VarSymbol;
import com.sun.tools.javac.code.Symtab;
import com.sun.tools.javac.code.Type;
import com.sun.tools.javac.code.TypeTag;
import com.sun.tools.javac.code.Types;
import com.sun.tools.javac.tree.JCTree;
import com.sun.tools.javac.tree.JCTree.*;
import com.sun.tools.javac.tree.TreeInfo;
import java.nio.file.Path;
import java.util.ArrayList;
import java.util.HashMap;
import java.util.LinkedHashSet;
import java.util.List;
import java.util.Map;
import java.util.Set;
import javax.tools.JavaCompiler;
import javax.tools.ToolProvider;

/** Prints the cores of Java classes by words, which `cores.py` writes as numbers. Names and types come from `javac`'s own attribution. */
class Cores {
    private final Symtab symbols;
    private final Types types;
    private final StringBuilder out = new StringBuilder();
    private final Map<Symbol, String> numbers = new HashMap<>();
    private final Map<ClassSymbol, Integer> units = new HashMap<>();
    private final Map<Integer, Integer> next = new HashMap<>();
    private final List<String> labels = new ArrayList<>();
    private final List<String> labelNumbers = new ArrayList<>();
    private ClassSymbol current;
    private Type result;

    /** What the machine knows by itself, by its place in the prelude. */
    private static final Map<String, Integer> KNOWN = Map.ofEntries(
            Map.entry("java.lang.Object", 3),
            Map.entry("java.lang.Object.toString()", 19),
            Map.entry("java.lang.String", 25),
            Map.entry("java.lang.String.length()", 28),
            Map.entry("java.lang.String.charAt(int)", 30),
            Map.entry("java.lang.String.equals(java.lang.Object)", 34),
            Map.entry("java.lang.ArithmeticException", 118),
            Map.entry("java.lang.NullPointerException", 130),
            Map.entry("java.lang.ClassCastException", 142),
            Map.entry("java.lang.ArrayStoreException", 154),
            Map.entry("java.lang.NegativeArraySizeException", 166),
            Map.entry("java.lang.ArrayIndexOutOfBoundsException", 214),
            Map.entry("java.lang.StringIndexOutOfBoundsException", 226),
            Map.entry("java.io.PrintStream.print(java.lang.String)", 4));

    private Cores(Symtab symbols, Types types) {
        this.symbols = symbols;
        this.types = types;
    }

    private void put(Object... words) {
        for (int i = 0; i < words.length; i++) {
            out.append(i == 0 ? "" : " ").append(words[i]);
        }
        out.append('\n');
    }

    // ---- declarations

    private static String nameOf(Symbol symbol) {
        return symbol instanceof MethodSymbol ? symbol.owner.getQualifiedName() + "." + symbol : symbol.getQualifiedName().toString();
    }

    /** The unit of a class: 0 and 1 for the prelude, and one for each other outermost class. */
    private int unitOf(Symbol symbol) {
        String packageName = symbol.packge().getQualifiedName().toString();
        if (packageName.equals("java.lang")) {
            return 0;
        }
        if (packageName.equals("java.io")) {
            return 1;
        }
        return units.computeIfAbsent(symbol.outermostClass(), key -> 2 + units.size());
    }

    private String decl(Symbol symbol) {
        return numbers.computeIfAbsent(symbol, key -> {
            int unit = unitOf(symbol);
            Integer place = unit < 2 ? KNOWN.get(nameOf(symbol)) : null;
            return unit + ":" + (place == null ? fresh(unit) : place);
        });
    }

    /** A number in the unit that no node of the prelude has. */
    private int fresh(int unit) {
        return next.merge(unit, 1000, (last, first) -> last + 1);
    }

    /** The number of a declaration that has no symbol: an initializer or a label. */
    private String anonymous() {
        int unit = unitOf(current);
        return unit + ":" + fresh(unit);
    }

    private void type(Type type) {
        switch (type.getTag()) {
            case ARRAY -> {
                type(types.elemtype(type));
                put("type array");
            }
            case CLASS -> put("type class", decl(type.tsym));
            default -> put("type", type.getTag() == TypeTag.BOOLEAN ? "boolean" : type.toString());
        }
    }

    // ---- classes

    private Set<ClassSymbol> supertypes(ClassSymbol symbol) {
        Set<ClassSymbol> all = new LinkedHashSet<>();
        for (Type type : types.closure(symbol.type)) {
            all.add((ClassSymbol) type.tsym);
        }
        all.add((ClassSymbol) symbols.objectType.tsym);
        return all;
    }

    private int found(ClassSymbol symbol) {
        int count = 0;
        for (ClassSymbol above : supertypes(symbol)) {
            for (Symbol member : above.members().getSymbols(s -> s instanceof MethodSymbol)) {
                MethodSymbol method = (MethodSymbol) member;
                if (method.isStatic() || method.isConstructor()) {
                    continue;
                }
                boolean isPrivate = (method.flags() & Flags.PRIVATE) != 0;
                MethodSymbol runs = isPrivate ? method : method.implementation(symbol, types, false);
                if (runs != null && (runs.flags() & Flags.ABSTRACT) == 0) {
                    put("decl found", decl(method), decl(runs));
                    count++;
                }
            }
        }
        return count;
    }

    private void classDecl(JCClassDecl tree) {
        ClassSymbol before = current;
        current = tree.sym;
        List<String> members = new ArrayList<>();
        for (JCTree member : tree.defs) {
            if (member instanceof JCVariableDecl field) {
                members.add(field(field));
            } else if (member instanceof JCBlock block) {
                members.add(initializer(block));
            } else if (member instanceof JCMethodDecl method) {
                method(method);
            }
        }
        Type parent = types.supertype(tree.sym.type);
        String above = parent.hasTag(TypeTag.CLASS) && !tree.sym.isInterface() ? decl(parent.tsym) : "-";
        List<Type> faces = types.interfaces(tree.sym.type);
        faces.forEach(face -> put("decl face", decl(face.tsym)));
        String outer = tree.sym.hasOuterInstance() ? decl(tree.sym.owner.enclClass()) : "-";
        members.forEach(member -> put("decl plain", member));
        put("class", decl(tree.sym), above, outer, faces.size(), members.size(), found(tree.sym));
        for (JCTree member : tree.defs) {
            if (member instanceof JCClassDecl inner) {
                classDecl(inner);
            }
        }
        current = before;
    }

    private void body(String decl, int params, int count, long flags) {
        String isStatic = (flags & Flags.STATIC) != 0 ? " static" : "";
        String isNative = (flags & Flags.NATIVE) != 0 ? " native" : "";
        put("body", decl, decl(current), params, count + isStatic + isNative);
    }

    private String field(JCVariableDecl tree) {
        int count = 0;
        if (tree.init != null) {
            fieldTarget(tree.sym);
            converted(tree.init, tree.sym.type);
            put("two assign");
            put("one eval");
            count = 1;
        }
        if (tree.sym.getConstValue() != null) {
            constant("constant", tree.sym.getConstValue(), tree.sym.type);
        }
        type(tree.sym.type);
        long flags = current.isInterface() ? Flags.STATIC : tree.sym.flags();
        body(decl(tree.sym), 0, count, flags);
        return decl(tree.sym);
    }

    private void fieldTarget(VarSymbol field) {
        if (field.isStatic()) {
            put("leaf field", decl(field));
        } else {
            put("leaf this", decl(current));
            put("one field", decl(field));
        }
    }

    private String initializer(JCBlock tree) {
        String decl = anonymous();
        statement(tree);
        put("type void");
        body(decl, 0, 1, tree.flags);
        return decl;
    }

    private void method(JCMethodDecl tree) {
        result = tree.sym.type.getReturnType();
        for (JCVariableDecl param : tree.params) {
            put("decl plain", decl(param.sym));
        }
        int count = tree.body == null ? 0 : statements(tree.body.stats);
        type(tree.sym.isConstructor() ? symbols.voidType : result);
        body(decl(tree.sym), tree.params.size(), count, tree.sym.flags());
    }

    // ---- statements

    private int statements(List<? extends JCStatement> trees) {
        trees.forEach(this::statement);
        return trees.size();
    }

    private void statement(JCStatement tree) {
        if (tree instanceof JCBlock block) {
            put("list block", statements(block.stats));
        } else if (tree instanceof JCVariableDecl local) {
            if (local.init == null) {
                put("leaf declare", decl(local.sym));
            } else {
                converted(local.init, local.sym.type);
                put("one local", decl(local.sym));
            }
        } else if (tree instanceof JCSkip) {
            put("leaf skip");
        } else if (tree instanceof JCDoWhileLoop loop) {
            statement(loop.body);
            expression(loop.cond);
            put("two do");
        } else if (tree instanceof JCWhileLoop loop) {
            expression(loop.cond);
            statement(loop.body);
            put("two while");
        } else if (tree instanceof JCIf choice) {
            expression(choice.cond);
            statement(choice.thenpart);
            if (choice.elsepart == null) {
                put("two if");
            } else {
                statement(choice.elsepart);
                put("three if_else");
            }
        } else if (tree instanceof JCExpressionStatement effect) {
            effect(effect);
        } else if (tree instanceof JCForLoop loop) {
            forLoop(loop);
        } else if (tree instanceof JCReturn back) {
            if (back.expr == null) {
                put("leaf return");
            } else {
                converted(back.expr, result);
                put("one return");
            }
        } else if (tree instanceof JCThrow thrown) {
            expression(thrown.expr);
            put("one throw");
        } else {
            jump(tree);
        }
    }

    private void effect(JCExpressionStatement tree) {
        if (TreeInfo.isSelfCall(tree)) {
            constructorCall((JCMethodInvocation) tree.expr);
        } else {
            expression(tree.expr);
            put("one eval");
        }
    }

    private void forLoop(JCForLoop tree) {
        int first = statements(tree.init);
        if (tree.cond != null) {
            expression(tree.cond);
        }
        int update = statements(tree.step);
        statement(tree.body);
        put(tree.cond == null ? "for ever" : "for while", first, update);
    }

    private void jump(JCStatement tree) {
        if (tree instanceof JCBreak jump) {
            put(jump.label == null ? "leaf break" : "leaf break " + labelNumbers.get(labels.lastIndexOf(jump.label.toString())));
        } else if (tree instanceof JCContinue jump) {
            put(jump.label == null ? "leaf continue" : "leaf continue " + labelNumbers.get(labels.lastIndexOf(jump.label.toString())));
        } else if (tree instanceof JCLabeledStatement labeled) {
            String number = anonymous();
            labels.add(labeled.label.toString());
            labelNumbers.add(number);
            statement(labeled.body);
            labels.remove(labels.size() - 1);
            labelNumbers.remove(labelNumbers.size() - 1);
            put("one labeled", number);
        } else if (tree instanceof JCSwitch choice) {
            switchStatement(choice);
        } else if (tree instanceof JCTry attempt) {
            attempt(attempt);
        } else {
            throw new IllegalArgumentException(tree.toString());
        }
    }

    private void switchStatement(JCSwitch tree) {
        expression(tree.selector);
        for (JCCase group : tree.cases) {
            int count = statements(group.stats);
            for (JCExpression label : group.getExpressions()) {
                put("label case", ((Number) label.type.constValue()).intValue());
            }
            if (group.getExpressions().isEmpty()) {
                put("label default");
            }
            put("group", count, Math.max(1, group.getExpressions().size()));
        }
        put("switch", tree.cases.size());
    }

    private void attempt(JCTry tree) {
        int body = statements(tree.body.stats);
        for (JCCatch handler : tree.catchers) {
            int count = statements(handler.body.stats);
            put("catch", count, decl(handler.param.sym.type.tsym), decl(handler.param.sym));
        }
        if (tree.finalizer == null) {
            put("try plain", body, tree.catchers.size());
        } else {
            put("try finally", body, tree.catchers.size(), statements(tree.finalizer.stats));
        }
    }

    // ---- expressions

    /** The value, converted to a primitive type where it has another one (JLS 5). */
    private void converted(JCExpression tree, Type to) {
        Type from = tree.type;
        if (from.constValue() != null && to.isPrimitive()) {
            constant("literal", from.constValue(), to);
            return;
        }
        expression(tree);
        if (to.isPrimitive() && from.isPrimitive() && from.getTag() != to.getTag()) {
            type(to);
            put("typed cast");
        }
    }

    /** An index or a dimension, promoted (JLS 5.6). */
    private void promoted(JCExpression tree) {
        converted(tree, symbols.intType);
    }

    /** A line of this kind with a constant. */
    private void constant(String kind, Object value, Type type) {
        switch (type.getTag()) {
            case BOOLEAN -> put(kind, "boolean", ((Number) value).intValue() == 1);
            case CHAR -> put(kind, "char", ((Number) value).intValue() & 0xffff);
            case BYTE -> put(kind, "byte", ((Number) value).byteValue());
            case SHORT -> put(kind, "short", ((Number) value).shortValue());
            case INT -> put(kind, "int", ((Number) value).intValue());
            case LONG -> put(kind, "long", ((Number) value).longValue());
            default -> text(kind, (String) value);
        }
    }

    private void text(String kind, String value) {
        StringBuilder line = new StringBuilder(kind + " text");
        value.chars().forEach(unit -> line.append(' ').append(unit));
        put(line);
    }

    private void shown(JCExpression tree) {
        expression(tree);
        if (!types.isSameType(tree.type, symbols.stringType)) {
            put("one show");
        }
    }

    private void expression(JCExpression given) {
        JCExpression tree = TreeInfo.skipParens(given);
        if (tree.type.constValue() != null) {
            constant("literal", tree.type.constValue(), tree.type.baseType());
        } else if (tree instanceof JCLiteral) {
            put("leaf null");
        } else if (tree instanceof JCIdent name) {
            name(name);
        } else if (tree instanceof JCFieldAccess access) {
            access(access);
        } else if (tree instanceof JCMethodInvocation call) {
            call(call);
        } else if (tree instanceof JCNewClass creation) {
            creation(creation);
        } else if (tree instanceof JCNewArray creation) {
            array(creation);
        } else if (tree instanceof JCArrayAccess access) {
            expression(access.indexed);
            promoted(access.index);
            put("two index");
        } else if (tree instanceof JCConditional choice) {
            expression(choice.cond);
            converted(choice.truepart, tree.type);
            converted(choice.falsepart, tree.type);
            put("three cond");
        } else {
            operation(tree);
        }
    }

    private void operation(JCExpression tree) {
        if (tree instanceof JCAssign assignment) {
            expression(assignment.lhs);
            converted(assignment.rhs, assignment.lhs.type);
            put("two assign");
        } else if (tree instanceof JCAssignOp assignment) {
            expression(assignment.lhs);
            boolean joins = types.isSameType(assignment.lhs.type, symbols.stringType);
            if (joins) {
                shown(assignment.rhs);
            } else {
                expression(assignment.rhs);
            }
            put("two compound", operator(assignment.getTag().noAssignOp()));
        } else if (tree instanceof JCBinary binary) {
            binary(binary);
        } else if (tree instanceof JCUnary unary) {
            expression(unary.arg);
            put(unaryWord(unary.getTag()));
        } else if (tree instanceof JCInstanceOf test) {
            expression(test.expr);
            type(test.pattern.type);
            put("typed is_a");
        } else if (tree instanceof JCTypeCast cast) {
            cast(cast);
        } else {
            throw new IllegalArgumentException(tree.getClass() + " " + tree);
        }
    }

    private void binary(JCBinary tree) {
        if (tree.hasTag(JCTree.Tag.AND) || tree.hasTag(JCTree.Tag.OR)) {
            expression(tree.lhs);
            expression(tree.rhs);
            put("two", tree.hasTag(JCTree.Tag.AND) ? "and_also" : "or_else");
            return;
        }
        if (types.isSameType(tree.type, symbols.stringType)) {
            shown(tree.lhs);
            shown(tree.rhs);
        } else {
            expression(tree.lhs);
            expression(tree.rhs);
        }
        put("two binary", operator(tree.getTag()));
    }

    private static String operator(JCTree.Tag tag) {
        return switch (tag) {
            case MUL -> "multiply";
            case DIV -> "divide";
            case MOD -> "remainder";
            case PLUS -> "add";
            case MINUS -> "subtract";
            case SL -> "shift_left";
            case SR -> "shift_right";
            case USR -> "shift_right_unsigned";
            case LT -> "less";
            case GT -> "greater";
            case LE -> "less_equal";
            case GE -> "greater_equal";
            case EQ -> "equal";
            case NE -> "not_equal";
            case BITAND -> "and";
            case BITXOR -> "xor";
            case BITOR -> "or";
            default -> throw new IllegalArgumentException(tag.toString());
        };
    }

    private static String unaryWord(JCTree.Tag tag) {
        return switch (tag) {
            case POS -> "one unary plus";
            case NEG -> "one unary minus";
            case COMPL -> "one unary complement";
            case NOT -> "one unary not";
            case PREINC -> "one pre increment";
            case PREDEC -> "one pre decrement";
            case POSTINC -> "one post increment";
            case POSTDEC -> "one post decrement";
            default -> throw new IllegalArgumentException(tag.toString());
        };
    }

    private void cast(JCTypeCast tree) {
        if (tree.type.isPrimitive()) {
            converted(tree.expr, tree.type);
            return;
        }
        expression(tree.expr);
        if (!types.isSubtype(tree.expr.type, tree.type)) {
            type(tree.type);
            put("typed cast");
        }
    }

    // ---- names and members

    /** The class round this place, or the place's own, that has the member. */
    private ClassSymbol holder(Symbol member) {
        ClassSymbol at = current;
        while (!at.isSubClass(member.owner, types)) {
            at = at.owner.enclClass();
        }
        return at;
    }

    private void name(JCIdent tree) {
        if (tree.name.toString().equals("this") || tree.name.toString().equals("super")) {
            put("leaf this", decl(current));
        } else if (tree.sym.owner.kind != com.sun.tools.javac.code.Kinds.Kind.TYP) {
            put("leaf var", decl(tree.sym));
        } else if (tree.sym.isStatic()) {
            put("leaf field", decl(tree.sym));
        } else {
            put("leaf this", decl(holder(tree.sym)));
            put("one field", decl(tree.sym));
        }
    }

    private static boolean isType(JCExpression tree) {
        Symbol symbol = TreeInfo.symbol(tree);
        boolean names = TreeInfo.skipParens(tree) instanceof JCIdent || TreeInfo.skipParens(tree) instanceof JCFieldAccess;
        return names && symbol instanceof ClassSymbol;
    }

    private void access(JCFieldAccess tree) {
        if (tree.name.toString().equals("this")) {
            put("leaf this", decl(tree.selected.type.tsym));
        } else if (tree.sym == symbols.lengthVar) {
            expression(tree.selected);
            put("one length");
        } else if (isType(tree.selected)) {
            put("leaf field", decl(tree.sym));
        } else {
            expression(tree.selected);
            put("one field", decl(tree.sym));
        }
    }

    private int args(List<JCExpression> args, Symbol method) {
        List<Type> wanted = method.type.getParameterTypes();
        for (int i = 0; i < args.size(); i++) {
            converted(args.get(i), wanted.get(i));
        }
        return args.size();
    }

    private void call(JCMethodInvocation tree) {
        Symbol method = TreeInfo.symbol(tree.meth);
        if (tree.meth instanceof JCFieldAccess access && !isType(access.selected)) {
            boolean isSuper = access.selected instanceof JCIdent on && on.name.toString().equals("super");
            if (!isSuper) {
                expression(access.selected);
            }
            put(isSuper ? "list above" : "call on", args(tree.args, method), decl(method));
        } else if (method.isStatic()) {
            put("list static", args(tree.args, method), decl(method));
        } else {
            put("leaf this", decl(holder(method)));
            put("call on", args(tree.args, method), decl(method));
        }
    }

    private void constructorCall(JCMethodInvocation tree) {
        Symbol ctor = TreeInfo.symbol(tree.meth);
        boolean isSuper = TreeInfo.name(tree.meth).toString().equals("super");
        put(isSuper ? "list super" : "list this", args(tree.args, ctor), decl(ctor));
    }

    private void creation(JCNewClass tree) {
        ClassSymbol made = (ClassSymbol) tree.type.tsym;
        boolean hasOuter = made.hasOuterInstance();
        if (tree.encl != null) {
            expression(tree.encl);
        } else if (hasOuter) {
            put("leaf this", decl(holder(made)));
        }
        put(hasOuter ? "call new_in" : "list new", args(tree.args, tree.constructor), decl(tree.constructor));
    }

    private void array(JCNewArray tree) {
        if (tree.elems == null) {
            tree.dims.forEach(this::promoted);
            type(tree.type);
            put("array dims", tree.dims.size());
        } else {
            tree.elems.forEach(item -> converted(item, types.elemtype(tree.type)));
            type(tree.type);
            put("array items", tree.elems.size());
        }
    }

    // ---- all

    private void start(JCClassDecl tree, String steps) {
        for (JCTree member : tree.defs) {
            if (member instanceof JCMethodDecl method && method.name.toString().equals("main")) {
                put("start", tree.sym.getSimpleName(), decl(method.sym), steps);
            }
        }
    }

    /** Arguments: the folder of the prelude, the bound on steps of each run, and the files. */
    public static void main(String[] args) throws Exception {
        JavaCompiler compiler = ToolProvider.getSystemJavaCompiler();
        var files = compiler.getStandardFileManager(null, null, null);
        List<Path> paths = new ArrayList<>();
        for (int i = 2; i < args.length; i++) {
            paths.add(Path.of(args[i]));
        }
        List<String> options = List.of("--patch-module", "java.base=" + args[0], "-proc:none", "-nowarn");
        JavacTask task = (JavacTask) compiler.getTask(null, files, null, options, null, files.getJavaFileObjectsFromPaths(paths));
        List<JCCompilationUnit> units = new ArrayList<>();
        task.parse().forEach(tree -> units.add((JCCompilationUnit) tree));
        task.analyze();
        var context = ((BasicJavacTask) task).getContext();
        Cores cores = new Cores(Symtab.instance(context), Types.instance(context));
        for (JCCompilationUnit unit : units) {
            for (JCTree tree : unit.defs) {
                if (tree instanceof JCClassDecl type) {
                    cores.classDecl(type);
                }
            }
        }
        for (JCCompilationUnit unit : units) {
            for (JCTree tree : unit.defs) {
                if (tree instanceof JCClassDecl type && type.sym.packge().getQualifiedName().contentEquals("cases")) {
                    cores.start(type, args[1]);
                }
            }
        }
        System.out.print(cores.out);
        cores.numbers.forEach((symbol, number) -> System.err.println(number + " " + (symbol instanceof ClassSymbol type ? type.flatName() : nameOf(symbol))));
    }
}
