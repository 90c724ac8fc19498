# Makes a program in Smalltalk of many methods at random, and what it has to print, by evaluating the trees of the methods as they are generated.
#
#     awk -v seed=N -v methods=N -v source=FILE -v wanted=FILE -f generated.awk
#
# A method has two arguments and three temporaries, and statements that assign, choose, loop, return early, and send messages to numbers, arrays and
# to methods before it. Each node of a tree is a number: `kind` says what it is, and `p`, `q` and `r` have its parts. `eval` says what it comes to.

function node(k, a, b, c) { nodes++; kind[nodes] = k; p[nodes] = a; q[nodes] = b; r[nodes] = c; return nodes }
function some(n) { return int(rand() * n) }

# ---- trees

# An expression whose value is a number.
function number(depth,   k) {
    k = depth <= 0 ? some(3) : some(15)
    if (k == 0) return node("constant", some(20) == 0 ? some(40000) - 20000 : some(12) - 2)
    if (k == 1) return node("variable", some(5))
    if (k == 2) return inside > 0 && some(2) ? node("block variable", 1 + some(inside)) : node("variable", some(5))
    if (k <= 4) return node("binary", "+", number(depth - 1), number(depth - 1))
    if (k == 5) return node("binary", "-", number(depth - 1), number(depth - 1))
    if (k == 6) return node("binary", "*", number(depth - 1), number(depth - 1))
    if (k == 7) return node("binary", some(2) ? "//" : "\\\\", number(depth - 1), node("constant", 1 + some(9)))
    if (k == 8) return node("binary", some(2) ? "max:" : "min:", number(depth - 1), number(depth - 1))
    if (k == 9) return node("unary", some(2) ? "negated" : "abs", number(depth - 1))
    if (k <= 11) return node("choice", truth(depth - 1), number(depth - 1), number(depth - 1))
    if (k == 12) return node("assignment", 2 + some(3), number(depth - 1))
    if (k == 13 && method > 1 && loops == 0 && calls < 2) { calls++; return node("call", 1 + some(method - 1), number(depth - 1), number(0)) }
    if (k == 14 && blocks < 4 && loops == 0) return inject(depth)
    return node("at", some(4) + 1)
}

# The elements of an array added up by a block with two arguments.
function inject(depth,   first, sum, body) {
    sum = ++blocks
    ++blocks
    first = number(depth - 1)
    inside += 2
    loops++
    body = node("binary", "+", node("block variable", inside - 1), number(depth - 2))
    loops--
    inside -= 2
    return node("inject", first, body, inside + 1)
}

# An expression whose value is a truth value.
function truth(depth,   k) {
    k = depth <= 0 ? 0 : some(6)
    if (k <= 2) return node("test", substr("< > <=>== ~=", 1 + 2 * some(6), 2), number(depth - 1), number(depth - 1))
    if (k == 3) return node("both", "and:", truth(depth - 1), truth(depth - 1))
    if (k == 4) return node("both", "or:", truth(depth - 1), truth(depth - 1))
    return node("not", truth(depth - 1))
}

function assignment(depth) { return node("assignment", 2 + some(3), number(depth)) }

function statement(   k) {
    k = some(8)
    if (k <= 3) return assignment(3)
    if (k == 4) return node("branch", some(2) ? "ifTrue:" : "ifFalse:", truth(2), assignment(2))
    if (k == 5) return node("return early", truth(1), number(1))
    if (k == 6) { loops++; k = node("repeat", 1 + some(4), assignment(2)); loops--; return k }
    loops++
    k = node("while", 1 + some(4), assignment(2))
    loops--
    return k
}

# ---- what they come to

function quotient(a, b,   d) { d = int(a / b); if (d * b != a && (a < 0) != (b < 0)) d--; return d }

function eval(n, f,   k, a, b, i) {
    k = kind[n]
    if (k == "constant") return p[n]
    if (k == "variable") return value[f, p[n]]
    if (k == "block variable") return value[f, "block" p[n]]
    if (k == "at") return array[p[n]]
    if (k == "assignment") { a = eval(q[n], f); return value[f, p[n]] = a }
    if (k == "unary") { a = eval(q[n], f); return p[n] == "negated" || a < 0 ? -a : a }
    if (k == "choice") { if (eval(p[n], f)) return eval(q[n], f); return eval(r[n], f) }
    if (k == "call") { a = eval(q[n], f); b = eval(r[n], f); return call(p[n], a, b, f + 1) }
    if (k == "not") return !eval(p[n], f)
    if (k == "both") {
        a = eval(q[n], f)
        if (p[n] == "and:") return a ? eval(r[n], f) : 0
        return a ? 1 : eval(r[n], f)
    }
    if (k == "inject") {
        a = eval(p[n], f)
        for (i = 1; i <= 4; i++) {
            value[f, "block" r[n]] = a
            value[f, "block" (r[n] + 1)] = array[i]
            a = eval(q[n], f)
        }
        return a
    }
    a = eval(q[n], f)
    b = eval(r[n], f)
    if (k == "test") {
        if (p[n] == "< ") return a < b
        if (p[n] == "> ") return a > b
        if (p[n] == "<=") return a <= b
        if (p[n] == ">=") return a >= b
        if (p[n] == "= ") return a == b
        return a != b
    }
    if (p[n] == "+") return a + b
    if (p[n] == "-") return a - b
    if (p[n] == "*") { a = a * b; return a - 10007 * quotient(a, 10007) }
    if (p[n] == "//") return quotient(a, b)
    if (p[n] == "max:") return a > b ? a : b
    if (p[n] == "min:") return a < b ? a : b
    return a - b * quotient(a, b)
}

# A statement. Whether the method goes on behind it.
function goes_on(n, f,   k, i) {
    k = kind[n]
    if (k == "assignment") eval(n, f)
    else if (k == "branch") { if (eval(q[n], f) == (p[n] == "ifTrue:")) eval(r[n], f) }
    else if (k == "return early") { if (eval(p[n], f)) { answer[f] = eval(q[n], f); return 0 } }
    else for (i = 0; i < p[n]; i++) eval(q[n], f)
    return 1
}

function call(m, a, b, f,   i) {
    value[f, 0] = a
    value[f, 1] = b
    for (i = 2; i < 5; i++) value[f, i] = i
    for (i = 1; i <= length_of[m]; i++) if (!goes_on(body[m, i], f)) return answer[f]
    return eval(last[m], f)
}

# ---- how they are written

function name(i) { return substr("abxyz", i + 1, 1) }

function written(n,   k) {
    k = kind[n]
    if (k == "constant") return p[n] < 0 ? "(" p[n] ")" : p[n] ""
    if (k == "variable") return name(p[n])
    if (k == "block variable") return "e" p[n]
    if (k == "at") return "(#(3 1 4 15) at: " p[n] ")"
    if (k == "assignment") return "(" name(p[n]) " := " written(q[n]) ")"
    if (k == "unary") return "(" written(q[n]) " " p[n] ")"
    if (k == "choice") return "(" written(p[n]) " ifTrue: [" written(q[n]) "] ifFalse: [" written(r[n]) "])"
    if (k == "call") return "(self m" p[n] ": " written(q[n]) " with: " written(r[n]) ")"
    if (k == "not") return "(" written(p[n]) " not)"
    if (k == "both") return "(" written(q[n]) " " p[n] " [" written(r[n]) "])"
    if (k == "inject") return "(#(3 1 4 15) inject: " written(p[n]) " into: [:e" r[n] " :e" (r[n] + 1) " | " written(q[n]) "])"
    if (p[n] == "*") return "(" written(q[n]) " * " written(r[n]) " \\\\ 10007)"
    return "(" written(q[n]) " " p[n] " " written(r[n]) ")"
}

function line(n,   k) {
    k = kind[n]
    if (k == "branch") return written(q[n]) " " p[n] " [" written(r[n]) "]"
    if (k == "return early") return written(p[n]) " ifTrue: [^" written(q[n]) "]"
    if (k == "repeat") return p[n] " timesRepeat: [" written(q[n]) "]"
    if (k == "while") return "n := " p[n] ". [n > 0] whileTrue: [" written(q[n]) ". n := n - 1]"
    return written(n)
}

BEGIN {
    srand(seed)
    split("3 1 4 15", array, " ")
    print "Object subclass: #Generated\n\tinstanceVariableNames: ''\n\tclassVariableNames: ''\n\tpoolDictionaries: ''\n\tcategory: 'Tests'!\n\n!Generated methodsFor: 'generated'!" >source
    printf "" >wanted
    for (method = 1; method <= methods; method++) {
        blocks = inside = loops = calls = 0
        length_of[method] = 1 + some(5)
        for (i = 1; i <= length_of[method]; i++) body[method, i] = statement()
        last[method] = number(3)
        printf "m%d: a with: b\n\t| x y z n |\n\tx := 2. y := 3. z := 4.\n", method >source
        for (i = 1; i <= length_of[method]; i++) printf "\t%s.\n", line(body[method, i]) >source
        printf "\t^%s\n!\n", written(last[method]) >source
        first[method] = some(200) - 50
        second[method] = some(200) - 50
        printf "%d\n", call(method, first[method], second[method], 1) >wanted
    }
    groups = 0
    for (method = 1; method <= methods; method++) {
        if ((method - 1) % 10 == 0) printf "run%d\n", ++groups >source
        printf "\tTranscript print: (self m%d: %d with: %d); cr.\n", method, first[method], second[method] >source
        if (method % 10 == 0 || method == methods) print "!" >source
    }
    for (g = 1; g <= groups; g++) {
        if ((g - 1) % 40 == 0) printf "all%d\n", ++wholes >source
        printf "\tself run%d.\n", g >source
        if (g % 40 == 0 || g == groups) print "!" >source
    }
    print " !\n\n| generated |\ngenerated := Generated new." >source
    for (w = 1; w <= wholes; w++) printf "generated all%d.\n", w >source
    print "!" >source
}
