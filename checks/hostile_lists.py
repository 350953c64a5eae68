"""Token lists for checks/hostile: the tokens of a text, texts of tokens, lists that a reader answers, and lists that it may not.

A list is flat: a group stands in it by its opening and its closing token. A token is a pair of its text and, for the character of a mark, whether it is
joint (None for all other tokens).
"""

import random
import re

OPENINGS = {"(": ")", "[": "]", "{": "}", "\\(": "\\)"}
CLOSINGS = {*OPENINGS.values()}
MARKS = "!#$%&*+,-./:;<=>?@^~|"
INVISIBLE = [("\\(", None)], [("\\)", None)]

TOKEN = re.compile(
    r"""(?P<space>\s+)
    |(?P<group>\\[()]|[()\[\]{}])
    |(?P<text>(?:br|cr|r)(?P<hash>\#*)"(?:.|\n)*?"(?P=hash)\w*|[bc]?"(?:\\.|[^"\\])*"\w*|b?'(?:\\.[^']*|[^'\\])'\w*)
    |(?P<number>0x[0-9a-fA-F_]+\w*|0[ob][0-9_]+\w*|[0-9][0-9_]*(?:\.(?![._a-zA-Z])[0-9_]*)?(?:[eE][+-]?[0-9_]+)?\w*)
    |(?P<quote>'(?=\w))
    |(?P<word>(?:r\#)?\w+)
    |(?P<mark>[-!#$%&*+,./:;<=>?@^~|])""",
    re.VERBOSE,
)


def tokens_of(text):
    """The tokens of a text that the lexer takes."""
    found, at = [], 0
    while at < len(text):
        it = TOKEN.match(text, at)
        if it is None:
            raise ValueError(f"no token at {at} of {text!r}")
        at = it.end()
        if it["quote"]:
            found.append(("'", True))
        elif it["mark"]:
            found.append((it["mark"], text[at : at + 1] in (*MARKS,)))
        elif not it["space"]:
            found.append((it[0], None))
    return found


def written(tokens, wrapped=()):
    """The text of tokens, and what is to be changed in its list, so that it is the list of these: a joint mark that no mark follows, and the trees that
    are put into an invisible group."""
    parts, changes, marks = [], [], 0
    for i, (text, joint) in enumerate(tokens):
        parts.append(text)
        if joint is None:
            parts.append(" ")
            continue
        after = tokens[i + 1] if i + 1 < len(tokens) else (" ", None)
        if text == "'":
            if not joint:
                changes.append(str(marks))
            if after[1] is not None:
                parts.append(" ")
        elif after[1] is not None and after[0] != "'":
            if not joint:
                parts.append(" ")
        else:
            if joint:
                changes.append(str(marks))
            parts.append(" ")
        marks += 1
    return "".join(parts).rstrip(" "), ",".join([*changes, *(f"w{it}" for it in wrapped)])


def spelt(text):
    """The tokens of a text whose tokens stand one space apart: of a mark of several characters each but the last is joint."""
    found = []
    for word in text.split():
        if word in OPENINGS or word in CLOSINGS or word[0] not in MARKS + "'":
            found.append((word, None))
        elif word[0] == "'" and not word.endswith("'"):
            found += [("'", True), (word[1:], None)]
        elif word[0] == "'":
            found.append((word, None))
        else:
            found += [(it, True) for it in word[:-1]] + [(word[-1], False)]
    return found


def closed(tokens):
    """The tokens, with each group that is left open closed."""
    left = []
    for text, _ in tokens:
        if text in OPENINGS:
            left.append(OPENINGS[text])
        elif text in CLOSINGS:
            left.pop()
    return [*tokens, *((it, None) for it in reversed(left))]


def trees(tokens):
    """How many trees the list has, those in groups too."""
    return sum(text not in CLOSINGS for text, _ in tokens)


def end_of(tokens, i):
    """The position after the tree that begins at i; None where a group is left open, or none begins there."""
    if tokens[i][0] in CLOSINGS:
        return None
    depth = 0
    for j in range(i, len(tokens)):
        depth += (tokens[j][0] in OPENINGS) - (tokens[j][0] in CLOSINGS)
        if depth == 0:
            return j + 1
    return None


class Makes:
    """Makes texts, their tokens one space apart, that readers answer, but for a few."""

    def __init__(self, seed):
        self.rng = random.Random(seed)

    def one(self, *cases):
        """One of the cases, of which each is a text or makes one."""
        it = self.rng.choice(cases)
        return it() if callable(it) else it

    def may(self, text, often=0.3):
        if self.rng.random() >= often:
            return ""
        return text() if callable(text) else text

    def many(self, make, mark, least=0, most=3, trailing=0.15):
        made = [make() for _ in range(self.rng.randint(least, most))]
        text = f" {mark} ".join(made)
        return f"{text} {mark}" if made and self.rng.random() < trailing else text

    # ---- names, literals, what is supplied

    def name(self):
        return self.one("A", "B", "T", "u8", "Vec", "Iter", "r#fn", "été", "N")

    def segment(self):
        return self.one(self.name, self.name, self.name, "self", "Self", "super", "crate")

    def lifetime(self):
        return self.one("'a", "'b", "'static", "'r#b", "'_")

    def literal(self):
        return self.one("1", "2u8", "0x1f", "1.5", '"s"', "'c'", 'b"x"', "- 1", "true", "false", "1e3", 'r#"t"#')

    def atom(self, d):
        if d > 0 and self.rng.random() < 0.2:
            return f"( {self.sum(d - 1)} )"
        return self.one(self.literal, self.mod_path)

    def sum(self, d=1):
        return self.many(lambda: self.atom(d), "+", 1, 2, 0)

    def statements(self):
        return self.many(self.sum, ";", 0, 2)

    def mod_path(self):
        return self.may("::", 0.2) + " " + self.many(self.segment, "::", 1, 3, 0)

    def body(self):
        return self.one("", "x", "x y", "( a , b )", "[ { x } ]", "a => b", "# [ d ] ..= 'a", "1 . 2")

    def group(self):
        opening = self.one("( {} )", "[ {} ]", "{{ {} }}")
        return opening.format(self.body())

    def macro(self):
        return f"{self.mod_path()} ! {self.group()}"

    # ---- attributes

    def meta_path(self):
        return self.one("a", "a", "b :: c", ":: a", "unsafe ( no_mangle )", "cfg")

    def meta(self):
        return self.one(self.meta_path, self.meta_list, self.meta_value)

    def meta_list(self):
        return f"{self.mod_path()} {self.group()}"

    def meta_value(self):
        return f"{self.mod_path()} = {self.sum()}"

    def attribute(self):
        return f"# [ {self.meta()} ]"

    def attributes(self, often=0.15):
        return self.may(self.attribute, often)

    # ---- paths

    def angles(self, d):
        return f"< {self.many(lambda: self.argument(d - 1), ',')} >"

    def argument(self, d=2):
        if d <= 0:
            return self.one(self.name, self.lifetime)
        return self.one(
            self.lifetime,
            lambda: self.type(d - 1),
            lambda: self.type(d - 1),
            lambda: self.name() + self.may(lambda: " " + self.angles(d - 1), 0.2) + " = " + self.type(d - 1),
            lambda: self.name() + " : " + self.bounds(d - 1),
            self.literal,
            lambda: "{ " + self.statements() + " }",
            lambda: self.name() + " = " + self.literal(),
        )

    def parenthesized(self, d):
        inputs = self.many(lambda: self.type(d - 1), ",")
        return f"( {inputs} )" + self.may(lambda: " -> " + self.type(d - 1, False), 0.4)

    def path_segment(self, d):
        text = self.name()
        if d > 0 and self.rng.random() < 0.4:
            text += " " + self.may(":: ", 0.3) + self.angles(d)
        return text

    def trait_path(self, d):
        """A path of a bound: its last segment may have arguments in parentheses."""
        return f"A {self.may('::', 0.2)} {self.parenthesized(d)}" if d > 0 and self.rng.random() < 0.2 else self.path(d)

    def path(self, d=2):
        return self.may(":: ", 0.1) + self.many(lambda: self.path_segment(d), "::", 1, 3, 0)

    def qualified(self, d):
        of = self.type(d - 1)
        if self.rng.random() < 0.5:
            of += f" as {self.path(d - 1)}"
        return f"< {of} > :: {self.many(lambda: self.path_segment(d - 1), '::', 1, 2, 0)}"

    # ---- types

    def type(self, d=2, plus=True):
        if d <= 0:
            return self.one(self.name, self.name, "!", "_", "( )")
        below = lambda: self.type(d - 1)
        alone = lambda: self.type(d - 1, False)
        cases = [
            lambda: self.path(d),
            lambda: self.path(d),
            lambda: self.qualified(d),
            lambda: self.tuple(d),
            lambda: f"( {below()} )",
            lambda: f"[ {below()} ]",
            lambda: f"[ {below()} ; {self.sum()} ]",
            lambda: f"& {self.may(self.lifetime)} {self.may('mut')} {alone()}",
            lambda: f"* {self.one('const', 'mut')} {alone()}",
            lambda: self.fn_pointer(d),
            self.macro,
            lambda: f"\\( {below()} \\)",
            lambda: self.verbatim(d),
        ]
        if plus:
            cases += [lambda: self.opaque(d), lambda: self.object(d), lambda: self.bare(d)]
        return self.one(*cases)

    def tuple(self, d):
        return "( " + self.one("", lambda: self.type(d - 1) + " ,", lambda: self.many(lambda: self.type(d - 1), ",", 2, 3)) + " )"

    def opaque(self, d):
        return "impl " + self.trait_bound(d - 1) + self.may(lambda: " + " + self.bounds(d - 1)) + self.may(" + use < 'a , T >", 0.1)

    def object(self, d):
        return "dyn " + self.plain_bound(d - 1) + self.may(lambda: " + " + self.lifetime()) + self.may(lambda: " + " + self.trait_bound(d - 1))

    def bare(self, d):
        return self.one(self.plain_bound(d - 1), self.lifetime() + " + " + self.path(d - 1)) + " + " + self.one(self.lifetime, "Send")

    def verbatim(self, d):
        return self.one("builtin # f ( x y )", lambda: "dyn * " + self.plain_bound(d - 1), lambda: "unsafe < 'a > " + self.type(d - 1, False))

    def named_argument(self, d):
        return self.attributes(0.1) + " " + self.may(lambda: self.one("x :", "_ :", "y :")) + " " + self.type(d)

    def fn_pointer(self, d):
        inputs = self.many(lambda: self.named_argument(d - 1), ",", 0, 2, 0)
        more = self.may(" , ..." if inputs else "...", 0.1)
        return f"{self.may(lambda: self.binder(d), 0.2)} {self.may('unsafe')} {self.may(self.abi, 0.2)} fn ( {inputs} {more} ) " + self.may(
            lambda: "-> " + self.type(d - 1, False)
        )

    def abi(self):
        return "extern " + self.may('"C"', 0.6)

    # ---- bounds, parameters, clauses

    def binder(self, d=1):
        return f"for < {self.many(lambda: self.one(self.lifetime, self.lifetime_parameter), ',', 0, 2)} >"

    def plain_bound(self, d):
        return self.one(lambda: self.trait_path(d), lambda: self.trait_path(d), lambda: f"{self.binder()} {self.trait_path(d)}", lambda: f"( {self.trait_path(d)} )")

    def modified_bound(self, d, form):
        """A bound with modifiers, of which the first is this form."""
        modifiers = f"{form} {self.may('async', 0.3)}" if form else "async"
        return self.one(f"{self.may(self.binder)} {modifiers} {self.trait_path(d)}", f"{modifiers} {self.may('?', 0.5)} {self.trait_path(d)}")

    def trait_bound(self, d=1):
        return self.one(lambda: self.plain_bound(d), lambda: f"? {self.trait_path(d)}", lambda: f"( ? {self.trait_path(d)} )", lambda: f"{self.trait_path(d)}", lambda: self.modified_bound(d, ""))

    def bound(self, d=1):
        modified = lambda: self.modified_bound(d, self.one("const", "[ const ]"))
        return self.one(self.lifetime, lambda: self.trait_bound(d), lambda: self.trait_bound(d), modified, lambda: f"( {modified()} )")

    def bounds(self, d=1):
        return self.many(lambda: self.one(self.lifetime, lambda: self.trait_bound(d)), "+", 1, 3, 0.1)

    def capture(self):
        return f"use < {self.many(self.captured, ',')} >"

    def captured(self):
        return self.one(self.lifetime, self.name, "Self")

    def lifetime_parameter(self):
        return f"{self.attributes()} {self.lifetime()}" + self.may(lambda: " : " + self.many(self.lifetime, "+", 0, 2))

    def type_parameter(self, d=1):
        return f"{self.attributes()} {self.name()}" + self.may(lambda: " : " + self.bounds(d), 0.5) + self.may(lambda: " = " + self.type(d), 0.3)

    def const_parameter(self, d=1):
        value = lambda: " = " + self.one(self.literal, "{ a + 1 ; }", self.name)
        return f"{self.attributes()} const {self.name()} : {self.type(d)}" + self.may(value)

    def parameter(self, d=1):
        return self.one(self.lifetime_parameter, lambda: self.type_parameter(d), lambda: self.const_parameter(d))

    def generics(self):
        return self.may(lambda: f"< {self.many(self.parameter, ',', 0, 4)} >", 0.95)

    def predicate(self, d=1):
        return self.attributes(0.1) + " " + self.one(
            lambda: f"{self.lifetime()} : {self.many(self.lifetime, '+', 0, 2)}",
            lambda: f"{self.may(self.binder)} {self.type(d, False)} : {self.bounds(d)}",
            lambda: f"{self.path(d)} : {self.bounds(d)}",
        )

    def clause(self):
        return f"where {self.many(self.predicate, ',')}"

    # ---- structs

    def struct_field(self, d=1):
        return f"{self.attributes()} {self.name()} : {self.type(d)}"

    def struct(self):
        body = lambda: f"{{ {self.many(self.struct_field, ',')} }}"
        return f"{self.attributes()} struct {self.name()} {self.may(self.generics, 0.5)} {self.may(self.clause)} {self.one(';', body, body)}"

    # ---- patterns

    def bound_of_range(self):
        return self.one("1", "- 2", "'c'", "A :: B", "const { a }")

    def range(self):
        return self.one(lambda: f"{self.bound_of_range()} ..= {self.bound_of_range()}", lambda: f"{self.bound_of_range()} .. {self.bound_of_range()}")

    def single(self, d=2):
        if d <= 0:
            return self.one("x", "_", "1", "A :: B", "mut y")
        below = lambda: self.pattern(d - 1)
        return self.one(
            lambda: f"{self.may('ref')} {self.may('mut')} {self.one('x', 'y', 'zé')} " + self.may(lambda: "@ " + self.single(d - 1)),
            "_",
            self.literal,
            self.range,
            self.macro,
            lambda: self.path(d - 1).replace("<", ":: <") if self.rng.random() < 0.1 else self.mod_path() + " :: C",
            lambda: f"& {self.may('mut')} {self.single(d - 1)}",
            lambda: f"( {below()} )",
            lambda: f"( {self.many(below, ',', 2, 3)} )",
            lambda: f"( {below()} , .. )",
            lambda: f"[ {self.many(below, ',')} ]",
            lambda: "[ a , .. , b @ 1 ]",
            lambda: f"{self.mod_path()} ( {self.many(below, ',')} )",
            lambda: f"{self.mod_path()} {{ {self.fields(d)} }}",
            lambda: self.qualified(1),
            lambda: f"box {self.single(d - 1)}",
            "const { a + 1 ; }",
        )

    def fields(self, d):
        fields = self.many(lambda: self.field(d - 1), ",", 0, 3, 0)
        return fields + self.may(" , .." if fields else "..", 0.3)

    def field(self, d):
        return self.attributes(0.1) + " " + self.one(
            lambda: f"{self.one('x', 'y', '0', '1')} : {self.pattern(d)}", lambda: f"{self.may('ref')} {self.may('mut')} z", "box w", "u"
        )

    def pattern(self, d=2):
        return self.many(lambda: self.single(d), "|", 1, 2, 0) if self.rng.random() < 0.3 else self.single(d)

    # ---- by the names of the readers

    def text(self, reader):
        return getattr(self, "of_" + reader.replace("::", "__"))()

    def of_Macro(self):
        return self.macro()

    def of_Path__parse_mod_style(self):
        return self.mod_path()

    def of_Meta(self):
        return self.meta()

    def of_MetaList(self):
        return self.meta_list()

    def of_MetaNameValue(self):
        return self.meta_value()

    def of_Attribute__parse_outer(self):
        return self.many(self.attribute, "", 0, 3, 0)

    def of_Attribute__parse_inner(self):
        return self.many(self.attribute, "", 0, 3, 0).replace("# [", "# ! [")

    def of_PointerMutability(self):
        return self.one("const", "mut")

    def of_Type(self):
        return self.type(3)

    def of_Type__without_plus(self):
        return self.type(3, False)

    def of_TypeArray(self):
        return f"[ {self.type(2)} ; {self.sum(2)} ]"

    def of_TypeFnPtr(self):
        return self.fn_pointer(3)

    def of_TypeGroup(self):
        return f"\\( {self.type(2)} \\)"

    def of_TypeImplTrait(self):
        return self.opaque(3)

    def of_TypeImplTrait__without_plus(self):
        return "impl " + self.trait_bound(2)

    def of_TypeInfer(self):
        return "_"

    def of_TypeMacro(self):
        return self.macro()

    def of_TypeNever(self):
        return "!"

    def of_TypeParen(self):
        return f"( {self.type(2)} )"

    def of_TypePath(self):
        return self.one(lambda: self.path(3), lambda: self.qualified(3))

    def of_TypePtr(self):
        return f"* {self.one('const', 'mut')} {self.type(2, False)}"

    def of_TypeReference(self):
        return f"& {self.may(self.lifetime)} {self.may('mut')} {self.type(2, False)}"

    def of_TypeSlice(self):
        return f"[ {self.type(2)} ]"

    def of_TypeTraitObject(self):
        return self.one(lambda: self.object(3), lambda: self.bare(3))

    def of_TypeTraitObject__without_plus(self):
        return self.may("dyn ", 0.7) + self.plain_bound(2)

    def of_TypeTuple(self):
        return self.tuple(3)

    def of_ReturnType(self):
        return self.may(lambda: "-> " + self.type(3), 0.95)

    def of_ReturnType__without_plus(self):
        return self.may(lambda: "-> " + self.type(3, False), 0.95)

    def of_NamedArg(self):
        return self.named_argument(3)

    def of_Abi(self):
        return self.abi()

    def of_Abi__parse_optional(self):
        return self.may(self.abi, 0.9)

    def of_Path(self):
        return self.path(3)

    def of_PathSegment(self):
        return self.one(self.segment, lambda: self.path_segment(3), lambda: self.path_segment(3))

    def of_GenericArgument(self):
        return self.argument(3)

    def of_AngleBracketedGenericArguments(self):
        return self.may(":: ") + self.angles(3)

    def of_AngleBracketedGenericArguments__parse_turbofish(self):
        return ":: " + self.angles(3)

    def of_ParenthesizedGenericArguments(self):
        return self.parenthesized(3)

    def of_GenericParam(self):
        return self.parameter(2)

    def of_LifetimeParam(self):
        return self.lifetime_parameter()

    def of_TypeParam(self):
        return self.type_parameter(2)

    def of_ConstParam(self):
        return self.const_parameter(2)

    def of_BoundLifetimes(self):
        return self.binder()

    def of_BoundLifetimes__parse_optional(self):
        return self.may(self.binder, 0.9)

    def of_TypeParamBound(self):
        return self.bound(2)

    def of_TraitBound(self):
        return self.one(lambda: self.trait_path(2), lambda: f"{self.binder()} {self.trait_path(2)}", lambda: f"? {self.path(2)}")

    def of_PreciseCapture(self):
        return self.capture()

    def of_CapturedParam(self):
        return self.captured()

    def of_Generics(self):
        return self.generics()

    def of_WhereClause(self):
        return self.clause()

    def of_WhereClause__parse_optional(self):
        return self.may(self.clause, 0.9)

    def of_WherePredicate(self):
        return self.predicate(2)

    def of_StructItem(self):
        return self.struct()

    def of_ImplHead(self):
        return self.struct()

    def of_Pat__parse_single(self):
        return self.single(3)

    def of_Pat__parse_multi(self):
        return self.pattern(3)

    def of_Pat__parse_multi_with_leading_vert(self):
        return self.may("| ") + self.pattern(3)

    def of_Pat__parse_multi_with_leading_vert_and_guard(self):
        return self.may("| ") + self.pattern(3) + self.may(lambda: " if " + self.sum(2), 0.6)

    def of_PatType(self):
        return f"{self.single(2)} : {self.type(2)}"


READERS = tuple(it.removeprefix("of_").replace("__", "::") for it in vars(Makes) if it.startswith("of_"))

# Long lists and deep ones by their names: the reader, what is repeated before and after what stands in the middle, and how many tokens that is each time.
SHAPES = {
    "brackets": ("Type", "[", "A", "]", 2),
    "parentheses": ("Type", "(", "A", ")", 2),
    "tuples": ("Type", "(", "A", ",)", 3),
    "invisible groups": ("Type", "\\(", "A", "\\)", 2),
    "angle brackets": ("Type", "A<", "B", ">", 3),
    "qualified paths": ("Type", "<", "A", "::B>::C", 9),
    "glued references": ("Type", "&", "A", "", 1),
    "glued references to arrays": ("Type", "&&[", "A", ";1]", 6),
    "pointers": ("Type", "*const ", "A", "", 2),
    "function pointers": ("Type", "fn(", "A", ")", 3),
    "function pointers with binders": ("Type", "for<'a> fn(", "A", ")", 8),
    "results of function pointers": ("Type", "fn() -> ", "A", "", 4),
    "binders of objects": ("Type", "dyn for<'a> A<", "B", ">", 10),
    "bounds in parentheses": ("Type", "dyn (A<", "B", ">)", 6),
    "first bounds in parentheses": ("Type", "(for<'a> A<", "B", ">) + C", 12),
    "associated types with arguments": ("Type", "A<B<", "C", "> = D>", 8),
    "optional bounds in parentheses": ("TypeParamBound", "(?A<dyn ", "B", ">)", 7),
    "opaque types in arguments": ("Type", "impl A<B = ", "C", ">", 6),
    "constraints in arguments": ("Type", "A<B: ", "C", ">", 5),
    "arguments in parentheses": ("Type", "dyn A(", "B", ") -> C", 7),
    "arrays of array types as arguments": ("GenericArgument", "[A<", "B", ">; 1]", 7),
    "elements of a tuple": ("Type", "(A,", "", ")", 2),
    "arguments": ("Path", "A<B,", "", ">", 2),
    "segments": ("Path", "A::", "A", "", 3),
    "bounds": ("Type", "A + ", "A", "", 2),
    "parameters": ("Generics", "<T: A = B,", "", ">", 6),
    "parameters and lifetimes": ("Generics", "<T, 'a,", "", ">", 5),
    "lifetimes of a binder": ("BoundLifetimes", "for<'a,", "", ">", 3),
    "predicates": ("WhereClause", "where A: B,", "", "", 4),
    "attributes of a parameter": ("GenericParam", "#[a] ", "T", "", 3),
    "inputs of a function pointer": ("Type", "fn(a: A,", "", ")", 4),
    "fields of a struct": ("StructItem", "struct S {a: A,", "", "}", 4),
    "attributes of a field": ("StructItem", "struct S {#[a] ", "b: A", "}", 3),
    "nested patterns": ("Pat::parse_multi", "(", "x", ")", 2),
    "patterns of tuples": ("Pat::parse_multi", "A(", "x", ")", 3),
    "alternatives": ("Pat::parse_multi", "A | ", "A", "", 2),
    "patterns of references": ("Pat::parse_single", "&", "x", "", 1),
    "bindings": ("Pat::parse_single", "x @ ", "x", "", 2),
    "fields": ("Pat::parse_single", "S {a: b,", "", "}", 4),
    "patterns of structs": ("Pat::parse_single", "S {a: ", "x", "}", 6),
}
# Forms that hold such a form as written, in the same form: all tokens below are copied at each level, but for those in groups, which copies share.
HELD = {
    "boxed patterns": ("Pat::parse_single", "box ", "x", ""),
    "types after lifetimes": ("Type", "unsafe<'a> ", "A", ""),
    "objects with a star": ("Type", "dyn *A<", "B", ">"),
    "const bounds": ("Type", "impl const A<", "B", ">"),
    "boxed patterns, each in parentheses": ("Pat::parse_single", "box (", "x", ")"),
    "types after lifetimes, each in parentheses": ("Type", "unsafe<'a> (", "A", ")"),
    "objects with a star, each in brackets": ("Type", "[dyn *A<", "B", ">]"),
    "const bounds, each in brackets": ("Type", "[impl const A<", "B", ">]"),
    "first arguments": ("Type", "fn(mut self: ", "A", ")"),
}
# Of the long ones the part that stands once.
ONCE = {
    "elements of a tuple": "(",
    "arguments": "A<",
    "parameters": "<",
    "parameters and lifetimes": "<",
    "lifetimes of a binder": "for<",
    "predicates": "where ",
    "inputs of a function pointer": "fn(",
    "fields of a struct": "struct S {",
    "attributes of a field": "struct S {",
    "fields": "S {",
}


def shaped(name, tokens):
    """The reader and a text of about so many tokens."""
    reader, before, middle, after, size = SHAPES[name]
    times = max(1, tokens // size)
    once = ONCE.get(name)
    if once is None:
        return reader, before * times + middle + after * times
    return reader, once + before.removeprefix(once) * times + middle + after


def held(name, levels):
    """The reader and a text of so many levels."""
    reader, before, middle, after = HELD[name]
    return reader, before * levels + middle + after * levels


# What is put in the place of a token.
OTHERS = spelt("A self Self 'a :: < > << + , : = ; & && * ! # ? - -> => .. ... ..= | || @ _ 1 - 1 true mut const async dyn impl for fn where as ref box if try unsafe extern use")


class Mutates:
    """Changes a list a little."""

    def __init__(self, seed):
        self.rng = random.Random(seed)
        self.ways = [
            self.drop,
            self.double,
            self.swap,
            self.replace,
            self.put,
            self.open,
            self.turn,
            self.turn,
            self.wrap,
            self.wrap,
            self.put_empty,
        ]

    def some(self, tokens, more):
        """A list after one to three changes, and some more."""
        tokens = [*tokens]
        for _ in range(self.rng.choice((1, 1, 1, 2, 2, 3)) + more):
            if tokens:
                self.rng.choice(self.ways)(tokens)
            else:
                self.put(tokens)
        return tokens

    def at(self, tokens):
        return self.rng.randrange(len(tokens))

    def tree(self, tokens):
        """The positions of a tree; of a token where a group is left open."""
        i = self.at(tokens)
        return i, end_of(tokens, i) or i + 1

    def drop(self, tokens):
        i, j = self.tree(tokens)
        if tokens[i][0] not in CLOSINGS:
            del tokens[i:j]

    def double(self, tokens):
        i, j = self.tree(tokens)
        if tokens[i][0] not in CLOSINGS:
            tokens[i:i] = tokens[i:j]

    def swap(self, tokens):
        i, j = self.tree(tokens)
        if tokens[i][0] in CLOSINGS or j == len(tokens) or tokens[j][0] in CLOSINGS:
            return
        k = end_of(tokens, j) or j + 1
        tokens[i:k] = tokens[j:k] + tokens[i:j]

    def replace(self, tokens):
        i, j = self.tree(tokens)
        if tokens[i][0] not in CLOSINGS:
            tokens[i:j] = [self.rng.choice(OTHERS)]

    def put(self, tokens):
        i = self.rng.randint(0, len(tokens))
        tokens[i:i] = [self.rng.choice(OTHERS)]

    def open(self, tokens):
        """Leaves a group open: takes out one of its ends. The lexer refuses that, so it is done seldom."""
        ends = [i for i, (text, _) in enumerate(tokens) if text in OPENINGS or text in CLOSINGS]
        if not ends or self.rng.random() < 0.8:
            return
        del tokens[self.rng.choice(ends)]

    def turn(self, tokens):
        """Turns over the spacing of a mark."""
        marks = [i for i, (_, joint) in enumerate(tokens) if joint is not None]
        if marks:
            i = self.rng.choice(marks)
            tokens[i] = tokens[i][0], not tokens[i][1]

    def wrap(self, tokens):
        """Puts trees into an invisible group: one, or several in a row."""
        i = j = self.at(tokens)
        for _ in range(self.rng.choice((1, 1, 2, 3, 5))):
            if j == len(tokens) or not (after := end_of(tokens, j)):
                break
            j = after
        if j > i and not (tokens[j - 1][0] == "'" or i and tokens[i - 1][0] == "'"):
            tokens[i:j] = INVISIBLE[0] + tokens[i:j] + INVISIBLE[1]

    def put_empty(self, tokens):
        i = self.rng.randint(0, len(tokens))
        if not (i and tokens[i - 1][0] == "'"):
            tokens[i:i] = INVISIBLE[0] + INVISIBLE[1]


# Valid lists that are made for a reader, from which all others come.
KINDS = 1500


def made(reader, count, seed):
    """So many different lists for a reader, as lines: the first ones valid, then changed ones."""
    makes, mutates = Makes(f"{reader} {seed}"), Mutates(f"{reader} {seed} changed")
    seeds = []
    for _ in range(min(KINDS, max(1, count // 4))):
        seeds.append(spelt(makes.text(reader)))
    lines = {line(reader, tokens): None for tokens in seeds}
    tries = valid = len(lines)
    while len(lines) < count:
        # of a short list there are few changes: the more were in vain, the more are made at once
        more = tries // (2 * count)
        lines[line(reader, mutates.some(mutates.rng.choice(seeds), more))] = None
        tries += 1
    return [*lines][:count], min(valid, count)


def line(reader, tokens, wrapped=()):
    """What the program reads."""
    text, changes = written(tokens, wrapped)
    return f"{reader}\t{text}\t{changes}" if changes else f"{reader}\t{text}"
