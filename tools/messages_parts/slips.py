"""What is written elsewhere and not in this language: for the token that a specification is refused at, what stands there and what to write.

A rule looks at the text before the place, without the comments and blanks at its end, and at the text from there on. The first that fits
answers with two lines, the cause and the remedy. Where none fits, the manual's table of refusals answers.
"""

import re

from .source import nearest, short

WORD = r"[^\W\d]\w*"
OPERAND = r"[\w\"(]"
TYPES = {
    **dict.fromkeys(("int", "integer", "long", "number", "nat", "i64", "uint"), "Int"),
    **dict.fromkeys(("bool", "boolean"), "Bool"),
    **dict.fromkeys(("string", "str", "text", "char"), "String"),
    **dict.fromkeys(("unit", "void"), "Unit"),
    **dict.fromkeys(("event", "events", "stream", "streams", "signal"), "Events"),
    **{it.lower(): it for it in ("Set", "Map", "Queue", "Option")},
}
FRACTIONS = ("float", "double", "real", "decimal")
ALL_TYPES = "types are Unit, Int, Bool, String, Set[K], Map[K, V], Queue[T], Option[T] in value functions, and Events[T] of these"
KEYWORDS = ("in", "def", "out", "as", "if", "then", "else", "true", "false")
FUNCTIONS = {
    "Set": ("empty", "add", "remove", "contains", "size"),
    "Map": ("empty", "add", "remove", "contains", "size", "get"),
    "Queue": ("empty", "enqueue", "dequeue", "front", "size"),
    "String": ("concat", "size"),
}
# Words that begin an item elsewhere.
BEGINNINGS = {
    **dict.fromkeys(("input", "declare"), "in"),
    **dict.fromkeys(("output", "print", "emit"), "out"),
    **dict.fromkeys(("define", "let", "val", "var", "const", "fun", "function", "func", "fn", "macro", "stream"), "def"),
}
WORDS = {"and": "&&", "or": "||", "xor": "!=", "mod": "%", "div": "/", "eq": "==", "is": "=="}
NO_MODULES = "write all in one file, or join files before: cat parts/*.tsl > whole.tsl"
SIGNS = {
    "&": "&&", "|": "||", "≤": "<=", "≥": ">=", "≠": "!=", "×": "*", "·": "*", "÷": "/", "−": "-", "–": "-", "—": "-", "¬": "!", "∧": "&&",
    "∨": "||",
}  # fmt: skip
# Signs that begin nothing, with the cause and the remedy.
OTHERS = {
    ";": ("items end without a ;", "leave it out: blanks and line ends part items"),
    "?": ("? makes no choice", "write if c then a else b"),
    "^": ("^ is no operator", "write != for the exclusive or of two truth values, and x * x for a square"),
    "@": ("annotations are not there", "leave it out"),
    "~": ("~ is no operator", "write ! for the contrary of a truth value"),
    "$": ("names have no $, and texts are not interpolated", "write the name; String.concat joins texts"),
    "\\": ("a \\ stands in texts alone", "leave it out: an item may go on over lines"),
}
UNITS = ("ns", "us", "ms", "s", "sec", "min", "h", "d", "seconds", "minutes", "hours", "days")
QUOTES = "'`‘’‚“”„«»"
UNSEEN = "\u00a0\u200b\u200c\u200d\ufeff\u2060\u202f\u2009"

# Text before, text from the place on, cause and remedy, which may have what was found: b1, b2 of the text before, a1, a2 of that after.
TABLE = (
    (r"(\d+)$", r"(\.\d+)", "{b1}{a1} is a fraction, and numbers are whole", "count in a finer unit: {b1}{a1} is {thousandths} thousandths"),
    (r"", r"(\.\d+)", "{a1} is a fraction, and numbers are whole", "count in a finer unit, such as thousandths"),
    (r"/$", r"([/*])", "/{a1} begins no comment", "begin a comment with -- or #; it ends with its line"),
    (r"", r"(/[/*])", "{a1} begins no comment", "begin a comment with -- or #; it ends with its line"),
    (r"\bout$", r"\*", "`out *` is not there", "write an `out NAME` for each stream to print"),
    (rf"\bdef {WORD}$", r"\[", "generic definitions are not there", "write one definition for each type"),
    (r"(?:^|[^<>=!])=$", r"=", "`= =` are two tokens", "write == without a blank"),
    (r"(==|!=)$", r"=", "{b1}= is no operator", "write {b1}"),
    (r"<$", r">", "<> is no operator", "write !="),
    (r"<$", r"<|-|=", "this is no operator", "there are < <= > >= and no shifts"),
    (r">$", r">", "this is no operator", "there are < <= > >= and no shifts"),
    (r"(\+|-|\*|/|%)$", r"=", "{b1}= is no operator", "a stream is defined once: write `def NEW := OLD {b1} ..`"),
    (r"\*$", r"\*", "** is no operator", "write the product out: x * x"),
    (r"-$", r">", "-> is no operator", "write !a || b where a implies b, and Map.add(m, k, v) for a key and its value"),
    (r"[\w)\"\]]$", r"=<", "=< is no operator", "write <="),
    (rf"\b(?!(?:if|then|else|in|def|out|as)\b)({WORD})\($", r"\)", "{b1} is called with nothing", "write what it is called with, as in time(e), or the name alone where it has no parameters"),
    (r"(?:^|\n)[ \t]*(?:def|out) [^()\n]*(?:\([^()\n]*\)[^()\n]*)*$", r"\)", "this ) closes nothing", "take it away, or write ( where it begins"),
    (r"\+$", r"\+", "++ is no operator", "write + 1; texts are joined by String.concat"),
    (r":$", r"=", "`: =` are two tokens", "write := without a blank"),
    (rf"(?:\)|{WORD})$", r"=>", "functions without a name are not there, and >= compares", "give it a name: def f(x: Option[Int]): Option[Int] := .., and write f"),
    (rf"\({WORD}$", r":[^()=]*\)\s*[=-]>", "functions without a name are not there", "give it a name: def f(x: Option[Int]): Option[Int] := .., and write f"),
    (rf"\bin ({WORD})$", r":?=", "an input has a type and no definition", "write in {b1}: Events[Int], or def {b1} := .."),
    (rf"\bin ({WORD})$", r"(?!-\w|,)", "the type of the input {b1} is missing", "write in {b1}: Events[Int], or Events[Bool] and so on"),
    (rf"\bin ({WORD})$", r",", "an item declares one input", "write `in` and the type for each"),
    (r"\bEvents$", r"<", "types are in square brackets", "write Events[Int]"),
    (r"\bEvents$", r"(?!\[)", "Events needs the type of its values", "write Events[Int], Events[Bool], Events[String] or Events[Unit]"),
    (r"\b(Events|Set|Map|Queue|Option)$", r"\[", "a type is no stream", "write a name, or Set.empty[Int] for a set"),
    (r"\b(Set|Map|Queue|Option)$", r"(?!\[)", "{b1} needs the types of what it has", "write Set[Int], Map[Int, Bool], Queue[Int], Option[Int]"),
    (r"\b(Set|Map|Queue)\.empty$", r"", "{b1}.empty needs its types", "write Set.empty[Int], Map.empty[Int, Bool] or Queue.empty[Int]"),
    (rf"\bdef {WORD}(?:\(.*\))?(?:: ?[\w\[\], ]+)?$", r"<-|:(?=\s)", "this does not define", "write def NAME := .."),
    (rf"\bdef {WORD}$", r"\.", "a name has no dot", "write a name of letters, digits and _"),
    (rf"\bdef {WORD}\((?:.*, *)?({WORD})$", r"[,)]", "the type of the parameter {b1} is missing", "write {b1}: Int, or {b1}: Events[Int] in a macro"),
    (r"\bas$", r"\"", "the name of an output stands without quotes", "write as NAME"),
    (r"\bas$", r"\d", "a name begins with a letter or _", "write as _1, for one"),
    (r"\b(?:in|def|as)$", r"(in|def|out|as|if|then|else|true|false)\b", "{a1} is a word of the language, and no name", "choose another name"),
    (rf"\b(?:in|as|def) ({WORD})$", r"!", "a name has letters, digits and _", "write {b1}"),
    (r"(?:==|!=|<=|>=|<|>) *[\w.]+(?:\([^()]*\))?$", r"(==|!=|<=|>=|<|>)", "comparisons do not go on: {a1} is a second one", "write a < b && b < c"),
    (r"\bthen .*[\w)]$", r"(?:elif|elsif|elseif)\b", "this is no word of the language", "write else if"),
    (r"\belse$", r":", "no colon stands after else", "write if c then a else b"),
    (r"\w\)?$", r":(?!=)", "nothing goes on with a colon here", "write := in a definition, and if c then a else b for a choice"),
    (r":\s*(?:Set|Map|Queue)$", r"\.", "a type stands after a colon", "write := before what the name is"),
    (r"\([^()]*[\w)]$", r",", "tuples are not there", "write an input or an output for each part"),
    (r"[\w)\]]$", r",", "commas part arguments, and no call is open here", "open it with (, or begin each item with in, def or out"),
    (r"\bif [^{}]*$", r"\{", "braces stand around the body of a macro alone", "write if c then a else b"),
    (r"", r"\{", "braces stand around the body of a macro alone", "take them away, or use parentheses"),
    (rf"\b(?!(?:in|def|out|as|if|then|else)$){WORD}$", r"\[ *(?:Int|Bool|String|Unit|Events|Set|Map|Queue)\b", "a call names no types", "leave them out; one definition is for one type"),
    (rf"\b(?!(?:in|def|out|as|if|then|else)$){WORD}$", r"\[", "elements are not taken by brackets", "write Map.get(m, k), Set.contains(s, k) or Queue.front(q)"),
    (r"", r"\[", "lists are not there", "keep sets, maps or queues: Set.add, Map.add, Queue.enqueue"),
    (r"(?::=|[-+*/%(,!]|&&|\|\||==|!=|<=|>=|<|>|\b(?:then|else|if))$", r"(in|def|out)\b", "an operand is missing before this {a1}", "write what the operator before it needs"),
    (r"(:=|[-+*/%(,!]|&&|\|\||==|!=|<=|>=|<|>|\b(?:then|else|if))$", r"\Z", "the text ends after {b1}, where an operand is missing", "write it"),
    (r"\bas$", r"(?:(?:in|def|out)\b|\Z)", "a name is missing after as", "write as NAME"),
    (r"\bout$", r"(?:(?:in|def|out)\b|\Z)", "what to print is missing after out", "write out NAME, or out .. as NAME"),
    (r"\b(in|def)$", r"[:=(]", "a name is missing after {b1}", "write {b1} NAME"),
    (r"(?::=|[-+*/%(,!]|&&|\|\||==|!=|<=|>=|<|>|\b(?:then|else|if))$", r"(==|!=|<=|>=|<|>|\+|\*|/|%|&&|\|\||\)|,)", "an operand is missing before {a1}", "write it, or take one of the two away"),
)  # fmt: skip
COMPILED = tuple((re.compile(b, re.S), re.compile(a), cause, helps) for b, a, cause, helps in TABLE)


def answer(cause, helps):
    return [f"  cause:  {cause}", f"  remedy: {helps}"]


def of_table(before, after):
    for behind, here, cause, helps in COMPILED:
        b, a = behind.search(before), here.match(after)
        if b and a:
            found = {f"b{number}": short(it or "") for number, it in enumerate(b.groups(), 1)}
            found.update({f"a{number}": short(it or "") for number, it in enumerate(a.groups(), 1)})
            if "{thousandths}" in helps:
                found["thousandths"] = thousandths(b[1], a[1][1:])
            return answer(cause.format(**found), helps.format(**found))
    return None


def thousandths(whole, part):
    """A fraction in thousandths, where it is a number of these."""
    return str(int(whole[-15:]) * 1000 + int(part.ljust(3, "0"))) if len(part) <= 3 else "a number of"


def of_number(text, before, after):
    """Letters right after a number."""
    digits, letters = re.search(r"(?<![\w.])\d+$", before), re.match(r"\w+", after)
    if digits and letters and not text.is_tight() and letters[0] in UNITS:
        return answer(f"{short(digits[0])} {letters[0]} has a unit, and numbers have none", f"write {short(digits[0])}, in the unit of the trace's times")
    if not (digits and letters and text.is_tight()):
        return None
    number = digits[0] + letters[0]
    if re.fullmatch(r"0[xob]\w+", number, re.I):
        return answer(f"{short(number)} is not decimal", "write the number in decimal digits")
    if "_" in number or re.fullmatch(r"\d+e\d+", number, re.I):
        return answer(f"{short(number)} has more than digits", "write all digits, and nothing between them")
    return answer(f"{short(number)} has a unit, and numbers have none", f"write {short(digits[0])}, in the unit of the trace's times")


def of_name(text, before, after):
    """A dash in a name that is declared."""
    declared = re.search(rf"\b(?:in|def|as) ({WORD})$", before)
    rest = re.match(r"(?:-\w+)+", after)
    if declared and rest and text.is_tight():
        name = declared[1] + rest[0]
        return answer(f"{short(name)} has a dash, and a name has none", f"write {short(name.replace('-', '_'))}")
    return None


def of_dot(_text, before, after):
    """A dotted name that is not there."""
    module, name = re.search(r"\b(Set|Map|Queue|String)\.$", before), re.match(WORD, after)
    if module and name:
        there = FUNCTIONS[module[1]]
        near = nearest(name[0], there)
        return answer(f"{module[1]}.{short(name[0])} is not there", f"{module[1]} has {', '.join(there)}" + (f": write {module[1]}.{near}" if near else ""))
    owner, field = re.search(rf"\b({WORD})$", before), re.match(rf"\.({WORD})", after)
    if owner and field and owner[1] not in FUNCTIONS:
        dotted = short(f"{owner[1]}.{field[1]}")
        return answer(f"{dotted}: names have no dots, and streams no fields", f"write a name such as {short(dotted.replace('.', '_'))}, with an input for each field")
    return None


def of_type(_text, before, after):
    """A word where a type belongs."""
    word = re.match(WORD, after)
    if not word or not re.search(rf"(?:{WORD}\)?:|\b(?:Events|Option|Set|Map|Queue|empty|nil|None)\[(?:[^\[\]]*,)?)\s*$", before):
        return None
    name = word[0]
    if name.lower() in FRACTIONS:
        return answer(f"{short(name)} is no type: numbers are whole", "write Int, and count in a finer unit")
    if name.lower() in TYPES:
        return answer(f"{name} is no type", f"write {TYPES[name.lower()]}")
    near = nearest(name, set(TYPES.values()))
    return answer(f"{short(name)} is no type", f"write {near}" if near else ALL_TYPES)


def of_word(text, before, after):
    """A word of another language."""
    word = re.match(WORD, after)
    if re.search(r"\bnot$", before):
        return answer("not is no operator", f"write !{short(word[0])}" if word else "write !")
    if not word:
        return None
    name, rest = word[0], after[len(word[0]) :]
    if name in WORDS and re.search(r"[\w)\"]$", before):
        return answer(f"{name} is no operator", f"write {WORDS[name]}")
    begins = text.begins_line() or re.search(r"[\w)\"\]]$", before) or not before
    if not begins or not rest[:1].isspace():
        return None
    if name in ("import", "include", "module", "extern", "package", "use"):
        return answer(f"{name} is not there: a specification is one file", NO_MODULES)
    if name == "type":
        return answer("types have no names of their own", "write the type where it is needed")
    if name == "liftable":
        return answer("liftable is no word of the language", "leave it out: each function of values can be called with streams")
    if name in BEGINNINGS and re.match(rf"\s+{WORD}", rest):
        return answer(f"{name} begins no item", f"write {BEGINNINGS[name]}")
    return None


def of_item(text, before, after):
    """An item that is not complete, where the next one begins, or the text ends."""
    missing = re.search(rf"\bdef ({WORD})(?:\((?:[^()]|\n)*\))?(?: *: *[\w\[\], ]+)?$", before)
    if missing and re.match(OPERAND, after) and not re.match(r"(?:in|def|out|as|then|else)\b", after):
        return answer(f":= is missing in the definition of {short(missing[1])}", f"write def {short(missing[1])} := ..")
    last = re.split(r"\b(?=(?:in|def|out) )", before)[-1]
    if len(re.findall(r"\bif\b", last)) > len(re.findall(r"\belse\b", last)) and not after.startswith(("then", "else")):
        if "then" not in last.rpartition("if")[2] and re.match(r"(?:as|in|def|out|else)\b|\Z", after):
            return answer("then is missing after if", "write if c then a else b")
        if re.match(r"(?:as|in|def|out)\b|\Z|\)", after) and last.count("(") <= last.count(")") + after.startswith(")"):
            return answer("an if has no else", "write if c then a else b: each if has both; filter(e, c) lets through")
    if last.count("(") > last.count(")") and re.match(r"(?:as|in|def|out)\b|\Z", after):
        return answer("a parenthesis is not closed", f"write ) before {short(after.split()[0]) if after.split() else 'the end'}")
    if last.startswith("out ") and last.count("(") == last.count(")") and not re.search(rf"^out +{WORD}$|\bas\b", last) and re.match(r"(?:in|def|out)\b|\Z|\w", after):
        if not re.search(r"(?:[-+*/%(,!]|&&|\|\||[<>=])$", last):
            return answer("this output is no name alone, and has none", f"write {short(last)} as NAME")
    if text.begins_line() and before and after[:1] in ("-", "("):
        return answer(f"a {after[0]} that begins a line begins something new", f"put the {after[0]} at the end of the line before")
    word = re.match(WORD, after)
    if word and word[0] not in KEYWORDS and text.begins_line() and re.search(r"[\w)\"\]]$", before):
        return answer(f"{short(word[0])} begins no item", "begin an item with in, def or out; where a line goes on, an operator or a comma stands between")
    if word and word[0] not in KEYWORDS and re.search(r"[\w)\"\]]$", before):
        return answer(f"{short(word[0])} follows what is complete", "an operator or a comma is missing before it, or it is an item and begins with in, def or out")
    return None


def of_equals(text, before, after):
    """A single = in an expression."""
    if re.match(r"=(?![=<>])", after) and re.search(r"[\w)\"\]]$", before) and not re.search(rf"\bdef {WORD}$", before):
        return answer("= defines, and compares nothing", "write ==")
    return None


UNEXPECTED = (of_number, of_name, of_dot, of_type, of_word)
LATER = (of_equals, of_item)


def of_unexpected(text):
    before, after = text.before(), text.after()
    for rule in UNEXPECTED:
        found = rule(text, before, after)
        if found:
            return found
    # What a line begins with goes on with nothing before it.
    if not text.begins_line() or after[:1] == "/":
        found = of_equals(text, before, after) or of_table(before, after)
        if found:
            return found
    return of_item(text, before, after) or of_table(before, after)


def of_character(text):
    before, after = text.before(), text.after()
    sign = after[:1]
    if sign in SIGNS:
        return answer(f"{sign} is no operator", f"write {SIGNS[sign]}")
    if sign and sign in QUOTES:
        return answer(f"{sign} begins no text", 'write texts between double quotes: "..."')
    if sign and sign in UNSEEN:
        return answer("a character that is not seen, or that looks like a blank", "take it away, or write a plain blank")
    if sign in OTHERS:
        return answer(*OTHERS[sign])
    if re.search(rf"\b(?:in|def|as) {WORD}$", before) and text.is_tight():
        return answer("a name has letters, digits and _", "choose another name")
    return None
