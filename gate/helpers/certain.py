"""What in the body of a test holds whatever the code under test does: conditions that name nothing or compare equal texts, and
assertions of these; and what lies after a `return` that every run reaches."""
import re

TOKEN = re.compile(r"\"(?:[^\"\\]|\\.)*\"|'(?:[^'\\]|\\.)'|\d\w*|\w+|[=!<>]=|&&|\|\||=>|->|::|\S")
OPENING, CLOSING = "([{", ")]}"
# Names that make a value of literals, and no call.
CONSTRUCTORS = {"true", "false", "Some", "None", "Ok", "Err", "as", "bool", "char", "u8", "u16", "u32", "u64", "usize"}
COMPARED = {
    "==": lambda a, b: a == b,
    "!=": lambda a, b: a != b,
    "<=": lambda a, b: a <= b,
    ">=": lambda a, b: a >= b,
    "<": lambda a, b: a < b,
    ">": lambda a, b: a > b,
}


def tokens_of(code):
    """Returns the tokens of code without comments.

    >>> tokens_of("if a<=b { x(\\"a b\\")?; }")
    ['if', 'a', '<=', 'b', '{', 'x', '(', '"a b"', ')', '?', ';', '}']
    """
    return TOKEN.findall(code)


def split_at(tokens, sign):
    """Returns the parts of a list of tokens between the signs that are in no brackets."""
    parts, depth = [[]], 0
    for token in tokens:
        depth += (token in OPENING) - (token in CLOSING)
        if token == sign and depth == 0:
            parts.append([])
        else:
            parts[-1].append(token)
    return parts


def end_of(tokens, at):
    """Returns the index after the bracket that closes the one at index `at`, or the number of tokens."""
    depth = 0
    for end in range(at, len(tokens)):
        depth += (tokens[end] in OPENING) - (tokens[end] in CLOSING)
        if depth == 0:
            return end + 1
    return len(tokens)


def end_of_statement(tokens):
    """Returns the number of tokens before the semicolon or the brace that ends the first statement."""
    depth = 0
    for end, token in enumerate(tokens):
        depth += (token in OPENING) - (token in CLOSING)
        if depth < 0 or token == ";" and depth == 0:
            return end
    return len(tokens)


def is_literal(tokens):
    """Whether tokens name no variable and no function."""
    return all(token in CONSTRUCTORS or not re.match(r"[A-Za-z_]", token) for token in tokens)


def value_of_comparison(left, sign, right):
    if left == right:
        return sign in ("==", "<=", ">=")
    if not is_literal(left + right):
        return None
    try:
        return COMPARED[sign](*(int("".join(side).replace("_", ""), 0) for side in (left, right)))
    except ValueError:
        return True


def value_of(condition):
    """Returns the value of a condition if it is the same whatever its names mean, else None; True if it is the same, but not
    worked out here.

    >>> [value_of(tokens_of(text)) for text in ("true", "!(x != x)", "1 == 2", "2 <= 0x3", "a || f(x) == f(x)", "let _ = f(x)")]
    [True, True, False, True, True, True]
    >>> [value_of(tokens_of(text)) for text in ("a", "!a", "a == b", "x == x && a", "n < 3", "let Some(x) = f()", "f::<u8>(x)")]
    [None, None, None, None, None, None, None]
    """
    if condition[:1] == ["let"]:
        pattern, *value = split_at(condition[1:], "=")
        is_met = len(pattern) == 1 and re.match(r"[a-z_]", pattern[0]) and pattern[0] not in CONSTRUCTORS
        return True if is_met or is_literal([token for part in value for token in part]) else None
    while condition[:1] in (["("], ["{"]) and end_of(condition, 0) == len(condition):
        condition = condition[1:-1]
    for sign, decides in (("||", True), ("&&", False)):
        parts = split_at(condition, sign)
        if len(parts) > 1:
            values = [value_of(part) for part in parts]
            if decides in values:
                return decides
            return None if None in values else not decides
    for sign in COMPARED:
        parts = split_at(condition, sign)
        if len(parts) == 2 and all(parts) and parts[0][-1] != "::":
            return value_of_comparison(parts[0], sign, parts[1])
    if condition[:1] == ["!"]:
        value = value_of(condition[1:])
        return None if value is None else not value
    if condition[:3] == ["matches", "!", "("] and end_of(condition, 2) == len(condition):
        return True if split_at(condition[3:-1], ",")[1:2] == [["_"]] else None
    return condition != ["false"] if condition and is_literal(condition) else None


def certain_conditions(tokens):
    """Returns the conditions of `if` and `while`, and what is matched, that are the same in every run.

    >>> certain_conditions(tokens_of("if true { return; } while x == x { } match f() { _ => {} } if a { } match f() { 1 => {} }"))
    ['if true', 'while x == x', 'match f ( )']
    >>> certain_conditions(tokens_of("if { true } { return; } match a { b if 1 < 2 => {} }"))
    ['if { true }', 'if 1 < 2']
    """
    found = []
    for at, token in enumerate(tokens):
        if token in ("if", "while", "match"):
            end = end_of(tokens, at + 1) if tokens[at + 1] in OPENING else at + 1
            while end < len(tokens) and tokens[end] not in ("{", "=>"):
                end = end_of(tokens, end) if tokens[end] in OPENING else end + 1
            condition = tokens[at + 1 : end]
            is_met = token == "match" and tokens[end + 1 : end + 3] == ["_", "=>"]
            is_same = is_literal(condition) if token == "match" else value_of(condition) is not None
            if is_met or is_same:
                found.append(" ".join(tokens[at:end]))
    return found


def until_return(tokens):
    """Returns the tokens up to the first `return` statement that every run reaches: in no block but loops and bare ones.

    >>> " ".join(until_return(tokens_of("if a { return f(); } { return g() } h()")))
    'if a { return f ( ) ; } { return g ( )'
    """
    blocks, head = [], []
    for at, token in enumerate(tokens):
        if token == "return" and not any(blocks):
            return tokens[: at + end_of_statement(tokens[at:])]
        if token == "{":
            blocks.append(bool({"if", "while", "for", "match", "else", "fn", "=>", "|", "||"} & set(head)))
        elif token == "}" and blocks:
            blocks.pop()
        head = [] if token in "{};" else [*head, token]
    return tokens


# How assertions begin: macros, and the function of the tests that returns an error.
ASSERTIONS = {name: (name, "!") for name in ("assert", "assert_eq", "assert_ne")} | {"expect": ("expect",)}


def is_certain_assertion(name, arguments):
    if name in ("assert_eq", "assert_ne"):
        return value_of_comparison(arguments[0], "==" if name == "assert_eq" else "!=", arguments[1]) is not None
    return value_of(arguments[0]) is not None


def without_certain_assertions(tokens):
    """Returns the tokens without assertions that hold in every run.

    >>> " ".join(without_certain_assertions(tokens_of("assert!(x == x); assert_eq!(1, 1, \\"a\\"); assert!(a); expect(true, b)?")))
    'assert ! ( a ) ;'
    """
    kept, at = [], 0
    while at < len(tokens):
        name = ASSERTIONS.get(tokens[at]) if kept[-1:] != ["."] else None
        opening = at + len(name or ())
        if name and tokens[at : opening + 1] == [*name, "("]:
            end = end_of(tokens, opening)
            if is_certain_assertion(name[0], split_at(tokens[opening + 1 : end - 1], ",")):
                at = end
                while tokens[at : at + 1] in (["?"], [";"]):
                    at += 1
                continue
        kept.append(tokens[at])
        at += 1
    return kept


def faults_of(code):
    """Returns what is wrong with a body of tests: conditions that are the same in every run, and what no run reaches.

    >>> faults_of("if true { f(); } g()")
    ['this is the same in every run: if true']
    >>> faults_of("return f(); g()")
    ['no run reaches this: g ( )']
    """
    tokens = tokens_of(code)
    rest = " ".join(tokens[len(until_return(tokens)) :]).lstrip(";} ")
    found = [f"this is the same in every run: {condition}" for condition in certain_conditions(tokens)]
    return found + [f"no run reaches this: {rest}"] * bool(rest)


def can_fail(code):
    """Whether a run of a test's body may end in a failure: by an assertion, an error that is returned, or by what a call
    returns. It is not seen if a call of which `?` takes the value cannot fail.

    >>> [can_fail(code) for code in ("f(x)?; Ok(())", "assert!(f(x)); Ok(())", "f(x)", "return f(x);", "Err(x)")]
    [True, True, True, True, True]
    >>> [can_fail(code) for code in ("f(x); Ok(())", "return Ok(()); f(x)", "assert!(x == x); Ok(())", "{ return Ok(()); } f(x)")]
    [False, False, False, False]
    """
    tokens = without_certain_assertions(until_return(tokens_of(code)))
    text = " ".join(tokens)
    is_call_returned = text.endswith(")") and not text.endswith("Ok ( ( ) )")
    return is_call_returned or bool(re.search(r"\bassert\w* !|\bErr \(|\? [;,.)]", text))
