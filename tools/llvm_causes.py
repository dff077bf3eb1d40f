"""The causes of differences between the program and LLVM's own tools, which docs/llvm.md lists, and the tokens of a text, for tools/compare-llvm."""
import functools
import re

UNEXPLAINED = "unexplained"
NAME = rb"[-a-zA-Z$._][-a-zA-Z$._0-9]*"
# A token, of those that may begin at one place the longest.
TOKEN = re.compile(
    rb"(?:" + NAME + rb"|[0-9]+|\"[^\"]*\"):"
    rb"|[%@](?:" + NAME + rb"|[0-9]+|\"[^\"]*\")"
    rb"|\$(?:" + NAME + rb"|\"[^\"]*\")"
    rb"|c?\"[^\"]*\""
    rb"|[a-zA-Z_][a-zA-Z0-9_.]*"
    rb"|0x[0-9a-fA-F]+"
    rb"|-?[0-9]+(?:\.[0-9]+(?:[eE][-+]?[0-9]+)?)?"
    rb"|[!#](?:" + NAME + rb"|[0-9]+)"
    rb"|\.\.\."
    rb"|[=,()\[\]{}<>*!:|]"
)
SPACE = re.compile(rb"(?:[ \t\n\r]|;[^\n\r]*)*")
FUNCTION = re.compile(rb"^define .*?^}", re.MULTILINE | re.DOTALL)


@functools.lru_cache(4096)
def lexed(text):
    """The places of a text's tokens, each with its end, up to the first place where none begins, and that place, or the text's length."""
    spans, place = [], SPACE.match(text).end()
    while place < len(text):
        token = TOKEN.match(text, place)
        if token is None:
            break
        spans.append(token.span())
        place = SPACE.match(text, token.end()).end()
    return tuple(spans), place


def spans(text):
    """The places of a text's tokens, each with its end."""
    return lexed(text)[0]


@functools.lru_cache(256)
def functions(text):
    """Where the functions that a text defines begin and end."""
    return tuple(found.span() for found in FUNCTION.finditer(text))


def in_function(text, place):
    """Whether a place is in a function that the text defines."""
    return any(start <= place < end for start, end in functions(text))


# ---- where the program alone refuses: causes, with what stands before the place (in its line, or in the whole text) and what begins there

TYPE = rb"(?:i\d+|ptr|<[^<>]*>)"
REFUSED = tuple(
    (cause, re.compile(before + rb"\Z", re.DOTALL), re.compile(there))
    for cause, before, there in (
        ("callees", rb"\bcall [^\n]*", rb"(?:%[^\n ,]+|null|poison) *\("),
        ("bundles", rb"\bcall [^\n]*\)[^\n]*", rb"\[ *\""),
        ("cases", rb"(?:switch [^\[]*\[[^\]]*|\n +)i\d+ +", rb"(?:true|false)\b|[a-z]+ +\("),
        ("clauses", rb"\n@[^\n]*", rb", *(?:section|comdat|align|partition|code_model|no_sanitize|sanitize)"),
        ("clauses", rb"\n(?:declare|define) [^\n]*\)[^\n]* (?:prefix|prologue) +", rb"\S"),
        ("dots", rb"define [^\n]*\([^\n]*", rb"\.\.\."),
        ("indexes", rb"getelementptr [^\n]*, *ptr +[^\n,]+,?\s*", rb"\S"),
        ("indexes", rb"getelementptr [^\n]*, *", rb"< *\d"),
        ("flags", rb"getelementptr [^\n]*\b(?:inbounds|nuw|nusw) +", rb"(?:inbounds|nuw|nusw)\b"),
        ("phis", rb"\bphi +" + TYPE + rb"\s*", rb"[^\[\s]"),
        ("numbers", rb"", rb"[%@]?\"?\d{10,}"),
        ("use lists", rb"", rb"uselistorder"),
        ("types", rb"", rb"[\[{]|< *\{|void *\(|\*|target *\("),
        ("types", rb"< *", rb"\d+ +x "),
        ("types", rb"", rb"< *\d+ +x +ptr"),
        ("types", rb"< *\d+ +x +", rb"ptr *>"),
        ("types", rb"\n%[^\n]* type [^\n]*", rb"\("),
        ("constants", rb"", rb"(?!call|ret|br)[a-z]+ +(?:[a-z]+ +)*\(|zeroinitializer\b|[us]0x[0-9A-Fa-f]"),
        ("constants", rb"getelementptr [^\n]*\([^\n]*ptr +", rb"null|poison"),
    )
)


def names_type(text, place):
    """Whether a name of a type stands at a place."""
    name = re.compile(rb"%(?:" + NAME + rb"|\d+|\"[^\"]*\")").match(text, place)
    return name is not None and re.search(rb"^" + re.escape(name[0]) + rb" *= *type", text, re.MULTILINE) is not None


def instruction(text, answer):
    """The line of the instruction that a broken rule names, or the whole text where it isn't found."""
    for start, end in functions(text):
        head, _, body = text[start:end].partition(b"\n")
        if answer.function + b"(" in head:
            lines = re.findall(rb"^ +(?!i\d+ -?\d+, label)[^\s\]].*$", body, re.MULTILINE)
            return lines[answer.place] if answer.place < len(lines) else text
    return text


def has_great_number(line):
    """Whether a number stands there that is out of the range of one of the types there."""
    widths = [int(width) for width in re.findall(rb"\bi(1|8|16|32|64)\b", line)] or [64]
    numbers = [int(number) for number in re.findall(rb"(?<![\w%@.\"-])-?\d+(?![\w.]| x)", re.sub(rb", align \d+|!\S+", b"", line))]
    return any(not -(1 << min(widths) - 1) <= number < 1 << min(widths) for number in numbers)


def of_check(text, answer):
    """The cause for which a module breaks a rule that LLVM takes."""
    line = instruction(text, answer)
    if answer.word == b"unknown-callee":
        return "calls"
    if answer.word in (b"unknown-name", b"duplicate-name") and b'""' in text:
        return "empty names"
    if answer.word == b"phi-edges" and b"poison" in line:
        return "poison lanes"
    if answer.word == b"type-mismatch" and answer.function == b"-":
        return "opaque"
    if answer.word == b"type-mismatch" and re.search(rb"(?:load|store) <\d+ x i1>|@llvm\.masked\.(?:load|store)\.v\d+i1\.", line):
        return "bits"
    if answer.word == b"type-mismatch" and b"getelementptr" in line:
        return "vector steps" if re.search(rb"getelementptr .*<\d+ x", line) else "opaque"
    if answer.word == b"type-mismatch" and has_great_number(line):
        return "ranges"
    return UNEXPLAINED


def of_program(text, answer):
    """The cause for which the program refuses a text that LLVM takes."""
    if answer.kind == "check":
        return of_check(text, answer)
    by_kind = {"left out": "left out", "bad token": "tokens", "no reading": None}.get(answer.kind, "limits")
    if by_kind is not None:
        return by_kind
    for cause, before, there in REFUSED:
        if there.match(text, answer.place) and before.search(b"\n" + text[: answer.place]):
            return cause
    return "types" if names_type(text, answer.place) else UNEXPLAINED


# ---- where LLVM alone refuses: causes, with what it says, where it looks while it reads and where it looks at the whole

SAID = tuple(
    (cause, re.compile(form))
    for cause, form in (
        ("masks", r"invalid shufflevector operands"),
        ("equal cases", r"duplicate case value"),
        ("truths", r"constant expression type mismatch: got type 'i1'"),
        ("members", r"invalid getelementptr indices"),
        ("numbered items", r"expected to be numbered"),
    )
)
VERIFIED = (
    ("entries", r"multiple entries for the same basic block"),
    ("intrinsics", r"[Ii]ntrinsic|immarg"),
    ("musttail", r"musttail|guarantee tail call"),
    (
        "kept",
        r"[Aa]ttribute|[Mm]etadata|module flag|TBAA|Access|access|[Ss]truct (?:type|tag)|[Bb]ase node|field entry|bit-?width|![a-z]|[Rr]ange|Wrong number|[Cc]omdat|[Ll]inkage|visibility|dso_local|"
        r"dereferenceable|nonnull|[Aa]lignment|[Cc]alling conv|[Ii]nitializer|dllimport|dllexport",
    ),
)
HEAD = re.compile(rb"source_filename|target")


def place_of(text, message):
    """The place that LLVM names, or none."""
    found = re.search(r"<stdin>:(\d+):(\d+): error: ", message)
    if found is None:
        return None
    lines = text.split(b"\n")[: int(found[1]) - 1]
    return sum(len(line) + 1 for line in lines) + int(found[2]) - 1


def lexed_end(text, place):
    """The end of the token at a place, or the place where none begins there."""
    return dict(spans(text)).get(place, place)


def is_kept(text, place):
    """Whether a place is in a line or a part of one that may hold what is kept: an item other than a named type, or a call, or an attachment."""
    start = text.rfind(b"\n", 0, place) + 1
    before = text[start:place]
    if not in_function(text, start) or text.startswith(b"define", start):
        return not re.match(rb"%", text[start:])
    return re.search(rb"\bcall\b", before) is not None or re.search(rb", *!", before) is not None


def of_llvm(text, message):
    """The cause for which LLVM refuses a text that the program takes."""
    if "does not verify" in message:
        said = message.split("\n", 1)[1]
        return next((cause for cause, form in VERIFIED if re.search(form, said.split("\n", 1)[0])), UNEXPLAINED)
    place = place_of(text, message)
    if place is None:
        return UNEXPLAINED
    said = message.split("error: ", 1)[1].split("\n", 1)[0]
    if "top-level entity" in said and HEAD.match(text, place):
        return "order"
    if text[place : place + 1] in (b"%", b"@", b"$", b'"') and b"\\00" in text[place : lexed_end(text, place)]:
        return "names"
    line = text.rfind(b"\n", 0, place) + 1
    by_words = next((cause for cause, form in SAID if form.search(said)), None)
    if by_words is not None:
        return by_words
    if not in_function(text, line) and text[line : line + 1] in b"@!$a":
        return "kept"
    return "kept" if is_kept(text, place) else UNEXPLAINED


# ---- where both take a text, and LLVM reads another module from what was printed


def of_print(text, printed):
    """The cause for which LLVM refuses what was printed of a text that it takes: there is none."""
    return UNEXPLAINED


ALIGNMENT = re.compile(rb", align \d+")
STEPPED = re.compile(rb"getelementptr (?:[a-z]+ )*\(")


def of_modules(text, printed, opt):
    """The cause for which LLVM reads another module from what was printed of a text than from the text."""
    read, reread = opt(text), opt(printed)
    if ALIGNMENT.sub(b"", read) == ALIGNMENT.sub(b"", reread):
        return "layout"
    if STEPPED.search(read):
        read, reread = (STEPPED.sub(b"getelementptr (", opt(one, "-passes=instcombine") or b"") for one in (text, printed))
        if read and read == reread:
            return "stepped"
    return UNEXPLAINED
