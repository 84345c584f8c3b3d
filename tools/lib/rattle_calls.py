"""Reads the public calls of a crate in Rattle: their doc comments, signatures and contracts."""
import collections
import pathlib
import re

# A type or the crate itself (whose name is empty), and its calls.
Type = collections.namedtuple("Type", "name paragraphs calls")
Call = collections.namedtuple("Call", "name paragraphs errors signature contract")
# A clause of a contract. It may have no label.
Clause = collections.namedtuple("Clause", "kind label text")

CLAUSE = re.compile(r"\s*(requires|ensures|measures)\b")
# The end of the line at which a function's body begins, and of the last line of a trait's function.
BODY = re.compile(r"(\{( .*)?\}?|;)$")
# A clause up to its opening brace.
HEAD = re.compile(r"\s*((?:requires|ensures|measures)\*?) *(\w*) *\{")


def paragraphs_of(lines):
    """The paragraphs of lines of a doc comment."""
    text = "\n".join(re.sub(r"^\s*//[/!] ?", "", line) for line in lines)
    return [" ".join(paragraph.split("\n")) if not paragraph.lstrip().startswith("- ") else paragraph
            for paragraph in re.split(r"\n\s*\n", text.strip()) if paragraph]


def before(lines, at):
    """The doc comment that is just before a line, attributes aside."""
    first = at
    while first > 0 and re.match(r"\s*(///|#\[)", lines[first - 1]):
        first -= 1
    return paragraphs_of(line for line in lines[first:at] if "///" in line)


def call_at(lines, at, name):
    """The call whose `fn` is at this line. Its contract ends before the body, or with the semicolon of a trait's function."""
    first = at
    while not CLAUSE.match(lines[first]) and not BODY.search(lines[first]):
        first += 1
    end, depth, has_clauses = first, 0, CLAUSE.match(lines[first])
    while has_clauses and (depth or not lines[end].lstrip().startswith("{")):
        depth += lines[end].count("{") - lines[end].count("}")
        end += 1
        if not depth and lines[end - 1].endswith(";"):
            break
    head = " ".join(line.strip() for line in lines[at:first if has_clauses else first + 1])
    signature = re.sub(r"( \{.*|;)$", "", re.sub(r",? \)", ")", head.replace("( ", "(")))
    texts = before(lines, at)
    heads = [number for number, text in enumerate(texts) if text.startswith("# ")]
    errors = texts.index("# Errors") if "# Errors" in texts else None
    return Call(name, texts[:heads[0]] if heads else texts, texts[errors + 1:errors + 2] if errors is not None else [], signature,
                "\n".join(line[4:] for line in lines[first:end]).rstrip(";"))


def clauses_of(contract):
    """The clauses of a contract, without comments, and with one space for white space."""
    text, at = re.sub(r"//.*", "", contract), 0
    while text[at:].strip():
        head = HEAD.match(text, at)
        at, depth = head.end(), 1
        while depth:
            depth += {"{": 1, "}": -1}.get(text[at], 0)
            at += 1
        yield Clause(head.group(1), head.group(2), " ".join(text[head.end():at - 1].split()))


def calls_in(lines):
    """Pairs of the type that a public call belongs to, or none, and the call."""
    owner = None
    for at, line in enumerate(lines):
        found = re.match(r"impl\b(?:<.*?>)? (\w+)(?:<.*>)? \{$", line)
        if line.startswith("impl"):
            owner = found.group(1) if found and " for " not in line else None
        name = re.match(r"(    )?pub fn (\w+)", line)
        if name and (owner or not name.group(1)):
            yield owner if name.group(1) else "", call_at(lines, at, name.group(2))


def trait_calls_in(lines):
    """Pairs of the name of a public trait and a function that it declares."""
    owner = None
    for at, line in enumerate(lines):
        found, name = re.match(r"pub trait (\w+)", line), re.match(r"    fn (\w+)", line)
        if found or line == "}":
            owner = found and found.group(1)
        if owner and name:
            yield owner, call_at(lines, at, name.group(1))


def exported_names(root):
    """The names that a crate's root exports of its own modules."""
    own = set(re.findall(r"^(?:pub )?mod (\w+);", root, re.MULTILINE))
    found = re.findall(r"^pub use (\w+)::(?:(\w+)|\{([^}]*)\});", root, re.MULTILINE)
    return [name for module, one, several in found if module in own for name in re.findall(r"\w+", one or several)]


def types_of(folder):
    """The crate's own text, and each type that it exports with its calls, in the order of the root."""
    root = (pathlib.Path(folder) / "lib.rt").read_text(encoding="utf8")
    exported = exported_names(root)
    texts, calls = {}, {name: [] for name in [""] + exported}
    for path in sorted(pathlib.Path(folder).rglob("*.rt")):
        lines = path.read_text(encoding="utf8").split("\n")
        for at, line in enumerate(lines):
            found = re.match(r"pub (?:struct|enum) (\w+)", line)
            if found and found.group(1) in calls:
                texts[found.group(1)] = before(lines, at)
        for owner, call in calls_in(lines):
            if owner in calls and (owner or call.name in exported):
                calls[owner].append(call)
    head = paragraphs_of(line for line in root.split("\n") if line.startswith("//!"))
    return head, [Type(name, texts.get(name, []), calls[name]) for name in calls if calls[name]]


def said_wait(call):
    """What a call's doc comment says of its waiting, or none."""
    text = " ".join(call.paragraphs)
    said = re.search(r"\b((?:sleeps?|waits?|tries again) (?:while|until) [^.,;:]*(?:, until the deadline at most)?|does not sleep"
                     r"|tries until [^.,;:]*)", text)
    return said.group(1) if said else None


def waits_in(types):
    """Whether each call waits, by its type and name. A call that needs no `Wait` never does. One whose comment says nothing waits as the
    call of the same name of another type does."""
    found = {}
    calls = [(owner.name, call) for owner in types for call in owner.calls]
    for _, call in calls:
        if said_wait(call):
            found.setdefault(call.name, said_wait(call))
    waiting = [(owner, call) for owner, call in calls if re.search(r"\bWait\b", call.signature)]
    never = {(owner, call.name): "never" for owner, call in calls}
    return {**never, **{(owner, call.name): said_wait(call) or found.get(call.name, "may wait") for owner, call in waiting}}
