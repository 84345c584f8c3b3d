"""Reads what contracts cite: the definitions of specs/, and the types of src/, of all crates; and what a name means in a file."""
import collections
import re
import textwrap

# A definition or type, by the module that others import it from. The tokens of its text are without comments and white space.
Definition = collections.namedtuple("Definition", "module name tokens")

# A field has its dot.
TOKEN = re.compile(r"\.?[^\W\d][\w']*|[\w']+|\S")
IMPORT = re.compile(r"^ *(?:pub |ghost )?use Rattle\.([\w.]+?)(?:\.\{([^}]*)\}| as (\w+))", re.MULTILINE)
KEYWORDS = r"(?:unfoldable |abbrev |pub |record |data )+"
# What declares a name: a definition with its fields and constructors; a type with its fields and variants, and a function.
DECLARED = {"specs": rf"^(?:  )?{KEYWORDS}([^\s:]+)|^ +(?:pub )?([\w']+) :",
            "src": r"\b(?:struct|enum|trait|fn|mod|type|const|ghost) (\w+)|^ +(?:pub(?:\(\w+\))? )?(?:ghost )?(\w+):|^    ([A-Z]\w*)\b"}


def texts_of(top, part):
    """The files of src/ or specs/ of all crates, by their paths."""
    ending = {"src": "rt", "specs": "antt"}[part]
    return {path.relative_to(top): path.read_text(encoding="utf8") for path in sorted(top.glob(f"crates/*/{part}/**/*.{ending}"))}


def module_of(path):
    """The module of a file of src/ or specs/, as others import it."""
    crate, part, *names = path.with_suffix("").parts[1:]
    return ".".join([crate, "specs", *["declared"][:part == "src"], *names])


def definitions_in(text, head=""):
    """Pairs of a name and the text of its definition. A definition in a nested module has the head of that too."""
    found = []
    for part in re.split(r"\n(?=[^\s}])", re.sub(r"(^|\s)--( .*|$)", "", text, flags=re.MULTILINE)):
        name = re.match(KEYWORDS + r"(?!use |mod )([^\s:]+)", part)
        if part.startswith("module "):
            first, _, rest = part.partition("\n")
            yield from definitions_in(textwrap.dedent(rest), first)
        elif name:
            found.append([name.group(1), head, part])
        elif found and not re.match(r"(pub )?(use|mod|infix\w*) ", part):
            found[-1].append(part)
    for name, *parts in found:
        yield name, " ".join(parts)


def types_in(text):
    """The same for types and traits; and for the ghost members that a type gives to traits."""
    text = re.sub(r"^\s*//.*\n|^\s*#\[.*\]\n", "", text, flags=re.MULTILINE)
    yield from re.findall(r"^(?:pub(?:\(\w+\))? )?(?:struct|enum|trait) (\w+)(.*?(?:;|\{\}|^\}))$", text, re.MULTILINE | re.DOTALL)
    for name, body in re.findall(r"^(?:unsafe )?impl\b[^{}]*? for (\w+)[^{}]*\{$(.*?)^\}$", text, re.MULTILINE | re.DOTALL):
        members = re.findall(r"^    ghost (?!use ).*?;$", body, re.MULTILINE | re.DOTALL)
        if members:
            yield name, " ".join(members)


class Scope:
    """What the names of a file mean. `known` has the names of each module."""

    def __init__(self, module, text, known):
        self.known, self.module, self.imported, self.aliases = known, module, {}, {}
        for source, names, alias in IMPORT.findall(text):
            for name in re.findall(r"[^\s,][^,]*", names):
                if not source.startswith(module + "."):
                    self.imported[name.split()[-1]] = self.target(source, name.split()[0])
            if alias:
                self.aliases[alias] = source
        used = set(re.findall(r"^ *use (\w+)::", text, re.MULTILINE)) | {module.split(".")[0]}
        self.types = [name for name in known if name.split(".")[0] in used and ".declared" in name]

    def target(self, source, name):
        """The tokens of a name of a module: the definition that it means or belongs to, then the name if it is only a part."""
        whole, part = name, []
        while source not in self.known and "." in source:
            source, _, whole = source.rpartition(".")
            part = ["." + name]
        return [f"{source}.{whole}", *part] if whole in self.known[source] else [name]

    def tokens(self, text):
        """The tokens of a text. A name that means a definition is there with its module."""
        found, alias = [], None
        for token in TOKEN.findall(text):
            if alias and token[0] == ".":
                found += self.target(self.aliases[alias], token[1:])
            elif token not in self.aliases:
                found += self.imported.get(token) or self.target(self.module, token)
            alias = token if token in self.aliases else None
        return found

    def types_of(self, text):
        """The types that a text in Rattle may name: those of its crate, and of the crates that its file uses."""
        return {f"{module}.{name}" for name in re.findall(r"\w+", text) for module in self.types if name in self.known[module]}


class Definitions:
    """The definitions and types of a tree, and the names that it declares."""

    def __init__(self, top):
        texts = {part: {module_of(path): text for path, text in texts_of(top, part).items()} for part in ("src", "specs")}
        found = [(module, name, text) for part, reads in (("specs", definitions_in), ("src", types_in))
                 for module, whole in texts[part].items() for name, text in reads(whole)]
        known = collections.defaultdict(set)
        for module, name, _ in found:
            known[module].add(name)
        self.scopes = {module: Scope(module, text, known) for part in texts.values() for module, text in part.items()}
        self.all = [Definition(module, name, self.scopes[module].tokens(text)) for module, name, text in found]
        self.declared = {name for part, pattern in DECLARED.items() for text in texts[part].values()
                         for names in re.findall(pattern, text, re.MULTILINE) for name in names}
        self.declared.update(f"{module}.{name}" for module, name, _ in found)
        self.uses = collections.defaultdict(set)
        for (module, name, text), one in zip(found, self.all):
            types = self.scopes[module].types_of(text) if ".declared" in module else ()
            self.uses[f"{module}.{name}"].update(one.tokens, types)

    def cited_by(self, citing):
        """The definitions that are cited, by way of others too, each with those who cite. `citing` has pairs of one and a token."""
        cited, left = collections.defaultdict(set), set(citing)
        while left:
            who, name = left.pop()
            if name in self.uses and who not in cited[name]:
                cited[name].add(who)
                left |= {(who, other) for other in self.uses[name]}
        return {name: ", ".join(sorted(citing)) for name, citing in cited.items()}
