"""Reads the headers of the library for C: their comments, their declarations, and what a comment says of its calls."""
import collections
import re

# A part of a header, by its kind: a heading with its title; or a group, whose comment comes before declarations. Either may be empty.
Heading = collections.namedtuple("Heading", "title")
Group = collections.namedtuple("Group", "paragraphs code")
# The names of a group's calls, what they do, the codes that they return, and whether they wait.
Row = collections.namedtuple("Row", "names does refuses waits")

# What is for C++, the guard of the header, and macros that serve the header itself. In a header for C++ only the first line.
HIDDEN = re.compile(r"#(if|ifdef|ifndef|elif|else|endif|include|error)|.*(__tsan_|FAK_C_KEPT|extern const char|extern \"C\")"
                    r"|#define FAK_(C_(H|HPP|BLOCK_H|THREAD_SANITIZER|GIVES|GETS|CLEARS_PADDING)|CHANNEL_(H|HPP)|POOL_H)\b")
CALL = re.compile(r"(?:static inline )?(?:int32_t|uint64_t|void|size_t|bool|fak_channel_item) \**\*?(fak_\w+)\(")
WAIT = re.compile(r"\b(never sleep|sleeps (?:while|until) [^.,;:]*)")


def comment_of(lines):
    """The paragraphs of a comment, each a list of lines, which begins with its first line at the head of `lines`."""
    paragraphs = [[]]
    for line in lines:
        text = re.sub(r"^/\* ?|^ \* ?| *\*/ *$", "", line).rstrip()
        if not text:
            paragraphs.append([])
        else:
            paragraphs[-1].append(text)
    return [paragraph for paragraph in paragraphs if paragraph]


def pieces(source):
    """The comments that begin their line, and the code between them, as pairs of whether it is a comment and lines."""
    lines, at = source.split("\n"), 0
    while at < len(lines):
        end = at
        if lines[at].startswith("/*"):
            while "*/" not in lines[end]:
                end += 1
            yield True, lines[at:end + 1]
        else:
            while end + 1 < len(lines) and not lines[end + 1].startswith("/*"):
                end += 1
            yield False, lines[at:end + 1]
        at = end + 1


def without_bodies(lines):
    """Code without the bodies of its inline functions in C."""
    shown, inside = [], False
    for line in lines:
        if inside:
            inside = line != "}"
        elif line.startswith("static inline"):
            shown.append(line.removesuffix(" {") + ";")
            inside = True
        else:
            shown.append(line)
    return shown


def shown_code(lines, is_cpp):
    """The lines of code that a reader wants, without empty ones at the ends."""
    lines = lines if is_cpp else without_bodies(lines)
    text = "\n".join(line for line in lines if not HIDDEN.match(line) and (is_cpp or line != "}"))
    return re.sub(r"\n{3,}", "\n\n", text).strip("\n")


def parts_of(source, is_cpp=False):
    """The headings and groups of a header."""
    comment = []
    for is_comment, lines in pieces(source):
        if not is_comment:
            code = shown_code(lines, is_cpp)
            if comment or code:
                yield Group(comment, code)
            comment = []
            continue
        if comment:
            yield Group(comment, "")
        comment = comment_of(lines)
        title = re.fullmatch(r"-+ (.*?) -+", comment[0][0]) if comment else None
        if title:
            yield Heading(title.group(1))
            comment = comment[1:] if len(comment[0]) == 1 else [comment[0][1:]] + comment[1:]
    if comment:
        yield Group(comment, "")


def calls_of(code):
    """The names of the calls that code declares."""
    return [found.group(1) for found in map(CALL.match, code.split("\n")) if found]


def first_sentence(text):
    """A text up to its first full stop."""
    return re.split(r"(?<=[^.][.])\s+", text)[0]


def codes_in(text):
    """What a paragraph says of codes: all of it, or only the codes that it lists; or nothing."""
    listed = re.findall(r"- (FAK_C_\w+)", text) + re.findall(r"(?<=; or )FAK_C_\w+", text)
    return ", ".join(listed) + "." if " - FAK_C_" in text else text if text.startswith(("FAK_C_", "The codes ")) else ""


def row_of(names, texts):
    """The row of these calls, whose comment has these texts. With no text about codes they refuse nothing."""
    about = [text for text in texts if not codes_in(text)]
    codes = " ".join(filter(None, map(codes_in, texts)))
    waits = WAIT.search(" ".join(about))
    return Row(names, first_sentence(about[0]) if about else "", codes.replace("FAK_C_", "") or "nothing",
               waits.group(1).replace("never sleep", "never sleeps") if waits else "never")


def rows_of(group):
    """The rows of a group's calls. A paragraph that begins with the name of one of them is about this call alone."""
    names = calls_of(group.code)
    texts = [" ".join(paragraph) for paragraph in group.paragraphs]
    own = {name: text for name in names for text in texts if text.startswith(name + " writes ")}
    if len(own) < max(2, len(names)):
        return [row_of(names, texts)] if names else []
    shared = [text for text in texts if text not in own.values()]
    return [row_of([name], [own[name].replace(name + " writes ", "Writes ")] + shared) for name in names]
