"""Results that a check keeps in the user's cache folder, each by a checksum of all that it depends on."""
import hashlib
import os


def files_below(path):
    """The files of a folder, or the path itself, in order, without what is built there."""
    if os.path.isfile(path):
        return [path]
    walked = sorted((at, sorted(names)) for at, _, names in os.walk(path) if not {"out", "target", "__pycache__"} & {*at.split(os.sep)})
    return [os.path.join(at, name) for at, names in walked for name in names]


def sum_of_path(path):
    """A checksum of a file, or of the names and texts of the files of a folder."""
    total = hashlib.sha256()
    for file in files_below(path):
        with open(file, "rb") as source:
            total.update(repr((os.path.relpath(file, path), source.read())).encode())
    return total.hexdigest()


def kept_at(kind, subject):
    """The file that keeps a result of this kind for a subject, a value whose text says all that the result depends on."""
    cache = os.environ.get("XDG_CACHE_HOME") or os.path.expanduser("~/.cache")
    return os.path.join(cache, "cerambyu", kind, hashlib.sha256(repr(subject).encode()).hexdigest())


def keep(path):
    """Keeps a result in this file."""
    os.makedirs(os.path.dirname(path), exist_ok=True)
    with open(path, "w", encoding="utf8"):
        pass
