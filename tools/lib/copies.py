"""Copies of the repository in which something is made wrong, for checks that read this file in."""
import os
import shutil
import subprocess

TOP = os.path.dirname(os.path.dirname(os.path.dirname(os.path.abspath(__file__))))


class NoSuchText(Exception):
    """A text that an oracle changes is not at the place that it names."""


def built(script, *words):
    """The path that a script of tools/build prints."""
    return subprocess.run([os.path.join(TOP, "tools/build", script), *words], stdout=subprocess.PIPE, text=True, check=True).stdout.strip()


class Copy:
    """A copy of the repository."""

    def __init__(self, top):
        self.top = top
        shutil.copytree(TOP, top, symlinks=True, ignore=shutil.ignore_patterns("out", ".git", "target"))

    def path(self, name):
        return os.path.join(self.top, name)

    def text(self, name):
        with open(self.path(name), encoding="utf8") as file:
            return file.read()

    def write(self, name, text):
        with open(self.path(name), "w", encoding="utf8") as file:
            file.write(text)

    def change(self, name, old, new):
        """Puts a text in place of the first one like `old`."""
        text = self.text(name)
        if old not in text:
            raise NoSuchText(f"{name} has no '{old}'")
        self.write(name, text.replace(old, new, 1))

    def script(self, name, text):
        """Makes a script."""
        self.write(name, "#!/bin/sh\n" + text)
        os.chmod(self.path(name), 0o755)

    def gives(self, program):
        """Each check gets this program in place of a built one."""
        self.script("tools/build/program", f"echo '{program}'\n")

    def takes_programs(self, *names):
        """Each check gets these programs as they are built."""
        cases = "".join(f"{name}) echo '{built('program', name)}' ;;\n" for name in names)
        self.script("tools/build/program", f"case ${{1:-fak}} in\n{cases}*) exit 1 ;;\nesac\n")

    def departs(self, output="", faults="", status=0):
        """Each check gets a program that changes what fak writes: commands of sed for both outputs, and what its status is raised by."""
        said = self.path("departs.$$")
        self.script("departs", f"""'{built("program")}' "$@" > "{said}.out" 2> "{said}.err"
status=$?
sed '{output}' "{said}.out"
sed '{faults}' "{said}.err" >&2
rm -f "{said}.out" "{said}.err"
exit $((status + {status}))
""")
        self.gives(self.path("departs"))

    def patched(self, program, old, new):
        """The built program with one text changed into another of the same length."""
        with open(built("program", program), "rb") as file:
            code = file.read()
        if old.encode() not in code or len(old) != len(new):
            raise NoSuchText(f"{program} has no '{old}'")
        path = self.path(f"{program}-patched")
        with open(path, "wb") as file:
            file.write(code.replace(old.encode(), new.encode()))
        os.chmod(path, 0o755)
        return path

    def takes_archives(self, folder=None):
        """Each check gets the library for C that is built, or the archives in this folder."""
        self.script("tools/build/c-archives", f"echo '{folder or built('c-archives')}'\n")
