"""The cases of tests/cases, compared with this reading."""
import os

from . import commands


def file_octets(path):
    with open(path, "rb") as file:
        return file.read()


def octets_or(path, otherwise):
    return file_octets(path) if os.path.exists(path) else otherwise


class Case:
    """A case: its words, files and input, and what is due."""

    def __init__(self, top, name):
        self.name = name
        self.folder = os.path.join(top, "cases", name)
        words = file_octets(self.path("words")).split(b"\n")
        self.words = [self.as_text(word) for word in (words if words[-1] else words[:-1])]
        self.status = int(octets_or(self.path("status"), b"0"))
        self.output = octets_or(self.path("stdout"), b"")
        self.folders = [self.path("files")]
        if os.path.exists(self.path("over")):
            self.folders.append(os.path.join(top, file_octets(self.path("over")).decode().strip()))
        made = [line.split() for line in octets_or(self.path("spaces"), b"").split(b"\n") if line]
        self.spaces = {name: int(size) for name, size in made}

    def path(self, name):
        return os.path.join(self.folder, name)

    def has(self, name):
        return os.path.exists(self.path(name))

    @staticmethod
    def as_text(word):
        """A word that isn't text is read as an empty one."""
        try:
            word.decode()
        except UnicodeDecodeError:
            return b""
        return word

    def shelf(self, name):
        """The octets of a file that the case has, or None."""
        if name in self.spaces:
            return b" " * self.spaces[name]
        for folder in self.folders:
            path = os.path.join(folder, name.decode())
            if os.path.exists(path):
                return file_octets(path)
        return None

    def given(self):
        """The octets of the input. A closed one can't be read."""
        if self.has("closed-stdin"):
            raise commands.Refusal(4, b"fault read")
        return octets_or(self.path("stdin"), b"")

    def is_known(self):
        """Whether the reading knows what is due: all but what is printed for people, which no rule tells."""
        return self.words not in ([b"--help"], [b"--version"])

    def answer(self):
        """What the reading says is printed, and the status."""
        output, status = commands.run(self.words, self.shelf, self.given)
        if self.has("full-stdout") and output:
            return b"", 5
        return output, status


def compare_cases(top, names, show):
    """Compares the cases, shows those that differ, and gives how many agreed, differed and aren't known."""
    agreed, differed, unknown = 0, 0, 0
    for name in names or sorted(os.listdir(os.path.join(top, "cases"))):
        case = Case(top, name)
        if not case.is_known():
            unknown += 1
            continue
        output, status = case.answer()
        if (output, status) == (case.output, case.status):
            agreed += 1
        else:
            differed += 1
            show("case " + name, (output, status), (case.output, case.status), "case")
    return agreed, differed, unknown
