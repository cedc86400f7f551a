"""The files of the crates, each read once, for checks/lint: what a file imports, offers, defines and cites."""
import collections
import functools
import glob
import os
import re

from libraries import ROOT

os.chdir(ROOT)
IMPORT = re.compile(r"(?m)^\s*(pub )?(?:ghost )?use (Rattle\.[\w.'\-+]+?)(?:\.\{([^}]*)\}| as \w+)?;?[ \t]*$")
KEYWORDS = "pub|abbrev|unfoldable|opaque|record|data|infixl|infixr"
DEFINITION = re.compile(rf"(?:(?:{KEYWORDS}) +)*([^\s:(){{}}=\[\]]+(?:=[^\s:(){{}}=]+)?)")
OFFERED = re.compile(r"(?m)^\s*(?:(?:abbrev|opaque|unfoldable)\s+)*pub\s+(?:(?:record|data|abbrev|opaque)\s+)?([^\s:({]+)")
NO_NAMES = {"use", "open", "unfolding", "module", "mod", "where", "let", "in", None}


def paths(crate, kind, end):
    return sorted(glob.glob(f"crates/{crate}/{kind}/**/*.{end}", recursive=True))


def pairs(group):
    """The names of a group of imports, each as it is there and as it is here."""
    names = [name.strip().partition(" as ") for name in group.replace("\n", " ").split(",") if name.strip()]
    return [(of.strip(), here.strip() or of.strip()) for of, _, here in names]


def words_in(line):
    found = set(re.findall(r"[^\s(){}\[\],;\"]+", line))
    return found | {part for word in found for part in word.split(".")}


class File:
    """A file of sources, definitions or proofs. `imports` has a place, a module, its names by pairs and whether they are handed on;
    `words` has those of each definition or answer."""

    def __init__(self, path):
        with open(path, encoding="utf-8") as file:
            self.text = file.read()
        self.path, self.crate, self.kind = path, *path.split("/")[1:3]
        self.module = "Rattle." + path.removeprefix("crates/").removesuffix(".antt").replace("/", ".")
        self.is_answer = self.kind == "proofs" and path.count("/") > 3
        self.code = re.sub("//.*" if path.endswith(".rt") else "--.*", "", self.text)
        self.imports = [(use.start(2), use[2], pairs(use[3] or ""), bool(use[1])) for use in IMPORT.finditer(self.code)]

    def line_of(self, place):
        return self.code.count("\n", 0, place) + 1

    def comment(self, first=0, step=1, mark="--"):
        """The comment lines from one on, downwards or upwards, joined."""
        lines, found = self.text.split("\n"), []
        while 0 <= first < len(lines) and lines[first].strip().startswith(mark):
            found.append(lines[first].strip().lstrip("/-! "))
            first += step
        return " ".join(found[::step])

    @functools.cached_property
    def offered(self):
        """The names that others may import, those that it passes on among them."""
        names = set(OFFERED.findall(self.code)) | {here for _, _, group, handed_on in self.imports if handed_on for _, here in group}
        names |= set(re.findall(r"(?m)^\s*pub use [\w.]+ as (\w+)", self.code))
        for constructors in re.findall(r"pub data .*\n((?:[ \t]+.*\n?)+)", self.code):
            names |= set(re.findall(r"(?m)^\s*(?:\|\s*)?(?:pub\s+)?([^\s:({|]+)", constructors))
        return names

    @property
    def handed_on(self):
        """The names that it hands on, each as a module and a name, from where and as what."""
        return [((self.module, here), (module, of)) for _, module, group, on in self.imports if on for of, here in group]

    @functools.cached_property
    def words(self):
        found, name, in_module = collections.defaultdict(set), None, False
        for line in filter(str.strip, IMPORT.sub("", self.code).split("\n")):
            if line[0] not in " \t})]" or (in_module and re.match(r"  [^\s(){}\[\]]", line)):
                head = DEFINITION.match(line.strip())
                in_module = line.startswith("module ") or (in_module and line[0] == " ")
                name = head[1] if head and head[1] != "where" else name
            found[name] |= words_in(line)
        return found

    @functools.cached_property
    def defined(self):
        return set(self.words) - NO_NAMES

    def cites(self, files):
        """What it cites, each as a module and a name. What it hands on it cites where another file takes it from here: `handed_on`."""
        found = set()
        taken = {here: (module, of) for _, module, group, _ in self.imports for of, here in group}
        whole = {module for _, module, group, _ in self.imports if not group} & set(files)
        for name, words in self.words.items():
            found |= {(self.module, word) for word in words - {name} if word in self.words}
            found |= {taken[word] for word in words if word in taken and (word != name or word not in self.defined)}
            found |= {(module, word) for module in whole for word in words & files[module].defined}
        return found


@functools.cache
def file(path):
    """The file of this path; None where there is none."""
    return File(path) if os.path.isfile(path) else None


def source(crate, module):
    """The code of a module of a crate; None where it has no such module."""
    found = file(f"crates/{crate}/src/{module}.rt")
    return found and found.code
