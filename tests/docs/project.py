"""What there is to name: the files of a project, and what is defined in them."""

import glob
import os
import re

PARTS_OF_A_CRATE = {"specs", "proofs", "src", "must-fail"}
MADE = re.compile(r"target(/|$)|crates/[^/]+/out(/|$)")  # by the build, and there or not

ANTT_TYPED = re.compile(r"\s*(?:(?:pub|abbrev|unfoldable|opaque|private)\s+)*([^\s(){}.,;:=λ]+)\s+:(?:\s|$)")
ANTT_DECLARED = re.compile(r"\s*(?:pub\s+)?(?:record|data|module|mod)\s+([^\s(){}:]+)")
ANTT_NO_NAMES = {"_", "let", "in", "where", "use", "record", "data", "module"}


def defined_in_antt(text):
    """Definitions, theorems, records, data, their fields and constructors, modules; not what is local to a proof."""
    local_below = None  # the indent of a `where` that stands alone: below it all is local
    for line in text.splitlines():
        code = line.split("--")[0].rstrip()
        if not code:
            continue
        indent = len(code) - len(code.lstrip())
        if local_below is not None and indent > local_below:
            continue
        local_below = indent if code.strip() == "where" else None
        found = ANTT_DECLARED.match(code) or ANTT_TYPED.match(code)
        if found and found.group(1) not in ANTT_NO_NAMES:
            yield found.group(1)


RT_ITEM = re.compile(r"\s*(?:pub\s+)?(?:extern\s+\"C\"\s+)?(?:fn|struct|enum|const|type|mod)\s+(\w+)")
RT_OWNER = re.compile(r"(?:pub\s+)?(impl|enum)(?:<[^{]*>)?\s+(\w+)(?:<[^{]*>)?\s*\{")
RT_VARIANT = re.compile(r"\s+([A-Z]\w*)\s*(?:\(.*\)|=.*)?,?$")


def defined_in_rt(text):
    """Items and variants, each with the impl or the enum that it belongs to, where it belongs to one."""
    owner, inside = None, None
    for line in text.splitlines():
        code = line.split("//")[0].rstrip()
        opens = RT_OWNER.match(code)
        found = RT_ITEM.match(code) or (RT_VARIANT.match(code) if inside == "enum" else None)
        if found:
            yield found.group(1), None if opens else owner
        if opens:
            inside, owner = opens.groups()
        elif code == "}":
            inside, owner = None, None


C_FORMS = (
    re.compile(r"^\s*#\s*define\s+(\w+)", re.M),
    re.compile(r"\b(?:struct|class|enum|namespace)\s+(\w+)"),
    re.compile(r"\busing\s+(\w+)\s*="),
    re.compile(r"^\s*(?:(?!return\b|else\b|throw\b|case\b)[\w:<>,&*\[\]]+[\s&*]+)+(\w+)\(", re.M),  # a function
    re.compile(r"^\s*(\w+)(?:\s*=\s*\w+)?,?\s*$", re.M),  # an enumerator on a line of its own
)


def defined_in_c(text):
    code = re.sub(r"//[^\n]*|/\*[\s\S]*?\*/", "", text)
    for form in C_FORMS:
        yield from form.findall(code)


class Project:
    def __init__(self, root):
        self.root = root
        self.files = sorted(self._walk())
        self.crates = {path.split("/")[1] for path in self.files if re.match(r"crates/[^/]+/", path)}
        self.defined = {}  # name: the files that define it
        self.qualified = set()  # names in code behind crate, module and owner, as tuples
        self.runs = set()  # what stands before a ':' in a program's stored output
        for path in self.files:
            self._read(path)

    def _walk(self):
        for folder, folders, files in os.walk(self.root):
            inside = os.path.relpath(folder, self.root)
            folders[:] = [name for name in folders if name != ".git" and not self.is_made(os.path.join(inside, name))]
            yield from (os.path.normpath(os.path.join(inside, name)) for name in files)

    def is_made(self, path):
        return MADE.match(os.path.normpath(path)) is not None

    def text(self, path):
        with open(os.path.join(self.root, path), encoding="utf-8", errors="replace") as file:
            return file.read()

    def _define(self, name, path):
        self.defined.setdefault(name, set()).add(path)

    def _read(self, path):
        parts = path.split("/")
        stem, suffix = os.path.splitext(parts[-1])
        in_crate = parts[0] == "crates" and len(parts) > 2
        if in_crate and suffix == ".antt":
            for name in defined_in_antt(self.text(path)):
                self._define(name, path)
        elif in_crate and suffix == ".rt":
            module = () if stem in ("lib", "main") else (stem,)
            for name, owner in defined_in_rt(self.text(path)):
                self._define(name, path)
                self.qualified.add((parts[1], *module, *([owner] if owner else []), name))
        elif suffix in (".h", ".hpp", ".cpp", ".c"):
            for name in defined_in_c(self.text(path)):
                self._define(name, path)
        elif in_crate and parts[-1] == "stdout":
            self.runs.update(line.split(":")[0] for line in self.text(path).splitlines() if ":" in line)
        elif suffix == ".edit" or parts[0] in ("tests", "tools") and not path.startswith("tests/docs/"):
            self._define(stem, path)  # an edit, a test or a tool goes by the name of its file

    def is_defined(self, name):
        if name.startswith("Rattle."):
            return self._is_in_a_module(name.split(".")[1:])
        parts = tuple(name.split("::"))
        if len(parts) > 1:
            return any(known[-len(parts) :] == parts for known in self.qualified)
        return name in self.defined or name in self.crates

    def _is_in_a_module(self, parts):
        """Whether there is such a module, as Rattle.CRATE.specs.MODULE, or in one such a definition."""
        module, outer = ("crates/" + "/".join(names) + ".antt" for names in (parts, parts[:-1]))
        return module in self.files or outer in self.defined.get(parts[-1], ())

    def is_defined_in(self, name, path):
        """In that file, or in a file of that folder."""
        files = self.defined.get(name.split("::")[-1], set())
        return path == f"crates/{name}" or any(file == path or file.startswith(path + "/") for file in files)

    def matching(self, path):
        """The files and folders that a path stands for, from the root or from the folder of a crate. A part in
        capitals stands for any name, as in proofs/FUNCTION/Answers.antt."""
        parts = ["*" if re.fullmatch(r"[A-Z]{2,}", part) else part for part in path.rstrip("/").split("/")]
        tried = [parts] + ([["crates", "*", *parts]] if parts[0] in PARTS_OF_A_CRATE else [])
        found = [name for pattern in tried for name in glob.glob(os.path.join(self.root, *pattern))]
        return [path for path in (os.path.relpath(name, self.root) for name in found) if not self.is_made(path)]

    def called(self, name):
        return [path for path in self.files if path.split("/")[-1] == name]

    def is_folder(self, path):
        return os.path.isdir(os.path.join(self.root, path))

    def exists(self, path):
        return os.path.exists(os.path.join(self.root, path))
