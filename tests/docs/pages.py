"""Holds the pages, those at the root and those of docs/ but docs/PORT.md and docs/DESIGN-PASS.md, against the project. What is refused, with
file and line:

1. A path that is not there: in backticks whatever has a '/' or the suffix of a file; elsewhere whatever begins with a
   folder of the project, ends in such a suffix or has two '/'. It may be a folder or a pattern, as crates/*/specs, and
   may start in the folder of a crate, as specs/Lib.antt. A file's name alone stands for one in the folder of the path
   before it, beside the page or at the root. What is under target/ or in the out/ of a crate is made by the build and
   not looked at.
2. A name in backticks that is defined nowhere: no definition, theorem, record, field, constructor or module of an
   .antt file; no fn, struct, enum, variant, const, type or module of an .rt file, which may stand behind its crate,
   module or owner, as session::open; no module of a crate and no definition in one, as Rattle.kinds.specs.Laws; no name
   of a C or C++ file; no crate, edit, test or tool; and none of the words that tests/docs/words.txt allows. What has a
   blank in it is code and no name.
3. A name that is defined elsewhere than a page says, by `name` (PATH) or `name` in PATH. Several names may stand there,
   and several paths, with commas and linking words between them.
4. In a table: under the heading "folder" one that is not there; under "crate" no crate; under "run" a name in quotes
   that no line of a program's stored output begins with; under a heading that ends with "in FOLDER" the name of no file
   of that folder; under one that ends with "printed for NAME.hex" anything but the lines of NAME.out, all and in order.
5. An edit that must fail and that docs/PROMISES.md names neither itself nor by its folder; a file of specs/ that it
   does not name. A specs/Lib.antt that only lists the others needs no naming.
6. A word of tests/docs/words.txt that has no reason, or that no page says.
"""

import os
import re
import sys

from project import Project

WORDS = "tests/docs/words.txt"
PROMISES = "docs/PROMISES.md"
OLD_NAMES = {"docs/PORT.md", "docs/DESIGN-PASS.md"}  # these tell names that are gone, beside those that stand for them
SUFFIXES = {"antt", "rt", "edit", "md", "h", "hpp", "cpp", "py", "txt", "hex"}
BETWEEN_NAMES = {",", "and", "or", "with", "to", "over", "constructor", "field"}
BETWEEN_PATHS = {",", "and", "or"}

CODE_SPAN = re.compile(r"(?<!`)(`+)(?!`)(.+?)(?<!`)\1(?!`)", re.S)
FENCED = re.compile(r"^ *```.*?^ *```", re.S | re.M)
LINK = re.compile(r"\[([^\]]*)\]\(([^)\s]+)\)")
LIST_ITEM = re.compile(r"\s*(?:[-*]|\d+\.)\s")
ARGUMENTS = re.compile(r"(?<=[\w'])\(.*\)$")  # rig_house(table)


def has_suffix(path):
    stem, _, suffix = path.rpartition(".")
    return suffix in SUFFIXES and stem != ""


# ----------------------------------------------------------------------------------------------------- parts of a page


class Token:
    """A word, a sign or a span of code, with its offset in the page."""

    def __init__(self, text, at, is_code=False, opened=False):
        self.text = text
        self.at = at
        self.is_code = is_code
        self.opened = opened  # a bracket stands right before it
        self.paths = []  # the files and folders that it names, once looked up


def units(text):
    """Paragraphs, list items, headings and table cells: (start, end, heading of the column)."""
    at, start, headings = 0, None, None
    for line in text.splitlines(keepends=True):
        here, at = at, at + len(line)
        is_row = line.startswith("|")
        if start is not None and (not line.strip() or is_row or line.startswith("#") or LIST_ITEM.match(line)):
            yield start, here, None
            start = None
        if not is_row:
            headings = None
            if line.strip() and start is None:
                start = here
            continue
        cells = list(cells_of(line, here))
        headings = headings or [text[begin:end].strip() for begin, end in cells]
        for (begin, end), heading in zip(cells, headings):
            yield begin, end, heading
    if start is not None:
        yield start, at, None


def cells_of(row, at):
    """Where the cells of a row start and end; a '|' inside code parts none."""
    masked = CODE_SPAN.sub(lambda span: "`" * len(span.group()), row)
    bars = [i for i, char in enumerate(masked) if char == "|"]
    for left, right in zip(bars, bars[1:]):
        yield at + left + 1, at + right


def tokens_of(text, start, end):
    tokens, at = [], start
    for span in [*CODE_SPAN.finditer(text, start, end), None]:
        for word in re.finditer(r"\S+", text[at : span.start() if span else end]):
            tokens += tokens_of_word(word.group(), at + word.start())
        if span:
            opened = text[max(span.start() - 1, 0)] == "("
            tokens.append(Token(" ".join(span.group(2).split()), span.start(2), True, opened))
            at = span.end()
    return tokens


def tokens_of_word(word, at):
    """The word without the signs around it, and the signs behind it."""
    bare = word.strip("()[]{}\"'*.,;:!?“”…")
    if not bare:
        return [Token(word, at)]
    begins = word.index(bare)
    if word[:begins].endswith("."):
        begins -= 1  # .ci/run
    ends = word.index(bare) + len(bare)
    tokens = [Token(word[begins:ends], at + begins, opened="(" in word[:begins])]
    return tokens + ([Token(word[ends:], at + ends)] if ends < len(word) else [])


# ------------------------------------------------------------------------------------------------------------ one page


class Page:
    def __init__(self, project, path, allowed):
        self.project = project
        self.path = path
        self.allowed = allowed
        self.text = project.text(path)
        self.complaints = []  # of line and text
        self.named = set()  # files and folders
        self.said = set()  # names
        self.printed = {}  # a file of stored output: the cells that show it, each with its offset
        for link in LINK.finditer(self.text):
            self._check_link(link)
        # What a link shows is read as text; where it leads was looked at. A fenced piece of code has no names in
        # backticks. Every offset stays what it is.
        plain = LINK.sub(lambda link: f" {link.group(1)}".ljust(len(link.group())), self.text)
        plain = FENCED.sub(lambda code: code.group().replace("`", " "), plain)
        for start, end, heading in units(plain):
            self._check_heading(start, plain[start:end].strip(), heading)
            self._check_tokens(tokens_of(plain, start, end))
        for stored, cells in self.printed.items():
            self._check_printed(stored, cells)

    def _complain(self, at, message):
        line = self.text.count("\n", 0, at) + 1
        self.complaints.append((line, f"{self.path}:{line}: {message}"))

    def _check_link(self, link):
        target = link.group(2).split("#")[0]
        there = os.path.normpath(os.path.join(os.path.dirname(self.path), target))
        if target and "://" not in target and not self.project.exists(there):
            self._complain(link.start(), f"there is no {there}")

    def _check_heading(self, at, cell, heading):
        if heading is None or cell == heading or not cell.strip("-: "):
            return
        items = [item.strip() for item in cell.split(",")]
        folder = re.search(r"\bin (\S+/\S+)$", heading)
        run = re.search(r"\bprinted for (\S+)\.hex$", heading)
        if heading == "folder":
            for item in items:
                if not any(self.project.is_folder(path) for path in self.project.matching(item)):
                    self._complain(at, f"there is no folder {item}")
        elif heading == "crate":
            for item in items:
                if item not in self.project.crates:
                    self._complain(at, f"no crate is called {item}")
        elif heading == "run":
            for item in re.findall(r'"([^"]*)"', cell):
                if item not in self.project.runs:
                    self._complain(at, f'no stored run is called "{item}"')
        elif folder:
            for item in items:
                if not self.project.matching(f"{folder.group(1)}/{item.strip('`')}.*"):
                    self._complain(at, f"no file of {folder.group(1)} is called {item}")
        elif run:
            self.printed.setdefault(f"{run.group(1)}.out", []).append((at, cell.strip("`")))

    def _check_printed(self, stored, cells):
        lines = self.project.text(stored).splitlines() if self.project.exists(stored) else []
        for number, (at, cell) in enumerate(cells, 1):
            if lines[number - 1 : number] != [cell]:
                self._complain(at, f"`{cell}` is not line {number} of {stored}")
        if len(lines) > len(cells):
            self._complain(cells[-1][0], f"{stored} goes on with `{lines[len(cells)]}`")

    def _check_tokens(self, tokens):
        folder = None  # that of the last path
        for token in tokens:
            if token.is_code:
                self._check_code(token, folder)
            elif self._is_path(token.text):
                self._look_up(token, token.text, folder)
            if len(token.paths) == 1:
                path = token.paths[0]
                folder = path if self.project.is_folder(path) else os.path.dirname(path)
        for i, token in enumerate(tokens):
            if token.paths:
                self._check_place(tokens, i)

    def _is_path(self, word):
        if "://" in word:
            return False
        first = word.split("/")[0]
        return has_suffix(word) or word.count("/") > 1 or ("/" in word and first and self.project.is_folder(first))

    def _check_code(self, token, folder):
        text = ARGUMENTS.sub("", token.text)
        if not re.search(r"[^\W\d_]", text):
            return
        if " " in text:
            for word in filter(self._is_path, text.split()):
                self._look_up(Token(word, token.at), word, folder)
        elif "/" in text or has_suffix(text):
            self._look_up(token, text, folder)
        else:
            self.said.add(text)
            if text not in self.allowed and not self.project.is_defined(text):
                self._complain(token.at, f"`{text}` is defined nowhere")

    def _look_up(self, token, path, folder):
        if self.project.is_made(path):
            return
        if "/" in path:
            token.paths = self.project.matching(path)
        else:
            places = [folder or ".", os.path.dirname(self.path), "."]
            tried = [os.path.normpath(os.path.join(place, path)) for place in places]
            token.paths = [each for each in tried if each in self.project.files][:1]
            if folder is None and not token.paths:
                token.paths = self.project.called(path)
        if not token.paths:
            self._complain(token.at, f"there is no {path}" + (f" in {folder}" if folder and "/" not in path else ""))
        elif "*" not in path:
            self.named.update(token.paths)

    def _check_place(self, tokens, i):
        """Whether the names before the path at i, if that tells where they are, are defined there."""
        before = tokens[:i]
        if tokens[i].is_code and tokens[i].opened:
            before.pop()  # the bracket
        if before and before[-1].text == "in":
            before.pop()
            if before and before[-1].text == "all" and before[-1].opened:
                before.pop()
        elif not tokens[i].opened:
            return
        paths = []
        for token in tokens[i:]:
            if not token.paths and token.text not in BETWEEN_PATHS:
                break
            paths += token.paths
        if any(path.endswith(".md") for path in paths):
            return
        for token in reversed(before):
            name = ARGUMENTS.sub("", token.text)
            if not token.is_code and name not in BETWEEN_NAMES or token.is_code and (" " in name or token.paths):
                return
            if token.is_code and not any(self.project.is_defined_in(name, path) for path in paths):
                self._complain(token.at, f"`{name}` is not defined in {' or '.join(paths)}")


# ----------------------------------------------------------------------------------------------------------- all pages


def read_words(project, complaints):
    """The words allowed, with the lines that they stand on."""
    allowed = {}
    for number, line in enumerate(project.text(WORDS).splitlines(), 1):
        if not line.strip() or line.startswith("#"):
            continue
        word, _, reason = line.partition(" ")
        allowed[word] = number
        if not reason.strip():
            complaints.append(f"{WORDS}:{number}: `{word}` has no reason")
    return allowed


def only_lists_others(text):
    return all(re.fullmatch(r"\s*(?:--.*|(?:pub )?mod \S+)?", line) for line in text.splitlines())


def not_named(project, named):
    """What docs/PROMISES.md has to name and does not."""
    for path in project.files:
        if re.fullmatch(r"crates/[^/]+/must-fail/.*\.edit", path):
            if path not in named and os.path.dirname(path) not in named:
                yield f"{PROMISES}: it names neither {path} nor its folder"
        elif re.fullmatch(r"crates/[^/]+/specs/.*\.antt", path) and path not in named:
            if not path.endswith("/Lib.antt") or not only_lists_others(project.text(path)):
                yield f"{PROMISES}: it does not name {path}"


def check(root):
    """The pages of a project, and the complaints about them."""
    project = Project(root)
    complaints, said, named = [], set(), set()
    allowed = read_words(project, complaints)
    paths = [path for path in project.files if re.fullmatch(r"[^/]*\.md|docs/.*\.md", path) and path not in OLD_NAMES]
    for path in paths:
        page = Page(project, path, allowed)
        complaints += [text for line, text in sorted(page.complaints)]
        said |= page.said
        named |= page.named if path == PROMISES else set()
    complaints += not_named(project, named)
    complaints += [f"{WORDS}:{line}: no page says `{word}`" for word, line in allowed.items() if word not in said]
    return paths, complaints


def main():
    paths, complaints = check(".")
    if PROMISES not in paths:
        complaints.append(f"there is no {PROMISES}")
    for complaint in complaints:
        print(complaint)
    if not complaints:
        print(f"docs: all that {len(paths)} pages name is there")
    return 1 if complaints else 0


if __name__ == "__main__":
    sys.exit(main())
