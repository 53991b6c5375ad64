"""Looks at the pieces of code between the words of a page, and in the tables that no other check takes."""

import json
import re
import shutil
import subprocess

from documents.grammar import VALUE
from documents.hints import forms_of_steps, said_of
from documents.limits import has_answer, script
from documents.pages import Block, Table, codes_of
from documents.running import TOP

SUFFIXES = (".md", ".json", ".html", ".svg", ".antt", ".rt", ".stdout", ".txt")
# What stands for a name of the reader's own.
STANDS_FOR = re.compile(r"\b[A-Z_]*[A-Z]\b")
# Commands in the middle of a line.
INLINE = re.compile(r"(rt (try|run) .*|replicator (gen|sum) \d+|tools/try_schema .*)")
KNOWN = {"rt", "rt version", "rt try", "replicator", "run", "plain", "gen N", "sum N", "upgrade", "check", "lawful", "not json", "bad words"}


def schema_words(value):
    """The names and texts that the schema knows."""
    if isinstance(value, dict):
        for name, inner in value.items():
            yield name
            yield from schema_words(inner)
    elif isinstance(value, list):
        for inner in value:
            yield from schema_words(inner)
    elif isinstance(value, str):
        yield value


def code_words():
    """The names of crates, those of the kit that they use, and of the top call's clauses."""
    yield from re.findall(r"\w+", (TOP / "crates.txt").read_text())
    for path in (TOP / "crates" / "top_call" / "src").glob("*.rt"):
        yield from re.findall(r"ensures\*? (\w+)", path.read_text())
    for path in (TOP / "crates" / "base_outside" / "src").glob("*.rt"):
        yield from re.findall(r"pub struct (\w+)", path.read_text())
    # Debian's packages that the tools install.
    for name in ("try_schema", "try_viewer"):
        yield from re.findall(r'"(python3-\w+|chromium)"', (TOP / "tools" / name).read_text())


def page_words(parts):
    """What the tables of a page have in backticks."""
    for part in parts:
        if isinstance(part, Table):
            yield from (text for _, cells in part.rows for text in codes_of(" ".join(cells)))


def reports():
    """The reports of the examples, and the generated script, which is one of them."""
    paths = [*(TOP / "examples").glob("*.stdout"), *(TOP / "examples" / "words").glob("*.stdout")]
    return "\n".join(path.read_text(errors="replace") for path in sorted(paths))


def hints():
    """The lines for a person of the examples that are refused."""
    return "\n".join(path.read_text() for path in sorted((TOP / "examples" / "refused").rglob("*.hint")))


# A command, a word, the end of a file's name, and a character of key names.
MORE_KNOWN = {"rt ci", "behind", ".stdout", "_"}


class Words:
    """The pieces of one page."""

    def __init__(self, page, parts, run, copy):
        self.page, self.run, self.copy = page, run, copy
        self.reports = reports() + hints()
        self.blocks = "\n".join(part.text for part in parts if isinstance(part, Block))
        self.said = None
        schema = json.loads((TOP / "docs" / "script.schema.json").read_text())
        self.known = KNOWN | MORE_KNOWN | set(schema_words(schema)) | set(code_words()) | set(page_words(parts))

    def code(self, code, shown):
        """Tries a piece: a file, a command, a text that a block or a report has shown, or a known name."""
        text = code.text
        if self.is_path(text):
            self.run.check(code.place, self.is_there(text), f"there is no {text}")
        elif re.match(r"rattle-kit|[0-9a-f]{16}$", text):
            self.version(code)
        elif INLINE.fullmatch(text):
            self.command(code.place, text)
        elif re.fullmatch(r"\w+::\w+", text):
            self.run.check(code.place, self.is_function(text), f"there is no function {text}")
        elif re.match(r"not a script: step |played, but|an? |update, ", text):
            self.run.check(code.place, text in self.told(), f"no hint is {text}")
        elif text == "1e999":
            given = json.dumps(script([])).replace("1", "1e999", 1).encode()
            right = self.run.program.run(["run"], given)[:2] == (2, b"not json\n")
            self.run.check(code.place, right, f"{text} is read")
        elif text.startswith('[{"key"'):
            played = script([], keys=json.loads(text))
            self.run.check(code.place, self.run.program.report(played)[0] == 0, "no keys of a script")
        elif self.is_shown(text, shown + self.reports + self.blocks):
            self.run.count += 1
        elif text in self.known or self.is_value(text):
            self.run.count += 1
        elif not STANDS_FOR.search(text):
            self.run.skip(code.place, f"`{text}`")

    def told(self):
        """What the program says of the scripts that are made for hints, and the forms that it names."""
        if self.said is None:
            program = self.run.program
            self.said = {*said_of(program), *forms_of_steps(program)}
        return self.said

    def table(self, table, in_full):
        """Tries a table: its files and commands, and of examples the steps that are to be looked at."""
        for line, cells in table.rows:
            place = f"{self.page}:{line}"
            for text in codes_of(" ".join(cells)):
                if self.is_path(text):
                    self.run.check(place, self.is_there(text), f"there is no {text}")
                elif INLINE.fullmatch(text):
                    self.command(place, text)
            if table.head == ("script", "what it shows", "look at steps"):
                self.steps(place, codes_of(cells[0])[0], cells[2])
            elif table.head == ("script", "its slip", "the answer"):
                played = json.loads((TOP / "examples/slips" / codes_of(cells[0])[0]).read_text())
                right = has_answer(self.run.program, played, 3, codes_of(cells[2])[0])
                self.run.check(place, right, cells[2])
        if in_full:
            self.run.skip(table.place, f"the table {' | '.join(table.head)}, but for the files that it names")

    def steps(self, place, name, cell):
        """The steps of an example to look at are there, and say what the table says of them."""
        lines = (TOP / "examples" / f"{name}.stdout").read_text().split("\n")
        for number, _, said in re.findall(r"(\d+)(: `([^`]+)`)?", cell):
            right = any(line.startswith(f"{number} ") and said in line for line in lines)
            self.run.check(place, right, f"step {number} {said}")

    def command(self, place, text):
        """Runs a command that stands in the middle of a line or in a table."""
        if "NAME" in text or "FOLDER" in text:
            return
        if text.startswith("replicator "):
            text = f"crates/replicator/out/{text}"
        status, said, errors = self.copy.run(text)
        self.run.check(place, status == 0, f"{text} ends with {status}: {said[-200:]}{errors[-200:]}")

    def version(self, code):
        """The kit's line or its logic has to be that of the kit here, if there is one."""
        if not shutil.which("rt"):
            self.run.skip(code.place, "the kit's line: no rt here")
            return
        said = subprocess.run(["rt", "version"], capture_output=True, text=True).stdout
        self.run.check(code.place, code.text in said, f"the kit here is {said}")

    @staticmethod
    def is_path(text):
        plain = re.fullmatch(r"[\w./-]+", text) is not None and not re.search(r"[a-z]+/\d", text)
        named = not STANDS_FOR.search(text.replace("README", "").replace(".md", ""))
        docs = re.fullmatch(r"(\.\./)?(docs/)?[A-Z]+\.md", text) is not None
        ends = text.endswith((*SUFFIXES, "/")) and not text.startswith(".")
        starts = ("tools/", "crates/", "../", ".vscode")
        return plain and (docs or named and (ends or text.startswith(starts)))

    def is_there(self, text):
        """Whether a file or folder is there, from the page or from a folder that pages mean."""
        folders = [TOP, (TOP / self.page).parent, TOP / "docs", TOP / "crates"]
        folders += [TOP / "examples", TOP / "examples/tutorial", TOP / "examples/words"]
        for crate in (TOP / "crates").iterdir():
            folders += [crate / "specs", crate / "src"]
        return any((folder / text).exists() for folder in folders)

    @staticmethod
    def is_function(text):
        crate, name = text.split("::")
        sources = (TOP / "crates" / crate / "src").glob("*.rt")
        return any(re.search(rf"\bfn {name}\b", path.read_text()) for path in sources)

    @staticmethod
    def is_shown(text, shown):
        """Whether a text stands in what blocks showed, where ` .. ` stands for some of it."""
        pieces = [re.escape(piece) for piece in text.split(" .. ")]
        return re.search(".*".join(pieces), shown) is not None

    @staticmethod
    def is_value(text):
        return re.fullmatch(rf"{VALUE}|false|null|2\^\d+( - 1)?", text) is not None
