"""Plays the scripts that a page shows in its blocks, and compares the reports behind them."""

import json
import re

from documents.grammar import Grammar
from documents.limits import script
from documents.pages import Table, parts_of
from documents.running import TOP

NAMES = {"members", "keys", "steps"}
# Of a page whose steps stand in place of the last ones of its script: of how many, and how the last of
# them is answered.
IN_PLACE_OF_THE_LAST = {"README.md": (4, "value 12")}


def value_of(text):
    """The value of a JSON text, or None."""
    try:
        return json.loads(text)
    except json.JSONDecodeError:
        return None


def has_run(lines, piece):
    """Whether the lines of a piece stand one after the other among these."""
    return any(lines[i : i + len(piece)] == piece for i in range(len(lines) - len(piece) + 1))


class Stories:
    """The scripts of one page: whole ones, and one that grows by the steps of later blocks."""

    def __init__(self, page, run):
        self.page, self.run = page, run
        self.script, self.report, self.is_whole, self.stage = None, "", False, 0
        self.in_place = dict(IN_PLACE_OF_THE_LAST)
        # All that blocks have shown, in which the pieces between words have to stand.
        self.shown = ""

    def block(self, block):
        """Tries a block that is no command."""
        self.shown += block.text + "\n"
        if block.language == "json":
            self.json(block)
        elif self.is_report(block.text):
            self.lines(block)
        elif "ASKED" in block.text:
            self.form(block)
        else:
            self.run.skip(block.place, "a block that is no script, no report and no command")

    @staticmethod
    def is_report(text):
        return text.startswith("final view") or text[:1].isdigit()

    def json(self, block):
        whole, head = value_of(block.text), value_of(block.text + "]}")
        steps = value_of(f"[{block.text}]")
        if isinstance(whole, dict) and set(whole) == NAMES:
            self.play(block, whole, is_whole=True)
            self.compare_with_examples(block, whole)
        elif isinstance(whole, dict) and set(whole) == {"json.schemas"}:
            self.run.check(block.place, self.is_setting(whole), "no setting as .vscode/settings.json has")
        elif isinstance(head, dict) and set(head) == NAMES:
            self.script = head
        elif isinstance(steps, list) and all("do" in step for step in steps):
            self.grow(block, steps)
        else:
            self.run.check(block.place, False, "no JSON of a script or of steps")

    def play(self, block, played, is_whole):
        status, self.report = self.run.program.report(played)
        self.script, self.is_whole = played, is_whole
        self.shown += self.report
        self.run.check(block.place, status == 0, f"the script is not played: {self.report}")

    def compare_with_examples(self, block, played):
        """A script that a page shows whole is one of the examples."""
        examples = [value_of(path.read_text()) for path in (TOP / "examples").glob("*.json")]
        self.run.check(block.place, played in examples, "the script is none of the examples")

    @staticmethod
    def is_setting(setting):
        """Whether a setting has the form of the one that this repository has for its own examples."""
        [shown], own = setting["json.schemas"], TOP / ".vscode" / "settings.json"
        [mine] = json.loads(own.read_text())["json.schemas"]
        name = shown["url"].rsplit("/", 1)[1]
        return set(shown) == set(mine) and (TOP / "docs" / name).is_file()

    def grow(self, block, steps):
        """Adds steps to the script that grows; of a page without one they are played by themselves."""
        if self.script is not None and self.page in self.in_place:
            count, answer = self.in_place.pop(self.page)
            steps = [*self.script["steps"][:-count], *steps]
            status, said = self.run.program.report({**self.script, "steps": steps})
            self.shown += said
            right = any(re.match(rf"{len(steps)} .* {answer}$", line) for line in said.split("\n"))
            self.run.check(block.place, status == 0 and right, f"no {answer}: {said}")
            return
        if self.script is None or self.is_whole:
            rounds = [{"do": "round"}] * 2
            status, said = self.run.program.report(script([*rounds, *steps], members=2))
            self.shown += said
            self.run.check(block.place, status == 0, f"the steps are not played: {said}")
            return
        self.stage += 1
        grown = {**self.script, "steps": [*self.script["steps"], *steps]}
        self.play(block, grown, is_whole=False)
        [path] = (TOP / "examples" / "tutorial").glob(f"{self.stage}_*.json")
        same = value_of(path.read_text()) == grown
        self.run.check(block.place, same, f"the script is not that of {path.name}")

    def form(self, block):
        """The form of a line: each of its parts is one of the table behind it."""
        parts = parts_of(self.page, (TOP / self.page).read_text())
        table = next(it for it in parts if isinstance(it, Table) and it.line > block.line)
        named = set(re.findall(r"[A-Z]+", " ".join(cells[0] for _, cells in table.rows)))
        used = set(re.findall(r"[A-Z]+", block.text)) - {"TO", "MESSAGE"}
        self.run.check(block.place, used <= named, f"no row for {used - named}")

    def lines(self, block):
        """A report behind a whole script has to be its report, and else to stand in the last one."""
        lines, piece = self.report.split("\n")[:-1], block.text.split("\n")
        if self.script is None:
            grammar = Grammar(parts_of(self.page, (TOP / self.page).read_text()))
            forms = [line for line in piece if line != ".."]
            right = all(grammar.is_line(line) for line in forms)
            self.run.check(block.place, right, "no table gives these lines")
        elif self.is_whole:
            self.run.check(block.place, lines == piece, f"the report is\n{self.report}")
        else:
            self.run.check(block.place, has_run(lines, piece), f"not in the report:\n{self.report}")
