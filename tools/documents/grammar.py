"""The form of a report, as the tables of docs/FORMATS.md give it, and which of their rows a report shows."""

import re

from documents.pages import Table, codes_of

NUMBER = r"\d+"
KEY = r"[a-z0-9_-]+"
VALUE = r'(?:-?\d+|\{(?:"(?:[^"\\]|\\.)*",?)*\}|true|"(?:[^"\\]|\\.)*")'

# The heads of the tables that are read here.
ASKED = ("asked", "text")
MESSAGE = ("message", "what it brings")
ANSWER = ("answer", "when")
ANSWER_TO = ("answer", "to", "when")
OUTCOME = ("outcome", "what became of the identity")
ENDED = ("`ENDED`", "when")
MARK = ("mark", "what it says")
HEADS = {ASKED, MESSAGE, ANSWER, ANSWER_TO, OUTCOME, ENDED, MARK}


def form_of(text):
    """The form of a text of the tables: its numbers and capital letters stand for others."""
    if text == "damaged K":
        return "damaged " + KEY
    form = ""
    for piece in re.split(r"(\d+|\b[A-Z]\b|(?<= )n\b)", text):
        if piece == "n":
            form += KEY
        elif piece == "V":
            form += VALUE
        elif re.fullmatch(r"\d+|[A-Z]", piece):
            form += NUMBER
        else:
            form += re.escape(piece)
    return form


class Row:
    """A row of a table, with the forms of its texts, and whether a report has shown it."""

    def __init__(self, place, text, form):
        self.place, self.text, self.form, self.seen = place, text, form, False


class Grammar:
    """The forms of lines by the tables."""

    def __init__(self, parts):
        tables = [part for part in parts if isinstance(part, Table) and part.head in HEADS]
        self.rows = {head: [] for head in HEADS}
        for table in tables:
            for line, cells in table.rows:
                column = 1 if table.head == ASKED else 0
                texts = codes_of(cells[column])
                if table.head in (ANSWER, ANSWER_TO):
                    texts = texts[:1]
                for text in texts:
                    row = Row(f"{table.page}:{line}", text, form_of(text))
                    self.rows[table.head].append(row)
        self.asked = [row for row in self.rows[ASKED] if not row.text.startswith("deliver")]
        self.deliver = [row for row in self.rows[ASKED] if row.text.startswith("deliver")]
        self.answers = [row for head in (ANSWER, ANSWER_TO) for row in self.rows[head]]

    def match(self, rows, text):
        """The rows of which a text is, all of which have now been seen."""
        found = [row for row in rows if re.fullmatch(row.form, text)]
        for row in found:
            row.seen = True
        return found

    def unseen(self):
        """The rows that no report has shown so far."""
        rows = [row for head in HEADS for row in self.rows[head]]
        shown = {row.text for row in rows if row.seen}
        return [row for row in rows if not row.seen and row.text not in shown]

    def is_line(self, line):
        """Whether a line of a report is by the tables."""
        return self.is_of_final_block(line) or self.is_of_a_step(line) or self.is_a_notice(line)

    def is_a_notice(self, line):
        """Whether a line tells a client of a key that it follows."""
        return re.fullmatch(rf"\d+ notice \d+ \d+ {KEY} (deleted|{VALUE})", line) is not None

    def is_of_a_step(self, line):
        """Whether a line tells of a step, or of a client's command."""
        found = re.fullmatch(r"\d+( client \d+)? (.*)", line)
        asked = found and self.asked_of(found[2])
        if not asked:
            return False
        return self.is_answered(found[2][len(asked) :].lstrip(" "), found[1] is not None)

    def asked_of(self, text):
        """What a line begins with, if it was asked for."""
        if text.startswith("deliver "):
            found = re.match(r"deliver \d+>\d+ \d+", text)
            if not found:
                return None
            self.deliver[0].seen = True
            message = re.match(r" (\S+)", text[found.end() :])
            if message and self.match(self.rows[MESSAGE], message[1]):
                return text[: found.end() + message.end()]
            return text[: found.end()]
        best = None
        for row in self.asked:
            found = re.match(row.form + r"(?= |$)", text)
            if found and (best is None or found.end() > best[0]):
                best = found.end(), row
        if best is None:
            return None
        best[1].seen = True
        return text[: best[0]]

    def is_answered(self, text, by_client):
        """Whether a text is an answer, with what was sent and what ended behind it."""
        ends = r"( finished \d+ .*| open \d+)?" if by_client else r"( finished \d+ .*)?"
        found = re.fullmatch(rf"(value {VALUE}|.*?)( sent(?: \d+:\S+)+)?" + ends, text)
        if not found:
            return False
        for sent in (found[2] or "").split()[1:]:
            if not self.match(self.rows[MESSAGE], sent.split(":", 1)[1]):
                return False
        if found[3] and not self.is_end(found[3]):
            return False
        return self.is_answer(found[1])

    def is_end(self, text):
        """Whether a text tells how an operation ended."""
        if self.match(self.rows[ENDED], text):
            return True
        return re.fullmatch(rf" finished \d+ (done|deleted|not found|value {VALUE})", text) is not None

    def is_answer(self, text):
        """Whether a text is an answer, with outcomes behind that of a tick."""
        head, outcomes = text, []
        found = re.fullmatch(rf"(done|store failed)((?: {KEY}/\d+:\S+)+)", text)
        if found:
            head, outcomes = found[1], found[2].split()
        for outcome in outcomes:
            if not self.match(self.rows[OUTCOME], outcome.rsplit(":", 1)[1]):
                return False
        return bool(self.match(self.answers, head))

    def is_of_final_block(self, line):
        """Whether a line is one of the final block."""
        if re.fullmatch(r"final view \d+|member \d+ place \d+ view \d+", line):
            return True
        found = re.fullmatch(rf"{KEY} ({VALUE}|deleted|-) known (-|\d+:\d+(?: \d+:\d+)*) marks (.*)", line)
        if not found:
            return False
        if found[3] == "-":
            return True
        marks = found[3].split(" ")
        forms = [r"\d+>\d+/\d+:\d+(\.\d+)*", r"\d+>\d+@\d+"]
        for mark in marks:
            if not any(re.fullmatch(form, mark) for form in forms):
                return False
            for row in self.rows[MARK]:
                row.seen = row.seen or ("@" in mark) == ("@" in row.text)
        return True
