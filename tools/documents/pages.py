"""Reads pages: their blocks of code, their tables, and the pieces of code between words."""

import re
from dataclasses import dataclass, field


@dataclass
class Block:
    """A block of code, fenced or indented by four columns."""

    page: str
    line: int
    language: str
    text: str

    @property
    def place(self):
        return f"{self.page}:{self.line}"


@dataclass
class Table:
    """A table: the cells of its head, and those of each row behind the row's line."""

    page: str
    line: int
    head: tuple
    rows: list = field(default_factory=list)

    @property
    def place(self):
        return f"{self.page}:{self.line}"


@dataclass
class Code:
    """A piece of code between words, outside of blocks and tables."""

    page: str
    line: int
    text: str

    @property
    def place(self):
        return f"{self.page}:{self.line}"


def cells_of(line):
    """The cells of a table's line. A stroke behind a backslash or within code ends none."""
    cells, cell, in_code, before = [], "", False, ""
    for letter in line.strip()[1:-1]:
        if letter == "`":
            in_code = not in_code
        if letter == "|" and before != "\\" and not in_code:
            cells.append(cell.strip())
            cell = ""
        else:
            cell += letter
        before = letter
    return tuple([*cells, cell.strip()])


def codes_of(text):
    """What stands in backticks in a text."""
    return [code.replace("\\|", "|") for code in re.findall(r"`([^`]+)`", text)]


def codes_in_prose(page, prose):
    """What stands in backticks in lines of prose, of which one piece may go over two lines."""
    text = "\n".join(line for _, line in prose)
    for found in re.finditer(r"`([^`]+)`", text):
        index = text.count("\n", 0, found.start())
        yield Code(page, prose[index][0], found[1].replace("\n", " "))


def parts_of(page, text):
    """The parts of a page in their order: blocks, tables, and codes in the prose between them."""
    parts, prose, lines = [], [], text.split("\n")
    number = 0

    def end_prose():
        parts.extend(codes_in_prose(page, prose))
        prose.clear()

    while number < len(lines):
        line, start = lines[number], number + 1
        if line.startswith("```"):
            end = next(i for i in range(start, len(lines)) if lines[i].startswith("```"))
            end_prose()
            parts.append(Block(page, start + 1, line[3:].strip(), "\n".join(lines[start:end])))
            number = end + 1
        elif line.startswith("    ") and not prose_goes_on(lines, number):
            end = start
            while end < len(lines) and lines[end].startswith("    "):
                end += 1
            end_prose()
            parts.append(Block(page, start, "", "\n".join(it[4:] for it in lines[number:end])))
            number = end
        elif line.startswith("|"):
            end = start
            while end < len(lines) and lines[end].startswith("|"):
                end += 1
            end_prose()
            rows = [(i + 1, cells_of(lines[i])) for i in range(number + 2, end)]
            parts.append(Table(page, start, cells_of(line), rows))
            number = end
        else:
            prose.append((start, line))
            number += 1
    end_prose()
    return parts


def prose_goes_on(lines, number):
    """Whether an indented line goes on with the line before it."""
    return number > 0 and lines[number - 1].strip() != ""
