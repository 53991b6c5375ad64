"""What the program says, on both outputs, of scripts that are refused or have a slip."""

import json
import re

from documents.limits import get, script

ROUND = {"do": "round"}
FLUSH = {"do": "flush", "at": 0}


def by_a_client(*commands):
    return {"do": "threads", "clients": [list(commands)]}


# Scripts whose lines the pages show.
TOLD = [
    script([ROUND, ROUND, ROUND, {"do": "fly"}]),
    script([ROUND, ROUND, ROUND, {**FLUSH, "note": ""}]),
    script([ROUND, ROUND, by_a_client(*[FLUSH] * 16, {**FLUSH, "tmes": 2})]),
    script([ROUND, ROUND, get(key="nn")]),
]

# A step of each form, but for updates, whose form names the operation.
STEPS = [
    get(),
    FLUSH,
    {"do": "gossip", "at": 0, "to": 0},
    {"do": "deliver", "from": 0, "to": 0},
    {"do": "lose", "from": 0, "to": 0},
    ROUND,
    {"do": "tick", "at": 0},
    {"do": "timeout", "at": 0, "op": 0},
    {"do": "remove", "id": 0},
    {"do": "join", "place": 0},
    {"do": "restart", "id": 0},
    {"do": "install", "at": 0, "view": 0},
    {"do": "settle"},
    by_a_client(FLUSH),
    {"do": "update", "at": 0, "key": "n", "op": "increment", "by": 1},
]


def lines_of(program, played):
    """The lines on both outputs."""
    _, said, told = program.run(["run"], json.dumps(played).encode())
    return said.decode().split("\n") + told.decode().split("\n")


def said_of(program):
    """What is said of the scripts above, and which words a step and a command may begin with."""
    for played in TOLD:
        yield from lines_of(program, played)
    for step in ({"do": "fly"}, by_a_client({"do": "fly"})):
        for line in lines_of(program, script([step])):
            yield from re.findall(r"\"do\" is \"fly\", not (.*) \(rule", line)


def forms_of_steps(program):
    """How the program calls a step of each form, where it has a name that is none of its own."""
    for step in STEPS:
        for line in lines_of(program, script([{**step, "more": 0}])):
            yield from re.findall(r"is no name of (.*) \(rule", line)
