"""Checks the tables of docs/FORMATS.md and README.md against the built program."""

import json
import os
import re
import resource
from pathlib import Path

from documents import limits
from documents.limits import MOST_BYTES, add, get, script
from documents.pages import codes_of
from documents.running import TOP

K = [{"key": "n", "kind": "gcounter"}]
# So many MiB of address space, from enough for the longest script to too few for it.
LIMITS_OF_MEMORY = [128, 96, 64, 48, 40, 32, 28, 24, 20, 16]
KINDS = ["gcounter", "pncounter", "gset", "flag", "lwwregister", "orset"]

# A value for each name of a step.
SAMPLES = {
    "at": 0, "to": 0, "from": 0, "id": 0, "place": 1, "index": 0, "view": 0, "key": "n", "op": 0,
    "level": "all", "clients": [[{"do": "flush", "at": 0}]], "by": 1, "element": "x", "text": "x",
    "now": 0, "client": 0,
}


def word_of(step):
    """The word that plays a step."""
    return "watch" if step.get("do") in ("subscribe", "unsubscribe") else "run"


def rule_of(program, step):
    """The rule that a step breaks, or 0."""
    status, said = program.report(script([step]), word_of(step))
    return int(said.split()[-1]) if status == 3 else 0


def has_names(program, needed, optional, step):
    """Whether a step is read with these names alone: all that are needed and any that it may have."""
    whole = {**step, **{name: SAMPLES[name] for name in [*needed, *optional] if name not in step}}
    without = [{k: v for k, v in whole.items() if k != name} for name in needed]
    fewer = [{k: v for k, v in whole.items() if k != name} for name in optional]
    return (
        rule_of(program, whole) == 0
        and all(rule_of(program, step) == 6 for step in without)
        and all(rule_of(program, step) == 0 for step in fewer)
        and rule_of(program, {**whole, "more": 0}) == 6
    )


def names_in(cell):
    """The names that a row of the table of steps has: those needed, and those that may be left out."""
    needed, _, optional = cell.partition(";")
    return codes_of(needed), codes_of(optional)


def steps_table(table, run):
    for line, (do, names, _) in table.rows:
        needed, optional = names_in(names)
        step = {"do": codes_of(do)[0]}
        if step["do"] == "update":
            # Its `op` is one of the next table, which looks at the operation's own names.
            step["op"] = "enable"
            needed = [name for name in needed if name != "op"]
        run.check(f"{table.page}:{line}", has_names(run.program, needed, optional, step), do)


def operations_of(table):
    """The operations of the table of operations, with the text that gives the names of each."""
    for line, (ops, names, _) in table.rows:
        for op in codes_of(ops):
            yield line, op, names


def number_of(text):
    """A number as the pages write it: in decimal, or as a power less one."""
    power = re.fullmatch(r"(\d+)\^(\d+) - 1", text)
    return int(power[1]) ** int(power[2]) - 1 if power else int(text)


def operations_table(table, run):
    for line, op, names in operations_of(table):
        step = {"do": "update", "at": 0, "key": "n", "op": op}
        own = [name for name in codes_of(names) if name in SAMPLES]
        right = has_names(run.program, own, ["level"], step)
        whole = {**step, **{name: SAMPLES[name] for name in own}}
        for name, low, high in re.findall(r"`(\w+)`, from (\d+) to `([^`]+)`", names):
            low, high = int(low), number_of(high)
            rules = [rule_of(run.program, {**whole, name: n}) for n in (low - 1, low, high, high + 1)]
            right = right and rules == [10, 0, 0, 10]
        for name in re.findall(r"`(\w+)`, a text", names):
            right = right and rule_of(run.program, {**whole, name: 7}) == 9
        run.check(f"{table.page}:{line}", right, op)


def members_needed(program, level, members=5):
    """How many members an update with this level needs in a cluster of so many, 0 if too many."""
    others = range(1, members)
    brought = [
        step
        for i in others
        for step in ({"do": "deliver", "from": 0, "to": i}, {"do": "deliver", "from": i, "to": 0})
    ]
    asked = add(1) if level is None else add(1, level=level)
    lines = program.report(script([asked, *brought], members=members))[1].split("\n")
    if lines[0].endswith(" done"):
        return 1
    if lines[0].endswith(" too few"):
        return 0
    return next(i + 1 for i in others if lines[2 * i].endswith(" finished 0 done"))


def levels_of(text, low, high):
    """The levels that a code of the table stands for, with a number below and one above its bounds."""
    letter = re.search(r":([a-z])\}", text)
    if not letter:
        return [json.loads(text)], []
    name = text[2 : text.index('"', 2)]
    return [{name: n} for n in (low, 2, 4, 5, high)], [{name: n} for n in (low - 1, high + 1)]


def wanted_members(level):
    """What the table of levels says of a level in a cluster of five."""
    if level in (None, "local"):
        return 1
    if level == "all":
        return 5
    if level == "majority":
        return 3
    [(name, number)] = level.items()
    if name == "to":
        return number if number <= 5 else 0
    return min(5, max(3, number))


def levels_table(table, run):
    for line, (forms, _) in table.rows:
        bounds = re.search(r"from (\d+) to (\d+)", forms)
        low, high = (int(bounds[1]), int(bounds[2])) if bounds else (0, 0)
        texts = [text for text in codes_of(forms) if text[0] in '"{']
        right = True
        for text in texts:
            good, bad = levels_of(text, low, high)
            right = right and all(members_needed(run.program, it) == wanted_members(it) for it in good)
            right = right and all(rule_of(run.program, get(level=it)) == 12 for it in bad)
        if "no `level`" in forms:
            right = right and members_needed(run.program, None) == 1
        run.check(f"{table.page}:{line}", right, forms)


def kinds_table(table, run):
    names = {
        "increment": {"by": 1}, "decrement": {"by": 1}, "add": {"element": "x"},
        "remove": {"element": "x"}, "enable": {}, "assign": {"text": "x", "now": 0}, "delete": {},
    }
    kinds = [codes_of(kind)[0] for _, (kind, *_) in table.rows]
    run.check(table.place, sorted(kinds) == sorted(KINDS), "the six kinds")
    for line, (kind, ops, _, example) in table.rows:
        kind, fits = codes_of(kind)[0], codes_of(ops)
        keys = [{"key": "n", "kind": kind}]
        right = True
        for op, own in names.items():
            step = {"do": "update", "at": 0, "key": "n", "op": op, **own}
            answer = "done" if op in [*fits, "delete"] else "wrong kind"
            right = right and limits.has_answer(run.program, script([step], keys=keys), 1, answer)
        example = json.loads((TOP / "examples" / codes_of(example)[0]).read_text())
        right = right and any(key["kind"] == kind for key in example["keys"])
        run.check(f"{table.page}:{line}", right, kind)


def broken_scripts(rule, cell):
    """The scripts of a row of what breaks each rule, and the step that each breaks it in."""
    if rule == 11:
        yield script([{**limits.update("add"), "element": "x" * 65}]), 1
    for text in codes_of(cell):
        if not text.startswith("{"):
            continue
        if rule <= 4:
            yield json.loads(text.replace('"keys":K', f'"keys":{json.dumps(K)}')), 0
        else:
            yield script([json.loads(text)]), 1


def broken_table(table, run):
    for line, (number, cell) in table.rows:
        rule = int(number)
        word = {14: "plain", 15: "watch", 16: "trace"}.get(rule, "run")
        for broken, step in broken_scripts(rule, cell):
            wanted = (3, f"not a script: step {step} rule {rule}\n")
            place = f"{table.page}:{line}"
            run.check(place, run.program.report(broken, word) == wanted, f"rule {rule}")


def rules_table(table, run):
    # The next table and examples/refused break each.
    run.check(table.place, [cells[0] for _, cells in table.rows] == [str(i) for i in range(1, 17)],
              "sixteen rules in order")


def lines_table(table, run):
    """The lines of the report of leaving.json."""
    text = (TOP / "examples" / "leaving.json").read_bytes()
    lines = run.program.run(["run"], text)[1].decode().split("\n")
    for line, (shown, _) in table.rows:
        for code in codes_of(shown):
            run.check(f"{table.page}:{line}", code in lines, code)


def limits_table(table, run):
    named = {cells[0] for _, cells in table.rows}
    run.check(table.place, named == set(limits.LIMITS), "the limits are those that are tried")
    for line, (what, _) in table.rows:
        tried = limits.LIMITS.get(what)
        if tried:
            run.check(f"{table.page}:{line}", tried(run.program), what)


def generated_table(table, run):
    for count in [*range(1, 42), 100, 4094]:
        run.check(table.place, limits.is_generated(run.program, count), f"gen {count}")
    beside = (TOP / "examples" / "words" / "gen_8.stdout").read_bytes()
    run.check(table.place, run.program.run(["gen", "8"])[1] == beside, "gen_8.stdout")


def words_table(table, run):
    given = (TOP / "examples" / "two_members.json").read_bytes()
    report = run.program.run(["run"], given)[1]
    for line, (words, _) in table.rows:
        place = f"{table.page}:{line}"
        words = codes_of(words)[0].replace("N", "8").replace("P", "8").split()
        if words[0] in ("run", "plain", "watch", "behind"):
            right = run.program.run(words, given)[:2] == (0, report)
        elif words == ["check"]:
            trace = TOP / "examples" / "words" / "check"
            right = run.program.run(words, trace.read_bytes())[:2] == (0, trace.with_suffix(".stdout").read_bytes())
        elif words == ["trace"]:
            played = TOP / "examples" / "words" / "trace.json"
            told = run.program.run(words, played.read_bytes())
            right = told[:2] == (0, Path(f"{played}.stdout").read_bytes()) and run.program.run(["check"], told[1])[0] == 0
        elif words == ["upgrade"]:
            entry = TOP / "examples" / "words" / "upgrade"
            upgraded = entry.with_suffix(".stdout").read_bytes()
            right = all(run.program.run(words, it)[:2] == (0, upgraded) for it in (entry.read_bytes(), upgraded))
        else:
            of = limits.is_generated if words[0] == "gen" else limits.is_summed
            right = of(run.program, int(words[1]))
        run.check(place, right, " ".join(words))


# What `S`, `R`, `P`, `L` and `Q` stand for in the texts of the statuses that are brought about.
STANDS_AT = {"S": "4", "R": "5", "P": "23", "L": "3", "Q": "4"}
# A stored entry of which a byte was changed.
CHANGED = TOP / "examples" / "words" / "upgrade_changed"
# A trace of which the third line breaks the fourth rule.
BROKEN = TOP / "examples" / "words" / "check_broken"


def read_fault(program):
    """A run whose standard input is a folder, which cannot be read."""
    folder = os.open("/", os.O_RDONLY)
    try:
        return program.run(["run"], stdin=folder)
    finally:
        os.close(folder)


def with_little_memory(program, text):
    """A run of the longest script, which is given less memory than its bytes take."""
    longest = text + b" " * (MOST_BYTES - len(text))
    if b"AddressSanitizer" in Path(program.path).read_bytes():
        options = "max_allocation_size_mb=4:allocator_may_return_null=1"
        return program.run(["run"], longest, env={**os.environ, "ASAN_OPTIONS": options})
    for limit in (size * 2**20 for size in LIMITS_OF_MEMORY):
        how = {"preexec_fn": lambda: resource.setrlimit(resource.RLIMIT_AS, (limit, limit))}
        found = program.run(["run"], longest, **how)
        if found[0] != 0:
            break
    return found


def status_of(program, status):
    """The status and the text of a run that has to end with this status, or None if none can be made."""
    text = json.dumps(script([])).encode()
    with open("/dev/full", "wb") as full:
        made = {
            7: lambda: with_little_memory(program, text),
            0: lambda: program.run(["gen", "1"]),
            1: lambda: program.run(["plain", "extra"]),
            2: lambda: program.run(["run"], b""),
            3: lambda: program.report(script([{"do": "round"}] * 3 + [{"do": "updat"}])),
            4: lambda: read_fault(program),
            5: lambda: program.run(["run"], text, stdout=full),
            6: lambda: program.run(["run"], text + b" " * MOST_BYTES),
            9: lambda: program.run(["upgrade"], CHANGED.read_bytes()),
            10: lambda: program.run(["check"], BROKEN.read_bytes().replace(b'"6"', b"6")),
            11: lambda: program.run(["check"], BROKEN.read_bytes()),
        }
        return made[status]() if status in made else None


def status_table(table, run):
    for line, cells in table.rows:
        place = f"{table.page}:{line}"
        wanted = [code for cell in cells[1:] for code in codes_of(cell)]
        for status in map(int, cells[0].split(",")):
            found = status_of(run.program, status)
            if found is None:
                run.skip(place, f"status {status}: the program's databases are always cleared")
                continue
            said = found[1] if isinstance(found[1], str) else found[1].decode()
            right = found[0] == status
            if len(cells) == 2 or status in (1, 2, 3, 6, 9, 10, 11):
                texts = [re.sub(r"\b[SRPLQ]\b", lambda it: STANDS_AT[it[0]], code) for code in wanted]
                right = right and (not texts or "," in cells[0] or said.rstrip("\n") in texts)
            run.check(place, right, f"status {status}")


def parts_tables(table, run):
    """The parts of a line are those that the grammar reads, which is tried on all reports."""
    named = {codes_of(cells[0])[0] for _, cells in table.rows if codes_of(cells[0])}
    run.check(table.place, named in PARTS, f"the parts of a line: {named}")


# The parts of a step's line, and of the final block.
PARTS = [
    {"N", "client C", "ASKED", "ANSWER", " sent", " finished OP RESULT", "RESULT", "ENDED", "MEMBER", "CLIENT", "KEY", "VALUE"},
    {"final view N", "member I place P view N", "known", "marks"},
]

# By their heads.
CHECKS = {
    ("line", "what it says"): lines_table,
    ("`do`", "other names", "who acts"): steps_table,
    ("`op`", "other names", "what it does"): operations_table,
    ("`level`", "members needed"): levels_table,
    ("`kind`", "operations", "its value", "example"): kinds_table,
    ("rule", "what must hold"): rules_table,
    ("rule", "what breaks it"): broken_table,
    ("what", "limit"): limits_table,
    ("remainder", "step"): generated_table,
    ("words", "what is done"): words_table,
    ("status", "when", "written"): status_table,
    ("status", "it means"): status_table,
    ("part", "what it is"): parts_tables,
    ("part", "form", "what it says"): parts_tables,
}
