"""Scripts that are made for the check: at the limits, and one for each answer that no example has."""

import json

from documents.generated import generated

KEYS = {kind: {"key": kind[:3], "kind": kind} for kind in ("gcounter", "gset", "lwwregister")}
SHARE = 2**63 - 1
MOST_BYTES = 8_388_608


def script(steps, members=1, keys=None):
    """A script over these keys, or one counter `n`."""
    keys = keys or [{"key": "n", "kind": "gcounter"}]
    return {"members": members, "keys": keys, "steps": steps}


def update(op, at=0, key="n", **names):
    return {"do": "update", "at": at, "key": key, "op": op, **names}


def get(at=0, key="n", **names):
    return {"do": "get", "at": at, "key": key, **names}


def add(by=1, at=0, **names):
    return update("increment", at=at, by=by, **names)


def flushes(commands, clients=8):
    """A step in which each client makes so many flushes at member 0."""
    each = [{"do": "flush", "at": 0, "times": commands}]
    return {"do": "threads", "clients": [each] * clients}


def made(count):
    """Steps by which member 0 has made so many of its own: flushes of one client at a time."""
    rest = [flushes(count % 1024, clients=1)] if count % 1024 else []
    return [flushes(1024, clients=1)] * (count // 1024) + rest


def is_played(program, played):
    return program.report(played)[0] == 0


def has_answer(program, played, step, answer):
    """Whether the last line of a step has this answer."""
    lines = [line for line in program.report(played)[1].split("\n") if line.startswith(f"{step} ")]
    return bool(lines) and lines[-1].endswith(f" {answer}")


def only_first(program, low, high):
    """Whether the first script is played and the second is refused."""
    return is_played(program, low) and program.report(high)[0] == 3


def of_members(program):
    return only_first(program, script([], members=8), script([], members=9))


def of_keys(program):
    keys = [{"key": f"k{i}", "kind": "flag"} for i in range(17)]
    return only_first(program, script([], keys=keys[:16]), script([], keys=keys))


def of_steps(program):
    rounds = [{"do": "round"}] * 4097
    return only_first(program, script(rounds[:4096]), script(rounds))


def of_bytes(program):
    text = json.dumps(script([])).encode()
    full = text + b" " * (MOST_BYTES - len(text))
    return (
        program.run(["run"], full)[0] == 0 and program.run(["run"], full + b" ")[:2] == (6, b"too long\n")
    )


def of_a_script(program):
    return of_members(program) and of_keys(program) and of_steps(program) and of_bytes(program)


def of_a_threads_step(program):
    return only_first(program, script([flushes(1024)]), script([flushes(1, clients=9)])) and only_first(
        program, script([flushes(1024, clients=1)]), script([flushes(1025, clients=1)])
    )


def of_a_key_name(program):
    def named(name):
        return script([], keys=[{"key": name, "kind": "flag"}])

    return only_first(program, named("k" * 32), named("k" * 33)) and program.report(named(""))[0] == 3


def of_a_text(program):
    def element(text):
        return script([update("add", key="gse", element=text)], keys=[KEYS["gset"]])

    def assigned(text):
        return script([update("assign", key="lww", text=text, now=0)], keys=[KEYS["lwwregister"]])

    wide = "é" * 32
    return all(
        only_first(program, of("x" * 64), of("x" * 65)) and only_first(program, of(wide), of(wide + "x"))
        for of in (element, assigned)
    )


def of_a_set(program):
    adds = [update("add", key="gse", element=f"e{i}") for i in range(257)]
    played = script([*adds, adds[0]], keys=[KEYS["gset"]])
    return (
        has_answer(program, played, 256, "done")
        and has_answer(program, played, 257, "set full")
        and has_answer(program, played, 258, "done")
    )


def of_a_share(program):
    assigned = update("assign", key="lww", text="x", now=SHARE)
    played = script([assigned, assigned], keys=[KEYS["lwwregister"]])
    return (
        has_answer(program, script([add(SHARE), add(1)]), 2, f"overflow {SHARE} 1")
        and has_answer(program, script([add(SHARE - 1), add(1)]), 2, "done")
        and has_answer(program, played, 1, "done")
        and has_answer(program, played, 2, "clock spent")
    )


def of_a_delta_group(program):
    def flushed(count):
        return script([*[add()] * count, {"do": "flush", "at": 0}], members=2)

    return has_answer(program, flushed(50), 51, "done sent 1:deltas/1/0") and has_answer(
        program, flushed(51), 52, "done sent 1:deltas/0/1"
    )


def of_identities(program):
    restarts = script([{"do": "restart", "id": i} for i in range(255)])
    joins = script([*restarts["steps"][:254], {"do": "join", "place": 1}])
    return (
        has_answer(program, restarts, 254, "id 254 view 254")
        and has_answer(program, restarts, 255, "too many identities")
        and has_answer(program, joins, 255, "too many identities")
    )


def of_places(program):
    joins = script([{"do": "join", "place": 7}], members=7)
    beyond = script([{"do": "join", "place": 8}], members=7)
    return only_first(program, joins, beyond) and has_answer(program, joins, 1, "id 7 view 1")


def of_steps_of_a_member(program):
    full, last = made(16_384), made(16_383)
    played = script([*full, get(), {"do": "settle"}], members=2)
    before = script([*last, get()])
    return (
        has_answer(program, played, len(full) + 1, "history full")
        and has_answer(program, played, len(full) + 2, "stopped")
        and has_answer(program, before, len(last) + 1, "not found")
    )


# By the words of the table of limits.
LIMITS = {
    "a script": of_a_script,
    "a `threads` step": of_a_threads_step,
    "a key's name": of_a_key_name,
    "an element, a register's text": of_a_text,
    "a set": of_a_set,
    "a share, a timestamp": of_a_share,
    "a delta group": of_a_delta_group,
    "identities, in the life of a cluster": of_identities,
    "places, and so members at a time": of_places,
    "steps of a member": of_steps_of_a_member,
}

# Scripts for answers that the examples do not have.
OTHERS = [
    # A client whose operation gets too few answers, and one whose operation is left open.
    script(
        [
            {"do": "remove", "id": 1},
            {"do": "threads", "clients": [[add(level="all")]]},
        ],
        members=2,
    ),
    script(
        [*made(16_383), {"do": "threads", "clients": [[add(level="all")]]}],
        members=2,
    ),
]

def is_generated(program, count):
    """Whether the generated script of so many steps is the one of the page."""
    status, said, _ = program.run(["gen", str(count)])
    text = json.dumps(generated(count), separators=(",", ":"), sort_keys=True) + "\n"
    return status == 0 and said.decode() == text


def is_summed(program, count):
    """Whether `sum` writes the final block of the report of the generated script."""
    report = program.report(generated(count))[1]
    status, said, _ = program.run(["sum", str(count)])
    return status == 0 and said.decode() == report[report.index("final view") :]
