"""The generated script, written from the page "The script and the report" alone."""

KEYS = [
    {"key": "bal", "kind": "pncounter"},
    {"key": "cart", "kind": "orset", "durable": True},
    {"key": "hits", "kind": "gcounter"},
    {"key": "note", "kind": "lwwregister"},
]


def update(member, key, op, **names):
    return {"do": "update", "at": member, "key": key, "op": op, **names}


def step(i):
    """Step `i` of the generated script."""
    a = i % 5
    return {
        1: update(a, "hits", "increment", by=i),
        2: update(a, "cart", "add", element=f"item-{i % 40}"),
        3: update(a, "bal", "decrement", by=i),
        4: {"do": "flush", "at": a},
        5: update(a, "cart", "remove", element=f"item-{(7 * i + 7) % 40}"),
        6: {"do": "gossip", "at": a, "to": (a + 1) % 5},
        7: {"do": "round"},
        0: update(a, "note", "assign", text=f"n{i}", now=i),
    }[i % 8]


def generated(count):
    """The generated script of so many steps."""
    steps = [step(i) for i in range(1, count + 1)]
    steps += [{"do": "remove", "id": 4}, {"do": "settle"}]
    return {"members": 5, "keys": KEYS, "steps": steps}
