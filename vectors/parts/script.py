"""What the scripts of cases are written with."""

USUAL = "24x80 24x80"


class Script:
    """The cases of one file. `rule` and `source` hold for the cases that come after; a rule is a heading or the first cell of a row of
    docs/PROFILE.md, to which `make` adds the refusal; a source is a chapter of GA23-0059, a section of an RFC, or "own". What `paper` tells of a case was worked out by hand, beside it: a cell's code, an attribute, the cursor, ..,
    and what the program says must be the same."""

    def __init__(self, name):
        self.name = name
        self.cases = []
        self.rule = self.source = None

    def of(self, rule, source):
        self.rule, self.source = rule, source

    def case(self, name, says, *records, keys=(), then=(), size=USUAL, source=None, paper=None):
        case = {"id": f"{self.name}/{name}", "says": says, "rules": [self.rule], "source": source or self.source, "size": size}
        case["records"] = [it.hex().upper() for it in records]
        case["keys"] = [*keys]
        if then:
            case["then"] = [it.hex().upper() for it in then]
        self.add(case, paper)

    def session(self, name, says, *pieces, device="IBM-3278-2-E", functions=None, keys=("enter",), source=None, paper=None):
        """A session byte by byte: what the host sends, piece by piece, from the first byte on or, with functions, once it is ready with TN3270E."""
        case = {"id": f"{self.name}/{name}", "says": says, "rules": [self.rule], "source": source or self.source, "device": device}
        if functions is not None:
            case["functions"] = functions.hex().upper()
        case["keys"] = [*keys]
        case["host"] = [it.hex().upper() for it in pieces]
        self.add(case, paper)

    def add(self, case, paper):
        if paper is not None:
            case["paper"] = True
        self.cases.append((case, paper or {}))


def differs_from_paper(found, paper):
    """The first member that was worked out otherwise, or None."""
    for name, wanted in paper.items():
        for member, value in told(found, name, wanted):
            if value != member:
                return f"{name}: on paper {member}, here {value}"
    return None


def told(found, name, wanted):
    screen = found.get("screen", {})
    if name == "at":
        from parts.screen import cells_in

        cells = cells_in(screen)
        return [(f"{at}:{codes}", f"{at}:{run(cells, at, len(codes) // 2)}") for at, codes in wanted.items()]
    if name in ("cursor", "keyboard", "aid", "attributes", "size", "cells", "alternate"):
        return [(wanted, screen.get(name))]
    if name == "refused":
        refused = found.get("refused", {})
        return [(wanted, f"{refused.get('record')} at {refused.get('place')}: {refused.get('reason')}")]
    return [(wanted, found.get(name))]


def run(cells, at, length):
    """Codes from a place on, `SF` for an attribute, and `GE` before a character of the alternate set's place."""
    words = []
    for step in range(length):
        cell = cells[(at + step) % len(cells)]
        words.append("--" if isinstance(cell, tuple) else f"{cell[0] if isinstance(cell, list) else cell:02X}")
    return "".join(words)
