"""Reads trace texts: a line is its kind and its fields by name (docs/SCENARIO.md, "The trace")."""
import re

GENERAL = "rax rcx rdx rbx rsp rbp rsi rdi r8 r9 r10 r11 r12 r13 r14 r15".split()
SEGMENTS = "es cs ss ds fs gs ldtr tr".split()
TABLES = "gdtr idtr".split()
CONTROL = "cr0 cr2 cr3 cr4 cr8 efer kgs cpl".split()
# The registers of a step line, in their order.
CHANGED = GENERAL + SEGMENTS + TABLES + CONTROL
# The rows of the string instructions, of which a turn can take many elements.
STRING_ROWS = frozenset("movs cmps stos lods scas ins outs".split())
# The ends of a step that didn't finish.
ENDS = frozenset("fault exit event handoff unhandled busfault pending diverged".split())

HEX = "(0|[1-9a-f][0-9a-f]{0,15})"
DECIMAL = "(0|[1-9][0-9]*)"
ROW = "([a-z0-9]+|-)"
OR_NONE = "(-|0|[1-9a-f][0-9a-f]{0,15})"
ACCESS = f"(mem|port|msr|cpuid) (r|w) {HEX} (1|2|4|8) "
ASKED = ACCESS + HEX
ACCESS_FIELDS = ["space", "direction", "address", "size", "value"]


class NoTrace(Exception):
    """A text that is no trace: the number of its line, and the line."""

    def __init__(self, number, text):
        super().__init__(f"line {number} is no line of a trace: {text[:60]!r}")


class Line:
    """A line of a trace: its number from 1, its text, its kind, and its fields by name, as text."""

    def __init__(self, number, text, kind, fields):
        self.number, self.text, self.kind, self.fields = number, text, kind, fields

    @property
    def steps(self):
        """The steps that this line says finished."""
        return int(self.fields["count"]) if self.kind == "step" else 0

    @property
    def registers(self):
        """The registers that a line names, and their values."""
        named = ("rip", "flags", *CHANGED)
        return {name: value for name, value in self.fields.items() if name in named}


# Each kind of line but for step and diverged: the words behind its kind, and the names of its fields.
FORMS = {
    "io": (f"{ACCESS}(no|0|[1-9a-f][0-9a-f]{{0,15}}) {DECIMAL}", [*ACCESS_FIELDS, "waits"]),
    "fault": (f"{ROW} {HEX} {OR_NONE} {OR_NONE}", ["row", "vector", "code", "cr2"]),
    "exit": (f"{ROW} {HEX} {HEX} {HEX}", ["row", "code", "info1", "info2"]),
    "event": (f"{ROW} (int|int3|into) {HEX} {HEX}", ["row", "kind", "vector", "next"]),
    "handoff": (f"{ROW} (callgate|taskgate|tss|taskreturn|vm86|entry|fetch) {HEX}", ["row", "kind", "value"]),
    "unhandled": ("", []),
    "busfault": (f"{ROW} {ASKED}", ["row", *ACCESS_FIELDS]),
    "pending": (f"{ROW} {ASKED}", ["row", *ACCESS_FIELDS]),
    "badstate": (DECIMAL, ["rule"]),
    "notram": (HEX, ["address"]),
    "mem": (f"{HEX} ((?:[0-9a-f]{{2}}){{1,16}})", ["address", "bytes"]),
    "gpr": (" ".join(f"{name}={HEX}" for name in GENERAL), GENERAL),
    "ctl": (" ".join(f"{name}={HEX}" for name in ["rip", "flags", *CONTROL]), ["rip", "flags", *CONTROL]),
    "seg": (f"({'|'.join(SEGMENTS)}) {HEX} {HEX} {HEX} {HEX}", ["name", "selector", "base", "limit", "attributes"]),
    "table": (f"({'|'.join(TABLES)}) {HEX} {HEX}", ["name", "base", "limit"]),
    "ok": ("", []),
    "refused": (f"line {DECIMAL} reason {DECIMAL} ([a-z ]+)", ["line", "reason", "text"]),
    "usage:": ("(.+)", ["words"]),
    "gen": (
        f"{DECIMAL} {DECIMAL} steps {DECIMAL} ios {DECIMAL} waits {DECIMAL} rip={HEX} flags={HEX} rax={HEX}",
        ["seed", "blocks", "steps", "ios", "waits", "rip", "flags", "rax"],
    ),
}
PATTERNS = {kind: (re.compile(words), names) for kind, (words, names) in FORMS.items()}
STEP = re.compile(f"{ROW} ([1-9][0-9]*) rip={HEX} flags={HEX}((?: [a-z0-9]+={HEX})*)")
DIVERGED = re.compile(f"{ROW} {HEX} (-|{ASKED}) (-|{ASKED})")


def step_fields(words):
    """The fields of a step line, or None where the words are none."""
    found = STEP.fullmatch(words)
    if not found:
        return None
    fields = dict(zip(["row", "count", "rip", "flags"], found.groups()))
    places = {name: place for place, name in enumerate([*CHANGED, "retire"])}
    last = -1
    for word in found.group(5).split():
        name, value = word.split("=")
        if places.get(name, -1) <= last:
            return None
        last = places[name]
        fields[name] = value
    return fields


def fields_of(kind, words):
    """The fields of a line of this kind, or None where the words are none of it."""
    if kind == "step":
        return step_fields(words)
    if kind == "diverged":
        found = DIVERGED.fullmatch(words)
        return found and {"row": found[1], "at": found[2], "kept": found[3], "wanted": found[9]}
    if kind not in PATTERNS:
        return None
    pattern, names = PATTERNS[kind]
    found = pattern.fullmatch(words)
    return found and dict(zip(names, found.groups()))


def parse(text):
    """The lines of a trace, which is bytes."""
    lines = []
    parts = text.decode("latin-1").split("\n")
    if parts[-1] == "":
        parts.pop()
    for number, part in enumerate(parts, 1):
        kind, space, words = part.partition(" ")
        fields = fields_of(kind, words)
        if fields is None or (space and not words):
            raise NoTrace(number, part)
        lines.append(Line(number, part, kind, fields))
    return lines


FLAGS = [("CF", 0), ("PF", 2), ("AF", 4), ("ZF", 6), ("SF", 7), ("TF", 8), ("IF", 9), ("DF", 10), ("OF", 11)]
OTHER_FLAGS = [("IOPL", 12), ("IOPL", 13), ("NT", 14), ("RF", 16), ("VM", 17), ("AC", 18), ("VIF", 19), ("VIP", 20), ("ID", 21)]


def flag_names(value):
    """The names of the flags that are set in a value."""
    names = [name for name, bit in FLAGS + OTHER_FLAGS if value >> bit & 1]
    return list(dict.fromkeys(names))
