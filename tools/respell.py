#!/usr/bin/env python3
"""Brings the repository's own definitions and lemmas to snake case: anySet becomes any_set.

usage: python3 tools/respell.py [--show]     at the top of the repository; --show writes nothing

Reads .rt, .antt and .edit files below crates/. A name that is imported from a library of the toolchain keeps its
spelling, and so does all text between quotation marks. --show says where a new name stands already.
"""
import os
import re
import sys

TOKEN = re.compile(r"[A-Za-z_#][\w'-]*")
# Names of their own, where the plain rule would take the name of a field that the same files speak of.
OTHERWISE = {
    "debugCounter": "debug_counter_of",
    "debugHeld": "holds_debug",
    "hostSet": "set_by_host",
    "timerThreshold": "timer_threshold_of",
    "active-window": "active_windows",
    "static-window": "static_windows",
    "no-minimum": "no_minimum",
    "last-is": "last_is",
    "before-is": "before_is",
    "below-a": "below_a",
    "four-thresholds": "four_thresholds",
    "three-counts": "three_counts",
    "twelve-units": "twelve_units",
    "twelve-stamps": "twelve_stamps",
    "twelve-latencies": "twelve_latencies",
    "twelve-counters": "twelve_counters",
}
# Lemmas that would have the name of the definition that they speak of.
LEMMAS = {
    "crates/history/proofs/": {"in_window": "in_window_lem"},
    "crates/text/proofs/": {"as_line": "as_line_lem"},
    "crates/store/proofs/": {"first_out": "first_out_lem"},
}
STRING = re.compile(r'"(?:[^"\\]|\\.)*"')


def files(kinds):
    for folder, dirs, names in os.walk("crates"):
        dirs[:] = sorted(d for d in dirs if d != "out")
        for name in sorted(names):
            if name.endswith(kinds):
                yield os.path.join(folder, name)


def read(path):
    with open(path, encoding="utf-8") as file:
        return file.read()


def snake(name):
    """The parts of a name that begin with a small letter, each in snake case; a part with a capital is a type."""

    def part(text):
        if not re.match(r"[a-z]", text):
            return text
        return re.sub(r"_?([A-Z])", lambda m: "_" + m.group(1).lower(), text)

    return "-".join(part(p) for p in name.split("-"))


def imported(texts):
    """Names that come from the toolchain's libraries, and those that an import keeps by another name."""
    found = set()
    for text in texts:
        for line in re.findall(r"(?m)^\s*(?:ghost )?use ((?!Rattle\.)[^;\n]*|Rattle\.std\.[^;\n]*)", text):
            found |= set(TOKEN.findall(line))
    return found


def main(show):
    proofs = {p: read(p) for p in files((".antt",))}
    sources = {p: read(p) for p in files((".rt",))}
    edits = {p: read(p) for p in files((".edit",))}
    outside = imported(list(proofs.values()) + list(sources.values()))
    texts = proofs | sources | edits
    tokens = set()
    for path, text in texts.items():
        tokens |= set(TOKEN.findall(STRING.sub('""', text)))
    wanted = re.compile(r"(?:^|-)(?!x[0-9A-F]{2})[a-z][a-z0-9_]*[A-Z]")
    turned = {t: snake(t) for t in tokens if wanted.search(t) and t not in outside} | OTHERWISE
    turned = {a: b for a, b in turned.items() if a != b}
    clash = {a: b for a, b in turned.items() if b in tokens}
    twice = {}
    for a, b in turned.items():
        twice.setdefault(b, []).append(a)
    for a, b in sorted(turned.items()):
        print(a, b, "FALLS ON A NAME" if a in clash else "", "TWO" if len(twice[b]) > 1 else "")
    if show:
        return 0
    for path, text in texts.items():
        own = dict(turned)
        for folder, names in LEMMAS.items():
            if path.startswith(folder) and path.endswith(".antt"):
                own |= names

        def word(t):
            return own.get(t.group(0), t.group(0))

        pieces, last = [], 0
        for m in STRING.finditer(text):
            pieces += [TOKEN.sub(word, text[last : m.start()]), m.group(0)]
            last = m.end()
        new = "".join(pieces) + TOKEN.sub(word, text[last:])
        if new != text:
            with open(path, "w", encoding="utf-8") as file:
                file.write(new)
    return 0


if __name__ == "__main__":
    raise SystemExit(main("--show" in sys.argv[1:]))
