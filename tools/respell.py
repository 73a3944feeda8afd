#!/usr/bin/env python3
"""Spells the repository's own words as today's Rattle does: isTradingDay -> is_trading_day. Run once at the top, after port.py.

No function, type or exported name has the form aB, so each word of that form in a .rt or .antt file is a definition, a lemma or a
variable; in edits and pages those are turned that a crate has. The lemmas of FIRST would fall together with a definition, so they
get another name first. A second run changes nothing.
"""
import pathlib
import re

CAMEL = re.compile(r"(?<![A-Za-z0-9_])[a-z][a-z0-9]*(?:[A-Z][A-Za-z0-9]*)+")
FIRST = [
    ("crates/japan/proofs/JapanLaws.antt", "in_order", "in_order-days"),
    ("crates/market_sets/proofs/SetLaws.antt", "one_bit", "one_bit-holds"),
    ("crates/ranges/proofs/Counts.antt", "one_more", "one_more-length"),
    ("crates/request/proofs/RequestLaws.antt", "on_line", "on_line-reads"),
    ("crates/request/proofs/read_month/Proof.antt", "on_line", "on_line-reads"),
    ("crates/request/proofs/read_request/Proof.antt", "on_line", "on_line-reads"),
    ("crates/request/proofs/read_year/Proof.antt", "on_line", "on_line-reads"),
]


def snake(word):
    return re.sub(r"[A-Z]", lambda m: "_" + m[0].lower(), word)


def turn(path, change):
    text = path.read_text()
    new = change(text)
    if new != text:
        path.write_text(new)


crates = pathlib.Path("crates")
code = sorted([*crates.rglob("*.antt"), *crates.rglob("*.rt")])
words = {w for p in code for w in CAMEL.findall(p.read_text())}
if words:
    for name, old, to in FIRST:
        if (path := pathlib.Path(name)).exists():
            turn(path, lambda t: re.sub(rf"(?<![\w'-]){old}(?![\w'-])", to, t))
pages = [*crates.rglob("*.edit"), *pathlib.Path("docs").glob("*.md"), pathlib.Path("README.md")]
for path in code + sorted(pages):
    turn(path, lambda t: CAMEL.sub(lambda m: snake(m[0]) if m[0] in words else m[0], t))
