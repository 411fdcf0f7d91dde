#!/usr/bin/env python3
"""Spells this repository's own definitions and lemmas as today's Rattle does: run once, at the top, after port.py.

A definition, a lemma or a field in camel case gets snake case (dayFactor: day_factor), and a fact in two words
gets camel case (Figures-hold: FiguresHold). Names that Rattle makes of source names (in-TooFar, returns-in-TooFar),
names of the library and strings stay. It also says where two names would fall together."""
import glob
import re
import sys

WORD = re.compile(r"[A-Za-z_][A-Za-z0-9_'-]*")
CAMEL = re.compile(r"[a-z][a-z0-9]*(?:[A-Z][a-z0-9]*)+")
# facts of this repository that were written as two words
FACTS = """Always-balanced Always-valued Busy-holds Closes-paid Dues-move Expiry-met Figures-hold Full-holds Gaps-rated
Laws-hold Months-apart One-unpaid Pays-latest Positions-balance Positions-limited Rates-stay Rows-numbered Run-holds
Sessions-rise Sheet-rows Trades-few Unpaid-stays Wrong-caught""".split()
# names that need more than a change of spelling: one that port.py gives a tactic's name, and one after an older word of std
OTHERS = {"first_of": "first_in", "getD-lines": "get_or-lines"}


def spelled(word, f):
    if word in OTHERS and f.endswith(".antt"):
        return OTHERS[word]
    if word in FACTS:
        return "".join(part[0].upper() + part[1:] for part in word.split("-"))
    if CAMEL.fullmatch(word):
        return re.sub(r"[A-Z]", lambda m: "_" + m.group(0).lower(), word)
    return word


def main():
    files = sorted(f for f in glob.glob("crates/**/*", recursive=True) if f.endswith((".rt", ".antt")) and "/out/" not in f)
    texts = {f: open(f, encoding="utf-8").read() for f in files}
    before = {f: set(WORD.findall(t)) for f, t in texts.items()}
    strings = re.compile(r'"(?:[^"\\]|\\.)*"')
    changed = 0
    for f, text in texts.items():
        for word in sorted(before[f]):
            new = spelled(word, f)
            if new != word and new in before[f]:
                print(f"together: {f}: {word} and {new}")
        parts, at = [], 0
        for s in strings.finditer(text):
            parts += [WORD.sub(lambda m: spelled(m.group(0), f), text[at:s.start()]), s.group(0)]
            at = s.end()
        parts.append(WORD.sub(lambda m: spelled(m.group(0), f), text[at:]))
        out = "".join(parts)
        if out != text:
            changed += 1
            with open(f, "w", encoding="utf-8") as o:
                o.write(out)
    print(f"{changed} of {len(files)} files changed")


if __name__ == "__main__":
    sys.exit(main())
