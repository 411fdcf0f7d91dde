#!/usr/bin/env python3
"""Lists places of src/ that an older style of Rattle may have left.

    tools/history/places.py [COMMIT]        counts, of a commit or of the files as they stand
    tools/history/places.py -l [COMMIT]     and each place

A line that a pattern meets is a candidate; docs/history/DESIGN-PASS.md says which are places.
"""
import collections
import difflib
import glob
import re
import subprocess
import sys

ARGS = [a for a in sys.argv[1:] if a != "-l"]
LIST = "-l" in sys.argv
COMMIT = ARGS[0] if ARGS else None


def sources(pattern):
    """(path, text) of each file."""
    if COMMIT:
        names = subprocess.run(["git", "ls-tree", "-r", "--name-only", COMMIT, "crates"], capture_output=True, text=True, check=True).stdout.split()
        names = [n for n in names if re.fullmatch(pattern, n)]
        return [(n, subprocess.run(["git", "show", f"{COMMIT}:{n}"], capture_output=True, text=True, check=True).stdout) for n in names]
    names = sorted(n for n in glob.glob("crates/**/*", recursive=True) if re.fullmatch(pattern, n) and "/out/" not in n)
    return [(n, open(n).read()) for n in names]


def without_tests(path, text):
    if path.endswith("tests.rt"):
        return ""
    return text.split("#[cfg(test)]\nmod tests {")[0]


CODE = [(p, without_tests(p, t)) for p, t in sources(r"crates/[^/]+/src/.*\.rt")]

PATTERNS = {
    "1": [
        ("a number for a kind", r"\bkinds?: u(8|16|32)\b|fn \w*kind\w*\(.*-> Option<u8>|fn kind_of_mark"),
        ("a number that may mean none", r"entries: Vec<u32>|=> 0,$"),
        ("a flag in a struct", r"^\s+(pub(\(crate\))? )?\w+: bool,"),
        ("`let .. else`", r"let (Some|Ok|Err)\(.*else \{|^\s+let \[.*else \{"),
        ("an arm that passes on", r"^\s+(None|Err\([a-z_]+\)) => (return )?(None|Err\()|^\s+Some\(\w+\) => Some\(\w+\),|^\s+Ok\(\w+\) => Ok\(\w+\),|^\s+Err\(\w*(::)?\w*\) => Err\("),
        ("memory's failure by hand", r"Err\(Failure::Memory\)|=> Failure::Memory"),
    ],
    "3": [
        ("a loop", r"^\s+(for|while|loop)\b"),
    ],
    "4": [
        ("a conversion by hand", r"fn (refusal|kind_of_mark|kind_number|cause_words|fault_words|day_words|code_words|price_words|trade_words|term_words|plural|contracts_word|count_said|two_digits|digit|text|unit|of_day|number|bytes|from_bytes)\("),
        ("an impl by hand", r"^impl.* (From<.*>|TryFrom<.*>|FromStr|(fmt::)?Display|PartialEq|PartialOrd|Ord|Clone|Copy|Default) for "),
    ],
    "6": [
        ("an array", r"\[[A-Za-z_0-9]+; [A-Z0-9a-z_ +*]+\]"),
        ("a count in a struct", r"^\s+(pub(\(\w+\))? )?(count|lines|length): u(8|16|32|64|size),"),
        ("a list of entries", r"\w+: Vec<"),
    ],
    "7": [
        ("a choice of functions", r"\bdyn |fn\(|impl Fn|trait \w+|match command|match words"),
    ],
}


def tokens(body):
    words = re.findall(r"'[^']'|\"[^\"]*\"|[A-Za-z_]\w*|\d[\d_]*|\S", body)
    keep = {"if", "else", "for", "in", "match", "let", "mut", "return", "Some", "None", "Ok", "Err", "as", "while", "Self", "self"}
    return [w if w in keep or not re.match(r"[A-Za-z_0-9'\"]", w) else "x" for w in words]


def functions():
    """(path, name, signature, clauses, body) of each function with a body."""
    found = []
    for path, text in CODE:
        lines = text.split("\n")
        at = 0
        while at < len(lines):
            head = re.match(r"(\s*)(?:pub(?:\(\w+\))? )?fn (\w+)", lines[at])
            if not head:
                at += 1
                continue
            indent, start = head.group(1), at
            end = at
            while end < len(lines) and lines[end] not in (indent + "}", indent + "{}") and not lines[end].endswith(";") and not (end == start and lines[end].endswith("}")):
                end += 1
            whole = lines[start:end + 1]
            opens = [i for i, l in enumerate(whole) if l == indent + "{" or (i == 0 and l.endswith("{")) or l == indent + ") -> " or l.endswith("{") and l.startswith(indent + ")")]
            cut = opens[0] if opens else len(whole)
            head_text = "\n".join(whole[:cut + 1])
            found.append((path, head.group(2), head_text, "\n".join(whole[cut + 1:])))
            at = end + 1
    return found


FUNCTIONS = functions()


def twins():
    pairs = []
    for i, (path, name, _, body) in enumerate(FUNCTIONS):
        one = tokens(body)
        if len(one) < 12:
            continue
        for other_path, other, _, other_body in FUNCTIONS[i + 1:]:
            two = tokens(other_body)
            if len(two) < 12 or not 0.8 < len(one) / len(two) < 1.25:
                continue
            ratio = difflib.SequenceMatcher(None, one, two, autojunk=False).ratio()
            if ratio >= 0.9:
                pairs.append(f"{path}: {name} ~ {other_path}: {other} ({ratio:.2f})")
    return pairs


def clause_facts():
    seen = collections.defaultdict(set)
    for path, name, head, _ in FUNCTIONS:
        crate = path.split("/")[1]
        for clause in re.findall(r"(?:requires|ensures)[^{\n]*\{(.*)\}\s*$", head, re.M):
            for fact in re.split(r" × ", clause):
                fact = fact.strip(" ()")
                fact = re.sub(r"\b(result|self\.now|self\.old|self\.new)\b", "_", fact)
                if len(fact) > 6:
                    seen[(crate, fact)].add((path, name))
    return [f"{crate}: {fact} ({len(where)} functions)" for (crate, fact), where in sorted(seen.items()) if len(where) >= 3]


def parameter_groups():
    seen = collections.defaultdict(set)
    for path, name, head, _ in FUNCTIONS:
        crate = path.split("/")[1]
        signature = re.split(r"\b(?:requires|ensures)\b", head)[0]
        names = re.findall(r"(\w+): ", signature)
        for i, one in enumerate(names):
            for two in names[i + 1:]:
                seen[(crate, one, two)].add((path, name))
    return [f"{crate}: {one}, {two} ({len(where)} functions)" for (crate, one, two), where in sorted(seen.items()) if len(where) >= 3]


def answers():
    rows = []
    for path, text in sources(r"crates/[^/]+/proofs/.+/(Answers|Proof|Invariants)\.antt"):
        names = set(re.findall(r"^(?:abbrev )?(?:pub )?([\w·'-]+)(?: [^:=\n]*)? [=:]", text, re.M))
        rows.append((path, len(names), len(text.split("\n"))))
    return rows


def show(title, rows):
    print(f"   {title}: {len(rows)}")
    if LIST:
        for row in rows:
            print(f"      {row}")


def main():
    for point in ("1", "2", "3", "4", "5", "6", "7", "8"):
        print(f"point {point}")
        for title, pattern in PATTERNS.get(point, []):
            rows = [f"{p}:{n}: {l.strip()}" for p, t in CODE for n, l in enumerate(t.split("\n"), 1) if re.search(pattern, l) and not l.strip().startswith(("//", "ghost", "ensures", "requires"))]
            show(title, rows)
        if point == "2":
            show("bodies of the same shape", twins())
        if point == "5":
            show("facts in the contracts of three functions or more", clause_facts())
            show("parameters together in three functions or more", parameter_groups())
        if point == "8":
            rows = answers()
            show("files of answers", [f"{p}: {n} definitions, {l} lines" for p, n, l in rows])
            print(f"   definitions in them: {sum(n for _, n, _ in rows)}, lines: {sum(l for _, _, l in rows)}")


main()
