"""Counts, in the code of all crates, the places where a form of the older language may stand.

    python3 tools/places.py [COMMIT]

One list for each point of docs/DESIGN-PASS.md, of the checkout or of a commit. It goes by text, so that it shows candidates: what is not such a place is said on that page.
"""

import difflib
import itertools
import re
import subprocess
import sys
from collections import defaultdict


def run(*args):
    return subprocess.run(args, capture_output=True, text=True, check=True).stdout


def sources(commit):
    """Path and text of each file of code, and of each file of a proof."""
    if commit:
        paths = run("git", "ls-tree", "-r", "--name-only", commit).splitlines()
        read = lambda path: run("git", "show", f"{commit}:{path}")
    else:
        paths = run("git", "ls-files").splitlines()
        read = lambda path: open(path).read()
    code = {p: read(p) for p in paths if re.match(r"crates/\w+/src/.*\.rt$", p)}
    proofs = {p: read(p) for p in paths if re.match(r"crates/\w+/proofs/.*\.antt$", p)}
    return code, proofs


FUNCTION = re.compile(r"^( *)(?:pub(?:\(crate\))? )?(?:const )?fn (\w+)", re.M)


def functions(code):
    """File, line, name, signature, clauses and body of each function."""
    for path, text in code.items():
        for found in FUNCTION.finditer(text):
            indent = found.group(1)
            rest = text[found.start():]
            # the closing brace, a body on one line, or the end of a declaration without a body
            end = re.search(rf"^{indent}(?! ).*[}};]$|^ +(requires|ensures).*\}};$", rest, re.M)
            whole = rest[: end.end()]
            opening = re.search(rf"^{indent}\{{|\{{\n", whole, re.M)
            at = opening.start() if opening else len(whole)
            head = whole[:at]
            clause = re.search(r"\n\s*(requires|ensures)", head)
            signature = head[: clause.start()] if clause else head
            clauses = head[clause.start():] if clause else ""
            yield path, text[: found.start()].count("\n") + 1, found.group(2), signature, clauses, whole[at:]


def show(title, places):
    print(f"## {title}: {len(places)}")
    for place in places:
        print("  " + place)
    print()


def grep(code, pattern):
    return [
        f"{path}:{number}: {line.strip()}"
        for path, text in code.items()
        for number, line in enumerate(text.splitlines(), 1)
        if re.search(pattern, line) and not line.strip().startswith("//")
    ]


def own_options(code):
    """Enums of which some cases hold something and just one holds nothing."""
    places = []
    for path, text in code.items():
        for found in re.finditer(r"^(?:pub )?enum (\w+)[^{\n]*\{\n(.*?)^\}", text, re.M | re.S):
            body = re.sub(r"//.*|\{[^}]*\}", "()", found.group(2))
            cases = re.findall(r"^    (\w+)(\()?", body, re.M)
            plain = [name for name, holds in cases if not holds]
            if len(plain) == 1 and len(cases) <= 3:
                places.append(f"{path}: enum {found.group(1)}: {', '.join(name for name, _ in cases)}")
    return places


def number_tables(all_functions):
    """Functions whose matches give a number for a case, or a case for a number."""
    arm = re.compile(r"^\s*(\S+::\w+ => \d+,|\d+ => \S+)", re.M)
    return [
        f"{path}:{line}: {name}, {len(arm.findall(body))} arms"
        for path, line, name, _, _, body in all_functions
        if len(arm.findall(body)) > 1
    ]


def tokens(body):
    words = re.findall(r"\w+|[^\w\s]", re.sub(r"//.*", "", body))
    keep = {"if", "else", "match", "for", "in", "while", "return", "let", "mut", "self", "Ok", "Err", "Some", "None", "fn"}
    return [w if w in keep or not re.match(r"\w", w) else "N" if w.isdigit() else "x" for w in words]


def twins(all_functions):
    """Pairs of functions that differ in nothing but names and numbers, or nearly."""
    listed = [(f, tokens(f[3] + f[5])) for f in all_functions if len(tokens(f[5])) > 12]
    places = []
    for (a, s), (b, t) in itertools.combinations(listed, 2):
        if "/trials/" in a[0] + b[0] and a[2] == b[2]:
            continue
        ratio = difflib.SequenceMatcher(None, s, t, autojunk=False).ratio()
        if ratio > 0.9:
            places.append(f"{ratio:.2f} {a[0]}:{a[1]} {a[2]} | {b[0]}:{b[1]} {b[2]}")
    return sorted(places, reverse=True)


def twice(code):
    counted = defaultdict(list)
    for path, text in code.items():
        for found in re.finditer(r"^ *(?:pub )?const (\w+):", text, re.M):
            counted[found.group(1)].append(path)
    return [f"{name}: {', '.join(paths)}" for name, paths in counted.items() if len(set(paths)) > 1]


def repeated_clauses(all_functions):
    counted = defaultdict(list)
    for path, line, name, _, clauses, _ in all_functions:
        for clause in re.findall(r"(?:requires|ensures)\*?[^{]*\{ (.*) \}", clauses):
            fact = re.sub(r"\b(self|span|candidates|entries|at|result)\b", "_", clause)
            if not clause.startswith("result ≡") and not clause.startswith("IfOk result (λ v. v.items ≡"):
                counted[fact].append(f"{path}:{line} {name}")
    return [f"{len(where)} times: {fact} ({'; '.join(where)})" for fact, where in counted.items() if len(where) > 2]


def travelling_parameters(all_functions):
    counted = defaultdict(list)
    for path, line, name, signature, _, _ in all_functions:
        if "#[test]" in signature:
            continue
        names = [n for n in re.findall(r"(\w+): &?[\w<\[(']", signature) if n not in ("rt", "heap", "f") and not n.isupper()]
        for pair in itertools.combinations(sorted(set(names)), 2):
            counted[pair].append(f"{path}:{line} {name}")
    return [f"{len(where)} times: {', '.join(pair)} ({'; '.join(where)})" for pair, where in sorted(counted.items(), key=lambda c: -len(c[1])) if len(where) > 2]


def main():
    commit = sys.argv[1] if len(sys.argv) > 1 else None
    code, proofs = sources(commit)
    every = list(functions(code))
    show("1 own enums of the shape of Option", own_options(code))
    show("1 flags", grep(code, r"^\s*(pub(\(crate\))? )?\w+: bool,|fn .*\w+: bool"))
    show("1 tables of numbers", number_tables(every))
    show("1 refusals that are not in a Result, and answers dropped", grep(code, r"Option<Refusal>|\.ok\(\)|if let Err|fn number\b"))
    show("2 twins", twins(every))
    show("2 constants that stand twice", twice(code))
    show("3 loops", grep(code, r"^\s*(for|while|loop)\b.*\{$"))
    show("4 equality, conversion and printing", [f"{p}:{n}: {name}" for p, n, name, *_ in every if re.match(r"(equals|is_same|print|number|code|kind_of|unit_of|add_line|cell_of|fmt|from|try_from)$", name)])
    show("5 facts in three contracts or more", repeated_clauses(every))
    show("5 parameters together in three functions or more", travelling_parameters(every))
    show("6 arrays, lengths and indices", grep(code, r"\[[^\]=]*; (16|64|256)\][,;]?$|\b(len|filled|size): u\w+,|\[[^\]]*[*+/%][^\]]*\]"))
    show("7 switches", grep(code, r"^\s*match .*(round|kind|sort)\b|if timed"))
    answers = sum(len(re.findall(r"^pub \S+ : goal", text, re.M)) for text in proofs.values())
    lines = sum(text.count("\n") for text in proofs.values())
    print(f"## 8 proofs: {answers} answers and invariants, {lines} lines")
    for crate in sorted({p.split("/")[1] for p in proofs}):
        own = [t for p, t in proofs.items() if p.split("/")[1] == crate]
        print(f"  {crate}: {sum(len(re.findall(r'^pub .* : goal', t, re.M)) for t in own)} answers, {sum(t.count(chr(10)) for t in own)} lines")


main()
