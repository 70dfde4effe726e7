#!/usr/bin/env python3
"""Lists the places in crates/*/src where a newer form of the language might be plainer, by the points of
docs/DESIGN-PASS.md, and counts them. It goes by text: a line is a place to look at, not a verdict.

    python3 tools/places.py            the count of each point
    python3 tools/places.py 3          the lines of point 3
    python3 tools/places.py --at REV   the same of a commit (also with a point)
"""
import re, subprocess, sys
from collections import defaultdict

args = sys.argv[1:]
rev = None
if "--at" in args:
    i = args.index("--at")
    rev = args[i + 1]
    del args[i:i + 2]


def run(*command):
    return subprocess.run(command, capture_output=True, text=True, check=True).stdout


def sources():
    names = run("git", "ls-tree", "-r", "--name-only", rev or "HEAD", "crates").split("\n") if rev else \
        run("git", "ls-files", "-co", "--exclude-standard", "crates").split("\n")
    for name in sorted(names):
        if "/src/" in name and name.endswith(".rt"):
            yield name, run("git", "show", f"{rev}:{name}") if rev else open(name).read()


def functions(text):
    """name, first line, signature with its clauses, body"""
    for m in re.finditer(r"^( *)(?:pub(?:\(crate\))? )?(?:const )?fn (\w+)", text, re.M):
        end = re.compile(rf"^{m[1]}(\}}|\{{\}})$", re.M).search(text, m.end())
        inline = text.find(";\n", m.end())
        if not end or (0 <= inline < end.start() and "{" not in re.sub(r"\{[^{}]*\}", "", text[m.end():inline])):
            continue
        whole = text[m.start():end.end()]
        cut = re.search(rf"^{m[1]}\{{", whole, re.M)
        if cut:
            head, body = whole[:cut.start()], whole[cut.start():]
        else:
            first = whole.split("\n", 1)[0]
            head, body = first, whole[len(first):]
        yield m[2], text.count("\n", 0, m.start()) + 1, head, body


def shape(body):
    """the body's tokens, each name and number as one letter"""
    body = re.sub(r"//.*", "", body)
    words = re.findall(r"\w+|[^\w\s]", body)
    kept = {"for", "in", "if", "else", "match", "while", "let", "return", "mut", "fn", "Some", "None", "Ok", "Err"}
    return " ".join(w if w in kept or not re.match(r"\w", w) else ("0" if w[0].isdigit() else "x") for w in words)


found = defaultdict(list)
shapes = defaultdict(list)
needs = defaultdict(list)
groups = defaultdict(list)
for name, text in sources():
    lines = text.split("\n")

    def at(point, pos, why):
        line = text.count("\n", 0, pos) + 1
        found[point].append(f"{name}:{line}: {lines[line - 1].strip()}  [{why}]")

    for m in re.finditer(r"^(?:pub(?:\(crate\))? )?enum \w+", text, re.M):
        at(1, m.start(), "an enum of its own")
    for m in re.finditer(r"^const [A-Z_]+: u\d+ = u\d+::MAX", text, re.M):
        at(1, m.start(), "a number that stands for none")
    for m in re.finditer(r"//.*(?:0 where|0 for none|or 0|or its count where|, or `count` where)", text):
        at(1, m.start(), "a number that stands for none")
    for m in re.finditer(r"^ *(for \w+ in .*\.\..*\{|while .*[<>] .*\{|while .*!=.*\{)$", text, re.M):
        at(3, m.start(1), "a counted loop")
    for m in re.finditer(r"^impl.*\b(PartialEq|Eq|PartialOrd|Ord|Clone|Copy|From<.*>|TryFrom<.*>|Display|Debug|Default|FromStr|Error)(?:<\w+>)? for", text, re.M):
        at(4, m.start(), "by hand: " + m[1])
    for m in re.finditer(r"fn (same|less|equals|digit|byte_of|byte_at|parsed|number|of)\b", text):
        at(4, m.start(), "compares or converts by hand")
    for m in re.finditer(r"^(?:pub(?:\(crate\))? )?struct (\w+)[^;{]*\{(.*?)^\}", text, re.M | re.S):
        if re.search(r": \[.*; ?\w+\]|: &'a mut \[", m[2]) and re.search(r"^\s*(?:pub(?:\(crate\))? )?\w+: usize", m[2], re.M):
            at(6, m.start(), "a buffer with a length beside")
    for m in re.finditer(r"^ *let mut \w+(?:: .*)? = \[.*; ?\w+\];", text, re.M):
        at(6, m.start(), "an array that is filled by hand")
    for m in re.finditer(r"dyn |\bfn\(", text):
        at(7, m.start(), "a function as a value")
    for fn, line, head, body in functions(text):
        where = f"{name}:{line}: fn {fn}"
        if re.search(r"-> bool\b", head) and "&mut" in head:
            found[1].append(f"{where}  [a flag with a value beside]")
        for p in re.findall(r"\b\w+: (Mark|Tries|RankBy|Ask|Verb|Layer|Layers|Question)\b", head):
            if re.search(r"match ", body):
                found[7].append(f"{where}  [goes by a {p}]")
        for m in re.finditer(r"match (?:\*?self\.|request\.)(verb|ask|mark|tries|by|layer|layers|lower)\b", body):
            found[7].append(f"{where}  [goes by a {m[1]}]")
        if len(shape(body).split()) >= 12:
            shapes[shape(body)].append(where)
        for m in re.finditer(r"requires[^{\n]*\{ (.*) \}$", head, re.M):
            needs[m[1]].append(where)
        ps = re.findall(r"(\w+): (&?(?:mut )?[\w<>'_:, &\[\]]+?)(?=,\s*\w+:|,?\s*\))", head.split("->")[0])
        names_of = [f"{a}: {b.strip()}" for a, b in ps]
        for i in range(len(names_of)):
            for j in range(i + 1, len(names_of)):
                groups[(names_of[i], names_of[j])].append(where)

for places in shapes.values():
    if len(places) > 1:
        found[2].append("  ~  ".join(places))
for need, places in needs.items():
    if len(places) > 2:
        found[5].append(f"{need}  [required by {len(places)}: {', '.join(p.split(' fn ')[1] for p in places)}]")
for (a, b), places in groups.items():
    if len(places) > 2:
        found[5].append(f"{a}, {b}  [together in {len(places)}: {', '.join(p.split(' fn ')[1] for p in places)}]")

proofs = [n for n in run("git", "ls-tree", "-r", "--name-only", rev or "HEAD", "crates").split("\n") if "/proofs/" in n and n.endswith(".antt")]
found[8] = [n for n in proofs if n.endswith(("Answers.antt", "Invariants.antt", "Proof.antt"))]

if args:
    print("\n".join(found[int(args[0])]))
else:
    for point in range(1, 9):
        print(f"{point}: {len(found[point])}")
