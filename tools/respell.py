#!/usr/bin/env python3
"""Brings the repository's own definitions and lemmas to snake case, in definitions, proofs, contracts, edits and pages.

usage: python3 tools/respell.py [ROOT]     run once, right after the kit's own script

A name that is declared in specs/ or proofs/ and holds a capital after a small letter, or a dash, gets its words joined by `_`.
Where two names would fall together, a lemma gets the ending `_lem`. Goals of functions, which the checker names, are left as they are.
"""
import glob
import os
import re
import sys

ROOT = sys.argv[1] if len(sys.argv) > 1 else "."
# Names that the kit's script had turned already: pages and edits still have the old spelling.
TURNED = """above-apart above-same add-at add-spec add-wide added-next after-last after-same all-found all-laid all-more all-read all-same all-seen all-there
allowed-same andThen any-found any-none any-same asked-by askedOf at-first at-piece bad-kind begun-all by-answer by-first by-shape bytes-back cases-meet
choose-spec clean-is core-is count-fits count-same count-turn countOf counted-same each-fits each-in each-same either-way end-is end-none ended-is fieldAt
fields-read fieldsOf fill-spec finish-spec finished-on first-byte first-good first-holds first-piece firsts-more fits-read found-turn from-on from-tick
goes-on goes-step goesAt good-turn has-room head-few head-spec held-back in-order in-words isEmpty isLast isNumber jobOf keeps-same kindOf known-is
laid-done laid-out last-end last-fits last-none last-some lastOf left-one left-out length-most length-some lent-same lineOf load-same lower-spec
lowest-start made-all movedTo mul-next next-fits next-last next-past next-place no-length no-more no-place no-room noPiece noRun none-found not-first
not-last not-piece nothing-left old-below omega-zero one-more one-of one-same order-same other-test paid-for parts-whole piece-added piece-is piece-kind
pieceAt pieceOf pieces-more place-is planOf put-all put-first put-next put-same put-spec put-then put-whole putIn ran-settled read-back read-done
read-held read-is read-more read-none read-short read-whole release-spec row-more row-next row-same rows-few run-in run-more run-out run-past run-spec
runs-none runs-on same-byte same-length same-next same-number same-place same-sum same-test sameList says-none sets-same shape-same shares-out size-is
soFar some-is stands-same start-spec stateOf step-same step-spec sub-words sum-more sum-ones sum-same table-closes table-kept table-same tableOf tag-is
tag-same tagOf taken-none taskOf to-part to-step told-named turn-at two-cases upTo values-of whole-is whole-ready whole-says write-done
enum-told no-field none-is one-field table-is""".split()

NAME = r"[^\s(){}\[\].;,λ@\\«»:=→×⊎≡|]+"
SIGNATURE = re.compile(r"^\s*(?:(?:pub|abbrev|unfoldable)\s+)*((?:%s\s+)*%s)\s*:(?:\s|$)" % (NAME, NAME))
TOKEN = re.compile(r"[^\s(){}\[\].;,«»`]+")
KEYWORDS = {"pub", "abbrev", "unfoldable", "record", "data", "use", "module", "where", "let", "in", "elim", "as", "unfolding"}


def files():
    for kind in ("specs", "proofs"):
        yield from sorted(glob.glob(os.path.join(ROOT, "crates", "*", kind, "**", "*.antt"), recursive=True))


def read(path):
    with open(path, encoding="utf-8") as f:
        return f.read()


def snake(name):
    return re.sub(r"(?<=[a-z0-9])([A-Z])", r"_\1", name).lower().replace("-", "_") if not re.search(r"[^\x00-\x7f]", name) else \
        re.sub(r"(?<=[a-z0-9])([A-Z])", lambda m: "_" + m.group(1).lower(), name).replace("-", "_")


def wants(name):
    return not name[0].isupper() and bool(re.search(r"[a-z0-9'][A-Z]|[\w']-[\w']", name))


# Fields of records with a dash. What else stands behind a dot is a step of a function, and is named by the checker.
FIELDS = {"shipped-bad", "own-bad"}
# Lemmas that the kit's script turned to the name that the definition of the same words is to have.
ASIDE = {n: n + "_lem" for n in ("first_piece", "goes_on", "in_order")}

declared, goals, taken, imported = {}, set(), set(), set()
for path in files():
    text = read(path)
    for line in text.split("\n"):
        code = line.split(" -- ")[0]
        if code.lstrip().startswith("--"):
            continue
        m = re.match(r"^use\s+(\S+)\.\{(.*)\}", code)
        if m and not m.group(1).startswith("Rattle.") or m and m.group(1).startswith("Rattle.std"):
            imported.update(p.split(" as ")[-1].strip() for p in m.group(2).split(","))
        m = SIGNATURE.match(code)
        if not m:
            continue
        for name in m.group(1).split():
            if name in KEYWORDS:
                continue
            if os.path.basename(path) == "Proof.antt" and re.search(r":\s*(tie\.|\{M : Type 1\})", code):
                goals.add(name)
                continue
            if name not in ASIDE:
                (declared.setdefault(name, path) if wants(name) else taken.add(name))

taken |= {snake(n) for n in TURNED} - set(ASIDE) | set(ASIDE.values())
both = sorted(n for n in declared if n in goals)
alien = sorted(n for n in declared if n in imported)
names, used = {}, {}
for name in sorted(declared, key=lambda n: ("-" in n, n)):
    new = snake(name)
    if new in taken or new in used or new in imported:
        new += "_lem" if "-" in name else "_def"
    if new in taken or new in used:
        sys.exit(f"{name}: {new} is taken too")
    names[name] = used_by = new
    used[new] = name

pages = dict(names) | {n: snake(n) for n in TURNED}
if "--list" in sys.argv:
    print("goals too:", both)
    print("imported too:", alien)
    print("moved aside:", [(a, b) for a, b in names.items() if b.endswith("_lem") or b.endswith("_def")])
    raise SystemExit


def turned(text, map_, proof):
    def one(m):
        t = m.group(0)
        before = text[m.start() - 1] if m.start() else ""
        if before == "." and "-" in t and t not in FIELDS:
            return t
        return map_.get(t, t)
    return TOKEN.sub(one, text)


def antt(text, proof):
    out = []
    text = turned(text, ASIDE, False)
    for line in text.split("\n"):
        if line.lstrip().startswith("--"):
            out.append(re.sub(r"`[^`]*`", lambda m: turned(m.group(0), names, False), turned(line, {a: b for a, b in names.items() if "-" not in a}, False)))
        elif proof and re.match(r"^\S+ : (tie\.|\{M)", line):
            head, rest = line.split(" : ", 1)
            out.append(head + " : " + turned(rest, names, proof))
        else:
            out.append(turned(line, names, proof))
    return "\n".join(out)


def write(path, new):
    if new != read(path):
        with open(path, "w", encoding="utf-8") as f:
            f.write(new)


for path in files():
    write(path, antt(read(path), os.path.basename(path) == "Proof.antt"))
for path in sorted(glob.glob(os.path.join(ROOT, "crates", "*", "src", "**", "*.rt"), recursive=True)):
    write(path, turned(read(path), names, False))
for path in sorted(glob.glob(os.path.join(ROOT, "crates", "*", "must-fail", "*.edit"))):
    write(path, turned(read(path), pages, False))
for path in [os.path.join(ROOT, "README.md")] + sorted(glob.glob(os.path.join(ROOT, "docs", "*.md"))):
    write(path, re.sub(r"`[^`\n]*`", lambda m: turned(m.group(0), pages, False), read(path)))
