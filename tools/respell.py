#!/usr/bin/env python3
"""Brings the repository's own names in specs, proofs, clauses, edits and pages to one spelling: words in snake case, types and modules in camel case.

usage: tools/respell.py [FOLDER]        at the top of the repository (FOLDER, or this one), once, right after the kit's port.py

What is renamed are the names that a file of crates/*/specs or crates/*/proofs declares by a signature. A name that begins with a capital keeps its capitals.
A name that a file imports from a library keeps its spelling in that file. Functions of src/, strings, inputs and outputs keep their names.
Where a definition and a lemma about it would fall together, the lemma gets `_law`, as in `step_one_law`, the law of `step_one`; fields of records do not fall together with definitions.
"""

import os
import re
import sys

WORD = r"[^\s(){}\[\];,.λ`\"]+"
# The names that port.py itself has turned in crates/*.antt and *.rt, and in no edit and no page.
PORTED = """
a-first add-a add-at add-r add-start after-first after-none after-one all-back all-fit all-made all-read all-same allBelow allRows and-assoc and-both and-left and-no
and-parts and-right andThen any-at any-none any-place any-same as-first as-read as-rows at-byte at-once at-rest below-more below-none both-at both-true by-field by-first
by-form by-left by-lines by-may by-number by-one by-order by-place by-read by-size by-state by-tests by-turn byId bytesOf callsOf cast-is choose-spec count-fits countOf
distance-back distanceOf div-grows done-all done-next done-none doneOf drop-all drop-at each-all each-more each-next each-none each-of each-same end-of enum-told
every-append every-drop every-more every-take field-back fill-one filled-next first-back first-holds first-next firstAt firstOf fits-both fits-in fitted-none fixed-same
found-at found-below found-here found-none found-nowhere four-bytes getD-any getD-replicate goes-on going-on has-more has-one held-on hold-row idOf ids-more in-order
in-place in-rows in-use isEmpty job-one jobOf kept-full kept-here kept-next left-down left-le left-split leftOf lessOf lies-in lies-out line-other lineOf linesFrom
linesOf map-at mapped-at markOf meets-at mul-is mul-ok mul-wide needOf next-fits next-low next-of no-field no-line no-number no-other no-record no-test noRow noRun
none-any none-here none-read numberOf one-below one-by-one one-each one-free one-from one-holds one-more one-of-two one-place one-unit ones-none only-zero or-assoc or-no
order-is orderOf others-below owed-none ownOf partForm passed-first passed-is passed-none perm-same pick-next pick-spec place-at placesOf planAt planOf product-small
put-front put-holds put-one put-refused put-spec put-then put-whole putIn read-found read-is read-right read-spec readOf readingOf reads-at row-at row-back row-low
row-next row-of row-reads row-told row-within rowAt rowOf rowOk rows-are rows-back rows-in rows-last rows-ok rowsAt run-is runOf runRow same-ahead same-at same-bytes
same-flags same-head same-id same-length same-place same-row same-spec same-tables says-at second-holds sets-more size-in size-small slot-is slotOf slots-end slotsOf
so-far spare-low start-back start-spec startOf started-with starts-none stays-at step-past still-formed stored-at stored-back stored-low stored-ok stored-row sub-at
sum-more sumOf tableOf take-all take-more there-and-back to-make too-far too-large too-long too-many too-short two-bytes up-more upTo valueOf walked-none walked-on
was-read width-spec window-more window-same with-rows write-spec writes-again writtenOf yes-or-no zero-field
""".split()

# Lemmas among these that would fall together with a definition, once that is in snake case. (In planning `in_order` is a function of src/.)
LAWS = {"in_order": "in_order_law", "rows_in": "rows_in_law", "stored_ok": "stored_ok_law"}

MODIFIERS = r"(?:(?:private|unfoldable|abbrev|pub)\s+)*"
DECLARED = re.compile(r"^(\s*)" + MODIFIERS + r"(?:data\s+|record\s+)?(" + WORD + r"(?:\s+" + WORD + r")*?)(?:\s+[({].*?[)}])*\s+:\s")
IMPORT = re.compile(r"^\s*(?:ghost\s+|pub\s+)*use\s+([\w.'-]+)\.\{([^}]*)\}")


def snake(name):
    if name[:1].isupper():
        return name.replace("-", "_")
    return re.sub(r"([a-z0-9])([A-Z])", lambda m: m[1] + "_" + m[2].lower(), name.replace("-", "_"))


def files(root, endings):
    for folder, dirs, names in os.walk(root):
        dirs[:] = sorted(d for d in dirs if d not in ("out", "target", ".git"))
        for name in sorted(names):
            if name.endswith(endings):
                yield os.path.join(folder, name)


def read(path):
    with open(path, encoding="utf-8", newline="") as f:
        return f.read()


def declared(root):
    """Each declared name with the places of its declarations: (file, whether it is no field of a record)."""
    found = {}
    for path in files(os.path.join(root, "crates"), ".antt"):
        record = None
        for line in read(path).splitlines():
            if not line.strip() or line.lstrip().startswith(("--", "use ", "pub use ", "module ")):
                continue
            indent = len(line) - len(line.lstrip())
            if record is not None and indent <= record:
                record = None
            m = DECLARED.match(line)
            if record is None and re.match(r"\s*(pub )?record\b", line):
                record = indent
                m and found.setdefault(m[2], []).append((path, True))
                continue
            if m and "=" not in m[2].split() and "→" not in m[2].split():
                for name in m[2].split():
                    found.setdefault(name, []).append((path, record is None))
    return found


def table(found):
    """Old name to new name, and the lemmas (hyphened, no fields) that would fall together with a definition."""
    new, lemma = {}, {}
    definitions = {snake(n) for n in found if "-" not in n and any(top for _, top in found[n])}
    for name, places in found.items():
        to = snake(name)
        if to == name:
            continue
        new[name] = to
        if "-" in name and to in definitions:
            homes = [p for p, top in places if top]
            if homes:
                lemma[name] = to + "_law"
    return new, lemma


def imported(text):
    """The names that a file takes from a library, none of ours."""
    out = set()
    for line in text.splitlines():
        m = IMPORT.match(line)
        if m and not (m[1].startswith("Rattle.") and m[1].split(".")[1] in OURS):
            out |= {w.strip() for w in m[2].split(",")}
    return out


def respelled(text, new, keep, hyphens=True):
    def one(m):
        w = m[0]
        if w in keep or w not in new or not (hyphens or "-" not in w):
            return w
        return new[w]

    return re.sub(WORD, one, text)


def antt(text, new):
    keep = imported(text)
    out = []
    for line in text.split("\n"):
        code, dash, said = line.partition("-- ") if line.lstrip().startswith("--") or " -- " in line else (line, "", "")
        said = re.sub(r"`([^`]*)`", lambda m: "`" + respelled(m[1], new, keep) + "`", said)
        out.append(respelled(code, new, keep) + dash + respelled(said, new, keep, hyphens=False))
    return "\n".join(out)


def source(text, new):
    """Clauses, ghost items and comments of a .rt file; nothing else of it."""
    keep, out, open_braces = imported(text), [], 0
    for line in text.split("\n"):
        bare = line.lstrip()
        if open_braces or re.match(r"(ghost|requires|ensures|invariant|decreases)\b", bare):
            open_braces += line.count("{") - line.count("}")
            out.append(respelled(line, new, keep))
        elif bare.startswith("//"):
            out.append(respelled(line, new, keep, hyphens=False))
        else:
            out.append(line)
    return "\n".join(out)


def edit(text, new):
    spec = ".antt" in text.split("\n", 1)[0]
    return "\n".join(respelled(l, new, set(), hyphens=spec) if l.startswith(("old:", "new:")) else l for l in text.split("\n"))


def page(text, new):
    text = re.sub(r"`([^`\n]*)`", lambda m: "`" + respelled(m[1], new, set()) + "`", text)
    return respelled(text, new, set(), hyphens=False)


def main(root):
    global OURS
    OURS = set(os.listdir(os.path.join(root, "crates")))
    found = declared(root)
    new, lemma = table(found)
    for path in files(root, (".antt", ".rt", ".edit", ".md")):
        text = read(path)
        rel = os.path.relpath(path, root)
        laws = {n: to for n, to in LAWS.items() if not (n == "in_order" and rel.startswith("crates/planning/"))}
        here = {**laws, **new, **lemma}
        turn = antt if rel.endswith(".antt") else source if rel.endswith(".rt") else edit if rel.endswith(".edit") else page
        if turn in (page, edit):
            here = {**{n: LAWS.get(snake(n), snake(n)) if "-" in n else snake(n) for n in PORTED}, **new, **lemma}
        if turn is page and os.path.basename(rel) in ("PORT.md", "DESIGN-PASS.md"):
            continue
        to = turn(text, here)
        if to != text:
            with open(path, "w", encoding="utf-8", newline="") as f:
                f.write(to)
    print(f"respell: {len(new)} names, {len(lemma)} of them laws beside a definition of their name: {', '.join(sorted(lemma.values()))}")


if __name__ == "__main__":
    main(sys.argv[1] if len(sys.argv) > 1 else ".")
