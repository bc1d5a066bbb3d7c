#!/usr/bin/env python3
"""Brings the repository's own definitions and lemmas to the spelling of today's Rattle: run once, at the top, after port.py.

Definitions: camel case becomes snake case (`gpiAt`, `gpi_at`). Lemmas: a dash stays where a definition's name stands before it
(`num-lt`, `length-fill`), and any other becomes `_` (`known_lt`). The proof of a function f is `f_spec`. The must-fail edits and the
pages of docs/ follow. Functions of src/, exported names, strings, inputs and outputs keep their names. A new name that fell together
with another one in a file is reported, and nothing is written then; --force writes all the same (those reported here are a function of
src/ or a crate beside a definition, looked at by eye).
"""
import glob
import re
import sys

TOKEN = r"[^\s(){}\[\];,.·«»:`\"'λ]+"
# names of the toolchain's that look like ours
KEEP = {"shr_slice_Lawful", "shr_slice_Tells", "uint_Makes", "uint_Tells", "walk_Meets"}
# names that port.py itself turned in the crates: the pages and the edits follow
PORTED = """
alike-of alike-spec all-done all-made all-of all-replicate all-set all-words and-both and-left and-right answerOf
apart-of at-new at-top base-back bits-most bitsOf block-no block-spec blockOf by-parts bytes-pow bytesOf chunk-end
chunk-of codeOf copy-more countOf cut-all digit-low distanceOf each-append each-of each-take each-word enter-spec
enum-told every-of few-words fields-back fieldsAt fieldsOf fill-done fill-none fill-spec fill-suc find-spec first-rest
flagsOf flat-after formatOf found-as front-fits fuse-done fused-keeps goes-end goes-on goes-same headOf heldAt imageOf
in-table inB is-word kept-table known-same knownAt laid-in laid-same last-done lastOf lay-at lead-is length-cut
length-more length-some lentBy let-through level-in log-is made-table make-meets make-spec make-walks map-apply map-at
mask-is match-is matchOf mul-words named-in namedBy no-stores none-left none-yet not-found nothing-left number-more
of-one of-parts of-words one-end one-left one-more only-one part-in part-lies part-out parts-at parts-from placeOf
placed-by put-keeps put-other put-reads put-same put-spec read-back read-is read-spec readLog readOf readingOf reads-all
repeated-lt restOf room-next run-take same-alike same-answer same-length same-of same-place same-reads same-spec
scan-step seenAt set-spec setAt shift-one shifted-in size-is size-none size-small sizeAt sizeOf small-put so-far
some-first span-pos spotOf step-same stored-is storesOf sub-spec table-of tableAt tableOf tallyOf target-told targetOf
the-one there-and-back through-walks told-back top-in validOf walk-end word-lt word-set wordOf words-append words-more
yes-true
""".split()
HEADS = {"length", "map", "set", "take", "drop", "get_or", "append", "apply", "sets", "getD"}


def snake(w):
    if w.startswith("getD-"):
        w = "get_or-" + w[len("getD-"):]
    w = re.sub(r"(?<=[a-z0-9])([A-Z])(?![a-z])", lambda m: "_" + m.group(1).lower(), w)
    return re.sub(r"(?<=[a-z0-9])([A-Z])", lambda m: "_" + m.group(1).lower(), w)


def antt():
    return [f for f in sorted(glob.glob("crates/*/specs/**/*.antt", recursive=True) + glob.glob("crates/*/proofs/**/*.antt", recursive=True))]


def is_lemmas(f):
    return not f.endswith(("/Proof.antt", "/Answers.antt", "/Invariants.antt"))


def declared(f):
    names = []
    for line in open(f, encoding="utf-8"):
        if line.startswith(("use ", "pub use ", "--", "module ", "open ", "mod ", "pub mod ")):
            continue
        m = re.match(r"^\s*(?:unfoldable |abbrev |pub )*(?:record |data )?(" + TOKEN + r") *(?:\{[^}]*\} *)?: ", line)
        if m:
            names.append((m.group(1), len(line) - len(line.lstrip()), "pub " in line[:m.start(1)]))
    return names


def main():
    files = antt()
    texts = {f: open(f, encoding="utf-8").read() for f in files}
    camel, dashed, defined, everything, fields = set(), set(), set(), set(), set()
    for f in files:
        for m in re.finditer(TOKEN, texts[f]):
            w = m.group(0)
            everything.add(w)
        for w, indent, public in declared(f):
            if re.match(r"[a-z]", w) and re.search(r"[A-Z]", w) and w not in KEEP:
                camel.add(w)
            if is_lemmas(f) and (indent == 0 or public):
                if "-" in w:
                    dashed.add(w)
                    if indent and "/specs/" in f:
                        fields.add(w)
                if "/specs/" in f and "-" not in w and indent == 0:
                    defined.add(w)
    heads = {snake(w) for w in defined} | HEADS
    new = {}
    for w in camel | dashed:
        n = snake(w) if w in camel and not re.search(r"-[A-Z]", w) else w
        if w in dashed:
            parts = n.split("-")
            out = parts[0]
            for p in parts[1:]:
                out += ("-" if out in heads else "_") + p
            n = out
        if n != w:
            new[w] = n
    # a lemma whose new name would be its function's
    new.update({w: w.replace("-", "_") + "_lem" for w in ("dump-text", "granule-store", "refusal-number", "shown-steps", "size-num", "table-text")})
    falls = [(w, n) for w, n in new.items() if n in everything or list(new.values()).count(n) > 1]
    # a new name may stand already as a name of the code, a local one or a library's: those are looked at by eye, and pass where no file
    # that has the one has the other
    bad = [(w, n, f) for w, n in falls for f in files if re.search(r"(?<![\w-])" + re.escape(w) + r"(?![\w-])", texts[f])
           and re.search(r"(?<![\w.-])" + re.escape(n) + r"(?![\w-])", texts[f])]
    for w, n, f in bad:
        print("falls together:", w, n, f)
    if bad and "--force" not in sys.argv:
        sys.exit(1)

    def turn(text):
        def one(m):
            w = m.group(0)
            if w not in new:
                return w
            before = text[:m.start()]
            if before.endswith(".") and w in dashed and w not in fields and not re.search(r"[A-Z]\w*\.$", before):
                return w            # a step's name in a path
            return new[w]
        return re.sub(TOKEN, one, text)

    for f in files:
        t = turn(texts[f])
        if f.endswith("/Proof.antt"):
            t = re.sub(r"(?<![\w.-])([a-z0-9+_-]+)-spec(?![\w-])", lambda m: m.group(1).replace("-", "_") + "_spec", t)
        if t != texts[f]:
            open(f, "w", encoding="utf-8").write(t)
    for f in glob.glob("crates/*/src/**/*.rt", recursive=True):
        t = open(f, encoding="utf-8").read()
        n = re.sub(TOKEN, lambda m: new[m.group(0)] if m.group(0) in camel and m.group(0) in new else m.group(0), t)
        if n != t:
            open(f, "w", encoding="utf-8").write(n)
    named = {w: snake(w).replace("-", "_") for w in PORTED}
    named.update(new)
    named.update({"getD": "get_or", "_≡_": "◌≡◌"})

    def clause(line):
        line = re.sub(r"λ (\w+)\. ⌜ (.*?) ⌝", lambda m: re.sub(r"\b" + m.group(1) + r"\b", "result", m.group(2)), line)
        line = re.sub(r"now \((\w+) \.entry( \.(\w+))?\)", lambda m: m.group(1) + ".now" + ("." + m.group(3) if m.group(3) else ""), line)
        line = re.sub(r"(?<=[\w)}]) \.(?=[a-z0-9_])", ".", line)
        return re.sub(r"(?<= )\((\w+(?:\.\w+)+)\)", r"\1", line)

    for f in glob.glob("crates/*/must-fail/*.edit") + glob.glob("docs/*.md") + ["README.md"]:
        t = open(f, encoding="utf-8").read()
        n = re.sub(TOKEN, lambda m: named.get(m.group(0), m.group(0)), t)
        if f.endswith(".edit"):
            # as port.py turns a projection and a clause
            n = "\n".join(clause(l) if l.startswith(("old:", "new:")) else l for l in n.split("\n"))
        if n != t:
            open(f, "w", encoding="utf-8").write(n)
    for w in sorted(new):
        print(w, new[w])


main()
