#!/usr/bin/env python3
"""Brings the repository's own definitions and lemmas to the spelling of the newer Rattle, after its port script.

    tools/snake_names.py [--list]      at the top of the repository; --list prints the names and changes nothing

Words are in snake case: a name in camel case gets underscores. Types are in camel case. A dash joins two names and stands in lemmas alone: in a lemma it stays between two words that
are names by themselves, as in `length-drop`, and is an underscore elsewhere; in a definition, a field or a constructor it is an underscore. Names that come
from src/ and names that Rattle generates keep their spelling. It was run twice (docs/PORT.md): names that the first run makes are names that dashes may join.
"""
import glob
import re
import sys

WORD = re.compile(r"[^\s(){}\[\];,.:\"`@«»|]+")
SIGNATURE = re.compile(r"((?:abbrev |unfoldable |pub |data |record )*)([^\s:(){}\"]+)\s*(?:[({].*[)}]\s*)*:(?:\s|$)")
FIELD = re.compile(r"\s+(pub )?([a-z][^\s:(){}\"]*(?: [a-z][^\s:(){}\"]*)*) : ")
# Words of the library that lemmas join to.
LIBRARY = set("length map append take drop cond reverse replicate sum max min set get_or filter zip".split())


# What the port script had respelled already, but not in the edits and the pages.
PORTED = """
after-one all-are all-in all-take among-first answerOf as-is as-read at-most at-none at-once back-alone back-by back-low bits-none both-halves
bound-of by-byte by-flags by-front by-length by-row byte-width bytes-back bytes-drop call-ends classOf closed-is code-at code-is code-of codesOf
counts-end counts-start covered-none cut-short each-at each-row either-way every-drop few-bytes few-past filled-more filled-next filled-none
filled-put first-code first-signed fit-stays flagsOf flatten-left found-from found-none found-part found-some four-bytes from-low front-read go-on
goes-on going-on held-bytes heldOf high-half is-code is-cut is-held is-live is-none is-open is-read is-some item-back itemOf join-last kindOf laid-end
laid-in last-letter last-snoc last-turn lastOf left-over low-first low-half low-value minus-one more-room no-code no-length no-more no-room no-sign
none-below none-first none-left not-code one-byte one-code one-number one-of one-state opens-one pair-code part-held part-length part-none past-bytes
past-end place-is placeOf plain-form plain-runs put-first put-four put-same put-three put-two read-back read-next read-none reads-all reads-none
reads-on rows-of rowsOf run-length same-bytes same-codes scalar-below so-far some-fits span-more span-none split-one starts-from starts-none step-back
step-by step-is step-part stepOf takes-none there-and-back thirty-two to-start told-is told-part too-long turnOf two-bytes two-none units-of
updated-none value-low values-length walk-first walk-none walked-all walking-here walking-on walking-start went-on write-bytes write-read writes-at
writes-bytes writes-nothing writes-one writes-short written-out writtenOf
""".split()


def sources(kind):
    return sorted(glob.glob(f"crates/*/{kind}/**/*.antt", recursive=True))


def generated(path):
    """A proof of one function: what it defines beside lemmas is named by Rattle."""
    return path.endswith("/Proof.antt")


def collect():
    words, lemmas = {}, {}
    for kind in ("specs", "proofs"):
        for path in sources(kind):
            inside = None
            for line in open(path, encoding="utf-8"):
                if line.startswith(("--", "use ", "pub use ", "pub mod ", "mod ", "infix")):
                    continue
                if line[:1] not in " \n":
                    found = SIGNATURE.match(line)
                    if not found:
                        continue
                    inside = None
                    marks, name = found.groups()
                    if "data" in marks or "record" in marks:
                        inside = "record" if "record" in marks else "data"
                        continue
                    rest = line[found.end():]
                    if generated(path) and (rest.lstrip().startswith(("tie.", "goal.")) or name.endswith("-spec")):
                        continue
                    word = kind == "specs" or "abbrev" in marks or "unfoldable" in marks
                    (words if word else lemmas).setdefault(name, []).append(path)
                elif inside:
                    found = FIELD.match(line)
                    if found:
                        for name in found.group(2).split():
                            words.setdefault(name, []).append(path)
    return words, lemmas


def snake(part):
    return re.sub(r"(?<=[a-z0-9])(?=[A-Z])", "_", part)


def camel(name):
    return name[:1].islower() and re.search(r"[a-z0-9][A-Z]", name) and "-" not in name and "+" not in name


def renamings(words, lemmas):
    out = {name: snake(name).lower().replace("-", "_") for name in PORTED}
    for name in words:
        new = name
        if camel(name):
            new = snake(name).lower()
        elif "-" in name and name[:1].isupper() and "+" not in name:
            new = "".join(p[:1].upper() + p[1:] for p in name.split("-"))
        elif "-" in name and name[:1].isalpha() and "+" not in name:
            new = name.replace("-", "_")
        if new != name:
            out[name] = new
    known = {out.get(n, n) for n in words} | LIBRARY | set(out.values())
    for name in lemmas:
        if name in out or not name[:1].isalpha() or "+" in name:
            continue
        if camel(name):
            out[name] = snake(name).lower()
            continue
        if "-" not in name:
            continue
        parts = [snake(p).lower() if camel(p) else p for p in name.split("-")]
        pieces, at = [], 0
        while at < len(parts):
            for end in range(len(parts), at, -1):
                if "_".join(parts[at:end]) in known:
                    break
            pieces.append("_".join(parts[at:end]))
            at = end
        new = pieces[0]
        for before, piece in zip(pieces, pieces[1:]):
            new += ("-" if before in known and piece in known else "_") + piece
        if new != name:
            out[name] = new
    return out


def imported_elsewhere(text):
    """The names that a file has from outside the repository."""
    ours = {p.split("/")[1] for p in glob.glob("crates/*")}
    out = set()
    for path, names in re.findall(r"^(?:ghost |pub )*use ([^\s{;]+?)\.\{([^}]*)\}", text, re.M):
        parts = path.split(".")
        if not (parts[0] == "Rattle" and len(parts) > 1 and parts[1] in ours):
            out.update(n.strip() for n in names.split(","))
    return out


def main():
    words, lemmas = collect()
    names = renamings(words, lemmas)
    taken = {}
    for old in list(words) + list(lemmas):
        taken.setdefault(names.get(old, old), set()).add(old)
    together = {new: olds for new, olds in taken.items() if len(olds) > 1}
    for new, olds in sorted(together.items()):
        print("together:", new, *sorted(olds))
    if "--list" in sys.argv:
        for old, new in sorted(names.items()):
            print(old, new)
        return
    def turn(text, keep):
        return WORD.sub(lambda m: m.group() if m.group() in keep else names.get(m.group(), m.group()), text)

    def quoted(text, keep):
        """Prose: only what stands between two backticks is a name."""
        return re.sub(r"`[^`\n]+`", lambda m: turn(m.group(), keep), text)

    def line_of(path, line, keep):
        if path.endswith(".md") or line.lstrip().startswith(("--", "//", "#")):
            return quoted(line, keep)
        if path.endswith(".rt") and not re.match(r"\s*(ghost use|requires|ensures|ghost)\b", line):
            return line
        if path.endswith(".edit") and "\"" in line:
            return line
        if path.endswith(".edit"):
            line = re.sub(r"(?<=[\w)}']) (?=\.[a-z])", "", line)
        code, mark, comment = line.partition(" -- " if path.endswith(".antt") else " // ")
        return turn(code, keep) + mark + quoted(comment, keep)

    for path in sorted(
        sources("specs") + sources("proofs")
        + glob.glob("crates/*/src/**/*.rt", recursive=True)
        + glob.glob("crates/*/must-fail/*.edit")
        + glob.glob("docs/**/*.md", recursive=True) + ["README.md"]
    ):
        text = open(path, encoding="utf-8").read()
        keep = imported_elsewhere(text)
        new = "".join(line_of(path, line, keep) for line in text.splitlines(keepends=True))
        if new != text:
            open(path, "w", encoding="utf-8").write(new)


main()
