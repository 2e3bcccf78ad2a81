"""The documents say what is there, and what can be printed no document keeps.

docs.py                   checks, says each difference, and exits 1 if there is one
docs.py sizes             a table of the crates: lines of code, definitions and proofs, public functions, edits
docs.py edits [CRATE...]  the must-fail edits, each with its first line
docs.py crates            a table of the crates: what each uses, and what it is

What it checks: the header, README.md and the man pages have the same flags, answers and prototypes. Every path that
a document names exists. docs/PROMISES.md has a section for each crate that has public functions or definitions, and
every public function; docs/DESIGN.md has every crate; both name nothing that is not there. Each edit says in its first
line what it is, and can be made. Each public function has two edits by its name. The methods of a public trait, and what
an impl promises by a ghost member, as From does, count as public functions.
"""
import functools
import pathlib
import re
import sys

TOP = pathlib.Path(__file__).resolve().parent.parent
QUOTED = re.compile(r"`([^`\n]+)`")
# Words in backquotes that the crates do not define: of the toolchain, of Rattle and of its logic.
OTHER = {"rt", "requires", "ensures", "tt", "++", "u8", "u32", "u8::from", "u32::from", "impl", "From", "TryFrom", "Display", "Ok"}
# What a line of Rattle defines, and what a line of definitions or proofs does: there also the fields and constructors.
RATTLE = re.compile(r'^\s*(?:pub )?(?:extern "C" )?(?:fn|struct|enum|trait|const) (\w+)', re.M)
VARIANT = re.compile(r"^    ([A-Z]\w*)(?: = \d+|\(.*\))?,$", re.M)
ANTT = re.compile(
    r"^(?:  )?(?:  (?=pub ))?(?:(?:abbrev|unfoldable|pub|data|record) )*([^-\s(){}:=][^(){}:=\n]*?)(?: [({].*)? :", re.M
)
PUBLIC = re.compile(r'^\s*pub (?:extern "C" )?fn (\w+)')
TRAIT = re.compile(r"^pub trait (\w+)(?:.*\n)*?}", re.M)
# The function that a ghost member of an impl makes a promise of.
PROMISED = {"from_gives": "from", "try_from_gives": "try_from", "next_gives": "next", "output": "fmt"}
IMPL = re.compile(r"^impl(?:<[^>\n]*>)? [\w:]+(?:<(\w+)>)? for (\w+)(?:.* {}$|(?:.*\n)*?})", re.M)
checked = 0
wrong = []


def expect(holds, what):
    global checked
    checked += 1
    if not holds:
        wrong.append(what)


# ---- the tree

@functools.cache
def text(path):
    return (TOP / path).read_text(encoding="utf-8")


@functools.cache
def crates():
    """Each crate and those that it uses, in the order of crates.txt. Behind a name may stand what kind of crate it is."""
    lines = (re.sub(r"#.*", "", line) for line in text("crates.txt").splitlines())
    pairs = (line.split(":") for line in lines if line.strip())
    return {head.split()[0]: used.split() for head, used in pairs}


@functools.cache
def files(crate, part, pattern):
    return sorted((TOP / "crates" / crate / part).rglob(pattern))


def code(crate):
    return files(crate, "src", "*.rt")


def definitions(crate):
    return files(crate, "specs", "*.antt")


def proofs(crate):
    return files(crate, "proofs", "*.antt")


def edits(crate):
    return files(crate, "must-fail", "*.edit")


def documents():
    return sorted(TOP.glob("*.md")) + sorted(TOP.glob("docs/**/*.md"))


def pages():
    return sorted(TOP.glob("man/*.3"))


def shown(path):
    return str(path.relative_to(TOP))


@functools.cache
def public_functions(crate):
    """NAME, or TYPE::NAME for a method."""
    found = []
    for path in code(crate):
        owner = ""
        for line in text(path).splitlines():
            owner = next(iter(re.findall(r"^impl(?:<[^>]*>)? (\w+)", line)), "" if line.startswith("}") else owner)
            found += [f"{owner}::{name}" if owner else name for name in PUBLIC.findall(line)]
    return found


@functools.cache
def promised_functions(crate):
    """The methods of public traits, and those that an impl promises by a ghost member: TRAIT::NAME or TYPE::NAME, each with the types whose
    names an edit of it may begin with."""
    found = {}
    for path in code(crate):
        impls = list(IMPL.finditer(text(path)))
        for trait in TRAIT.finditer(text(path)):
            types = {impl.group(2) for impl in impls if impl.group().partition("{")[0].count(trait.group(1))}
            for name in re.findall(r"^    fn (\w+)", trait.group(), re.M):
                found[f"{trait.group(1)}::{name}"] = {trait.group(1), *types}
        for impl in impls:
            for member in re.findall(r"^    ghost (\w+) = ", impl.group(), re.M):
                if member in PROMISED:
                    found[f"{impl.group(2)}::{PROMISED[member]}"] = {impl.group(2), impl.group(1) or impl.group(2)}
    return found


@functools.cache
def names():
    """The crates, and what their code, definitions and proofs define."""
    found = set(crates())
    for crate in crates():
        for path in code(crate):
            found.update(RATTLE.findall(text(path)), VARIANT.findall(text(path)))
        for path in definitions(crate) + proofs(crate):
            found.update(name for defined in ANTT.findall(text(path)) for name in defined.split())
    return found


# ---- what is printed

def row(*cells):
    print("|", " | ".join(str(cell) for cell in cells), "|")


def sizes(crate):
    parts = (code(crate), definitions(crate), proofs(crate))
    lines = [sum(len(text(path).splitlines()) for path in part) for part in parts]
    return [*lines, len(public_functions(crate)), len(edits(crate))]


def print_sizes():
    rows = {crate: sizes(crate) for crate in crates()}
    row("crate", "code", "definitions", "proofs", "public functions", "edits")
    row("---", *["--:"] * 5)
    for crate, numbers in rows.items():
        row(f"`{crate}`", *numbers)
    row("all", *(sum(column) for column in zip(*rows.values())))


def print_edits(*chosen):
    for crate in chosen or crates():
        for edit in edits(crate):
            print(f"{crate}/{edit.stem}: {text(edit).partition(chr(10))[0].removeprefix('# ')}")


def about(crate):
    """The first comment of its code or, where that has none, of its definitions."""
    roots = [path for path in code(crate) if path.name in ("lib.rt", "main.rt")]
    comments = (re.match(r"(?://|--) (.*)", text(path)) for path in roots + definitions(crate))
    return next((comment.group(1) for comment in comments if comment), "")


def print_crates():
    row("crate", "uses", "what it is")
    row("---", "---", "---")
    for crate, used in crates().items():
        row(f"`{crate}`", " ".join(used), about(crate))


# ---- the header, README.md and the man pages

def header():
    return re.sub(r"/\*.*?\*/", "", text("include/utf8b.h"), flags=re.S)


def check_numbers():
    defined = {name: number.strip("()u") for name, number in re.findall(r"^#define (UTF8B_\w+) +(\S+)", header(), re.M)}
    listed, told = set(), set()
    for page in pages():
        for item, name, number in re.findall(r"^\.(It )?Dv (\w+)(?: |\n\.)Pq (.*?)(?: \.)?$", text(page), re.M):
            expect(defined.get(name) == re.sub(r"[\\,]", "", number), f"{shown(page)}: {name} is not {number}")
            told.add(name)
            listed.update({name} if item else ())
    rows = dict(re.findall(r"^\| `(UTF8B_\w+)` \| (\S+) \|", text("README.md"), re.M))
    for name, number in rows.items():
        expect(defined.get(name) == number, f"README.md: {name} is not {number}")
    for name in defined:
        expect(name in told, f"man: no page has the number of {name}")
        expect(name in rows or name not in listed, f"README.md: no row of {name}")
    for path in [TOP / "README.md", *pages()]:
        for name in set(re.findall(r"(?<!^\.Dt )\bUTF8B_\w+", text(path), re.M)):
            expect(name in defined, f"{shown(path)}: {name} is not in the header")


def words(declaration):
    """With a space only where C needs one."""
    return re.sub(r" ?([(),;*]) ?", r"\1", re.sub(r"\s+", " ", declaration)).strip()


def page_prototypes(page):
    for kind, name, lines in re.findall(r"^\.Ft (.*)\n\.Fo (\w+)\n((?:\.Fa .*\n)*)\.Fc", text(page), re.M):
        arguments = ", ".join(re.findall(r'^\.Fa "?(.*?)"?$', lines, re.M))
        yield name, words(f"{kind} {name}({arguments});")


def check_prototypes():
    declared = {name: words(whole) for whole, name in re.findall(r"^(\w[\w *]*?\b(\w+)\([^;{}]*\);)", header(), re.M)}
    expect(declared, "include/utf8b.h: no prototypes")
    paged = {name: (page, prototype) for page in pages() for name, prototype in page_prototypes(page)}
    for name, prototype in declared.items():
        expect(name in paged, f"man: no page of {name}")
        expect(prototype in words(text("README.md")), f"README.md: the prototype of {name}")
    for name, (page, prototype) in paged.items():
        expect(declared.get(name) == prototype, f"{shown(page)}: the prototype of {name}")


# ---- paths and names

@functools.cache
def exists(path):
    """A path may begin at the top, in crates/ or in a crate, a bare name in any folder but what rt makes; CRATE stands for any crate."""
    starts = ("", "crates/", "crates/*/") if "/" in path else ("", "*/", "crates/*/*/", "crates/*/*/*/")
    found = (file for start in starts for file in TOP.glob(start + path.rstrip("/").replace("CRATE", "*")))
    return any(file.relative_to(TOP).parts[2:3] != ("out",) for file in found)


def check_paths(document):
    for word in QUOTED.findall(text(document)):
        if word.startswith(("out/", "build/")) or re.match(r"crates/\w+/out/", word):
            continue
        if re.fullmatch(r"[\w.*-]*\w[\w.*-]*/[\w./*-]*|[\w-]+\.(?:md|txt|c|h|py|antt)", word):
            expect(exists(word), f"{shown(document)}: no {word}")
    for link in re.findall(r"\]\(([^):#]+)", text(document)):
        expect((document.parent / link).exists(), f"{shown(document)}: no {link}")


def check_names(document, passage):
    for word in set(QUOTED.findall(passage)) - OTHER:
        if not re.search(r"[/.= ]", word):
            expect(names().issuperset(word.split("::")), f"{document}: no {word}")


def check_promises():
    document = "docs/PROMISES.md"
    check_names(document, text(document))
    parts = re.split(r"^## (?:`(\w+)`)?.*$", text(document), flags=re.M)
    sections = dict(zip(parts[1::2], parts[2::2]))
    for crate in crates():
        functions = {*public_functions(crate), *promised_functions(crate)}
        expect((crate in sections) == bool(functions or definitions(crate)), f"{document}: the section of {crate}")
        told = set(re.findall(r"^- \*\*`([\w:]+)`", sections.get(crate, ""), re.M))
        expect(told == functions, f"{document}: the functions of {crate}: {sorted(told ^ functions)}")


def check_design():
    """Each of its tables of crates has them all, in its first column."""
    document = "docs/DESIGN.md"
    check_names(document, text(document))
    for title, table in re.findall(r"^\| crates? \| (.*?) \|.*\n((?:\|.*\n)*)", text(document), re.M):
        rows = set(QUOTED.findall("".join(re.findall(r"^\|.*?\|", table, re.M))))
        for crate in crates():
            expect(crate in rows, f"{document}: {title}: no row of {crate}")


# ---- edits

def replacements(edit):
    """Each file with its old and its new text; None stands for what is not there."""
    file = old = None
    for line in text(edit).splitlines():
        if line.startswith(("file: ", "old: ")) and old is not None:
            yield file, old, None
            old = None
        if line.startswith("file: "):
            file = line.removeprefix("file: ")
        elif line.startswith("old: "):
            old = line.removeprefix("old: ")
        elif line.startswith("new:"):
            yield file, old, line.removeprefix("new:").removeprefix(" ")
            old = None
    if old is not None:
        yield file, old, None


def check_edit(crate, edit):
    remarks = re.findall(r"^#", text(edit), re.M)
    expect(len(remarks) == 1 and re.match(r"# \S", text(edit)), f"{shown(edit)}: not one comment, as the first line")
    expect(any(replacements(edit)), f"{shown(edit)}: nothing is replaced")
    folder = TOP / "crates" / crate
    edited = {str(path.relative_to(folder)): text(path) for path in code(crate) + definitions(crate)}
    for file, old, new in replacements(edit):
        times = edited.get(file, "").count(old) if old else 0
        expect(times == 1, f"{shown(edit)}: old: stands {times} times in {file}: {old}")
        expect(new is not None, f"{shown(edit)}: no new: for {old}")
        edited[file] = edited.get(file, "").replace(old or "", new or "", 1)


def check_edits():
    for crate in crates():
        for edit in edits(crate):
            check_edit(crate, edit)
        for function in public_functions(crate):
            start = function.replace("::", "-") + "-"
            count = sum(edit.name.startswith(start) for edit in edits(crate))
            expect(count >= 2, f"crates/{crate}: {function} has {count} of 2 edits ({start}*.edit)")
        for function, types in promised_functions(crate).items():
            name = function.partition("::")[2]
            start = re.compile(rf"(?:(?:{'|'.join(sorted(types))})-)?{name}\d*-")
            count = sum(bool(start.match(edit.name)) for edit in edits(crate))
            expect(count >= 2, f"crates/{crate}: {function} has {count} of 2 edits ({name}-*.edit)")


def check():
    check_numbers()
    check_prototypes()
    for document in documents():
        check_paths(document)
    check_promises()
    check_design()
    check_edits()
    for what in wrong:
        print(what)
    print(f"{checked} checks, {len(wrong)} differences")
    return 1 if wrong else 0


def main(command="", *chosen):
    printers = {"sizes": print_sizes, "edits": print_edits, "crates": print_crates}
    if not command:
        return check()
    if command not in printers or (chosen and command != "edits") or not set(chosen) <= set(crates()):
        print(__doc__, file=sys.stderr)
        return 2
    printers[command](*chosen)
    return 0


if __name__ == "__main__":
    sys.exit(main(*sys.argv[1:]))
