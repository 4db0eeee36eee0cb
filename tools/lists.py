"""tools/lists.py: the parts of pages that tools/make writes.

Some stand in place between two marks.

In the README.md of each crate: the crates that it depends on, and its files of src/ and specs/,
each with the first sentence at its head. In docs/DESIGN.md: the kinds of crates with their lines,
and all crates by kind, each with the first sentence of its lib.rt or main.rt. In docs/THEOREM.md:
the record of the theorem.

Others are tables, each in the place of a mark, in copies of pages that tools/make writes to out/docs:
of docs/PROMISES.md, docs/LAWS.md and the page of nm_callers. They are the laws of a crate, its calls,
or its callers. The laws are the public functions without parameters, the calls
are those that ensure something by a name, and the callers are all public functions. Each has the
words above it and these names.
"""
import os
import re

from sources import (
    TOP, closing, crates, files, first_sentence, read, record_of, source, text_of)

CITED = re.compile(r"(?: \((?:[^()]|\([^()]*\))*\.\))+$")  # sentences in brackets at the end
PART = re.compile(r"(<!-- written by tools/make --lists -->\n)(.*?)(<!-- end -->\n)", re.S)
TABLE = re.compile(r"<!-- (laws|calls|callers) of (\w+): tools/make puts their table here, in out/docs -->\n")
LINK = re.compile(r"(\]\()(?!https?:|#)([^)\s]+)")
HEADS = {"src": ("//!", ".rt"), "specs": ("--", ".antt")}
HEADLESS = {"Lib.antt", "tests.rt"}  # a list of modules, and tests of one crate
OF_ERRORS = {"anyhow", "core", "thiserror"}
DESIGN, THEOREM = "docs/DESIGN.md", "docs/THEOREM.md"
# The pages with such tables, by the name of the copy.
WITH_TABLES = {
    "PROMISES.md": "docs/PROMISES.md",
    "LAWS.md": "docs/LAWS.md",
    "CALLERS.md": "crates/nm_callers/README.md",
}
WHERE = ("What is proved of it: [PROMISES](../../docs/PROMISES.md); what is open:\n"
         "[OPEN](../../docs/OPEN.md#what-is-open).")
# Each crate is of one kind.
KINDS = {
    "runs in a program": "nm_edge nm_lending nm_limbo nm_model nm_steps nm_pool nm_epoch nm_walks "
                         "nm_calls nm_puts nm_tree nm_set nm_shared nm_set_c",
    "proofs alone": "nm_laws nm_order nm_theorem nm_progress",
    "tools": "nm_core nm_files nm_replay nm_serial nm_stress",
    "tests, callers and benches": "map_tests nm_callers nm_tests refused_growths set_bench set_tests",
}
NO_CODE = re.compile(r"\s*(?:(?:pub )?(?:ghost )?use |(?:pub )?mod |#!?\[|;?$)")
CONTRACT = re.compile(r"\b(?:(?:requires|ensures|invariant)(?: \w+)?|decreases|ghost [^{;]*) ?\{")


def by_hand(text):
    """A page without what tools/make writes into it."""
    return PART.sub("", text)


def quoted(names):
    return ", ".join(f"`{it}`" for it in names)


def table(heads, rows):
    lines = [" | ".join(it.replace("|", "\\|") for it in row) for row in [heads, *rows]]
    found = [f"| {it} |" for it in lines]
    return "\n".join([found[0], "|" + "---|" * len(heads), *found[1:]]) if rows else ""


# ---- crates and their files


def head_of(crate, kind, path):
    """The first sentence of what stands at the head of a file, or nothing."""
    mark, lines = HEADS[kind][0], []
    for line in text_of(crate, kind, path).splitlines():
        if not line.startswith(mark) or line == mark:
            break
        lines.append(line[len(mark):].strip())
    return first_sentence(" ".join(lines))


def named_in_crates_txt():
    """Of each crate all that its line of crates.txt names."""
    lines = read(os.path.join(TOP, "crates.txt")).splitlines()
    rows = [it.partition(":") for it in lines if it and not it.startswith("#")]
    return {head.split()[0]: names.split() for head, _, names in rows}


def depends_on(crate):
    """The crates that one depends on, without those below another one of them."""
    named = named_in_crates_txt()
    below = {it for other in named[crate] for it in named.get(other, ())}
    return [it for it in named[crate] if it not in below | OF_ERRORS]


def listed(crate, kind):
    """The files of a list, the one that opens its crate first."""
    paths = [it for it in files(crate, kind, HEADS[kind][1]) if it not in HEADLESS]
    return sorted(paths, key=lambda it: (it not in ("lib.rt", "main.rt"), it))


def files_text(crate, kind):
    rows = [(f"`{it.removesuffix('.antt')}`", head_of(crate, kind, it))
            for it in listed(crate, kind)]
    return table((f"File of `{kind}`", "What it has"), rows)


def crate_text(crate):
    on = depends_on(crate)
    told = f"Depends on {quoted(on)}.\n{WHERE}" if on else WHERE
    parts = [told, files_text(crate, "src"), files_text(crate, "specs")]
    return "\n\n".join(it for it in parts if it)


def kind_of(crate):
    """The kind of a crate; nothing if none names it."""
    return next((kind for kind, named in KINDS.items() if crate in named.split()), "")


def lines_of(crate, kind):
    """The lines of a folder of a crate."""
    ending = ".rt" if kind == "src" else ".antt"
    return sum(len(text_of(crate, kind, it).splitlines()) for it in files(crate, kind, ending))


def code_of(crate):
    """The lines of src/ without comments, contracts, imports and files of tests."""
    found = 0
    for path in files(crate, "src", ".rt"):
        text = re.sub(r"//[^\n]*", "", text_of(crate, "src", path))
        while it := CONTRACT.search(text):
            text = text[: it.start()] + text[closing(text, it.end() - 1) + 1 :]
        is_test = path.endswith("tests.rt") or "tests" in path.split(os.sep)
        found += 0 if is_test else sum(not NO_CODE.match(it) for it in text.splitlines())
    return found


def kinds_text():
    """The kinds of crates with their lines, to the nearest hundred, so that it seldom changes."""
    rows = []
    for kind in KINDS:
        of_kind = [it for it in crates() if kind_of(it) == kind]
        counts = [sum(lines_of(it, folder) for it in of_kind)
                  for folder in ("src", "specs", "proofs")]
        counts.insert(1, sum(code_of(it) for it in of_kind))
        rows.append((kind, f"{len(of_kind)}", *(f"{round(it, -2):,}" for it in counts)))
    heads = ("Kind", "Crates", "Lines of `src`", "Code", "`specs`", "`proofs`")
    return table(heads, rows)


def crates_text(kind):
    rows = []
    for crate in (it for it in crates() if kind_of(it) == kind):
        main = next(it for it in ("lib.rt", "main.rt") if it in files(crate, "src", ".rt"))
        link = f"[`{crate}`](../{page_of(crate)})" if has_page(crate) else f"`{crate}`"
        rows.append((link, head_of(crate, "src", main), quoted(depends_on(crate)) or "none"))
    heads = ("Crate", "What it is", "Depends on")
    return f"**{kind[0].upper()}{kind[1:]}**\n\n{table(heads, rows)}"


def design_text():
    return "\n\n".join([kinds_text(), *map(crates_text, KINDS)])


# ---- promises


def clauses_of(function):
    """The names of what a function ensures: of its clauses, or else of the fields of a record."""
    for it in function.clauses:
        record = None if it.name else record_of(function, it)
        if it.kind == "ensures":
            yield from [it.name] if it.name else record.fields if record else []


def promised_by(crate, kind):
    """The public functions of a crate that ensure something, or do so by a name, or its laws."""
    for path in files(crate, "src", ".rt"):
        text = text_of(crate, "src", path)
        for it in source(crate, path)[0]:
            is_law = re.search(rf"^pub fn {it.name}\(\)$", text, re.M) is not None
            is_meant = is_law or kind == "callers" or kind == "calls" and any(clauses_of(it))
            if it.is_public and it.clauses and is_meant:
                yield it


def promises_text(kind, crate):
    rows = []
    for it in promised_by(crate, kind):
        clauses = quoted(clauses_of(it))
        words = CITED.sub("", it.words)
        rows.append((words, f"`{it.title}`: {clauses}" if clauses else f"`{it.title}`"))
    return table(("Promise", "Clause"), rows)


# ---- pages


def page_of(crate):
    return f"crates/{crate}/README.md"


def has_page(crate):
    return os.path.isfile(os.path.join(TOP, page_of(crate)))


def theorem_text():
    """The record of the theorem, as its file has it."""
    text = text_of("nm_model", "specs", "Headline.antt")
    record = text[text.index("pub record Headline ") :].rstrip()
    return "\n".join(f"    {it}" for it in record.splitlines())


def pages():
    """The pages with parts in place."""
    return [*(page_of(it) for it in crates() if has_page(it)), DESIGN, THEOREM]


def copied(path):
    """A page with its tables, and with links as they are from out/docs."""
    def link(it):
        target = os.path.join("..", "..", os.path.dirname(path), it[2])
        return it[1] + os.path.normpath(target)

    def rows(it):
        return f"### `{it[2]}`\n\n{promises_text(it[1], it[2])}\n"

    text = TABLE.sub(rows, read(os.path.join(TOP, path)))
    return LINK.sub(link, text)


def part_text(path):
    if path in (DESIGN, THEOREM):
        return design_text() if path == DESIGN else theorem_text()
    return crate_text(os.path.basename(os.path.dirname(path)))


def written():
    """Each of these pages: its path, its text, and as it should be."""
    for path in pages():
        text = read(os.path.join(TOP, path))
        yield path, text, PART.sub(
            lambda it, path=path: f"{it[1]}\n{part_text(path)}\n\n{it[3]}", text)


def write():
    """Writes each such part anew: how many pages were changed."""
    changed = [(path, right) for path, text, right in written() if text != right]
    for path, right in changed:
        with open(os.path.join(TOP, path), "w", encoding="utf-8") as file:
            file.write(right)
    return len(changed)


def faults():
    """The pages whose parts are not as the sources have them, and files that say nothing at their
    head."""
    for path, text, right in written():
        if text != right or not PART.search(text):
            yield f"{path}: not as the sources have it: tools/make --lists writes it anew"
    for crate in (it for it in crates() if not kind_of(it)):
        yield f"tools/lists.py: KINDS has no kind for {crate}"
    for crate in filter(has_page, crates()):
        for kind in HEADS:
            for path in listed(crate, kind):
                if not head_of(crate, kind, path):
                    yield f"crates/{crate}/{kind}/{path}: says nothing at its head"
