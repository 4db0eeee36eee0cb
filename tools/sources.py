"""tools/sources.py: what the sources say of themselves, for tools/make, tools/promised, tools/believed.

Of each crate: the definitions of specs/ with the words above them, the contracts of src/ with what
each clause names, what the files of proofs/ import and name, and the edits with their words.
"""
import functools
import glob
import os
import re
from typing import NamedTuple

TOP = os.path.join(os.path.dirname(os.path.abspath(__file__)), "..")
NAME = re.compile(r"[A-Za-z_][\w'-]*|◌[^\s◌()]+◌")
OPENS = re.compile(r"(?:(?:pub|abbrev|unfoldable|opaque|record|data) )+([^\s:(]+)")
WITHIN = re.compile(r"  (?=(?:pub )?(?:abbrev|unfoldable|opaque|record|data) \w)")
ASIDE = re.compile(r"(?:pub )?(?:use|mod|module) ")
FIXITY = re.compile(r"infix\w* ")
IMPORT = re.compile(r"(?:pub |ghost )*use ([\w.◌]+)\.\{([^}]*)\}")
PASSES_ON = re.compile(r"^pub use ([\w.◌]+)\.\{([^}]*)\}", re.M)
FIELD = re.compile(r"(?:pub )?([\w'-]+)")
FIELD_LINE = re.compile(r"  (?:pub )?([\w'-]+) : ")
GROUP = re.compile(r"((?:`[^`]+`(?:, )?)+): ")
QUOTED = re.compile(r"`([^`]+)`")
HEADING = "-- ----"


def read(path):
    with open(path, encoding="utf-8") as file:
        return file.read()


@functools.cache
def crates():
    """The names of crates.txt, in its order."""
    lines = read(os.path.join(TOP, "crates.txt")).splitlines()
    return [re.match(r"\w+", it)[0] for it in lines if it and not it.startswith("#")]


def files(crate, kind, ending):
    """The files of a crate's folder with that ending, by their paths in it."""
    folder = os.path.join(TOP, "crates", crate, kind)
    found = glob.glob(os.path.join(folder, "**", f"*{ending}"), recursive=True)
    return sorted(os.path.relpath(it, folder) for it in found)


def text_of(crate, kind, path):
    return read(os.path.join(TOP, "crates", crate, kind, path))


def texts(kind, ending):
    """Each file of that folder of each crate: the crate, the path and the text."""
    for crate in crates():
        for path in files(crate, kind, ending):
            yield crate, path, text_of(crate, kind, path)


def first_sentence(words):
    """The words up to the end of their first sentence."""
    end = re.search(r"[.!?]\)?(?= [A-Z(`])", words)
    return words[: end.end()] if end else words


# ---- definitions


class Definition(NamedTuple):
    crate: str
    module: str
    name: str
    words: str
    names: frozenset
    parts: tuple
    fields: tuple
    lines: int

    @property
    def place(self):
        return self.crate, self.module, self.name


class Module(NamedTuple):
    crate: str
    name: str
    words: str
    definitions: list


class ModuleReader:
    """Reads a file of definitions line by line."""

    def __init__(self, crate, name):
        self.crate, self.name, self.head, self.found = crate, name, None, []
        self.comment, self.inner, self.fixities = [], [], 0

    def line(self, line):
        if line.startswith(HEADING):
            self.comment = []
        elif line.startswith("--"):
            self.comment.append(line[2:].strip())
        elif not line or ASIDE.match(line):
            self.take_head()
        elif line.strip().startswith("--"):
            self.inner.append(line.strip()[2:].strip())
        elif FIXITY.match(line):
            self.fixities += 1
        else:
            self.code(line)

    def code(self, line):
        within = WITHIN.match(line)
        opens = OPENS.match(line, within.end() if within else 0)
        if opens:
            self.open(opens[1], self.inner if within else self.comment, "record " in opens[0])
        elif self.found:
            self.note_part(line)
        self.comment = []
        if self.found:
            self.found[-1]["names"].update(NAME.findall(line.partition("--")[0]))
            self.found[-1]["lines"] += 1

    def take_head(self):
        if self.head is None:
            self.head = " ".join(self.comment)
        self.comment, self.inner = [], []

    def open(self, name, comment, is_record):
        words, lines, self.inner, self.fixities = " ".join(comment), self.fixities, [], 0
        found = {"name": name, "words": words, "names": set(), "parts": [], "lines": lines}
        self.found.append({**found, "fields": [], "is_record": is_record})

    def note_part(self, line):
        field, of_record = FIELD.match(line.strip()), FIELD_LINE.match(line)
        if self.inner and field:
            self.found[-1]["parts"].append((field[1], " ".join(self.inner)))
        if self.found[-1]["is_record"] and of_record:
            self.found[-1]["fields"].append(of_record[1])
        self.inner = []

    def module(self):
        made = [
            Definition(self.crate, self.name, it["name"], it["words"], frozenset(it["names"]),
                       tuple(it["parts"]), tuple(it["fields"]), it["lines"])
            for it in self.found
        ]
        return Module(self.crate, self.name, self.head or "", made)


@functools.cache
def modules(crate):
    """The files of a crate's definitions, in the order of its specs/Lib.antt."""
    found = {}
    for path in files(crate, "specs", ".antt"):
        reader = ModuleReader(crate, path[: -len(".antt")])
        for line in text_of(crate, "specs", path).splitlines():
            reader.line(line)
        found[reader.name] = reader.module()
    order = []
    if "Lib" in found:
        order = re.findall(r"^pub mod (\w+)", text_of(crate, "specs", "Lib.antt"), re.M)
    names = [it for it in order if it in found] + sorted(found.keys() - set(order))
    return [found[it] for it in names if found[it].definitions]


@functools.cache
def definitions():
    """All definitions, by crate, module and name."""
    every = (module for crate in crates() for module in modules(crate))
    return {it.place: it for module in every for it in module.definitions}


def named_places(text, import_pattern):
    """What a text imports from files of definitions: the places, by the names that it has for them."""
    for module, names in import_pattern.findall(text):
        own = re.fullmatch(r"Rattle\.(\w+)\.specs\.(\w+)", module)
        for it in names.split(",") if own else []:
            name, _, alias = it.strip().partition(" as ")
            yield alias or name, (own[1], own[2], name)


@functools.cache
def passed_on():
    """The places at which a file of definitions passes another one's on, with where it has them
    from."""
    found = {}
    for crate, path, text in texts("specs", ".antt"):
        module = path[: -len(".antt")]
        found.update(((crate, module, it), place) for it, place in named_places(text, PASSES_ON))
    return found


def import_list(text):
    """What a file of specs/ or src/ imports: the definitions, by the names that it has for them."""
    found = {}
    for name, place in named_places(text, IMPORT):
        while place not in definitions() and place in passed_on():
            place = passed_on()[place]
        if place in definitions():
            found[name] = place
    return found


@functools.cache
def module_names(crate, module):
    """The definitions that a file of definitions has or imports, by their names there."""
    found = import_list(text_of(crate, "specs", f"{module}.antt"))
    found.update((it[2], it) for it in definitions() if it[:2] == (crate, module))
    return found


@functools.cache
def leads_to(place):
    """The definitions that a definition names."""
    known = module_names(*place[:2])
    return {known[it] for it in definitions()[place].names if it in known}


# ---- contracts

PUBLIC = r"(pub(?:\(\w+\))? )?(?:unsafe )?"
FUNCTION = re.compile(rf'^( *){PUBLIC}(?:extern "C" )?fn (\w+)', re.M)
OWNER = re.compile(
    rf"^{PUBLIC}(impl|struct|enum|trait)\b(<(?:[^<>]|<[^<>]*>)*>)? ?(?:[\w:<>', ]+ for )?(\w+)"
    r"(<\w+>)?", re.M)
ALIAS = re.compile(r"^pub type (\w+) = (\w+<\w+>);", re.M)
CLAUSE = re.compile(r"((?:\s*//[^\n]*\n)*)\s*(requires|ensures)(?: (\w+))? \{")
ENDS = re.compile(r"\n\s*(?=requires|ensures|//|\{)| (?=\{)|;")


class Clause(NamedTuple):
    words: str
    kind: str
    name: str
    text: str


class Function(NamedTuple):
    crate: str
    path: str
    owner: str
    folder: str
    name: str
    is_public: bool
    words: str
    clauses: tuple

    @property
    def title(self):
        return f"{self.owner}::{self.name}" if self.owner else self.name


class Type(NamedTuple):
    crate: str
    path: str
    name: str
    words: str
    ghosts: str


def closing(text, at):
    """Where the brace that is opened at a place is closed."""
    depth = 0
    for place in range(at, len(text)):
        depth += {"{": 1, "}": -1}.get(text[place], 0)
        if depth == 0:
            return place
    return len(text)


def signature_end(text, at):
    """Where the clauses of a function begin, or its body."""
    depth = 0
    for it in re.finditer(r"[][()]|" + ENDS.pattern, text[at:]):
        if it[0] in "[]()":
            depth += 1 if it[0] in "[(" else -1
        elif depth == 0:
            return at + it.start()
    return len(text)


def clauses_at(text, at):
    found, at = [], signature_end(text, at)
    while it := CLAUSE.match(text, at):
        at = closing(text, it.end() - 1) + 1
        words = " ".join(line.strip().lstrip("/ ") for line in it[1].strip().splitlines())
        found.append(Clause(words, it[2], it[3] or "", text[it.end() : at - 1].strip()))
    return tuple(found)


def words_above(text, at):
    """The words of the lines with /// above a place, attributes aside."""
    found = []
    for line in reversed(text[:at].splitlines()):
        line = line.strip()
        if line.startswith("///"):
            found.append(line[3:].strip())
        elif not line.startswith("#["):
            break
    lines = found[::-1]
    return " ".join(lines[: lines.index("")] if "" in lines else lines)


@functools.cache
def reached_names(crate):
    """What a crate gives to others by its lib.rt: the modules that are open, and the names."""
    text = text_of(crate, "src", "lib.rt") if "lib.rt" in files(crate, "src", "lib.rt") else ""
    names = set()
    for it in re.finditer(r"^pub use ([^;]+);", text, re.M):
        names.update(NAME.findall(it[1]))
    return set(re.findall(r"^pub mod (\w+)", text, re.M)), names


def is_given(crate, path, name, line):
    """Whether a crate gives a public name of a file to others, or exports it."""
    open_modules, names = reached_names(crate)
    first = path.split(os.sep)[0].removesuffix(".rt")
    return 'extern "C"' in line or first in open_modules | {"lib"} or name in names


@functools.cache
def aliases(crate):
    """The names that a crate gives to types with an argument, such as `Member<Values>`."""
    texts = [text_of(crate, "src", path) for path in files(crate, "src", ".rt")]
    return {it[2]: it[1] for text in texts for it in ALIAS.finditer(text)}


def owner_of(crate, it):
    """The name that the functions of an owner are called by, and their folder in proofs/."""
    kind, parameters, name, argument = it[2], it[3], it[4], it[5]
    if kind != "impl" or parameters or not argument:
        return name, name
    return aliases(crate).get(name + argument, name), f"{name}+{argument[1:-1]}"


@functools.cache
def source(crate, path):
    """The functions and the types of a file of src/."""
    text = text_of(crate, "src", path)
    owners = [(it.start(), it[2], it[4], bool(it[1]), owner_of(crate, it))
              for it in OWNER.finditer(text)]
    functions, types = [], []
    for at, kind, name, _, _ in owners:
        inner = text[at : text.find("\n}", at)] if text.find("{", at) >= 0 else ""
        begins = re.finditer(r"^ +ghost [^{;]*\{", inner, re.M)
        begun = [(it.start(), it.end() - 1) for it in begins]
        ghosts = "\n".join(inner[start : closing(inner, end) + 1] for start, end in begun)
        words = words_above(text, at) if kind != "impl" else ""
        types.append(Type(crate, path, name, words, ghosts))
    for it in FUNCTION.finditer(text):
        within = [owner for owner in owners if owner[0] < it.start()] if it[1] else []
        (owner, folder), kind = (within[-1][4], within[-1][1]) if within else (("", ""), "")
        is_public = it[2] == "pub " or (kind == "trait" and within[-1][3])
        line = text[it.start() : text.find("\n", it.start())]
        is_public = is_public and is_given(crate, path, owner or it[3], line)
        words, clauses = words_above(text, it.start()), clauses_at(text, it.end())
        functions.append(Function(crate, path, owner, folder, it[3], is_public, words, clauses))
    return functions, types


@functools.cache
def imports(crate, path):
    """The definitions that a file of src/ imports, by the names that it has for them."""
    return import_list(text_of(crate, "src", path))


def named(function, clause):
    """The definitions that a clause names, in their order, each once."""
    known = imports(function.crate, function.path)
    return list(dict.fromkeys(known[it] for it in NAME.findall(clause.text) if it in known))


def at_top(text):
    """A clause's text without what stands in brackets."""
    while (less := re.sub(r"\([^()]*\)", "", text)) != text:
        text = less
    return text


def record_behind(place):
    """The record that a definition is, or the one of its own file, or else of its crate, that it
    names; else None."""
    records = {it for it in leads_to(place) if it[0] == place[0] and definitions()[it].fields}
    own = {it for it in records if it[1] == place[1]} or records
    if not definitions()[place].fields and len(own) == 1:
        (place,) = own
    return definitions()[place] if definitions()[place].fields else None


def record_of(function, clause):
    """The record that a clause says as a whole, whose fields are what it promises; else None. A
    premise, or one of several facts, is not the whole."""
    known, first = imports(function.crate, function.path), NAME.match(clause.text)
    is_whole = first and not re.search(r"[→⊎×≡≢≤<]", at_top(clause.text))
    place = known.get(first[0]) if is_whole else None
    return record_behind(place) if place else None


CITES = re.compile(r"^use Rattle\.(\w+)\.proofs\.(\w+)(?=\.\{| as |$)", re.M)


def homes(function):
    """The files in whose folder of proofs/ a function's may be: its own, or that of its type."""
    found = [function.path]
    for path in files(function.crate, "src", ".rt") if function.owner else []:
        text = text_of(function.crate, "src", path)
        if any(it[2] != "impl" and it[4] == function.folder for it in OWNER.finditer(text)):
            found.append(path)
    return dict.fromkeys(found)


def proof_files(function):
    """The files of a function's proofs by hand."""
    found = []
    for path in homes(function):
        module = path[: -len(".rt")].split(os.sep)
        module = [] if module in (["lib"], ["main"]) else module
        owner = [function.folder] if function.folder else []
        for name in (function.name, f"+{function.name}"):
            folder = os.path.join(TOP, "crates", function.crate, "proofs", *module, *owner, name)
            found += glob.glob(os.path.join(folder, "*.antt"))
    return sorted(found)


def cited(function):
    """The files of proofs/ that a function's proofs by hand import; None where it has none."""
    paths, found = proof_files(function), []
    for path in paths:
        found += [it for it in CITES.findall(read(path)) if it[0] in crates()]
    return list(dict.fromkeys(found)) if paths else None


LEMMAS = re.compile(r"^#!\[tactic\(auto, using\(([^)]*)\)", re.M)


def lemmas(crate, path):
    """The lemmas that each check of a file may cite, or of a crate, where the file is lib.rt."""
    found = []
    for it in LEMMAS.findall(text_of(crate, "src", path)):
        for home, module, lemma in re.findall(r"(\w+)::proofs::(\w+)::(\w+)", it):
            found.append((crate if home == "crate" else home, module, lemma))
    return found


# ---- types of the code that definitions speak of

DECLARED = re.compile(
    r"^(?:pub )?use Rattle\.(\w+)\.specs\.declared\.([\w.]+)\.(\w+)\.(?:\{|The)", re.M)


@functools.cache
def declared():
    """The types of the code that definitions import: the crate, the file and the name of each."""
    found = set()
    for _, _, text in texts("specs", ".antt"):
        for crate, module, name in DECLARED.findall(text):
            found.add((crate, module.replace(".", os.sep) + ".rt", name))
    return found


def spoken_types(crate):
    """The types of a crate's code that some definitions import, in the order of its files."""
    every = (it for path in files(crate, "src", ".rt") for it in source(crate, path)[1])
    found = {}
    for it in every:
        if it.words and (crate, it.path, it.name) in declared():
            found.setdefault((it.path, it.name), it)
    return list(found.values())


# ---- wrong bodies


class Edit(NamedTuple):
    crate: str
    name: str
    in_gate: bool
    words: str
    refused: str
    places: tuple
    missed: tuple  # the texts to be changed that do not stand once in their file

    @property
    def place(self):
        """Its file, and its name if the file has several edits."""
        if self.in_gate:
            return f"crates/{self.crate}/must-fail/{self.name}.edit"
        return f"crates/{self.crate}/wider.edits, {self.name}"


REFUSED = "refused by:"


def place_of(crate, path, old):
    """The function in which a text stands, or else the file."""
    folder = os.path.join(TOP, "crates", crate)
    text = read(os.path.join(folder, path)) if os.path.isfile(os.path.join(folder, path)) else ""
    before = [it for it in FUNCTION.finditer(text, 0, text.find(old))] if old in text else []
    name = os.path.basename(path)
    if not before:
        return name
    within = [it[4] for it in OWNER.finditer(text, 0, before[-1].start())] if before[-1][1] else []
    return f"{within[-1]}::{before[-1][3]}" if within else before[-1][3]


def edit_of(crate, name, edit, in_gate):
    words, places, missed, at, text, old = [], [], [], "", "", ""
    for line in edit.splitlines():
        kind, _, told = line.partition(" ")
        if kind == "#":
            words.append(told.strip())
        elif kind == "file:":
            at = told.strip()
            text = text_of(crate, "", at)
        elif kind == "old:":
            places.append(place_of(crate, at, told))
            missed += [told] if text.count(told) != 1 else []
            old = told
        elif kind == "new:":
            text = text.replace(old, told)
    body, _, refused = " ".join(words).partition(REFUSED)
    return Edit(crate, name, in_gate, body.strip(), refused.strip(),
                tuple(dict.fromkeys(places)), tuple(missed))


def gate_edits(crate):
    """The edits of crates/NAME/must-fail: the name of each and its lines."""
    for path in sorted(glob.glob(os.path.join(TOP, "crates", crate, "must-fail", "*.edit"))):
        yield os.path.basename(path)[: -len(".edit")], read(path)


def wider_edits(crate):
    """The edits of crates/NAME/wider.edits: the name of each, in a line that begins with ##, and the
    lines up to the next name."""
    path = os.path.join(TOP, "crates", crate, "wider.edits")
    text = read(path) if os.path.isfile(path) else ""
    for part in re.split(r"^## ", text, flags=re.M)[1:]:
        name, _, edit = part.partition("\n")
        yield name, edit.rstrip("\n") + "\n"


@functools.cache
def edits(crate):
    """A crate's wrong bodies: those of the gate, and those of the wider check."""
    return [edit_of(crate, name, edit, found is gate_edits)
            for found in (gate_edits, wider_edits) for name, edit in found(crate)]
