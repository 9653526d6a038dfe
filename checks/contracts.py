"""The contracts of the crates: the clauses of public calls, and the definitions that they cite, one after another."""

import functools
import re
import sys

sys.dont_write_bytecode = True
from common import ROOT

# An import in a source file or in a file of specs/: the crate, the file, and the names that it brings, or another name for the file.
IMPORT = re.compile(r"(?:ghost )?(?:pub )?use Rattle\.(\w+)\.specs\.(\w+)(?:\.\{(.*?)\}| as (\w+));?\s*$")
NAME = re.compile(r"[A-Za-z_«][\w»]*(?:\.[A-Za-z_]\w*)*|[^\sA-Za-z0-9_(){}\[\].,;:«»]+")
OPERATOR = re.compile(r"◌?([^◌\s]+)◌?")
# The head of a definition at the start of a line of specs/.
HEAD = re.compile(r"^(?:pub )?(?:abbrev |unfoldable |record |data )?(?:pub )?(?:record |data )?([^\s:(]+|◌[^\s]+◌)(?=[\s:(])")


# Texts that stand in place of files, for the self-test of checks/inventory.
CHANGED = {}


def read(path):
    """The text of a file."""
    return CHANGED[path] if path in CHANGED else path.read_text(encoding="utf-8")


def forget():
    """Forgets what was read, after a change of CHANGED."""
    for it in (crate_names, definitions_in, exported, public, public_types):
        it.cache_clear()


def text_of(path):
    return read(ROOT / path)


@functools.cache
def crate_names():
    return re.findall(r"^(\w+)[^#\n:]*:", text_of("crates.txt"), re.MULTILINE)


def imports(lines):
    """What the imports among these lines bring: of each name, or other name of a file, the crate, the file and the name there."""
    brought = {}
    for line in lines:
        found = IMPORT.match(line.strip())
        if not found or found[1] not in crate_names() or found[2] in ("declared", "contracts"):
            continue
        crate, file, listed, other = found.groups()
        if other:
            brought[other] = (crate, file, None)
        for name in (listed or "").split(","):
            name, _, new = name.strip().partition(" as ")
            if name:
                brought[plain(new or name)] = (crate, file, plain(name))
    return brought


def plain(name):
    """A name without the places of its arguments."""
    return OPERATOR.fullmatch(name)[1] if "◌" in name else name


def cited(text, brought):
    """The definitions that a text cites, by what was brought."""
    found = set()
    for name in NAME.findall(re.sub(r'"[^"]*"', "", text)):
        first, _, rest = name.partition(".")
        if first in brought:
            crate, file, known = brought[first]
            if known:
                found.add((crate, file, known))
            elif rest:
                found.add((crate, file, rest.split(".")[0]))
    if " do\n" in text or text.rstrip().endswith(" do"):
        found |= {brought[it] for it in (">>=", ">>") if it in brought}
    return found


# ---- definitions


@functools.cache
def definitions_in(crate, file):
    """The definitions of a file of specs/, each with its text, and what the file's imports bring."""
    path = ROOT / f"crates/{crate}/specs/{file}.antt"
    lines = read(path).split("\n") if path.exists() else []
    texts, name = {}, None
    for line in lines:
        if line.startswith(("use ", "pub use ", "pub mod ", "mod ")):
            name = None
        elif line.startswith(("unfolding ", "--")):
            pass
        elif line and not line[0].isspace() and (found := HEAD.match(line)):
            name = plain(found[1])
            texts[name] = texts.get(name, "") + line + "\n"
        elif name:
            texts[name] += line + "\n"
    brought = imports(lines)
    # A file hands on what it imports by `pub use`.
    return texts, brought, imports([line for line in lines if line.startswith("pub use ")])


def parts(text):
    """The fields and cases of a record or of data are names of their own."""
    return re.findall(r"^\s+(?:pub )?(\w+) :", text, re.MULTILINE)


def home(crate, file, name):
    """Where a name of a file stands: there, or where the file has it from."""
    texts, _, handed = definitions_in(crate, file)
    while name not in texts and name in handed:
        crate, file, name = handed[name]
        texts, _, handed = definitions_in(crate, file)
    return crate, file, name


def closure(starts):
    """All definitions that these, and those that they cite, cite."""
    seen, todo = set(), [home(*it) for it in starts]
    while todo:
        it = todo.pop()
        if it in seen:
            continue
        seen.add(it)
        crate, file, name = it
        texts, brought, _ = definitions_in(crate, file)
        text = texts.get(name)
        if text is None:
            # (a field or a case of a definition)
            owners = [owner for owner, its in texts.items() if name in parts(its)]
            todo += [(crate, file, owner) for owner in owners]
            continue
        local = {other: (crate, file, other) for other in texts}
        todo += [home(*other) for other in cited(text, {**local, **brought})]
    return seen


# ---- calls


@functools.cache
def exported(crate):
    """The modules of a crate that are public, and the names that its first file hands on from the others."""
    first = next((ROOT / f"crates/{crate}/src/{it}.rt" for it in ("lib", "main") if (ROOT / f"crates/{crate}/src/{it}.rt").exists()))
    text = read(first)
    modules = set(re.findall(r"^pub mod (\w+);", text, re.MULTILINE))
    names = set()
    for found in re.findall(r"^pub use ([^;]+);", text, re.MULTILINE):
        module, _, listed = found.partition("{") if "{" in found else found.rpartition("::")
        names |= {(module.removesuffix("::"), name) for name in re.findall(r"\w+", listed)}
    return modules, names


def sources(crate):
    """The source files of a crate, in order."""
    return sorted((ROOT / f"crates/{crate}/src").rglob("*.rt"))


def module_of(crate, path):
    """The path of the module that a source file of a crate is."""
    return "::".join(path.relative_to(ROOT / f"crates/{crate}/src").with_suffix("").parts)


def is_public(crate, module, name):
    modules, names = exported(crate)
    return module == "lib" or module in modules or (module, name) in names


def blocks(text):
    """The blocks of a source file that begin and end at the start of a line, and the lines between them, each a block of its own."""
    block = []
    for line in text.split("\n"):
        block.append(line)
        if not block[1:] and not re.match(r"(pub(\(\w+\))? )?(impl|trait|struct|enum|mod|#\[cfg\(test\)\])\b.*\{$|#\[cfg\(test\)\]", line):
            yield block
            block = []
        elif line == "}":
            yield block
            block = []
    if block:
        yield block


SIGNATURE = re.compile(r"^( *)(pub )?(?:const )?fn (\w+)(.*?)(?=\n\1\{|;\n|;$|\Z)", re.MULTILINE | re.DOTALL)
# Ghost members that tell how a type keeps its value, which is not of a caller's concern.
INSIDE = {"view", "invariant", "coded"}
GHOST = re.compile(r"^    (?:pub )?ghost (\w+)(?:: \{.*?\})?(?: = )?(\{.*?\n?.*?\})[;,]$", re.MULTILINE | re.DOTALL)


def doc_before(text, start):
    """The paragraphs of the doc comment that ends where something starts, attributes between them aside."""
    lines, in_attribute = [], False
    for line in reversed(text[:start].split("\n")[:-1]):
        line = line.strip()
        if line.startswith("///"):
            lines.insert(0, line[3:].strip())
        elif lines or not (in_attribute or line.startswith("#[") or line == ")]"):
            break
        else:
            in_attribute = not line.startswith("#[")
    return [" ".join(part.split()) for part in re.split(r"\n\n", "\n".join(lines)) if part.strip()]


class Call:
    """A public function, with its file, the trait that it implements, the paragraphs of its doc comment, whether it can wait, the clauses
    of its contract, each a kind, a name and a text, the type that it returns, and what the imports in its scope bring."""

    def __init__(self, path, owner, of_trait, name, header, brought, doc):
        self.crate, self.owner, self.name, self.brought = path.relative_to(ROOT).parts[1], owner, name, brought
        self.path, self.of_trait, self.doc = path, of_trait, doc
        found = re.split(r"\n\s*((?:requires|ensures)\*?) ?", header)
        self.can_wait = re.search(r"\bWait\b", found[0]) is not None
        self.returned = found[0].rpartition("->")[2].strip()
        self.clauses = []
        for kind, text in zip(found[1::2], found[2::2]):
            named, _, body = text.partition("{")
            self.clauses.append((kind, named.strip(), body))

    def path_name(self):
        return f"{self.owner}::{self.name}" if self.owner else self.name

    def cited(self):
        return {it for _, _, text in self.clauses for it in cited(text, self.brought)}


@functools.cache
def public(crate):
    """The public calls of a crate, and the definitions that the ghost members of its public types and traits cite."""
    calls, members = [], set()
    files = sources(crate)
    types = set()
    for path in files:
        for found in re.finditer(r"^pub (?:struct|enum|trait) (\w+)", read(path), re.MULTILINE):
            if is_public(crate, module_of(crate, path), found[1]):
                types.add(found[1])
    for path in files:
        text = read(path)
        top = imports(line for line in text.split("\n") if not line.startswith(" "))
        scope = []
        for block in blocks(text):
            head = next((line for line in block if not line.startswith(("#", "//"))), "")
            if "cfg(test)" in block[0]:
                continue
            if len(block) == 1:
                scope += block
                continue
            body = "\n".join(block)
            brought = {**top, **imports(block)}
            found = re.match(r"(pub )?(impl|trait|struct|enum)\b(?:<.*?>)? ?(?:(\w+)(?:<.*?>)? for )?(?:&)?(\w+)", head)
            if not found or found[4] not in types:
                continue
            kind, of_trait, owner = found[2], found[3], found[4]
            for it in GHOST.finditer(body):
                if it[1] not in INSIDE:
                    members |= cited(it[2], brought)
            for it in SIGNATURE.finditer(body):
                if kind == "trait" or of_trait or it[2]:
                    calls.append(Call(path, owner, of_trait, it[3], it[4], brought, doc_before(body, it.start())))
        lone = "\n".join(scope)
        for it in SIGNATURE.finditer(lone):
            if not it[1] and it[2] and is_public(crate, module_of(crate, path), it[3]):
                calls.append(Call(path, None, None, it[3], it[4], top, doc_before(lone, it.start())))
    return calls, members


class Type:
    """A public type or trait, with its file, the paragraphs of its doc comment, and the name and the doc comment of each variant of an
    enum."""

    def __init__(self, path, kind, name, text, start):
        self.path, self.kind, self.name, self.doc = path, kind, name, doc_before(text, start)
        body = text[start:].split("\n}\n")[0] if kind == "enum" else ""
        self.variants = [(it[1], doc_before(body, it.start())) for it in re.finditer(r"^    ([A-Z]\w*)[^;]*?,$", body, re.MULTILINE)]


@functools.cache
def public_types(crate):
    """The public types and traits of a crate."""
    found = []
    for path in sources(crate):
        text = read(path)
        for it in re.finditer(r"^pub (struct|enum|trait) (\w+)", text, re.MULTILINE):
            if is_public(crate, module_of(crate, path), it[2]):
                found.append(Type(path, it[1], it[2], text, it.start()))
    return found


def fields_of(name, brought):
    """The fields of a record, in order; none of another definition."""
    texts = [definitions_in(crate, file)[0].get(it, "") for crate, file, it in (home(*it) for it in cited(name, brought))]
    return [field for text in texts if text.startswith(("pub record", "record")) for field in parts(text)]


def fields(clause, brought):
    """The fields of the records that a clause cites, each a clause of its own."""
    return set(fields_of(clause, brought))


def near_texts(clause, brought, levels=2):
    """A clause, and the texts of the definitions that it cites, and of those that they cite."""
    texts, here = [clause], {home(*it) for it in cited(clause, brought)}
    for _ in range(levels):
        below = set()
        for crate, file, name in here:
            inside, its, _ = definitions_in(crate, file)
            text = inside.get(name, "")
            texts.append(text)
            local = {other: (crate, file, other) for other in inside}
            below |= {home(*it) for it in cited(text, {**local, **its})}
        here = below
    return texts


def call_named(crate, path):
    """The public calls of a crate with this name, or with this owner and name."""
    owner, _, name = path.rpartition("::")
    return [it for it in public(crate)[0] if it.name == name and (not owner or it.owner == owner)]


def needed():
    """The definitions that the contracts of all public calls rest on, by crate and file."""
    starts = set()
    for crate in crate_names():
        calls, members = public(crate)
        starts |= members
        for call in calls:
            starts |= call.cited()
    return closure(starts)
