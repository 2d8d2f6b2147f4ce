"""Says which definitions one must read and believe: for the certificate, for the plain scorer alone, for each public
call, and for all together. A contract or statement cites definitions, and these cite others. All that is so reached
counts, line by line, with the comments directly above it: definitions in specs/, the structs, enums, traits and
constants of src/ that they name, a trait with what its impls say of its ghosts, and the contract itself. Blank lines,
`use` lines and proofs do not count, and a name of the kit is not followed.

Definitions stand in rooms, the folders of each crate's specs/: Rules, what document 01 says, which grader and plain
scorer share; Claim, the plain scorer and the certificate; Grader, state, words, look-up, contact and calls; Laws, the
words of laws beside the contracts; Steps, what private functions alone cite.

usage: host/audit/reading                 a table of the calls, then certificate and plain scorer file by file
       host/audit/reading --files CALL    what one call reaches: files, definitions and lines; CALL as the table has
                                          it, or its last part, or one of: certificate, scorer, all
It ends with status 1, and the places, where a public contract or the certificate reaches a definition of Steps or Laws,
one that stands in proofs/, a private struct of the code or a name that cannot be found; where a definition of Rules
cites one of another room, or the plain scorer reaches one of Grader; where a definition stands in no room, or a public
function has no contract; where docs/RULES.md has other counts than these, or names a definition or law that is not in
the file that it names."""
import re
import sys
from collections import deque
from pathlib import Path

TOP = Path(__file__).resolve().parents[2]
CRATES = TOP / "crates"
# the rows of docs/RULES.md that have counts
ROWS = {"the certificate, with the contract of `replay`": "certificate", "the plain scorer alone": "scorer", "every public call and the certificate": "all"}
# the rooms in the order in which they are read; declarations and contracts stand in src/
ROOMS = ("Rules", "Claim", "Grader", "Laws", "Steps")
COUNTED = (*ROOMS[:3], "src")
# what Rattle and its proof language have of their own
WORDS = set("record let in where module Type λ → ∀ = : _ ⊥ ⊤ × | Self Unit tt".split())
SIMPLE = set("self u8 u16 u32 u64 usize i8 i16 i32 i64 isize f32 f64 bool mut a Self as static Option Result".split())
NUMBER = re.compile(r"^(0x[0-9A-Fa-f_]+|[0-9][0-9_]*)$")
INDENT = re.compile(r"^ *")


class Item:
    """A definition, a declaration of src/ or a contract: where it stands, its lines, and what it cites."""

    def __init__(self, file, name, kind, first):
        self.file, self.name, self.kind, self.first = file, name, kind, first
        self.lines, self.cited, self.kit, self.lost, self.private = 0, [], set(), [], False

    def __str__(self):
        return f"{self.name} ({self.file.name}:{self.first + 1})"


class File:
    def __init__(self, path, crate):
        self.path, self.crate = path, crate
        self.name = str(path.relative_to(CRATES))
        # the room of a definition's file; "src" for a file of code, None where it stands in no room
        parts = path.relative_to(CRATES / crate).parts
        self.room = "src" if parts[0] == "src" else parts[1] if len(parts) == 3 and parts[1] in ROOMS else None
        self.text = path.read_text(encoding="utf-8").split("\n")
        # the file's own names; the names that it takes from elsewhere, and whence
        self.own, self.taken, self.items = {}, {}, []

    def comment_above(self, at, mark):
        """The first of the lines directly above a line that are comments, or attributes of a struct or function."""
        while at > 0 and self.text[at - 1].lstrip().startswith((mark, "#[")):
            at -= 1
        return at

    def close(self, item, mark, end):
        """Counts an item's lines, from the comment above it to its end; comments and blank lines behind it are not its own."""
        while end > item.first and (not self.text[end - 1].strip() or self.text[end - 1].lstrip().startswith(mark)):
            end -= 1
        item.body = self.text[item.first:end]
        whole = self.text[self.comment_above(item.first, mark):end]
        item.lines = sum(1 for line in whole if line.strip())


# ---- definitions: the files of specs/ and proofs/

HEAD = re.compile(r"^(?:(?:abbrev|unfoldable|opaque|private|pub) )*(?:(?P<kind>record|data) (?P<type>[^\s(]+)|(?P<name>[^\s(){}]+) :(?= |$))")
USE = re.compile(r"^(?:pub )?(?:ghost )?use ([^{ ;]+)(?:\.\{(.*)\}| as ([^ ;]+));?$")
FIXITY = re.compile(r"^infix[lr]? \d+ (\S+)$")
SECTION = re.compile(r"^module _ .*where$")


def plain(text):
    """Without comments and without the marks around names that are words of the language."""
    return re.sub(r"(?m)(^|\s)--( .*)?$", r"\1", text).replace("«", "").replace("»", "")


def tokens(text):
    """Names as they stand, but not what follows a dot (a field, or a case of a type) or stands before '=' in a record."""
    text = re.sub(r"([{;]\s*)([^\s={};()]+)(\s*=\s)", r"\1\3", text)
    for token in re.split(r"[\s(){}\[\];,]+", text):
        token = token.split(".")[0]
        if token:
            yield token


def take_names(file, line):
    """The names of a `use` line, each with its path and the name that it has there."""
    m = USE.match(line)
    if not m:
        return
    path, names, alias = m.groups()
    if alias:
        file.taken.setdefault(alias, (path, alias))
        return
    for part in filter(None, (p.strip() for p in names.split(","))):
        there, _, here = part.partition(" as ")
        file.taken[here or there] = (path, there)


def read_definitions(path, crate):
    file = File(path, crate)
    section, open_item = None, None
    for at, line in enumerate(file.text):
        take_names(file, line)
        depth = len(INDENT.match(line).group())
        if section and depth == 0 and line and not line.startswith("--"):
            section = None
        if depth != (2 if section else 0):
            continue
        body = line[depth:]
        m = None if body.startswith(("--", "use ", "pub use ", "pub mod ")) else HEAD.match(body)
        fixity = FIXITY.match(body)
        if not (m or fixity or SECTION.match(body)):
            continue
        if open_item:
            file.close(open_item, "--", file.comment_above(at, "--"))
        if m:
            item = Item(file, m["type"] or m["name"], m["kind"] or "function", at)
            file.own[item.name] = item
        elif fixity:
            item = Item(file, "infix " + fixity[1], "fixity", at)
            file.own[item.name] = item
        else:
            item = section = Item(file, "module _", "section", at)
        item.section = section if item is not section else None
        item.depth = depth
        file.items.append(item)
        open_item = item
    if open_item:
        file.close(open_item, "--", len(file.text))
    for item in file.items:
        item.makes = []
        if item.kind == "data":
            item.makes = [m[1] for m in (re.match(r"^ +([^\s:]+) :", line) for line in item.body) if m]
    for item in file.items:
        for name in item.makes:
            file.own.setdefault(name, item)
    return file


def binders(text):
    """The names that a text binds itself."""
    found = set()
    for group in re.findall(r"[({]([^(){}:=]+) : ", text):
        found.update(group.split())
    for group in re.findall(r"λ ([^\s().]+(?: [^\s().]+)*)\.", text):
        found.update(group.split())
    found.update(re.findall(r"\blet ([^\s=]+) =", text))
    return found


def clauses(item):
    """The heading of a definition, and each of its equations as (patterns, all of its text)."""
    head, found = [], []
    for line in item.body:
        inner = line[item.depth:]
        if item.kind == "function" and inner.split(" ")[0] == item.name and not HEAD.match(inner):
            found.append([line])
        elif found:
            found[-1].append(line)
        else:
            head.append(line)
    pairs = []
    for lines in found:
        text = plain("\n".join(lines))
        left = re.split(r"\s=(?=\s|$)", text, maxsplit=1)[0]
        pairs.append((left, text))
    return plain("\n".join(head)), pairs


# ---- declarations and contracts: the files of src/

USED = re.compile(r"(?m)^(?:pub(?:\(crate\))? )?use ([^;]+);")
DECLARED = re.compile(r"^(?:pub(?:\(crate\))? )?(struct|enum|trait|const) (\w+)")
CALL = re.compile(r'^( *)pub (?:extern "C" )?fn (\w+)')
IMPL = re.compile(r"^impl (\w+)")
OF_TRAIT = re.compile(r"^impl(?:<[^>]*>)? (\w+) for (\w+)")
GHOST = re.compile(r"^ +ghost \w+ = (\{.*\});$")


def used_paths(tree):
    """The paths that a `use` item of src/ names, as lists of their parts."""
    front, brace, inner = tree.strip().partition("{")
    front = [p for p in front.split("::") if p]
    if not brace:
        yield front
        return
    parts, depth = [""], 0
    for c in inner[:inner.rindex("}")]:
        depth += (c == "{") - (c == "}")
        if c == "," and depth == 0:
            parts.append("")
        else:
            parts[-1] += c
    for part in filter(str.strip, parts):
        for path in used_paths(part):
            yield front + path


def read_source(path, crate, root):
    file = File(path, crate)
    parts = list(path.relative_to(root).with_suffix("").parts)
    file.module = [] if parts in (["lib"], ["main"]) else [p for p in parts if p != "mod"]
    file.used, file.calls, file.impls, of = {}, [], [], None
    for m in USED.finditer("\n".join(file.text)):
        for path in used_paths(m[1]):
            file.used[path[-1]] = path
    for at, line in enumerate(file.text):
        take_names(file, line.strip())
        m = IMPL.match(line)
        of = m[1] if m else (None if line.startswith("}") else of)
        m = DECLARED.match(line)
        if m:
            item = Item(file, m[2], m[1], at)
            item.private = not line.startswith("pub ")
            end = at + 1
            if not line.rstrip().endswith(";"):
                while file.text[end - 1].rstrip() not in ("}", "};") and not (m[1] == "const" and file.text[end - 1].rstrip().endswith(";")):
                    end += 1
            file.close(item, "//", end)
            file.own[m[2]] = item
            file.items.append(item)
        m = CALL.match(line)
        if m:
            read_contract(file, at, m, of)
        m = OF_TRAIT.match(line)
        if m:
            read_impl(file, at, m)
    return file


def read_impl(file, at, m):
    """What a type says of a trait's ghosts."""
    item = Item(file, f"{m[1]} for {m[2]}", "impl", at)
    item.trait, item.clauses, item.bound = m[1], [], set()
    for line in file.text[at:]:
        ghost = GHOST.match(line)
        if ghost:
            item.clauses.append(ghost[1])
        if line == "}":
            break
    item.lines = 1 + len(item.clauses)
    file.impls.append(item)


def closing(text, at):
    """The place behind the bracket that closes the one at a place."""
    pairs = {"(": ")", "{": "}", "[": "]"}
    depth, opening = 0, text[at]
    while True:
        depth += (text[at] == opening) - (text[at] == pairs[opening])
        at += 1
        if depth == 0:
            return at


def read_contract(file, at, m, of):
    text = "\n".join(file.text[at:])
    begin = text.index("(", m.end())
    place = closing(text, begin)
    clause = re.compile(r"\s*(?:requires|ensures|decreases)\b\*?(?:\s+\w+)?\s*\{")
    bare = re.compile(r"[^{]*?(?=\s*(?:requires|ensures|decreases)\b\*?(?:\s+\w+)?\s*\{|\s*\{)", re.S)
    place = bare.match(text, place).end()
    name = "::".join([file.crate, *file.module, *([of] if of else []), m[2]])
    item = Item(file, name, "contract", at)
    item.types, item.clauses = text[begin:place], []
    while (c := clause.match(text, place)):
        end = closing(text, c.end() - 1)
        item.clauses.append(text[c.end():end - 1])
        place = end
    item.bound = set(re.findall(r"(\w+)\s*:(?!:)", item.types)) | {"self", "result"}
    # a type or number that the function is told stands for any; what bounds it is read
    generics = text[m.end():begin].strip("<>")
    item.params = {g.split(":")[0].split()[-1] for g in generics.split(",") if g}
    item.bound |= item.params
    item.types = " ".join(g.partition(":")[2] for g in generics.split(",")) + " " + item.types
    file.close(item, "//", at + text.count("\n", 0, place) + 1)
    file.calls.append(item)


# ---- the tree

class Tree:
    def __init__(self):
        self.specs, self.proofs, self.source, self.calls = {}, {}, {}, []
        self.crates = {p.parent.name for p in CRATES.glob("*/src")}
        for root in sorted(p.parent for p in CRATES.glob("*/specs") if p.is_dir()):
            crate = root.name
            for path in sorted((root / "specs").rglob("*.antt")):
                within = path.relative_to(root / "specs").with_suffix("").parts
                self.specs[crate, within] = read_definitions(path, crate)
            for path in sorted((root / "proofs").glob("*.antt")):
                self.proofs[crate, path.stem] = path
            for path in sorted((root / "src").rglob("*.rt")):
                file = read_source(path, crate, root / "src")
                self.source[crate, tuple(file.module)] = file
                self.calls += file.calls
        for file in self.specs.values():
            for item in file.items:
                self.cite_definition(file, item)
        for file in self.source.values():
            for item in file.items:
                self.cite_types(file, item, "\n".join(item.body))
            for item in file.calls:
                self.cite_contract(file, item)
            for item in file.impls:
                self.cite_impl(file, item)

    # where a name leads: an item, ("kit", library), ("proofs", path) or None
    def follow(self, path, name):
        head, crate, part, *rest = [*path.split("."), "", ""]
        rest = [p for p in rest if p]
        if head != "Rattle" or crate not in self.crates:
            return "kit", path
        if part == "proofs":
            return "proofs", path + "." + name
        if rest[:1] == ["declared"]:
            rest = rest[1:]
            if rest[-1] == "TheVariants":
                rest = rest[:-1]
            file = self.source.get((crate, tuple(rest[:-1])))
            return file and file.own.get(rest[-1])
        # the file is the longest part of the path that is one; what follows it is a type whose cases are taken
        for end in range(len(rest), 0, -1):
            file = self.specs.get((crate, tuple(rest[:end])))
            if file:
                return self.find(file, rest[end] if end < len(rest) else name)
        return None

    def find(self, file, name):
        if name in file.own:
            return file.own[name]
        if name in file.taken:
            return self.follow(*file.taken[name])
        # an operator is cited by its sign
        for full in (*file.own, *file.taken):
            if "◌" in full and name in full.split("◌"):
                return self.find(file, full)
        return None

    def cite(self, file, item, names, bound):
        for token in names:
            if token in bound or token in WORDS or NUMBER.match(token):
                continue
            there = self.find(file, token)
            if there is None:
                item.lost.append(token)
            elif isinstance(there, tuple):
                item.kit.add(there)
            else:
                item.cited.append(there)
                fixity = there.file.own.get("infix " + there.name)
                if fixity:
                    item.cited.append(fixity)

    def cite_definition(self, file, item):
        if item.kind == "fixity":
            return
        around = binders(plain("\n".join(item.section.body))) if item.section else set()
        if item.section:
            item.cited.append(item.section)
        head, equations = clauses(item)
        head = re.sub(r"^\s*module _", "", head)
        bound = around | binders(head)
        if item.kind in ("record", "data"):
            bound |= set(re.findall(r"(?m)^ +(?:pub )?([^\s:]+) :", head))
        head = re.sub(r"(?m)^\s*unfolding |\b(?:abbrev|unfoldable|opaque|private|pub|record|data)\b", " ", head)
        self.cite(file, item, (t for t in tokens(head) if t != item.name), bound)
        for left, text in equations:
            variables = set()
            for token in list(tokens(left))[1:]:
                there = self.find(file, token)
                makes = isinstance(there, Item) and (token in getattr(there, "makes", ()) or there.kind == "enum")
                if not makes and not isinstance(there, tuple):
                    variables.add(token)
            self.cite(file, item, tokens(text), around | variables | binders(text))

    def declared(self, file, path):
        """The struct, enum or constant that a path in a type names."""
        if len(path) == 1:
            if path[0] in file.own:
                return file.own[path[0]]
            path = file.used.get(path[0], path)
        elif path[0] in file.used:
            path = file.used[path[0]] + path[1:]
        crate, rest = (file.crate, path[1:]) if path[0] == "crate" else (path[0], path[1:])
        there = self.source.get((crate, tuple(rest[:-1]))) if rest else None
        return there and there.own.get(rest[-1])

    def cite_types(self, file, item, text):
        text = re.sub(r"//.*|#\[.*\]|\b\w+\s*:(?!:)|'\w+", " ", text)
        for path in re.findall(r"[A-Za-z_]\w*(?:::\w+)*", text):
            there = self.declared(file, path.split("::"))
            if there and there is not item:
                item.cited.append(there)
            elif not there and path not in SIMPLE and item.kind == "contract" and path not in item.params:
                item.lost.append(path)

    def cite_contract(self, file, item):
        self.cite_types(file, item, item.types.replace("->", " "))
        for text in item.clauses:
            text = plain(text)
            self.cite(file, item, tokens(text), item.bound | binders(text))


    def cite_impl(self, file, item):
        """A trait of the code is read with what its impls say."""
        trait = self.declared(file, [item.trait])
        if trait:
            trait.cited.append(item)
        for text in item.clauses:
            self.cite(file, item, tokens(plain(text)), binders(plain(text)))


# ---- what is reached

class Reach:
    """All that the roots cite, and what these cite in turn; from whom each was first reached."""

    def __init__(self, roots):
        self.by = {id(root): None for root in roots}
        self.items, self.kit, self.faults = list(roots), set(), []
        queue = deque(roots)
        while queue:
            item = queue.popleft()
            for there in item.cited:
                if id(there) not in self.by:
                    self.by[id(there)] = item
                    self.items.append(there)
                    queue.append(there)
            for kind, path in item.kit:
                if kind == "kit":
                    self.kit.add(path)
                else:
                    self.faults.append(f"{path} stands in proofs/: {self.chain(item)}")
            for name in item.lost:
                self.faults.append(f"no definition of '{name}': {self.chain(item)}")
            if item.file.room in ("Steps", "Laws"):
                self.faults.append(f"a definition of {item.file.room}: {self.chain(item)}")
            if item.private and item.kind in ("struct", "enum", "trait"):
                self.faults.append(f"a private {item.kind}: {self.chain(item)}")
            if item.kind == "contract" and not item.clauses:
                self.faults.append(f"a public function without a contract: {item}")

    def chain(self, item):
        steps = []
        while item:
            steps.append(str(item))
            item = self.by[id(item)]
        return " -> ".join(reversed(steps))

    def files(self):
        found = {}
        for item in self.items:
            found.setdefault(item.file.name, []).append(item)
        return found

    def lines(self):
        return sum(item.lines for item in self.items)

    def in_room(self, room):
        return sum(item.lines for item in self.items if item.file.room == room)

    def counts(self):
        """Files and lines, and the lines of each room."""
        return [len(self.files()), self.lines(), *(self.in_room(room) for room in COUNTED)]


def by_file(title, reach, names):
    print(f"\n{title}: {reach.lines():,} lines in {len(reach.files())} files")
    for name, items in sorted(reach.files().items()):
        print(f"{sum(i.lines for i in items):7,}  {name}")
        if names:
            for item in sorted(items, key=lambda i: i.first):
                print(f"{item.lines:11}  {item.name}" + ("" if item.kind in ("function", "section", "fixity") else f" ({item.kind})"))


def other_counts(named):
    """The rows of docs/RULES.md that are missing or have other counts."""
    rows = (TOP / "docs" / "RULES.md").read_text(encoding="utf-8").splitlines()
    wanted = [f"| {title} | " + " | ".join(f"{n:,}" for n in named[key].counts()) + " |" for title, key in ROWS.items()]
    return [f"docs/RULES.md should have the row {row}" for row in wanted if row not in rows]


CITED = re.compile(r"((?:`[^`]+`(?:, and |, | and | )?)+)(?:and (?:the )?others )?(?:in|there,) ((?:\w+/(?:specs|proofs)/[\w/]+\.antt(?:, | and )?)+)")


def not_there(tree):
    """The definitions and laws that docs/RULES.md names in a file where none has that name."""
    text = " ".join((TOP / "docs" / "RULES.md").read_text(encoding="utf-8").split())
    found = []
    for names, paths in CITED.findall(text):
        files = re.findall(r"[\w/]+\.antt", paths)
        here = [CRATES / f for f in files]
        if not all(f.exists() for f in here):
            found.append(f"docs/RULES.md names a file that is not there: {paths}")
            continue
        lines = "\n".join(f.read_text(encoding="utf-8") for f in here)
        for name in re.findall(r"`([^`]+)`", names):
            if not re.search(rf"(?m)^ *(?:\w+ )*«?{re.escape(name.split('.')[0])}»?(?: \(.*)? :", lines):
                found.append(f"docs/RULES.md: no `{name}` in {paths}")
    return found


def misplaced(tree, scorer):
    """Definitions that stand in no room, that cite what their room does not, or that the plain scorer should not reach."""
    found = []
    for file in tree.specs.values():
        for item in file.items:
            if file.room is None:
                found.append(f"in no room: {item}")
            if file.room == "Rules":
                found += [f"a rule cites {there.file.room}: {item} -> {there}" for there in item.cited if there.file.room not in ("Rules", "src")]
    found += [f"the plain scorer reaches {i.file.room}: {scorer.chain(i)}" for i in scorer.items if i.file.room not in ("Rules", "Claim", "src")]
    return found


def main(args):
    if args and args[0] in ("-h", "--help"):
        print(__doc__)
        return 0
    if args and not (len(args) == 2 and args[0] == "--files"):
        print("usage: host/audit/reading [--files CALL | --help]", file=sys.stderr)
        return 2
    tree = Tree()

    def one(file_name):
        found = [f for (crate, within), f in tree.specs.items() if within[-1] == file_name]
        if len(found) != 1:
            sys.exit(f"reading: {len(found)} files {file_name}.antt in crates/*/specs, where one is wanted")
        return found[0]

    claim, scorer = one("Certificate"), one("Scorer")
    replays = [c for c in tree.calls if c.name.endswith("::replay::replay")]
    if len(replays) != 1 or not {"Certificate", "Demand3"} <= set(claim.own):
        sys.exit("reading: no statement Certificate or Demand3, or no public function replay::replay")
    statements = [claim.own["Certificate"], claim.own["Demand3"], *replays]
    named = {
        "certificate": Reach(statements),
        "scorer": Reach(scorer.items),
        "all": Reach(tree.calls + statements[:2]),
    }

    if args:
        wanted = args[1]
        found = {wanted: named[wanted]} if wanted in named else {
            c.name: Reach([c]) for c in tree.calls if c.name == wanted or c.name.endswith("::" + wanted)}
        if not found:
            print(f"reading: no public call {wanted}", file=sys.stderr)
            return 2
        for name, reach in found.items():
            by_file(name, reach, True)
            print("from the kit: " + ", ".join(sorted(reach.kit)))
        return 0

    def row(title, counts):
        print(f"{title:46}{counts[0]:>6}" + "".join(f"{n:>7,}" if isinstance(n, int) else f"{n:>7}" for n in counts[1:]))

    row("public call", ["files", "lines", *COUNTED])
    for call in tree.calls:
        row(call.name, Reach([call]).counts())
    for title, key in (("the certificate, with replay's contract", "certificate"), ("the plain scorer alone", "scorer"), ("all together", "all")):
        row(title, named[key].counts())
    by_file("The certificate, with replay's contract", named["certificate"], False)
    by_file("The plain scorer alone", named["scorer"], False)

    reached = {id(i) for i in named["all"].items}
    print("\nReached by no public contract: the words of laws, and what private functions and proofs alone cite")
    for file in tree.specs.values():
        other = [i for i in file.items if id(i) not in reached and i.kind in ("function", "record", "data")]
        if other and file.room != "Steps":
            print(f"{sum(i.lines for i in other):7,}  {file.name}: " + ", ".join(i.name for i in other))
    print("\nOf the kit, outside the count: " + ", ".join(sorted(named["all"].kit | named["scorer"].kit)))
    faults = sorted(set(f for c in [*tree.calls, *statements[:2]] for f in Reach([c]).faults))
    faults += misplaced(tree, named["scorer"]) + other_counts(named) + not_there(tree)
    if faults:
        print(f"\n{len(faults)} faults:")
        for fault in faults:
            print("  " + fault)
    return 1 if faults else 0


if __name__ == "__main__":
    sys.exit(main(sys.argv[1:]))
