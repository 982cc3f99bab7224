"""A table of old and new names, and how it is applied to the texts of a repository.

A row is OLD, NEW, KIND and CRATE, separated by tabs; or OLD, NEW and CRATE; or OLD and NEW. `#` starts a comment.

A row without a crate renames a word wherever code has it, also as a part of a name with dashes, in files' names and in backquotes. So NEW has to be
a word that stood nowhere before. A row with a crate renames what that crate declares alone: elsewhere the word is followed by `use` lines, by paths and by the
types of receivers. OLD may be `Type::method` there. KIND `file` is a file of src/, `module` a file of specs/ or proofs/, `crate` a crate, `clause`
the name of a clause, and `variant` a case of an enum; for the others KIND is for the reader alone."""
import bisect
import collections
import functools
import os
import re
import shutil

import texts

Row = collections.namedtuple("Row", "old new kind crate")
WORD = re.compile(r"[A-Za-z_]\w*", re.ASCII)
PATHS = r"crates/[^/]+/.*\.(rt|antt|edit)|tools/in-turn-wrong/.*\.edit|crates\.txt|README\.md|docs/[^/]+\.md|(share|examples)/.*\.md|Makefile|(tools|bench)/[^/]+"
# Words that the languages themselves have.
KEYWORDS = {"Type", "Self", "self", "where", "data", "record", "module", "mod", "use", "pub", "abbrev", "let", "in", "as", "elim", "rw", "simp", "cc", "omega", "grind", "search", "match", "move"}
# Words of the protocol and of the program, which stand in backquotes for themselves.
SPOKEN = set(
    "actions boot cancel cat check create ctl disable enable end executed help link logs mask memory query remove reset restart run serve show start status stop sync tick unmask verify wait units jobs put".split()
)
APART = ("file", "module", "clause", "crate", "variant")


def read_table(path):
    """The rows of a table, in order; a row that has no two names is a fault."""
    rows = []
    with open(path, encoding="utf-8") as file:
        for number, line in enumerate(file, 1):
            cells = [it.strip() for it in line.partition("#")[0].rstrip().split("\t")]
            if not any(cells):
                continue
            if len(cells) < 2 or not cells[0] or not cells[1]:
                raise ValueError(f"{path}:{number}: a row is OLD, NEW, KIND and CRATE")
            if len(cells) == 3 and re.fullmatch(r"umd?(_\w+)?", cells[2]):
                cells = [cells[0], cells[1], "", cells[2]]
            old, new, kind, crate = (cells + ["", ""])[:4]
            rows.append(Row(old, new, kind, "" if crate == "-" else crate))
    return rows


@functools.cache
def kit_words():
    """The names of functions in the kit, which a call in this repository may mean."""
    found = set()
    kit = os.path.dirname(os.path.dirname(os.path.realpath(shutil.which("rt") or "/opt/rattle/bin/rt")))
    for top, _, names in os.walk(f"{kit}/rattle"):
        for name in names:
            if name.endswith(".rt"):
                with open(f"{top}/{name}", encoding="utf-8", errors="replace") as file:
                    found.update(re.findall(r"\bfn\s+(\w+)", file.read()))
    return found


def close_of(shape, at):
    """The place next to the bracket that closes the one at this place."""
    depth = 0
    for it in re.finditer(r"[][(){}]", shape[at:]):
        depth += 1 if it[0] in "([{" else -1
        if depth == 0:
            return at + it.end()
    return len(shape)


def items_of(text):
    """The names in braces, at any depth, as pairs of a path and the name it has here: `a::{b, c as d}`, each with the places of its words."""
    found = []

    def walk(at, prefix):
        path = list(prefix)
        while at < len(text):
            it = re.compile(r"\s*(?:(?P<word>r?#?[A-Za-z_◌«»\[\]][^\s,{};:.]*|\*)|(?P<sep>::|\.)|(?P<open>\{)|(?P<end>[},;]))").match(text, at)
            if not it:
                return len(text)
            at = it.end()
            if it["word"] == "as":
                named = re.compile(r"\s*([^\s,{};]+)").match(text, at)
                found.append((path, named[1], named.start(1)))
                path, at = None, named.end()
            elif it["word"]:
                path.append((it["word"], it.start("word")))
            elif it["open"]:
                at = walk(at, path)
                path = None
            elif it["end"]:
                if path and len(path) > len(prefix):
                    found.append((path, path[-1][0], path[-1][1]))
                if it["end"] != ",":
                    return at
                path = list(prefix)
        if path and len(path) > len(prefix):
            found.append((path, path[-1][0], path[-1][1]))
        return at

    walk(0, [])
    return found


class File:
    """A text with what it declares and brings in."""

    def __init__(self, path, text):
        self.path, self.text, self.edits = path, text, {}
        parts = path.split("/")
        self.crate = parts[1] if parts[0] in ("crates", "edits") and len(parts) > 2 else ""
        self.room = parts[2] if len(parts) > 3 else ""
        self.stem = "/".join(parts[3:]).rpartition(".")[0]
        self.is_rust, self.is_antt = path.endswith(".rt"), path.endswith(".antt")
        form = texts.RUST if self.is_rust else texts.ANTT
        self.shape = texts.blanked(text, ("comment", "block", "string"), form) if self.is_rust or self.is_antt else text
        self.uses, self.spans, self.ghosts, self.bodies, self.enums, self.inner, self.mods = [], [], [], [], [], [], set()
        if self.is_rust:
            self.read_rust()
        elif self.is_antt:
            self.read_antt()

    def read_rust(self):
        for it in re.finditer(r"\b(?P<pub>pub(?:\([^)]*\))?\s+)?(?P<ghost>ghost\s+)?(?P<pub2>pub\s+)?use\s+(?P<tree>[^;]*);", self.shape):
            is_pub = bool(it["pub"] or it["pub2"])
            for path, name, at in items_of(it["tree"]):
                shifted = [(word, place + it.start("tree")) for word, place in path]
                self.uses.append((bool(it["ghost"]), is_pub, shifted, name, at + it.start("tree")))
            self.spans.append((it.start(), it.end()))
        for it in re.finditer(r"\b(?:(?:requires|ensures)\b(?:\s+\w+)?\s*|ghost\s+\w+\s*[:=]\s*)\{", self.shape):
            self.ghosts.append((it.end() - 1, close_of(self.shape, it.end() - 1)))
        for it in re.finditer(r"\benum\s+\w+[^{;]*\{", self.shape):
            self.enums.append((it.end() - 1, close_of(self.shape, it.end() - 1)))
        self.mods = set(re.findall(r"\bmod\s+(\w+)\s*;", self.shape))
        self.walk(0, len(self.shape), "", "", "")

    def walk(self, at, end, owner, folder, head):
        """Finds each function with the type that it stands in."""
        form = re.compile(r"\b(?P<block>impl|trait)\b|\bfn\s+(?P<name>\w+)|\bghost\s+\w+\s*[:=]|[{;]|\bmod\s+\w+\s*\{")
        while at < end and (it := form.search(self.shape, at, end)):
            at = it.end()
            if it["block"]:
                opens = self.first_of(at, "{;")
                closes = close_of(self.shape, opens)
                self.inner.append((opens, closes))
                said = self.shape[it.start() : opens]
                plain = re.sub(r"<[^<>]*>", "", re.sub(r"<[^<>]*>", "", re.sub(r"<[^<>]*>", "", said)))
                made = re.match(r"(?:impl|trait)\s+(?:(?P<trait>[\w:]+)\s+for\s+)?&?(?:mut\s+)?(?P<type>[\w:]+)", plain)
                kind, trait = (made["type"].split("::")[-1], (made["trait"] or "").split("::")[-1]) if made else ("", "")
                self.walk(opens + 1, closes - 1, kind, kind + trait, said)
                at = closes
            elif it["name"]:
                begin = it.start()
                opens = at
                while True:
                    opens = self.first_of(opens, "{;", ("requires", "ensures", "ghost"))
                    if self.shape[opens : opens + 1] in ("{", ";", ""):
                        break
                    opens = close_of(self.shape, self.shape.index("{", opens))
                closes = close_of(self.shape, opens) if self.shape[opens : opens + 1] == "{" else opens + 1
                self.bodies.append((begin, closes, it["name"], owner, folder, head, opens))
                at = closes
            elif it[0] in ("{",) or it[0].startswith("ghost"):
                opens = it.start() if it[0] == "{" else self.first_of(at, "{;")
                at = close_of(self.shape, opens) if self.shape[opens : opens + 1] == "{" else opens + 1

    def first_of(self, at, signs, words=()):
        depth = 0
        form = re.compile(r"[][(){};]|\b(?:" + "|".join(words or ("\0",)) + r")\b")
        for it in form.finditer(self.shape, at):
            if it[0] in "[(":
                depth += 1
            elif it[0] in "])":
                depth -= 1
            elif depth == 0 and (it[0] in signs or it[0] in words):
                return it.start()
        return len(self.shape)

    def read_antt(self):
        for it in re.finditer(r"^(?P<pub>pub\s+)?use\s+(?P<tree>[^\n]*)$", self.shape, re.MULTILINE):
            for path, name, at in items_of(it["tree"]):
                shifted = [(word, place + it.start("tree")) for word, place in path]
                self.uses.append((True, bool(it["pub"]), shifted, name, at + it.start("tree")))
            self.spans.append((it.start(), it.end()))
        self.declares = set(re.findall(r"^(?:(?:pub|abbrev|unfoldable|data|record)\s+)*([A-Za-z_][\w'-]*)", self.shape, re.MULTILINE)) - {"use", "mod", "where", "pub"}

    def body_at(self, at):
        for body in self.bodies:
            if body[0] <= at < body[1]:
                return body
        return None

    def edit(self, at, old, new):
        assert self.text[at : at + len(old)] == old, (self.path, at, old, self.text[at : at + 20])
        self.edits[at] = (at + len(old), new)

    def edited(self):
        made, last = [], 0
        for at in sorted(self.edits):
            end, new = self.edits[at]
            made += [self.text[last:at], new]
            last = end
        return "".join([*made, self.text[last:]])


def is_in(spans, at):
    return any(begin <= at < end for begin, end in spans)


class Naming:
    """Rows and the files of a repository; `rename` gives the files with their new names."""

    def __init__(self, files, rows):
        self.rows, self.uses_of, self.unsure, self.mixed, self.by_hand = rows, collections.Counter(), [], [], []
        self.all = files
        self.everywhere = {it.old: it for it in rows if not it.crate and it.kind not in APART and it.kind != "crate"}
        self.clauses = {(it.crate, it.old): it for it in rows if it.kind == "clause"}
        self.crates = {it.old: it for it in rows if it.kind == "crate"}
        self.of_file = {(it.crate, it.old): it for it in rows if it.kind == "file"}
        self.of_module = {(it.crate, it.old): it for it in rows if it.kind == "module"}
        self.variants = {(it.crate, it.old): it for it in rows if it.kind == "variant"}
        self.by_crate = {(it.crate, it.kind == "definition", it.old): it for it in rows if it.crate and it.kind not in APART}
        self.texts = {path: File(path, text) for path, text in files.items() if path.startswith("crates/") and path.endswith((".rt", ".antt"))}
        self.needs = {}
        for line in files.get("crates.txt", "").splitlines():
            name, _, tail = line.partition("#")[0].partition(":")
            if name.strip():
                self.needs[name.split()[0]] = tail.split()
        self.index()
        self.widen()
        self.words = {it.old.split("::")[-1] for it in self.by_crate.values()} | {it.old for it in self.variants.values()}

    def widen(self):
        """Rows of a crate that hold everywhere: the word stands for nothing but what that crate declares, and the new one stands nowhere."""
        stands, said = collections.defaultdict(set), set()
        for file in self.texts.values():
            said.update(WORD.findall(file.shape))
            for it in re.finditer(r"\b(?:fn|struct|enum|trait|type|const|static|ensures|requires|let|mut|mod)\s+(\w+)|(\w+)\s*:(?!:)|[|(]\s*(\w+)\s*[|,)]" if file.is_rust else r"^(?:(?:pub|abbrev|unfoldable|data|record)\s+)*([A-Za-z_]\w*)|^\s+(?:pub\s+)?(\w+)\s*:|\(((?:\w+\s+)*\w+)\s*:", file.shape, re.MULTILINE):
                for word in (it[1] or it[2] or it[3] or "").split():
                    stands[word].add((file.crate, file.is_antt))
            for it in file.enums:
                for word in re.findall(r"[{,]\s*([A-Z]\w*)", file.shape[it[0] : it[1]]):
                    stands[word].add((file.crate, "case"))
            for ghost, _, path, name, _ in file.uses:
                if path[0][0] not in ("crate", "self", "super", *file.mods) and not path[0][0].startswith("um_") and not (len(path) > 1 and path[1][0] in self.needs):
                    stands[name].add(("std", True))
        kit = kit_words()
        for key, row in list(self.by_crate.items()):
            crate, is_definition, old = key
            if "::" in old or "/" in crate or old in KEYWORDS or old in kit or row.new in said or sum(it.old.split("::")[-1] == old for it in self.by_crate.values()) > 1:
                continue
            if stands[old] == {(crate, is_definition)} or (old[:1].isupper() and stands[old] == {(crate, False)}):
                self.everywhere[old] = row
                del self.by_crate[key]

    def index(self):
        self.declared, self.methods, self.reexports, self.spec_names, self.fields = {}, collections.defaultdict(set), {}, {}, {}
        self.folders, self.labels, self.traits, self.homes = {}, collections.defaultdict(dict), collections.defaultdict(set), collections.defaultdict(set)
        self.synonyms, self.trait_names, self.renamed_locals = {}, set(), collections.defaultdict(set)
        self.stems = {(it.crate, it.stem) for it in self.texts.values() if it.room == "src"}
        self.modules = {(it.crate, it.room, it.stem) for it in self.texts.values() if it.is_antt}
        for it in self.texts.values():
            if it.is_rust and it.room == "src":
                for m in re.finditer(r"\b(?:struct|enum|trait|type|const|static)\s+(\w+)", it.shape):
                    if not is_in(it.inner, m.start()):
                        self.declared.setdefault((it.crate, m[1]), it.path)
                        if m[0].startswith("type"):
                            self.synonyms[(it.crate, m[1])] = it.shape[m.end() : it.shape.find(";", m.end())]
                        if m[0].startswith("trait"):
                            self.trait_names.add(m[1])
                for m in re.finditer(r"\bstruct\s+(\w+)[^{;]*\{", it.shape):
                    for f in re.finditer(r"(\w+)\s*:\s*([^,}]+)", it.shape[m.end() : close_of(it.shape, m.end() - 1)]):
                        self.fields[(it.crate, m[1], f[1])] = f[2]
                for begin, _, name, owner, folder, _, opens in it.bodies:
                    if owner and folder == owner:
                        self.methods[name].add((it.crate, owner))
                        self.homes[(it.crate, owner, name)].add(it.stem)
                    elif owner:
                        self.traits[owner].add(folder[len(owner) :])
                    else:
                        self.declared.setdefault((it.crate, name), it.path)
                    self.folders[(it.crate, it.stem, folder, name)] = (it, begin)
                    for m in re.finditer(r"\b(?:requires|ensures)\s+(\w+)\s*\{", it.shape[begin:opens]):
                        self.labels[name].setdefault(m[1], set()).add((it.crate, it.stem))
                for ghost, is_pub, path, name, _ in it.uses:
                    if is_pub and not ghost:
                        self.reexports[(it.crate, name)] = [word for word, _ in path]
            elif it.is_antt:
                self.spec_names[(it.crate, it.room, it.stem)] = it.declares
        placed = {}
        for (crate, stem, folder, name), (file, begin) in self.folders.items():
            owner = next(body[3] for body in file.bodies if body[0] == begin)
            home = self.declared.get((crate, owner), file.path) if owner and folder == owner else file.path
            stem = self.texts[home].stem
            placed[(crate, "/".join(filter(None, [stem if stem not in ("lib", "main") else "", folder, name])))] = (file, begin)
        self.folders, self.proofs = placed, collections.defaultdict(list)
        for it in self.texts.values():
            place = it.room == "proofs" and placed.get((it.crate, it.stem.rpartition("/")[0].replace("/+", "/")))
            if place:
                self.proofs[(place[0].path, place[1])].append(it)
        self.spec_reexports = {}
        for it in self.texts.values():
            if it.is_antt:
                for _, is_pub, path, name, _ in it.uses:
                    if is_pub:
                        self.spec_reexports[(it.crate, it.room, it.stem, name)] = [word for word, _ in path]

    def below(self, crate):
        """This crate and those that it stands on."""
        found, left = set(), [crate]
        while left:
            it = left.pop()
            if it not in found:
                found.add(it)
                left += [other for other in self.needs.get(it, []) if other in self.needs]
        return found

    def owner_of(self, crate, name, hops=0):
        """The crate that declares the name that this one has, or hands on."""
        if (crate, name) in self.declared or hops > 8:
            return crate, name
        path = self.reexports.get((crate, name))
        if not path:
            return crate, name
        first = path[0] if path[0].startswith("um_") else crate
        return self.owner_of(first, path[-1], hops + 1) if (first, path[-1]) != (crate, name) else (crate, name)

    def ghost_owner(self, path, hops=0):
        """The row for what a path `Rattle.um_x...name` leads to, through re-exports."""
        crate, room, name = path[1], path[2] if len(path) > 2 else "", path[-1]
        other = self.spec_reexports.get((crate, room, "/".join(path[3:-1]), name))
        if other and hops < 8 and other[0] == "Rattle":
            return self.ghost_owner(other, hops + 1)
        if "TheVariants" in path[:-1]:
            return self.variants.get((crate, name))
        if len(path) > 4 and path[3] == "contracts":
            return self.row_for(crate, name, stem=path[4]) if (crate, name) in self.declared else self.derived_row(crate, name)
        if len(path) > 4 and path[3] == "declared":
            return self.row_for(crate, name, stem=path[4]) if name[:1].isupper() else None
        stem = "/".join(path[3:-1])
        if room == "specs" and name in self.spec_names.get((crate, room, stem), ()):
            return self.row_for(crate, name, is_definition=True, stem=stem)
        return None

    def row_for(self, crate, name, kind="", is_definition=False, stem=""):
        """The row for what a crate declares: of a method with its type, of a file that is named beside the crate."""
        for old in ([f"{kind}::{name}"] if kind else []) + [name]:
            homes = sorted(self.homes.get((crate, kind, name), ())) if kind else []
            for place in ([f"{crate}/{stem}"] if stem else []) + [f"{crate}/{home}" for home in homes] + [crate]:
                if (place, is_definition, old) in self.by_crate:
                    row = self.by_crate[(place, is_definition, old)]
                    if "::" in old or not name[:1].islower() or row.kind not in ("function", "method") or (row.kind == "method") == ((crate, kind) in self.methods[name]):
                        return row
        return None

    def put(self, file, at, row):
        """Writes the new name in the place of the old one; the word alone, of a method with its type."""
        file.edit(at, row.old.split("::")[-1], row.new.split("::")[-1])
        self.uses_of[row] += 1

    def taken(self):
        """The rows whose new name stands already where the old one is renamed."""
        found = []
        words = {word for file in self.texts.values() for word in re.findall(r"(?<![A-Za-z0-9_])[A-Za-z_][A-Za-z0-9_]*", file.shape)} if self.everywhere else set()
        away = {it.old for it in self.rows}
        for row in self.rows:
            new, kind = row.new.split("::")[-1], row.old.rpartition("::")[0]
            if row in self.everywhere.values():
                is_taken = not row.crate and new in words and new not in away
            elif row.kind == "file":
                is_taken = any(it == (row.crate, new) for it in self.stems) and (row.crate, new) not in self.of_file
            elif row.kind == "module":
                is_taken = any(it[0] == row.crate and it[2] == new for it in self.modules) and any(it[0] == row.crate and it[2] == row.old for it in self.modules if (it[0], it[1], new) in self.modules) and (row.crate, new) not in self.of_module
            elif row.kind == "clause":
                is_taken = any(
                    {row.old, new} <= {*labels} and any(not row.crate or f"{crate}/{stem}".startswith(row.crate) for crate, stem in labels[row.old] & labels[new])
                    for labels in self.labels.values()
                )
            elif row.crate and "/" not in row.crate and row.kind not in APART:
                is_taken = self.is_taken(row, new, kind)
            else:
                is_taken = False
            if is_taken:
                found.append(row)
        return found

    def is_taken(self, row, new, kind):
        """Whether the crate of a row declares a type, function, method of the same type, or definition of the new name."""
        if any(it.crate == row.crate and it.old.split("::")[-1] == new and (not kind or it.old.startswith(kind + "::")) for it in self.by_crate.values()):
            return False
        was = {other for crate, other in self.methods.get(row.old.split("::")[-1], ()) if crate == row.crate}
        are = {other for crate, other in self.methods.get(new, ()) if crate == row.crate}
        if (was & are) if not kind else kind in are:
            return True
        if kind:
            return False
        old_file, new_file = self.declared.get((row.crate, row.old)), self.declared.get((row.crate, new))
        if old_file and new_file and (new[:1].isupper() or old_file == new_file):
            return True
        return any(it[0] == row.crate and it[1] == "specs" and new in names and row.old in names for it, names in self.spec_names.items())

    # ---- paths

    def rename_path(self, file, words, is_ghost):
        """The parts of a path: crate, files, modules, types and functions."""
        if is_ghost and (words[0][0] != "Rattle" or len(words) < 2):
            return
        if is_ghost:
            crate, start = words[1][0], 3
            if len(words) > 3 and words[2][0] == "specs" and words[3][0] in ("declared", "contracts"):
                start = 4
        else:
            crate, start = (file.crate, 0) if words[0][0] in file.mods else (file.crate, 1) if words[0][0] in ("crate", "self", "super") else (words[0][0], 1)
        if crate not in self.needs:
            return
        is_code = not is_ghost or start == 4 or (len(words) > 3 and words[2][0] == "proofs" and self.is_folder(crate, words[3][0]))
        so_far = []
        for k in range(start, len(words)):
            word, at = words[k]
            so_far.append(word)
            stem = "/".join(so_far)
            is_last = k == len(words) - 1
            if is_code and any(it == (crate, stem) or (it[0] == crate and it[1].startswith(stem + "/")) for it in self.near(crate, stem)) and not (is_last and not is_ghost and word not in file.mods and words[0][0] not in ("crate", "self", "super") and len(so_far) > 1):
                row = self.of_file.get((crate, word))
            elif is_ghost and not is_code and self.is_module(crate, words[2][0], stem):
                row = self.of_module.get((crate, word))
            elif is_ghost and "TheVariants" in [it for it, _ in words[:k]]:
                row = self.variants.get((crate, word))
            elif is_ghost:
                so = [it for it, _ in words[: k + 1]]
                row = None
                if words[3][0] == "contracts" and word[:1].isupper():
                    row = self.ghost_owner(so)
                elif is_code and words[2][0] == "proofs" and (word in self.words or word[:1].isupper()):
                    row = self.folder_row(crate, [it for it, _ in words[3:k]], word)
                elif word in self.words:
                    row = self.ghost_owner(so)
            elif k and words[k - 1][0][:1].isupper():
                owner, _ = self.owner_of(crate, words[k - 1][0])
                row = self.variants.get((owner, word)) if word[:1].isupper() else self.row_for(owner, word, words[k - 1][0])
            else:
                owner, name = self.owner_of(crate, word)
                row = self.row_for(owner, name, stem=words[k - 1][0] if k else "") if word in self.words else None
            if isinstance(row, str):
                file.edit(at, word, row)
            elif row:
                self.put(file, at, row)

    def near(self, crate, stem):
        return [it for it in self.stems if it[0] == crate and it[1].split("/")[0] == stem.split("/")[0]]

    def is_folder(self, crate, word):
        return any(it[1].split("/")[0] == word for it in self.stems if it[0] == crate)

    def is_module(self, crate, room, stem):
        return (crate, room, stem) in self.modules or any(it[0] == crate and it[1] == room and it[2].startswith(stem + "/") for it in self.modules)

    # ---- what a file brings in

    def brought_in(self, file, is_ghost):
        """The rows for the names that the file brings in as they are, by name; None for what belongs to others."""
        found = {}
        for ghost, _, path, name, at in file.uses:
            words = [word for word, _ in path]
            if ghost != is_ghost:
                continue
            if name != words[-1] or at != path[-1][1]:
                found[name] = None
                continue
            if ghost:
                found[name] = self.ghost_owner(words) if words[0] == "Rattle" and len(words) > 2 and words[1] in self.needs else None
                continue
            else:
                crate = file.crate if words[0] in file.mods or words[0] in ("crate", "self", "super") else words[0]
                owner, original = self.owner_of(crate, words[-1])
                is_variant = len(words) > 1 and words[-2][:1].isupper()
            found[name] = self.variants.get((owner, original)) if is_variant else self.row_for(owner, original, stem=words[-2] if len(words) > 1 else "")
        return found

    def aliases(self, file):
        """Modules that a file brings in under a name, each with its path."""
        return {name: [word for word, _ in path] for ghost, _, path, name, _ in file.uses if ghost and path[0][0] == "Rattle"}

    # ---- rust

    def rename_rust(self, file):
        brought, ghosts, aliases = self.brought_in(file, False), self.brought_in(file, True), self.aliases(file)
        for ghost, _, path, _, _ in file.uses:
            self.rename_path(file, path, ghost)
        for it in re.finditer(r"\bmod\s+(\w+)\s*;", file.shape):
            if row := self.of_file.get((file.crate, it[1])):
                self.put(file, it.start(1), row)
        for it in WORD.finditer(file.shape):
            word, at = it[0], it.start()
            is_file = (file.crate, word) in self.of_file
            if not (word in self.words or is_file) or at in file.edits or is_in(file.spans, at):
                continue
            before, after = file.shape[max(0, at - 200) : at].rstrip(), file.shape[it.end() : it.end() + 40].lstrip()
            if is_in(file.ghosts, at):
                row = self.ghost_row(file, word, at, file.shape[max(0, at - 200) : at], ghosts, aliases)
            else:
                row = self.rust_row(file, word, at, before, after, brought)
            if row:
                self.put(file, at, row)

    def rust_row(self, file, word, at, before, after, brought):
        if before.endswith("::"):
            path = re.search(r"((?:\w+(?:<[^<>]*>)?(?:::<[^<>]*>)?\s*::\s*)+)$", before)
            words = [re.sub(r"<.*", "", it).strip() for it in re.split(r"::", path[1]) if it.strip() and not it.startswith("<")] if path else []
            if not words:
                return self.member_row(file, word, at, before, True)
            last = words[-1]
            if last == "Self":
                body = file.body_at(at)
                last, owner = (body[3], file.crate) if body else ("", file.crate)
                owner = self.type_owner(file, last)
                return self.variants.get((owner, word)) if word[:1].isupper() else self.row_for(owner, word, last)
            if last[:1].isupper():
                owner = self.type_owner(file, last) if len(words) == 1 else self.owner_of(words[0] if words[0].startswith("um_") else file.crate, last)[0]
                return self.variants.get((owner, word)) if word[:1].isupper() else self.row_for(owner, word, last)
            crate = words[0] if words[0].startswith("um_") else file.crate if words[0] in ("crate", "self", "super", *file.mods) or self.is_folder(file.crate, words[0]) else ""
            if not crate:
                return None
            if after.startswith("::") and (crate, word) in self.of_file:
                return self.of_file[(crate, word)]
            owner, name = self.owner_of(crate, word)
            return self.row_for(owner, name)
        if after.startswith("::") and not word[:1].isupper() and (file.crate, word) in self.of_file and (word in file.mods or word in [name for _, _, _, name, _ in file.uses]):
            return self.of_file[(file.crate, word)]
        if word not in self.words:
            return None
        if before.endswith(".") and not before.endswith(".."):
            return self.member_row(file, word, at, before, False) if re.match(r"\(|::<", after) else None
        if word[:1].isupper() and self.is_associated(file, at, before, after):
            return None
        if word[:1].isupper():
            inside = [it for it in file.enums if it[0] <= at < it[1]]
            if inside and re.search(r"[{,\]]$", before) and re.match(r"[,({}]|$", after):
                return self.variants.get((file.crate, word))
            if word in brought:
                return brought[word]
            return self.row_for(file.crate, word, stem=file.stem)
        if re.search(r"\bfn$", before):
            body = file.body_at(at)
            if body and body[3]:
                owner = self.type_owner(file, body[3])
                trait = body[4][len(body[3]) :]
                if trait:
                    theirs = self.type_owner(file, trait)
                    return self.row_for(theirs, word, trait) if theirs in self.needs and (theirs, trait) in self.methods[word] else None
                return self.row_for(file.crate, word, body[3], stem=file.stem)
            return self.row_for(file.crate, word, stem=file.stem)
        is_call = bool(re.match(r"\(|::<", after))
        is_value = bool(re.search(r"[(,=]$", before) and re.match(r"[),;]", after)) and not self.is_local(file, word, at) and not self.is_short_field(file, max(0, at - 600), at, word)
        if not (is_call or is_value) or (not is_call and self.is_local(file, word, at)):
            return None
        if word in brought:
            return brought[word]
        is_free = self.declared.get((file.crate, word)) == file.path or any(b[2] == word and not b[3] for b in file.bodies)
        if is_free:
            return self.row_for(file.crate, word, stem=file.stem)
        return None

    def is_associated(self, file, at, before, after):
        """Whether a type's name belongs to a trait: `type Item = ..` in its block, `Iterator<Item = ..>`."""
        return (bool(re.search(r"\btype$", before)) and is_in(file.inner, at)) or (bool(re.search(r"[<,]$", before)) and bool(re.match(r"=[^=]", after)))

    def is_local(self, file, word, at):
        """Whether the function around this place binds the word: a parameter, or in a pattern."""
        body = file.body_at(at)
        said = file.shape[body[0] : body[1]] if body else ""
        forms = (rf"\b{word}\s*:(?!:)", rf"\b(?:let|for)\b[^=;{{}}]*\b{word}\b", rf"\blet\b[^=;]*\b{word}\b[^=;]*=", rf"\|[^|;{{}}()]*\b{word}\b[^|;{{}}()]*\|", rf"[({{,|&]\s*(?:ref\s+|mut\s+)*{word}\b[^=;{{}}\n]*\}}?\s*(?:if\b[^\n]*)?=>")
        return any(re.search(form, said) for form in forms)

    def type_owner(self, file, name):
        for ghost, _, path, here, _ in file.uses:
            if not ghost and here == name:
                words = [word for word, _ in path]
                crate = file.crate if words[0] in file.mods or words[0] in ("crate", "self", "super") else words[0]
                return self.owner_of(crate, words[-1])[0]
        return file.crate if (file.crate, name) in self.declared else ""

    def member_row(self, file, word, at, before, is_path):
        """The row for a method that is called, by the type of what it is called on."""
        seen = self.below(file.crate)
        among = {(crate, kind) for crate, kind in self.methods[word] if crate in seen}
        rows = [self.row_for(crate, word, kind) for crate, kind in sorted(among)]
        news = {row and row.new.split("::")[-1] for row in rows}
        if news <= {None} or (len(news) == 1 and word not in kit_words()):
            return next((row for row in rows if row), None)
        kinds = self.receiver(file, at) if not is_path else set()
        those = {(crate, kind) for crate, kind in among if kind in kinds}
        those = those or {(crate, kind) for crate, kind in among if kind in {trait for it in kinds for trait in self.traits[it]}}
        rows = [self.row_for(crate, word, kind) for crate, kind in sorted(those)]
        if len({row and row.new.split("::")[-1] for row in rows}) == 1:
            return rows[0]
        if word in kit_words() and not those:
            return None
        line = file.shape.count("\n", 0, at) + 1
        self.unsure.append((file.path, line, word, sorted(among), file.text.split("\n")[line - 1].strip()))
        return None

    def receiver(self, file, at):
        """The names of types that what stands in front of a call may have."""
        body = file.body_at(at)
        said = re.sub(r"\.\s*$", "", file.shape[max(body[0] if body else 0, at - 600) : at].rstrip())
        return self.kinds_of(file, body, said, 0) if body else set()

    def kinds_of(self, file, body, said, hops):
        """The names of types of the expression that a text ends with."""
        said = re.sub(r"[?\s]+$", "", re.sub(r"\selse\s*$", "", said))
        if hops > 6:
            return set()
        if said.endswith(")"):
            opens, depth = len(said) - 1, 0
            while opens >= 0:
                depth += {")": 1, "(": -1}.get(said[opens], 0)
                if depth == 0:
                    break
                opens -= 1
            called = re.search(r"(?:([A-Z]\w*)\s*::\s*)?(\w+)\s*(?:::<[^()]*>)?$", said[:opens])
            if not called:
                return self.kinds_of(file, body, said[opens + 1 : -1], hops + 1)
            if called[1] and called[1] not in ("Some", "Ok", "Err"):
                return {called[1]} | ({body[3]} if called[1] == "Self" else set())
            if called[2] in ("expect", "as_mut", "as_ref", "borrow", "borrow_mut", "try_borrow", "try_borrow_mut", "take", "unwrap", "clone"):
                return self.kinds_of(file, body, re.sub(r"\.\s*$", "", said[: called.start()]), hops + 1)
            found = self.results(file, body, called[2])
            if any(len(it) <= 2 for it in found):
                # a type parameter: of what it is called on, or of what it is given
                front = said[: called.start(2)].rstrip()
                for it in [front[:-1]] if front.endswith(".") else said[opens + 1 : -1].split(","):
                    found |= self.kinds_of(file, body, it.strip(), hops + 1)
            return found
        chain = re.search(r"((?:[A-Za-z_]\w*)(?:\s*\.\s*[A-Za-z_]\w*|\[[^\[\]]*\])*)$", said)
        if not chain:
            return set()
        links = [it.strip() for it in re.split(r"\.", re.sub(r"\[[^\[\]]*\]", "", chain[1]))]
        head, inner = file.shape[body[0] : body[6]], file.shape[body[0] : body[1]]
        if links[0] == "self":
            kinds = {body[3]}
        else:
            typed = re.search(rf"\b{links[0]}\s*:\s*([^,)]*(?:<[^>]*>)?[^,)]*)", head)
            kinds = self.names_in(typed[1], body, file) if typed else self.kinds_let(file, inner, links[0], body, hops)
            if not kinds:
                kinds = {"".join(it.capitalize() for it in links[0].split("_"))}
        for link in links[1:]:
            found = set()
            for (crate, kind, field), said in self.fields.items():
                if field == link and kind in kinds:
                    found |= self.names_in(said, body, file)
            kinds = found
        return kinds

    def names_in(self, said, body, file):
        """The names of types in a text; of a type parameter the traits that bound it."""
        names = set(re.findall(r"\b[A-Z]\w*", said))
        for it in list(names):
            names |= set(re.findall(r"\b[A-Z]\w*", self.synonyms.get((file.crate, it), "")))
        heads = f"{body[5]} {file.shape[body[0] : body[6]]} " + " ".join(re.findall(r"\bstruct\s+\w+\s*<[^{;]*\{", file.shape))
        for it in list(names):
            if len(it) <= 2:
                for bound in re.findall(rf"\b{it}\s*:\s*([^,>{{]+)", heads):
                    names |= set(re.findall(r"\b[A-Z]\w*", bound))
        return names

    def kinds_let(self, file, inner, name, body, hops):
        """The names of types of a variable, by where it is bound."""
        for it in re.finditer(rf"\blet\s+(?:mut\s+)?{name}\s*(?::\s*([^=;]+))?=\s*([^;]*?)(?:\selse\s*\{{|;)|\b(?:Some|Ok)\((?:mut\s+|ref\s+|&)*{name}\)\s*=\s*(?=([^{{;]*))|\bfor\s+{name}\s+in\s+(?=([^{{;]*))", inner):
            if it[1]:
                return self.names_in(it[1], body, file)
            made = re.match(r"&?(?:mut\s+)?([A-Z]\w*)\s*\{", it[2] or "")
            kinds = {made[1]} if made else self.kinds_of(file, body, it[2] or it[3] or it[4] or "", hops + 1)
            if kinds:
                return kinds
        return set()

    def results(self, file, body, name):
        """The names of types in what functions of this name give."""
        found = set()
        for other in self.texts.values():
            if other.is_rust and other.crate in self.below(file.crate):
                for made in other.bodies:
                    if made[2] == name:
                        it = re.search(r"->\s*(.*)$", other.shape[made[0] : made[6]].split("ensures")[0].split("requires")[0], re.DOTALL)
                        if it:
                            found |= self.names_in(it[1], made, other) | self.names_in(it[1], body, file)
                            found |= {made[3]} if "Self" in it[1] else set()
        return found

    # ---- ghost terms

    def ghost_row(self, file, word, at, before, ghosts, aliases):
        if before.endswith(".") and before[-2:-1].isascii() and re.search(r"\w\.$", before):
            chain = re.search(r"([A-Za-z_][\w']*)\.$", before)
            path = aliases.get(chain[1]) if chain else None
            if not path and chain and word in self.trait_names and re.fullmatch(r"[A-Z]\w?|Self", chain[1]):
                return self.bound_row(file, word)
            if not path or re.search(r"[\w']\.$", before[: chain.start()]):
                return None
            return self.ghost_owner([*path, word]) if path[1] in self.needs else None
        if file.text[at + len(word) : at + len(word) + 1] in "-'" and file.text[at + len(word) : at + len(word) + 1]:
            if file.is_antt:
                return None
        if file.is_antt and file.text[at - 1 : at] in ("-",):
            return None
        if file.is_rust and (body := file.body_at(at)) and not word[:1].isupper() and re.search(rf"\b{word}\s*:", re.sub(r"(?:requires|ensures).*", "", file.shape[body[0] : body[6]], flags=re.DOTALL)):
            return None
        if word in ghosts:
            return ghosts[word]
        if file.is_antt and file.room == "specs" and word in file.declares:
            return self.row_for(file.crate, word, is_definition=True, stem=file.stem)
        return None

    def bound_row(self, code, word):
        """The row for a trait that a bound of this file's code names, as in `T.Trait.member`."""
        brought = self.brought_in(code, False)
        return brought[word] if word in brought else self.everywhere.get(word) or self.row_for(code.crate, word, stem=code.stem)

    def rename_antt(self, file):
        ghosts, aliases = self.brought_in(file, True), self.aliases(file)
        for _, _, path, _, _ in file.uses:
            self.rename_path(file, path, True)
        for it in re.finditer(r"^\s*(?:pub\s+)?mod\s+([\w']+)", file.shape, re.MULTILINE):
            folder = file.stem.rpartition("/")[0]
            if row := self.of_module.get((file.crate, it[1])):
                if self.is_module(file.crate, file.room, "/".join(filter(None, [folder, it[1]]))):
                    self.put(file, it.start(1), row)
        for it in WORD.finditer(file.shape):
            if it[0] in self.words and it.start() not in file.edits and not is_in(file.spans, it.start()):
                if row := self.ghost_row(file, it[0], it.start(), file.shape[max(0, it.start() - 100) : it.start()], ghosts, aliases):
                    self.put(file, it.start(), row)

    # ---- proofs of functions

    def steps_of(self, file, begin):
        """How the words of a function's body are renamed: by word the rows, and None where one stays."""
        body = next(it for it in file.bodies if it[0] == begin)
        found = collections.defaultdict(set)
        for it in WORD.finditer(file.shape, body[0], body[1]):
            if it[0] in self.words and not is_in(file.ghosts, it.start()) and not re.search(r"\b(?:ensures|requires)\s+$", file.shape[: it.start()][-12:]):
                if self.is_declared_at(file, it.start()):
                    continue
                new = file.edits.get(it.start())
                found[it[0]].add(new[1].split(": ")[-1] if new else None)
        return {word: news for word, news in found.items() if news != {None}}, body

    def rename_locals(self, file):
        """Variables that have the name of a function that their own function calls: they are renamed with it, since a proof names both alike. A field
        keeps its name, so one that is written short gets it: `field: variable`."""
        for begin, end, *_ in file.bodies:
            places = collections.defaultdict(list)
            for it in WORD.finditer(file.shape, begin, end):
                if it[0] in self.words and it[0][:1].islower() and not re.search(r"\b(?:ensures|requires)\s+$", file.shape[: it.start()][-12:]):
                    places[it[0]].append(it.start())
            for word, ats in places.items():
                news = {file.edits[at][1] for at in ats if at in file.edits and not is_in(file.ghosts, at) and not self.is_declared_at(file, at)}
                rest = [at for at in ats if at not in file.edits and not self.is_declared_at(file, at) and not re.search(r"::\s*$", file.shape[begin:at])]
                if len(news) != 1 or not rest or not any(re.search(rf"(?<!\w){word}(?!\w)", it.shape) for it in self.proofs[(file.path, begin)]):
                    continue
                is_field = any(re.search(r"\.$", file.shape[begin:at]) and not is_in(file.ghosts, at) or re.match(rf"{word}\s*:[^:]", file.shape[at:]) and re.search(r"[{{,]\s*$", file.shape[begin:at]) for at in rest)
                if is_field or (all(is_in(file.ghosts, at) for at in rest)):
                    continue
                new = next(iter(news))
                for at in rest:
                    self.renamed_locals[(file.path, begin)].add(word)
                    if not re.search(r"\.$", file.shape[begin:at]):
                        file.edit(at, word, f"{word}: {new}" if self.is_short_field(file, begin, at, word) else new)

    def is_declared_at(self, file, at):
        """Whether the word is the name of the function that is declared here."""
        return bool(re.search(r"\bfn\s+$", file.shape[max(0, at - 20) : at]))

    def is_short_field(self, file, begin, at, word):
        """Whether the word is a field and its value in one, in the braces of a struct's value or pattern."""
        if not re.search(r"[{,]\s*(?:(?:ref|mut)\s+)*$", file.shape[begin:at]) or not re.match(r"\s*[,}]", file.shape[at + len(word) :]):
            return False
        depth = 0
        for k in range(at - 1, begin, -1):
            depth += {")": 1, "]": 1, "}": 1, "(": -1, "[": -1, "{": -1}.get(file.shape[k], 0)
            if depth < 0:
                return file.shape[k] == "{" and bool(re.search(r"(?:^|[^\w])(?:\w+\s*::\s*)*[A-Z]\w*\s*$", file.shape[begin:k]))
        return False

    def rename_proofs(self, file):
        """What a function's own proof says of its calls, by the names of its goals and steps."""
        parts = file.stem.split("/")[:-1]
        place = self.folders.get((file.crate, "/".join(parts).replace("/+", "/")))
        if not place:
            return
        for it in re.finditer(r"(?<![\w'])(?:[A-Z]\w?|Self)\.([A-Z]\w*)", file.shape):
            if it[1] in self.trait_names and it.start(1) not in file.edits and (row := self.bound_row(place[0], it[1])):
                self.put(file, it.start(1), row)
        steps, body = self.steps_of(*place)
        variables = self.renamed_locals[(place[0].path, place[1])]
        calls = set(re.findall(r"\b([a-z_]\w*)(?=\s*(?:\(|::<))", place[0].shape[body[0] : body[1]])) | {body[2]}
        labels = {label for _, label in self.clauses if any(label in self.labels[it] for it in calls)}
        if not steps and not labels:
            return
        goals = set(re.findall(r"\bgoal\.([\w-]+)", file.shape)) | set(re.findall(r"^(?:pub\s+|abbrev\s+)*([a-z][\w-]*)\s*:\s*goal\.", file.shape, re.MULTILINE))
        brought = [it for it in file.spans if re.search(r"\.(?:Goals|Given)\.", file.shape[it[0] : it[1]])]
        for begin, end in brought:
            goals.update(re.findall(r"[A-Za-z_][\w'-]*", file.shape[begin:end].rpartition("{")[2]))
        for it in re.finditer(r"[A-Za-z_][\w'-]*", file.shape, re.ASCII):
            if is_in(file.spans, it.start()) and not (is_in(brought, it.start()) and it[0] in goals and re.search(r"[{,+.]\s*$", file.shape[: it.start()][-3:])):
                continue
            is_member = file.shape[it.start() - 1 : it.start()] == "." and re.match(r"[\w')]", file.shape[it.start() - 2 : it.start() - 1])
            if not is_member and it[0] not in goals:
                continue
            front = re.search(r"([\w'.-]+)\.$", file.shape[max(0, it.start() - 120) : it.start()])
            after = re.match(r"\.(result|ensures|new|requires|old|true|false|is|was)\b", file.shape[it.end() : it.end() + 12])
            is_step = it[0] in goals or bool(after) or (front and front[1] in ("c", "l", "goal")) or (is_member and "-" in it[0])
            if it[0] in variables and front and re.search(r"(?:^|\.)(?:args|initial|fn|(?:in|in_ok|in_err|loop|if|match|then|else)[-\w]*)$", front[1]):
                is_step = True
            offset, words = it.start(), it[0].split("-")
            for k, word in enumerate(words):
                is_label = (k and words[k - 1] == "clause") or (len(words) == 1 and front and re.search(r"(^|\.)(ensures|requires)$", front[1]))
                if is_label:
                    if word in labels and offset not in file.edits:
                        self.rename_label(file, offset, word, words[:k], front[1] if front else "", calls, place[0])
                elif word in steps and offset not in file.edits and is_step:
                    news = steps[word]
                    if len(news) == 1:
                        self.edit_word(file, offset, word, next(iter(news)))
                    else:
                        row = next(it for it in news if it)
                        self.mixed.append((file.path, file.shape.count("\n", 0, offset) + 1, it[0], word, row))
                        if k == 0 or (k == 1 and words[0].startswith(("in_ok", "in_err", "if", "returns", "decreases"))):
                            self.edit_word(file, offset, word, row)
                offset += len(word) + 1

    def edit_word(self, file, at, old, new):
        file.edit(at, old, new)
        for row in self.by_crate.values():
            if row.old.split("::")[-1] == old and row.new.split("::")[-1] == new:
                self.uses_of[row] += 1
                return

    def label_row(self, crate, stem, label):
        """The row for the name of a clause of a function in this file."""
        return self.clauses.get((f"{crate}/{stem}", label)) or self.clauses.get((crate, label)) or self.clauses.get(("", label))

    def rename_label(self, file, at, label, before, front, calls, code):
        """The name of a clause in a proof: of the function itself in its goals, or of one that it calls."""
        own = before and "requires" not in before
        step = re.search(r"([\w'-]+)\.(?:ensures|requires)$", front)
        first = before[0] if before else step[1].split("-")[0] if step else ""
        names = {first} if first in calls and label in self.labels[first] else {it for it in calls if label in self.labels[it]}
        seen = self.below(file.crate)
        places = {(file.crate, code.stem)} if own or front in ("c.requires", "requires") else {it for name in names for it in self.labels[name][label] if it[0] in seen}
        for name in names:
            path = next((path for ghost, _, path, here, _ in code.uses if not ghost and here == name), None)
            owner = file.crate if (file.crate, name) in self.declared else path and self.owner_of(path[0][0] if path[0][0] in self.needs else file.crate, path[-1][0])[0]
            if owner and any(crate == owner for crate, _ in self.labels[name][label]):
                places -= {it for it in self.labels[name][label] if it[0] != owner}
        rows = {self.label_row(crate, stem, label) for crate, stem in places}
        if len({row and row.new for row in rows}) == 1:
            row = rows.pop()
            if row:
                self.put(file, at, row)
        elif rows:
            line = file.shape.count("\n", 0, at) + 1
            self.unsure.append((file.path, line, label, sorted(places), file.text.split("\n")[line - 1].strip()))

    def rename_labels(self, file):
        """The names of clauses where they stand."""
        for it in re.finditer(r"\b(?:requires|ensures)\s+(\w+)\s*\{", file.shape):
            if row := self.label_row(file.crate, file.stem, it[1]):
                self.put(file, it.start(1), row)

    # ---- all of it

    def rename_words(self, file):
        """The rows without a crate, in code."""
        if not self.everywhere:
            return
        for it in re.finditer(r"(?<![A-Za-z0-9_])[A-Za-z_][A-Za-z0-9_]*", file.shape):
            row = self.everywhere.get(it[0])
            if row and it.start() not in file.edits:
                self.put(file, it.start(), row)

    def renamed_path(self, path):
        """The path of a file, with the new names of its crate, files, modules, types and functions."""
        parts = path.split("/")
        crate = parts[1] if parts[0] in ("crates", "edits") and len(parts) > 2 else ""
        made = list(parts)
        if crate:
            made[1] = self.crates[crate].new if crate in self.crates else crate
        if parts[0] == "crates" and len(parts) > 3 and parts[2] in ("src", "specs", "proofs"):
            so_far = []
            stem_at = len(parts) - 1
            for k in range(3, len(parts)):
                word, dot, end = parts[k].partition(".") if k == stem_at else (parts[k], "", "")
                plus, word = ("+", word[1:]) if word.startswith("+") else ("", word)
                so_far.append(word)
                stem = "/".join(so_far)
                row = None
                if parts[2] == "src" or (parts[2] == "proofs" and k < stem_at and self.near_stem(crate, stem)):
                    row = self.of_file.get((crate, word))
                elif k == stem_at or self.is_module(crate, parts[2], stem) and not self.is_folder(crate, so_far[0]):
                    row = self.of_module.get((crate, word)) if not self.is_folder(crate, so_far[0]) else None
                else:
                    row = self.folder_row(crate, parts[3:k], word)
                if row and isinstance(row, str):
                    made[k] = plus + row + dot + end
                elif row:
                    made[k] = plus + row.new.split("::")[-1] + dot + end
                elif word in self.everywhere:
                    made[k] = plus + self.everywhere[word].new + dot + end
        return "/".join(made)

    def near_stem(self, crate, stem):
        return any(it == (crate, stem) or (it[0] == crate and it[1].startswith(stem + "/")) for it in self.near(crate, stem))

    def folder_row(self, crate, before, word):
        """Of a folder of proofs/ that is a type's or a function's."""
        if word[:1].isupper():
            row = self.everywhere.get(word) or self.row_for(crate, word, stem=before[0] if before else "")
            return row if row or (crate, word) in self.declared else self.joined_types(crate, word)
        kind = before[-1] if before and before[-1][:1].isupper() else ""
        for (owner, folder), (file, begin) in self.folders.items():
            if owner == crate and folder == "/".join([*before, word]):
                body = next(it for it in file.bodies if it[0] == begin)
                at = file.shape.index(word, begin)
                new = file.edits.get(at)
                return new[1] if new else None
        return self.row_for(crate, word, kind)

    def derived_row(self, crate, word):
        """`TypeTrait`, what a type derives, as a row."""
        for k in range(2, len(word)):
            if word[k].isupper() and (crate, word[:k]) in self.declared:
                row = self.everywhere.get(word[:k]) or self.row_for(crate, word[:k])
                if row:
                    return Row(word, row.new + word[k:], row.kind, row.crate)
        return None

    def joined_types(self, crate, word):
        """`TypeTrait`, the folder of what a type does for a trait; None where neither is renamed."""
        for k in range(2, len(word)):
            one, other = word[:k], word[k:]
            if other[:1].isupper() and other in self.traits.get(one, ()):
                first = self.everywhere.get(one) or self.row_for(crate, one)
                traits = {self.everywhere.get(other) or self.row_for(owner, other) for owner, name in self.declared if name == other} - {None}
                second = traits.pop() if len(traits) == 1 else None
                if first or second:
                    return (first.new if first else one) + (second.new if second else other)
        return None

    def quoted(self, text, crate, path):
        """A text in which the names in backquotes are renamed: in documents and comments."""

        def within(it):
            def word(m):
                said, name = it[0], m[0]
                front = re.search(r"(\w+)(?:::|\.)$", said[: m.start()])
                row = self.everywhere.get(name)
                if re.fullmatch("[a-z]+", name) and not front and not said[m.end() :].startswith("(") and (not crate or name in SPOKEN or (row and row.crate != crate)):
                    return name
                behind = re.match(r"::(\w+)", said[m.end() :])
                owners = {owner for owner, kind in self.methods[behind[1]] if kind == name} if behind else set()
                holders = {owner for owner, kind in self.methods[name] if kind == front[1]} if front else set()
                if not row and name in self.words and (len(owners) == 1 or holders):
                    known = {self.row_for(owner, name) for owner in owners} if owners else {self.row_for(owner, name, front[1]) for owner in holders}
                    if len(known) == 1:
                        row = known.pop()
                        if not row:
                            return name
                if not row and name in self.words:
                    rows = [row for row in self.by_crate.values() if row.old.split("::")[-1] == name]
                    named = [row for row in rows if front and (row.crate == front[1] or row.old.startswith(front[1] + "::"))]
                    own = [row for row in rows if row.crate == crate]
                    only = rows if len({(c) for c, n in self.declared if n == name} | {c for c, _ in self.methods[name]} | {c for (c, room, _), names in self.spec_names.items() if name in names and room == "specs"}) <= 1 else []
                    line = text[text.rfind("\n", 0, it.start()) + 1 : (text + "\n").index("\n", it.end())]
                    mentioned = [row for row in rows if re.search(rf"\b{row.crate}\b", line)]
                    those = named or ([] if front and front[1].startswith("um_") else own or only or mentioned)
                    if len({row.new.split("::")[-1] for row in those}) == 1:
                        row = those[0]
                    elif rows and not crate:
                        self.by_hand.append((path, text.count("\n", 0, it.start()) + 1, name, sorted({row.crate for row in rows}), said))
                if not row:
                    return name
                self.uses_of[row] += 1
                return row.new.split("::")[-1]

            return WORD.sub(word, it[0])

        return re.sub(r"`[^`\n]+`", within, text)

    def rename_edit(self, path, text):
        """A wrong body: the lines `old:` and `new:` as in the file that they change, by that file's own renamed words."""
        top = "" if path.startswith("tools/") else f"crates/{path.split('/')[1]}/"
        made, target = [], None
        for line in text.split("\n"):
            key, colon, said = line.partition(": ")
            if line.startswith("file: "):
                target = self.texts.get(top + said.strip())
                made.append(f"file: {self.renamed_path(top + said.strip())[len(self.renamed_path(top + 'x')) - 1 :] if top else self.renamed_path(said.strip())}")
            elif key in ("old", "new") and colon and target:
                made.append(f"{key}: {self.in_file(target, said, path)}")
            else:
                made.append(line)
        return "\n".join(made)

    def in_file(self, target, said, path):
        """A line of code as it reads in its file once that is renamed."""
        at = target.text.find(said)
        if at >= 0 and target.text.count(said) == 1:
            piece, last = [], at
            for place in sorted(it for it in target.edits if at <= it < at + len(said)):
                end, new = target.edits[place]
                piece += [target.text[last:place], new]
                last = end
            return "".join([*piece, target.text[last : at + len(said)]])
        shape = texts.blanked(said, ("comment", "string"), texts.RUST)
        brought = self.brought_in(target, False)
        ghosts = self.brought_in(target, True)

        def word(it):
            name = it[0]
            if shape[it.start() : it.end()] != name:
                return name
            if name in self.everywhere:
                return self.everywhere[name].new
            if name not in self.words and (target.crate, name) not in self.of_file:
                return name
            if shape[it.end() :].lstrip().startswith("::") and (target.crate, name) in self.of_file:
                return self.of_file[(target.crate, name)].new
            here = {new for place, (end, new) in target.edits.items() if target.text[place:end] == name}
            stays = any(m.start() not in target.edits for m in re.finditer(rf"\b{name}\b", target.shape))
            if len(here) == 1 and not stays:
                return here.pop()
            before, after = shape[: it.start()].rstrip(), shape[it.end() :].lstrip()
            row = None
            if before.endswith(".") and not before.endswith("..") and re.match(r"\(|::<", after) or re.match(r"\(|::<", after) or before.endswith("::") or name[:1].isupper():
                if len(here) == 1:
                    return here.pop()
                row = brought.get(name) or ghosts.get(name)
                if here and not row:
                    self.unsure.append((path, 0, name, sorted(here), said))
            return row.new.split("::")[-1] if row else name

        return WORD.sub(word, said)

    def rename(self):
        """The files with their new names, by their new paths."""
        for file in self.texts.values():
            if file.is_rust:
                self.rename_rust(file)
                self.rename_locals(file)
                self.rename_labels(file)
        for file in self.texts.values():
            if file.is_antt:
                self.rename_antt(file)
                if file.room == "proofs":
                    self.rename_proofs(file)
        for file in self.texts.values():
            self.rename_words(file)
        made = {}
        for path, text in self.all.items():
            if path in self.texts:
                file = self.texts[path]
                text = self.with_comments(file)
            elif path.endswith(".edit"):
                text = self.rename_edit(path, text)
            elif path.endswith(".md"):
                text = self.quoted(text, "", path)
            for row in self.crates.values():
                text, count = re.subn(rf"\b{row.old}\b", row.new, text)
                self.uses_of[row] += count
            made[self.renamed_path(path)] = text
        return made

    def collisions(self):
        """Functions in whose body a new name stands already beside the old one, so that steps of the proof may count otherwise; and files with it."""
        found = []
        for file in self.texts.values():
            if not file.is_rust:
                continue
            for begin, end, name, *_ in file.bodies:
                here = {
                    (file.text[at:to], new)
                    for at, (to, new) in file.edits.items()
                    if begin <= at < end and re.fullmatch(r"[a-z_]\w*", new) and not re.search(r"\b(?:ensures|requires)\s+$", file.shape[max(0, at - 12) : at])
                }
                for old, new in sorted(here):
                    if re.search(rf"\b{new}\b", file.shape[begin:end]):
                        found.append(f"{file.path}:{file.shape.count(chr(10), 0, begin) + 1}: {name}: {new} stands there beside {old}")
        return found

    def with_comments(self, file):
        """The text of a file with its edits, and with new names in the backquotes of its comments."""
        form = texts.RUST if file.is_rust else texts.ANTT
        for kind, begin, end in list(texts.parts(file.text, form)):
            if kind in ("comment", "block") and "`" in file.text[begin:end]:
                said = self.quoted(file.text[begin:end], file.crate, file.path)
                if said != file.text[begin:end]:
                    file.edits[begin] = (end, said)
        return file.edited()
