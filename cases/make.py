#!/usr/bin/env python3
"""Makes the images that the program `cases` runs, and the sheet of verdicts, from the texts of this folder.

    python3 cases/make.py                  write crates/cases/data, crates/cases/stdout, crates/mark/stdin, data and
                                           stdout, crates/explain/stdin and data
    python3 cases/make.py --check          write nothing; fail if one of these files is not what the texts say
    python3 cases/make.py --image NAME     write the image of one case to standard output (for `mark`, or a hex dump)
    python3 cases/make.py --list           print the name, the verdict and the reason of each case

README.md says how a text is written. The verdicts stand in the texts; nothing here computes one.
"""

import os
import re
import sys

HERE = os.path.dirname(os.path.abspath(__file__))
ROOT = os.path.dirname(HERE)

# The example whose image is the standard input of `mark` and `explain`.
EXAMPLE = "a-worked-example"

# The arguments of the two programs: the names of cases whose images they read, and - for standard input.
MARKED = "crates/mark/args"
EXPLAINED = "crates/explain/args"

# The arguments among them that name no file, and what is no file: they get no mark.
UNREADABLE = ("no-such-file", ".")

PRIMITIVES = ("Binary Boolean Byte Date DateTimeOffset Decimal Double Duration Guid Int16 Int32 Int64 SByte Single "
              "Stream String TimeOfDay").split()
KINDS = {"entity": 0, "complex": 1, "enumeration": 2, "definition": 3}

# The tables of an image in their order: the fields of a record, each with its width in bits.
MODEL = {
    "schema": [("namespace.start", 12), ("namespace.length", 8), ("alias.start", 12), ("alias.length", 8)],
    "type": [("schema", 4), ("kind", 3), ("abstract", 1), ("open", 1), ("media", 1), ("base", 7), ("underlying", 5),
             ("name.start", 12), ("name.length", 8), ("spare", 6)],
    "property": [("owner", 6), ("navigation", 1), ("collection", 1), ("nullable", 1), ("contains", 1), ("type", 8),
                 ("name.start", 12), ("name.length", 8), ("partner.first", 11), ("partner.count", 4), ("spare", 3)],
    "key": [("owner", 6), ("path.first", 11), ("path.count", 4), ("alias.start", 12), ("alias.length", 8), ("spare", 7)],
    "constraint": [("property", 9), ("dependent.first", 11), ("dependent.count", 4), ("principal.first", 11),
                   ("principal.count", 4), ("spare", 1)],
    "child": [("singleton", 1), ("nullable", 1), ("type", 6), ("name.start", 12), ("name.length", 8), ("spare", 4)],
    "binding": [("child", 6), ("path.first", 11), ("path.count", 4), ("target", 6), ("targetpath.first", 11),
                ("targetpath.count", 4), ("spare", 6)],
    "segment": [("cast", 1), ("spare", 3), ("name.start", 12), ("name.length", 8)],
}
INSTANCE = {
    "node": [("type", 6), ("first", 11), ("count", 10), ("spare", 5)],
    "slot": [("property", 9), ("state", 2), ("first", 12), ("count", 12), ("spare", 5)],
    "item": [("reference", 8), ("handle", 24)],
}
MEMBERS = {
    "member": [("type", 6), ("given", 1), ("name.start", 12), ("name.length", 8), ("value", 64), ("spare", 5)],
}
HEADER = {
    "model": ["version", "schemas", "types", "properties", "keys", "constraints", "children", "bindings", "segments", "names"],
    "instance": ["version", "nodes", "slots", "items"],
    "members": ["version", "members", "names"],
}
NULL = (255, 0)


class Fault(Exception):
    """A text that cannot be read; the message says where."""


# ---- words of a line

def words(line):
    """The words of a line. What stands in double quotes is taken as it is, and cannot separate words or parts of one:
    its characters are moved to a private range. In quotes, \\xNN is a byte and c{n} is c, n times."""
    out, word, i, quoted = [], None, 0, False
    while i < len(line):
        c = line[i]
        if c == '"':
            quoted, word, i = not quoted, word or "", i + 1
            continue
        if not quoted and c.isspace():
            if word is not None:
                out.append(word)
            word, i = None, i + 1
            continue
        if quoted:
            escape = re.match(r"\\x([0-9a-fA-F]{2})", line[i:])
            byte, i = (int(escape.group(1), 16), i + 4) if escape else (ord(c), i + 1)
            times = re.match(r"\{(\d+)\}", line[i:])
            word += chr(0xE000 + byte) * (int(times.group(1)) if times else 1)
            i += times.end() if times else 0
        else:
            word, i = (word or "") + c, i + 1
    if word is not None:
        out.append(word)
    return out


def plain(word):
    """The bytes of a word, those in quotes among them."""
    return bytes(ord(c) - 0xE000 if 0xE000 <= ord(c) < 0xE100 else ord(c) for c in word)


def number(word):
    return int(word, 0)


def signed(word, width):
    """A number with a sign as the two's complement of so many bits."""
    n, half = number(word), 1 << width - 1
    if not -half <= n < half:
        raise Fault(f"{word} does not fit {width} bits")
    return n % (2 * half)


def spread(values):
    """A list of values in which 5*3 stands for 5 5 5, and n1..4 for n1 n2 n3 n4."""
    out = []
    for x in values:
        x, _, times = x.partition("*")
        several = re.fullmatch(r"(.*?)(\d+)\.\.(\d+)", x)
        one = [several.group(1) + str(k) for k in range(int(several.group(2)), int(several.group(3)) + 1)] if several else [x]
        out += one * (number(times) if times else 1)
    return out


def raised(line):
    """A line `for i in 0 to 3: ..` as several lines, {i} and {i+1} replaced."""
    m = re.match(r"for (\w+) in (\d+) to (\d+):\s*(.*)", line)
    if not m:
        return [line]
    name, low, high, rest = m.group(1), int(m.group(2)), int(m.group(3)), m.group(4)
    put = re.compile(r"\{" + name + r"([+-]\d+)?\}")
    return [put.sub(lambda p: str(k + int(p.group(1) or 0)), rest) for k in range(low, high + 1)]


def pack(fields, values):
    bits, width = 0, 0
    for name, size in fields:
        value = values.get(name, 0)
        if not 0 <= value < 1 << size:
            raise Fault(f"{name} {value} does not fit {size} bits")
        bits, width = bits << size | value, width + size
    return bits.to_bytes(width // 8, "big")


def lay_out(runs):
    """Gives each run (length, wanted first or None) its first number; those without one follow each other from 0."""
    firsts, at = [], 0
    for length, wanted in runs:
        if wanted is None:
            firsts.append(at if length else 0)
            at += length
        else:
            firsts.append(wanted)
    return firsts


def placed(word):
    """A word `x@3` as x and 3; without @, x and None."""
    text, sign, at = word.rpartition("@")
    return (text, number(at)) if sign else (word, None)


# ---- images

class Image:
    """What the kinds of image have in common: records and names, raw changes, and bytes."""

    def __init__(self, kind, tables):
        self.kind, self.tables = kind, tables
        self.records = {t: [] for t in tables}
        self.text = []           # (record, field, bytes) of every name
        self.raws, self.tail, self.cut, self.whole = [], b"", 0, None

    def add(self, table, record):
        self.records[table].append(record)
        return record

    def name(self, record, field, word):
        self.text.append((record, field, plain(word)))

    def raw(self, w):
        """The lines that change fields and bytes after the image is laid out."""
        if w[0] == "raw":
            self.raws.append((w[1], *((None, w[2], number(w[3])) if w[1] == "header" else (number(w[2]), w[3], number(w[4])))))
        elif w[0] == "append":
            self.tail += bytes.fromhex(w[1])
        elif w[0] == "cut":
            self.cut = number(w[1])
        elif w[0] == "bytes":
            self.whole = bytes.fromhex("".join(w[1:]))
        else:
            return False
        return True

    def lay_names(self):
        """The name bytes. Each different name stands once, in order of first use in the image."""
        order = {id(r): (t, i) for t, rs in enumerate(self.records.values()) for i, r in enumerate(rs)}
        starts, names = {b"": 0}, b""
        for r, f, text in sorted(self.text, key=lambda e: order[id(e[0])]):
            if text not in starts:
                starts[text] = len(names)
                names += text
            r[f + ".start"], r[f + ".length"] = starts[text], len(text)
        return names

    def encode(self):
        if self.whole is not None:
            return self.whole
        names = self.lay_names()
        # An instance's header ends before the number of name bytes: it has none.
        header = dict(zip(HEADER[self.kind], [0x0402, *map(len, self.records.values()), len(names)]))
        for table, n, field, value in self.raws:
            if table == "header":
                if field not in header:
                    raise Fault(f"no field {field} in the header")
                header[field] = value
            else:
                if field not in dict(self.tables[table]):
                    raise Fault(f"no field {field} in a {table}")
                self.records[table][n][field] = value
        out = b"".join(header[f].to_bytes(2, "big") for f in HEADER[self.kind])
        for table, fields in self.tables.items():
            for r in self.records[table]:
                out += pack(fields, r)
        out += names + self.tail
        return out[:len(out) - self.cut]

    def place(self, table, n):
        """The place of record n of a table."""
        before = 0
        for t in self.tables:
            if t == table:
                return before + n
            before += len(self.records[t])
        raise Fault(f"no table {table}")


class Model(Image):
    def __init__(self, lines):
        super().__init__("model", MODEL)
        self.types, self.properties, self.paths, self.loose = [], [], [], []
        self.named = {}          # words as the text has them, for references
        # Types are named before they are told of, so they are read first.
        rest = []
        for line in lines:
            w = words(line)
            if w[0] == "schema":
                self.schema(w)
            elif w[0] in KINDS:
                self.types.append(w)
            elif not self.raw(w):
                rest.append(w)
        for w in self.types:
            self.type(w)
        later = []
        for w in rest:
            (self.property if w[0] in ("property", "navigation") else later.append)(w)
        for w in later:
            {"key": self.key, "constraint": self.constraint, "set": self.child, "singleton": self.child,
             "bind": self.bind, "segment": self.orphan}.get(w[0], self.unknown)(w)
        self.lay_segments()

    def unknown(self, w):
        raise Fault(f"unknown record {w[0]}")

    def path(self, record, field, word):
        """A path a/b/(Type)/c, with @n behind it where its first segment is to be segment n."""
        word, at = placed(word)
        self.paths.append((record, field, word.split("/"), at))

    def type_number(self, word):
        """A type by its name, its namespace and name, or #n; the first of that name."""
        if word.startswith("#"):
            return number(word[1:])
        for i, w in enumerate(self.types):
            if word in (w[1], self.namespace_of(w) + "." + w[1]):
                return i
        raise Fault(f"no type {word}")

    def reference(self, word):
        """A type reference: a type, a primitive or #n."""
        if word in PRIMITIVES:
            return 65 + PRIMITIVES.index(word)
        return self.type_number(word)

    def property_number(self, word):
        if word.startswith("#"):
            return number(word[1:])
        owner, _, name = word.rpartition(".")
        for i, (o, n) in enumerate(self.properties):
            if (o, n) == (self.type_number(owner), plain(name)):
                return i
        raise Fault(f"no property {word}")

    def child_number(self, word):
        if word.startswith("#"):
            return number(word[1:])
        names = [plain(word) == t for r, f, t in self.text if any(r is c for c in self.records["child"])]
        if True not in names:
            raise Fault(f"no child {word}")
        return names.index(True)

    def schema(self, w):
        r = self.add("schema", {})
        self.named[w[1]] = len(self.records["schema"]) - 1
        self.name(r, "namespace", w[1])
        self.name(r, "alias", w[3] if w[2:3] == ["alias"] else "")

    def namespace_of(self, w):
        return w[w.index("in") + 1] if "in" in w else next(iter(self.named), "")

    def type(self, w):
        r = self.add("type", {"kind": KINDS[w[0]]})
        rest = iter(w[2:])
        for x in rest:
            if x == "in":
                r["schema"] = self.named[next(rest)]
            elif x == "base":
                r["base"] = self.type_number(next(rest)) + 1
            elif x == "of":
                r["underlying"] = PRIMITIVES.index(next(rest)) + 1
            elif x in ("abstract", "open", "media"):
                r[x] = 1
            else:
                raise Fault(f"a type with {x}")
        self.name(r, "name", w[1])

    def property(self, w):
        owner, _, name = w[1].rpartition(".")
        r = self.add("property", {"owner": self.type_number(owner), "navigation": int(w[0] == "navigation"),
                                  "type": self.reference(w[2])})
        self.properties.append((r["owner"], plain(name)))
        rest = iter(w[3:])
        for x in rest:
            if x == "partner":
                self.path(r, "partner", next(rest))
            elif x in ("collection", "nullable", "contains"):
                r[x] = 1
            else:
                raise Fault(f"a property with {x}")
        self.name(r, "name", name)

    def key(self, w):
        r = self.add("key", {"owner": self.type_number(w[1])})
        self.path(r, "path", w[2])
        self.name(r, "alias", w[4] if w[3:4] == ["alias"] else "")

    def constraint(self, w):
        r = self.add("constraint", {"property": self.property_number(w[1])})
        self.path(r, "dependent", w[2])
        if w[3] != "=":
            raise Fault("a constraint without =")
        self.path(r, "principal", w[4])

    def child(self, w):
        r = self.add("child", {"singleton": int(w[0] == "singleton"), "type": self.type_number(w[2]),
                               "nullable": int("nullable" in w[3:])})
        self.name(r, "name", w[1])

    def bind(self, w):
        if w[3] != "to":
            raise Fault("a binding without to")
        target, _, path = w[4].partition("/")
        r = self.add("binding", {"child": self.child_number(w[1]), "target": self.child_number(target)})
        self.path(r, "path", w[2])
        if path:
            self.path(r, "targetpath", path)

    def orphan(self, w):
        """A segment in no path: `segment Name` or `segment (Type)`, with @n."""
        word, at = placed(w[1])
        self.loose.append((word, at))

    def lay_segments(self):
        """Segments by record and field in image order, then those of no path; @n overrides."""
        order = [(r, f) for t, fs in (("property", ["partner"]), ("key", ["path"]), ("constraint", ["dependent", "principal"]),
                                      ("binding", ["path", "targetpath"])) for r in self.records[t] for f in fs]
        paths = []
        for r, f in order:
            paths += [p for p in self.paths if p[0] is r and p[1] == f]
        firsts = lay_out([(len(p[2]), p[3]) for p in paths] + [(1, at) for _, at in self.loose])
        found = {}
        for first, segments in zip(firsts, [p[2] for p in paths] + [[word] for word, _ in self.loose]):
            for k, s in enumerate(segments):
                if found.setdefault(first + k, s) != s:
                    raise Fault(f"segment {first + k} is {found[first + k]} and {s}")
        if sorted(found) != list(range(len(found))):
            raise Fault("a segment number is left out")
        for (r, f, segments, _), first in zip(paths, firsts):
            r[f + ".first"], r[f + ".count"] = first, len(segments)
        self.segments = [found[k] for k in range(len(found))]
        for s in self.segments:
            r = self.add("segment", {})
            cast = re.fullmatch(r"\((.*)\)", s)
            if cast:
                t = self.type_number(cast.group(1))
                r["cast"], r["name.start"], r["name.length"] = 1, t >> 8, t & 255
            else:
                self.name(r, "name", s)

    def find(self, t, name):
        """The property that a name means at a type, to write an instance's slots by name."""
        seen = 0
        while seen <= len(self.types):
            for i, p in enumerate(self.properties):
                if p == (t, name):
                    return i
            base = self.records["type"][t].get("base", 0)
            if not base:
                break
            t, seen = base - 1, seen + 1
        raise Fault(f"no property {name.decode()}")


class Instance(Image):
    def __init__(self, lines, model):
        super().__init__("instance", INSTANCE)
        self.model, self.numbers, nodes, slots, loose = model, {}, [], [], []
        for line in lines:
            w = words(line)
            if w[0] == "node":
                self.numbers[w[1]] = len(nodes)
                nodes.append(w)
            elif w[0] == "slot":
                slots.append(w)
            elif w[0] == "item":
                loose.append(w)
            elif not self.raw(w):
                raise Fault(f"unknown part {w[0]}")
        for w in nodes:
            self.add("node", {"type": model.type_number(w[2])})
        owned = {n: [w for w in slots if w[1].split(".")[0] == n] for n in self.numbers}
        if sum(map(len, owned.values())) != len(slots):
            raise Fault("a slot of no node")
        # A node's slots stand together; a word @n after the type of a node is its first slot, after a slot's name its first item.
        run = lay_out([(len(owned[w[1]]), placed(w[3])[1] if w[3:] else None) for w in nodes])
        at = {}
        for w, first in zip(nodes, run):
            r = self.records["node"][self.numbers[w[1]]]
            r["first"], r["count"] = first, len(owned[w[1]])
            for k, s in enumerate(owned[w[1]]):
                at[first + k] = s
        if sorted(at) != list(range(len(slots))):
            raise Fault("a slot number is left out")
        told = [self.slot(at[k]) for k in range(len(slots))]
        self.records["slot"] = [r for r, _, _ in told]
        # An item of no slot follows those of the slots.
        told += [({}, [self.item(w[1])], None) for w in loose]
        firsts = lay_out([(len(items), wanted) for _, items, wanted in told])
        found = {}
        for (r, items, _), first in zip(told, firsts):
            r["first"], r["count"] = first, len(items)
            for k, item in enumerate(items):
                if found.setdefault(first + k, item) != item:
                    raise Fault(f"item {first + k} is two")
        if sorted(found) != list(range(len(found))):
            raise Fault("an item number is left out")
        for k in range(len(found)):
            self.add("item", {"reference": found[k][0], "handle": found[k][1]})

    def slot(self, w):
        """`slot n.Name VALUE` or `slot n.Name [VALUE ..]`: the record, its items and the wanted first item."""
        node, _, name = w[1].partition(".")
        if name.startswith("#"):
            p = number(name[1:])
        elif "." in name:
            p = self.model.property_number(name)
        else:
            p = self.model.find(self.records["node"][self.numbers[node]]["type"], plain(name))
        rest, wanted = w[2:], None
        if rest[0].startswith("@"):
            rest, wanted = rest[1:], number(rest[0][1:])
        properties = self.model.records["property"]
        reference = properties[p]["type"] if p < len(properties) else 0
        if rest == ["null"]:
            return {"property": p, "state": 0}, [], wanted
        text = " ".join(rest)
        if text.startswith("["):
            items = [self.item(x, reference) for x in spread(text.strip("[]").split())]
            return {"property": p, "state": 2}, items, wanted
        if len(rest) != 1:
            raise Fault(f"a slot {' '.join(w)}")
        return {"property": p, "state": 1}, [self.item(rest[0], reference)], wanted

    def item(self, word, reference=0):
        """null; a node; a number (a handle under the property's type); TYPE:HANDLE or #REFERENCE:HANDLE."""
        if word == "null":
            return NULL
        if word in self.numbers:
            n = self.numbers[word]
            return self.records["node"][n]["type"], n
        if ":" in word:
            kind, _, handle = word.rpartition(":")
            return self.model.reference(kind), number(handle)
        return reference, number(word)


class Members(Image):
    def __init__(self, lines, model):
        super().__init__("members", MEMBERS)
        for line in lines:
            w = words(line)
            if w[0] == "member":
                self.member(w, model)
            elif not self.raw(w):
                raise Fault(f"unknown part {w[0]}")

    def member(self, w, model):
        """`member TYPE.NAME`, or `member TYPE.NAME = VALUE` where the value is given."""
        owner, _, name = w[1].rpartition(".")
        r = self.add("member", {"type": model.type_number(owner)})
        self.name(r, "name", name)
        if w[2:]:
            if w[2] != "=":
                raise Fault("a member without =")
            r["given"], r["value"] = 1, signed(w[3], 64)


# ---- texts

class Section:
    def __init__(self, where, head):
        self.where, self.kind, self.name = where, head[0], head[1] if len(head) > 1 else ""
        self.rest, self.lines, self.told = head[2:], [], {}


HEADS = ("model", "case", "instance", "check", "walk", "members")
TOLD = ("why", "buffer", "resolves", "leaves", "at", "results")

# The sections that are run: the letter on the list, and the verdict where it is no refusal.
RUN = {"case": ("m", r"accepted \d+"), "check": ("i", "conforms"), "walk": ("w", r"walked \d+ opened \d+"),
       "members": ("e", "conforms")}

# The second image of a run, which is checked or walked with its model: the kind, and the folder where it is stored.
SECOND = {"check": (Instance, "instances/"), "walk": (Instance, "instances/"), "members": (Members, "members/")}


def read_texts():
    sections = {}
    for folder in ("models", "instances", "members"):
        at = os.path.join(HERE, folder)
        for file in sorted(os.listdir(at)) if os.path.isdir(at) else []:
            if not file.endswith(".txt"):
                continue
            section = None
            with open(os.path.join(HERE, folder, file), encoding="ascii") as f:
                for at, line in enumerate(f, 1):
                    where, line = f"{folder}/{file}:{at}", line.strip()
                    if not line or line.startswith("#"):
                        continue
                    head = line.split()
                    if head[0] in HEADS:
                        section = Section(where, head)
                        if section.name in sections or not re.fullmatch(r"[a-z0-9][a-z0-9-]{0,39}", section.name):
                            raise Fault(f"{where}: the name {section.name} is taken, or not 1 to 40 of a-z 0-9 -")
                        sections[section.name] = section
                    elif section is None:
                        raise Fault(f"{where}: no section yet")
                    else:
                        try:
                            tell(sections, section, line)
                        except Fault as e:
                            raise Fault(f"{where}: {e}") from e
    return sections


def squeezed(line):
    return " ".join(line.split())


def tell(sections, section, line):
    """One line of a section: a word on the case, a change of what `like` brought, or a record."""
    several = raised(line)
    if several != [line]:
        for l in several:
            tell(sections, section, l)
        return
    word, _, rest = line.partition(" ")
    lines = section.lines
    if word == "like":
        base = sections.get(rest.strip())
        if base is None:
            raise Fault(f"nothing above is called {rest}")
        lines += base.lines
        if "of" in base.told or base.kind == "instance":
            section.told.setdefault("of", base.told.get("of") or base.rest[1])
    elif word in ("remove", "replace", "before"):
        old, _, new = rest.partition(" => ")
        if lines.count(squeezed(old)) != 1:
            raise Fault(f"{lines.count(squeezed(old))} lines are: {old}")
        i = lines.index(squeezed(old))
        lines[i:i + (word != "before")] = [squeezed(new)] if new else []
    elif word == "of":
        section.told["of"] = rest.strip()
    elif word in TOLD:
        section.told[word] = (section.told[word] + " " if word in section.told else "") + rest.strip()
    else:
        lines.append(squeezed(line))


class Run:
    """One line of the list and one of the sheet."""

    def __init__(self, s, model, second="", buffer=0, shown=b"", walk=(0, 0, 0)):
        (self.letter, accepted), self.name, self.verdict = RUN[s.kind], s.name, " ".join(s.rest)
        if not re.fullmatch(accepted + r"|refused \d+ place \d+", self.verdict):
            raise Fault(f"verdict {self.verdict}")
        self.model, self.second, self.buffer, self.shown, self.walk = model, second, buffer, shown, walk

    def list_line(self):
        place, path, node = self.walk
        return (f"{self.letter} {self.name:<40} {self.model:<50} {self.second:<50} {self.buffer:05} {len(self.shown):05} "
                f"{place:010} {path:010} {node:010}\n")

    def sheet_line(self):
        word = " results " if self.letter == "w" else " buffer "
        return f"{self.name} {self.verdict}{word + self.shown.hex() if self.shown else ''}\n"


FILL = 0xEE     # what every byte of a lent buffer holds before the call


def model_run(s, image, model):
    buffer, shown = number(s.told.get("buffer", "2048")), b""
    if "resolves" in s.told:
        w = words(s.told["resolves"])
        for x in w:
            cast = re.fullmatch(r"\((.*)\)", x)
            shown += (32768 + model.type_number(cast.group(1)) if cast else model.property_number(x)).to_bytes(2, "big")
        if "buffer" not in s.told:
            buffer = len(shown) + 2
        shown += bytes([FILL]) * (buffer - len(shown))
    elif "leaves" in s.told:
        shown = bytes([FILL]) * buffer
    return Run(s, image, buffer=buffer, shown=shown)


def walk_run(s, model_name, instance_name, model, instance):
    w = s.told["at"].split()
    if w[0] == "place":
        place, w = number(w[1]), w[2:]
    else:
        place, w = model.place(w[0], number(w[1])), w[2:]
    path = number(w[w.index("path") + 1]) if "path" in w else 0
    node = w[w.index("from") + 1] if "from" in w else "0"
    node = instance.numbers[node] if node in instance.numbers else number(node)
    items = [instance.item(x) for x in spread(words(s.told.get("results", "")))]
    shown = b"".join(pack(INSTANCE["item"], {"reference": r, "handle": h}) for r, h in items)
    room = 4 * (1 + len(instance.records["slot"]) + len(instance.records["item"]))
    buffer = number(s.told.get("buffer", str(room)))
    if "leaves" in s.told:
        shown += bytes([FILL]) * (buffer - len(shown))
    return Run(s, model_name, instance_name, buffer, shown, (place, path, node))


def make():
    """The stored images by file name, and the runs, models first."""
    sections, files, models, images = read_texts(), {}, {}, {}
    model_runs, other_runs = [], []

    def model_of(name):
        if name not in sections or sections[name].kind not in ("model", "case"):
            raise Fault(f"no model {name}")
        if name not in models:
            try:
                models[name] = Model(sections[name].lines)
                files["models/" + name] = models[name].encode()
            except Fault as e:
                raise Fault(f"model {name}: {e}") from e
        return models[name]

    def images_of(s):
        """The model and the second image of a section, each after its file; equal images are stored once."""
        kind, folder = SECOND[s.kind]
        name = s.told.get("of") or (s.rest[1] if s.rest[:1] == ["of"] else None)
        model, key = model_of(name), (folder, name, tuple(s.lines))
        if key not in images:
            images[key] = (folder + s.name, kind(s.lines, model))
            files[folder + s.name] = images[key][1].encode()
        return "models/" + name, model, *images[key]

    def run(s):
        if s.kind == "case":
            model_runs.append(model_run(s, "models/" + s.name, model_of(s.name)))
        elif s.kind in SECOND:
            name, model, stored, image = images_of(s)
            other_runs.append(walk_run(s, name, stored, model, image) if s.kind == "walk" else Run(s, name, stored))

    for s in sections.values():
        try:
            run(s)
        except Fault as e:
            raise Fault(f"{s.where}: {e}") from e
    return sections, files, model_runs + other_runs


def outputs():
    """Everything that is written, by its path from the root of the repository."""
    sections, files, runs = make()
    out = {"crates/cases/data/" + name: image for name, image in files.items()}
    out["crates/cases/data/list"] = "".join(r.list_line() for r in runs).encode()
    out["crates/cases/stdout"] = "".join(r.sheet_line() for r in runs).encode()
    out["crates/mark/stdin"] = files["models/" + EXAMPLE]
    out["crates/mark/stdout"] = b""
    for name in arguments_of(MARKED):
        out["crates/mark/stdout"] += mark_lines(name, sections[EXAMPLE if name == "-" else name])
        if name != "-":
            out["crates/mark/data/" + name] = files["models/" + name]
    out["crates/explain/stdin"] = files["models/" + EXAMPLE]
    for name in arguments_of(EXPLAINED):
        if name != "-":
            out["crates/explain/data/" + name] = files["models/" + name]
    return sections, files, runs, out


def arguments_of(path):
    return [name for name in open(os.path.join(ROOT, path)).read().split() if name not in UNREADABLE]


def mark_lines(name, s):
    """What `mark` prints of a case among others: its name, its verdict, and its resolution as the text has it."""
    lines = ["== " + name, " ".join(s.rest)]
    if s.rest[0] == "accepted":
        model, steps = Model(s.lines), words(s.told.get("resolves", ""))
        if len(steps) != int(s.rest[1]):
            raise Fault(f"{s.where}: marked, and does not say to what each segment resolves")
        first = model.place("segment", 0) if steps else 0
        for k, x in enumerate(steps):
            cast = re.fullmatch(r"\((.*)\)", x)
            lines.append(f"{first + k} cast {model.type_number(cast.group(1))}" if cast else f"{first + k} property {model.property_number(x)}")
    return "".join(l + "\n" for l in lines).encode()


def stored(folder):
    found = set()
    for at, _, names in os.walk(os.path.join(ROOT, folder)):
        found |= {os.path.relpath(os.path.join(at, n), ROOT) for n in names}
    return found


def main(arguments):
    try:
        sections, files, runs, out = outputs()
    except Fault as e:
        sys.exit(f"make.py: {e}")
    if arguments[:1] == ["--image"]:
        wanted = [n for n in files if n.split("/")[1] == arguments[1]]
        if not wanted:
            sys.exit(f"make.py: no image {arguments[1]}")
        sys.stdout.buffer.write(files[wanted[0]])
        return
    if arguments == ["--list"]:
        for r in runs:
            print(f"{r.name:<42}{r.verdict:<26}{sections[r.name].told.get('why', '')}")
        return
    extra = (stored("crates/cases/data") | stored("crates/mark/data") | stored("crates/explain/data")) - set(out)
    if arguments == ["--check"]:
        wrong = sorted(extra)
        for name, data in out.items():
            path = os.path.join(ROOT, name)
            if not os.path.exists(path) or open(path, "rb").read() != data:
                wrong.append(name)
        if wrong:
            sys.exit("make.py: not as the texts say: " + " ".join(wrong[:10]))
        print(f"make.py: {len(runs)} cases, {len(files)} images, as the texts say")
        return
    if arguments:
        sys.exit(__doc__)
    for name in extra:
        os.remove(os.path.join(ROOT, name))
    for name, data in out.items():
        path = os.path.join(ROOT, name)
        os.makedirs(os.path.dirname(path), exist_ok=True)
        with open(path, "wb") as f:
            f.write(data)
    kinds = [sum(r.letter == k for r in runs) for k, _ in RUN.values()]
    print(f"make.py: {kinds[0]} models, {kinds[1]} instances, {kinds[2]} walks, {kinds[3]} of members; {len(files)} images")


if __name__ == "__main__":
    main(sys.argv[1:])
