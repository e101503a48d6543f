"""Reads the crates' .rt and .antt files and resolves names: what is defined where, and by which `use` line a file has it.

It reads lines and brackets and no more, so what rt refuses may be read. It stands beside `names`, which alone reads by it,
and not in lib/, which is installed with the tools of users.
"""
import os
import re

ANTT = re.compile(r"[^\s(){}\[\],;.λ]+|[(){}\[\],;.λ]")
STRING = re.compile(r'"(?:\\.|[^"\\\n])*"')
COMMENT = re.compile(r"(^|\s)--+(\s|$)")
USE = re.compile(r"^(\s*)(?:pub\s+)?use\s+([^\s{]+?)(?:\.\{([^}]*)\}|\s+as\s+(\S+))?\s*;?\s*$")
GHOST_USE = re.compile(r"ghost\s+use\s+([^\s{;]+?)(?:\.\{([^}]*)\}|\s+as\s+(\S+))?\s*;")
TACTIC = re.compile(r"\b([a-z]\w*)::(specs|proofs)::(\w+(?:::\w+)*)::(\w+)")
WORD = re.compile(r"[A-Za-z_][A-Za-z_0-9]*")
MADE = object()  # stands for what rt makes from the code
MADE_MODULES = {"TheImpl", "TheKnot", "TheSendSync", "TheLaws", "Key"}
# what is no name in a definition
SIGNS = set("(){}[],;.λ:→=×⊎≡∷++ + - * / | && || == < ≤ ≢ ¬ ∙ ^ % _ let in where record data use pub abbrev module if then else ↔".split())
TYPES = ("struct", "enum", "trait", "type")  # the kinds of items that are types of code
OPENS, CLOSES = {"(": ")", "{": "}", "[": "]"}, {")", "}", "]"}


class Item:
    """One thing that has a name."""

    def __init__(self, kind, name, crate, module, path, line, owner=None, public=False):
        self.kind, self.name, self.crate, self.module = kind, name, crate, module
        self.path, self.line, self.owner, self.public = path, line, owner, public
        self.chunks = []  # of a definition or lemma: the tokens of its signature, and of each equation
        self.cites = []  # of these: (item, token) for each name in them, once Checkout.find_citations was called
        self.clauses = []  # of a function
        self.params = set()  # of a function

    @property
    def place(self):
        return f"{self.path}:{self.line}"

    @property
    def where(self):
        return ".".join(filter(None, (self.crate, self.module, self.owner)))

    def __repr__(self):
        return f"{self.kind} {self.where}.{self.name}"


class Token:
    """A token with its place in the file; `after` says that a dot stands right before it. A clause of code is one token."""
    __slots__ = ("text", "line", "start", "end", "after", "clause")

    def __init__(self, text, line, start, end, after=False, clause=None):
        self.text, self.line, self.start, self.end, self.after, self.clause = text, line, start, end, after, clause

    def __repr__(self):
        return self.text


class Import:
    """One name of a `use` line: `local` in the file, `name` where it comes from. With no name, `local` is the module itself.

    The scope is the part of a file of code in which it stands (None: all of it), or whether the line gives it on.
    """
    __slots__ = ("path", "name", "local", "line", "scope")

    def __init__(self, path, name, local, line, scope=None):
        self.path, self.name, self.local, self.line, self.scope = path, name, local, line, scope


def code_of(row):
    """A line of definitions without its comment, and with what its strings hold blotted out."""
    code = STRING.sub(lambda m: '"' + "'" * (len(m[0]) - 2) + '"', row)  # which stays what it is where it is blotted again
    comment = COMMENT.search(code)
    return code[:comment.start()] if comment else code


def antt_tokens(text, base=0, line=1):
    """The tokens of definitions or of a clause; comments are left out."""
    found = []
    at = 0
    for row in text.split("\n"):
        code = code_of(row)
        last = None
        for m in ANTT.finditer(code):
            after = last is not None and last.text == "." and last.end == base + at + m.start() and m.start() > 1 and not code[m.start() - 2].isspace()
            token = Token(m[0], line, base + at + m.start(), base + at + m.end(), after)
            found.append(token)
            last = token
        at += len(row) + 1
        line += 1
    return found


def names_of(inside):
    """The names between the braces of a `use` line: (name, local)."""
    parts = [part.split() for part in inside.split(",")]
    return [(words[0], words[2] if len(words) == 3 and words[1] == "as" else words[0]) for words in parts if words]


class AnttFile:
    """A file of definitions or proofs: its imports, and its items with their chunks of tokens."""

    def __init__(self, crate, module, path, text):
        self.crate, self.module, self.path = crate, module, path
        self.imports, self.items = [], []
        self.read(text)
        self.local = {}
        for item in self.items:
            if item.owner is None or item.kind == "constructor":
                self.local.setdefault(item.name, item)
        self.names = {i.local: i for i in self.imports}

    def read(self, text):
        """Reads line by line: an item begins at the level of its `module`, and what stands deeper belongs to it."""
        offset = 0
        levels = [0]
        fresh = False  # the line before began a module, so this one's level is that of its items
        current, members, header = None, None, None
        for number, row in enumerate(text.split("\n"), 1):
            start, offset = offset, offset + len(row) + 1
            code = code_of(row)
            if not code.strip():
                continue
            used = USE.match(code)
            if used:
                self.use(used, number)
                continue
            indent = len(code) - len(code.lstrip())
            if fresh:
                if indent > levels[-1]:
                    levels.append(indent)
                fresh = False
            while indent < levels[-1]:
                levels.pop()
            tokens = antt_tokens(code, start, number)
            if indent > levels[-1]:
                if current:
                    self.member(current, members, indent, code, number)
                    current.chunks[-1].extend(tokens)
                if current is header and code.rstrip().endswith("where"):
                    fresh, current = True, None
                continue
            words = code.split()
            if words[0] == "module":
                current = header = Item("module", "_", self.crate, self.module, self.path, number)
                current.chunks.append(tokens)
                if code.rstrip().endswith("where"):
                    fresh, current = True, None
                continue
            current, members = self.top(words, tokens, number, current)

    def use(self, m, number):
        """A `use` line, as USE found it."""
        path, scope = m[2], "pub" if m[0].lstrip().startswith("pub") else None
        if m[3] is not None:
            self.imports += [Import(path, name, local, number, scope) for name, local in names_of(m[3])]
        else:
            self.imports.append(Import(path, None, m[4] or path.rsplit(".", 1)[-1], number, scope))

    def top(self, words, tokens, number, current):
        """A line at the level of items: returns the item that it begins or goes on with, and what is known of its members' lines."""
        marks = []
        while words and words[0] in ("abbrev", "pub", "unfoldable"):
            marks.append(words.pop(0))
        if not words or words[0] in ("infixl", "infixr", "infix", "mod"):
            return None, None
        if words[0] in ("record", "data") and len(words) > 1 and words[1] != "{":
            item = Item(words[0], words[1], self.crate, self.module, self.path, number, public="pub" in marks)
            item.chunks.append(tokens)
            self.items.append(item)
            return item, {"indent": None}
        if len(words) > 1 and words[1] == ":":
            kind = "definition" if "abbrev" in marks or "/specs/" in self.path else "lemma"
            item = Item(kind, words[0], self.crate, self.module, self.path, number, public="pub" in marks)
            item.chunks.append(tokens)
            self.items.append(item)
            return item, None
        if words[0] == "ruleset" and len(words) > 2 and words[2] == "=":
            item = Item("lemma", words[1], self.crate, self.module, self.path, number, public="pub" in marks)
            item.chunks.append(tokens)
            self.items.append(item)
            return item, None
        if current is not None and current.kind in ("definition", "lemma"):
            current.chunks.append(tokens)
            return current, None
        item = Item("rest", words[0], self.crate, self.module, self.path, number)
        item.chunks.append(tokens)
        self.items.append(item)
        return item, None

    def member(self, item, members, indent, code, number):
        """A field of a record, or the constructors of one line."""
        if members is None or item.kind not in ("record", "data"):
            return
        if members["indent"] is None:
            members["indent"] = indent
        if indent != members["indent"]:
            return
        words = code.split()
        if words[0] == "deriving" and len(words) > 3:
            self.items.append(Item("definition", words[3], self.crate, self.module, self.path, number, owner=None, public=True))
            return
        if words[0] == "pub":
            words = words[1:]
        if ":" not in words:
            return
        for name in words[:words.index(":")]:
            kind = "field" if item.kind == "record" else "constructor"
            self.items.append(Item(kind, name, self.crate, self.module, self.path, number, owner=item.name, public=item.public))


def bound_names(tokens, constructors, clause=False):
    """The names that one equation or signature binds itself: after λ and let, before a colon in brackets, and in its patterns."""
    bound = set()
    depth = 0
    texts = [t.text for t in tokens]
    count = len(texts)
    i = 0
    while i < count:
        text = texts[i]
        if text == "λ":
            i += 1
            while i < count and texts[i] != ".":
                if texts[i] == "(":
                    i += 1
                    while i < count and texts[i] not in (":", ")"):
                        bound.add(texts[i])
                        i += 1
                    level = 1
                    while i < count and level:
                        level += texts[i] == "("
                        level -= texts[i] == ")"
                        i += 1
                    continue
                bound.add(texts[i])
                i += 1
        elif text in ("(", "{"):
            j = i + 1
            while j < count and texts[j] not in SIGNS:
                j += 1
            if j < count and texts[j] == ":" and j > i + 1:
                bound.update(texts[i + 1:j])
        elif text == "let" and i + 1 < count:
            bound.add(texts[i + 1])
        i += 1
    starts = {}
    for t in tokens:
        starts.setdefault(t.line, []).append(t)
    for number, row in enumerate(() if clause else starts.values()):
        words = [t.text for t in row]
        if "=" in words and "let" not in words[:words.index("=")] and words[0] not in ("record", "{", "pub", "("):
            left = row[:words.index("=")]
            if len(left) == 1 and number or sum((t.text in "({[") - (t.text in ")}]") for t in left):
                continue  # a field of a record
            for t, behind in zip(left[1:], left[2:] + [None]):
                if t.text not in SIGNS and not t.after and t.text not in constructors and (behind is None or behind.text != "."):
                    bound.add(t.text)
        if len(words) > 1 and words[1] == ":" and number and words[0] != "pub":
            bound.add(words[0])
    return bound


# ---- .rt

RUST = re.compile(r"""
    (?P<space>\s+) | (?P<comment>//[^\n]*|/\*.*?\*/) | (?P<raw>b?r(\#*)".*?"\4) | (?P<string>b?"(?:\\.|[^"\\])*")
    | (?P<char>b?'(?:\\(?:x[0-9a-fA-F]{2}|u\{[^}]*\}|.)|[^'\\\n])') | (?P<life>'[A-Za-z_]\w*)
    | (?P<ghost>ghost\s+use\s[^;]*;)
    | (?P<clause>(?:requires|ensures|decreases)(?:\s+\w+)?\*?\s*\{ | ghost\s+\w+\s*[:=]\s*\{)
    | (?P<word>[A-Za-z_]\w*!?) | (?P<number>[0-9][\w.]*) | (?P<sign>::|->|=>|\.\.=?|.)
    """, re.X | re.S)


class Clause:
    """A requires, an ensures, or a ghost item: its label, or the item's name, and its tokens."""

    def __init__(self, label, tokens):
        self.label, self.tokens = label, tokens


def rt_tokens(text):
    """The tokens of code, and its lines of `ghost use`: (place, line's text, number). Comments are left out, a string is one quote."""
    found, imports = [], []
    at, line = 0, 1
    while at < len(text):
        m = RUST.match(text, at)
        kind, piece, end = m.lastgroup, m[0], m.end()
        if kind == "ghost":
            imports.append((m.start(), piece, line))
        elif kind == "clause":
            level, j = 1, end
            while level and j < len(text):
                if text[j] == '"':
                    j = STRING.match(text, j).end()
                    continue
                level += text[j] == "{"
                level -= text[j] == "}"
                j += 1
            words = re.findall(r"\w+", piece)
            clause = Clause(words[1] if len(words) > 1 else None, antt_tokens(text[end:j - 1], end, line + piece.count("\n")))
            found.append(Token("#clause", line, m.start(), j, clause=clause))
            piece, end = text[m.start():j], j
        elif kind in ("word", "sign", "number", "life"):
            found.append(Token(piece, line, m.start(), end))
        elif kind in ("string", "raw", "char"):
            found.append(Token("\"", line, m.start(), end))
        line += piece.count("\n")
        at = end
    return found, imports


class RtFile:
    """A file of code: its items, its imports in both scopes, and its clauses with the function that they stand at."""

    def __init__(self, crate, module, path, text):
        self.crate, self.module, self.path = crate, module, path
        self.tokens, ghosts = rt_tokens(text)
        self.items, self.functions = [], []
        self.uses, self.imports = [], []  # of `use`, and of `ghost use`
        self.clauses = []  # (clause, its function, the type or trait whose block it is in)
        self.blocks = []  # the first and last token of each type and impl
        self.tactics = [Import((m[1], m[2], m[3].replace("::", ".")), m[4], None, text.count("\n", 0, m.start()) + 1) for m in TACTIC.finditer(text)]
        self.match = self.pairs()
        self.scan(0, len(self.tokens), None, None)
        for start, piece, line in ghosts:
            self.ghost(start, piece, line)

    def pairs(self):
        """Of each opening bracket, by its place among the tokens, the closing one."""
        pairs, open_at = {}, []
        for i, t in enumerate(self.tokens):
            if t.text in OPENS:
                open_at.append(i)
            elif t.text in CLOSES:
                if not open_at or OPENS[self.tokens[open_at[-1]].text] != t.text:
                    raise ValueError(f"{self.path}:{t.line}: no bracket is open for this {t.text}")
                pairs[open_at.pop()] = i
        if open_at:
            raise ValueError(f"{self.path}:{self.tokens[open_at[-1]].line}: this {self.tokens[open_at[-1]].text} is not closed")
        return pairs

    def ghost(self, start, piece, line):
        """A `ghost use` line, whose scope is the type or block that it stands in."""
        m = GHOST_USE.match(piece)
        if not m:
            return
        scope = None
        for f in self.blocks:
            if self.tokens[f[0]].start < start < self.tokens[f[1]].end:
                scope = (self.tokens[f[0]].start, self.tokens[f[1]].end)
        if m[2] is not None:
            self.imports += [Import(m[1], name, local, line, scope) for name, local in names_of(m[2])]
        else:
            self.imports.append(Import(m[1], None, m[3] or m[1].rsplit(".", 1)[-1], line, scope))

    def item(self, kind, t, owner, public):
        item = Item(kind, t.text, self.crate, self.module, self.path, t.line, owner=owner, public=public)
        self.items.append(item)
        return item

    def scan(self, i, end, owner, trait):
        """The items between two tokens; `owner` is the type or trait whose block it is, `trait` the trait that the block is of."""
        ts = self.tokens
        public = False
        while i < end:
            text = ts[i].text
            if text == "#" and i + 1 < end and ts[i + 1].text in ("[", "!"):
                j = i + 1 if ts[i + 1].text == "[" else i + 2
                i = self.match.get(j, j) + 1
                continue
            if text == "pub":
                public = True
                if ts[i + 1].text == "(":
                    public = False
                    i = self.match[i + 1]
                i += 1
                continue
            if text == "#clause":
                self.clauses.append((ts[i].clause, None, owner))
                i += 1
                continue
            if text == "use":
                j = i
                while ts[j].text != ";":
                    j += 1
                self.rust_use(i + 1, j, public)
                i, public = j + 1, False
                continue
            if text == "mod":
                self.item("mod", ts[i + 1], owner, public)
                if ts[i + 2].text == "{":
                    stop = self.match[i + 2]
                    self.scan(i + 3, stop, owner, trait)
                    i = stop
                i, public = i + 2 if ts[i + 2].text == ";" else i + 1, False
                continue
            if text == "fn":
                i = self.function(i, end, owner, trait, public)
                public = False
                continue
            if text in ("struct", "enum", "trait", "union"):
                i = self.type_item(i, text, public)
                public = False
                continue
            if text in ("const", "static") and ts[i + 1].text != "fn":
                if WORD.fullmatch(ts[i + 1].text) and ts[i + 1].text != "_":
                    self.item("const", ts[i + 1], owner, public)
                j = i
                while j < end and ts[j].text != ";":
                    j = self.match.get(j, j) + 1
                i, public = j + 1, False
                continue
            if text == "type" and owner is None:
                self.item("type", ts[i + 1], owner, public)
                j = i
                while ts[j].text != ";":
                    j += 1
                i, public = j + 1, False
                continue
            if text == "impl":
                j = i + 1
                while ts[j].text != "{":
                    j += 1
                self.blocks.append((i, self.match[j]))
                self.scan(j + 1, self.match[j], *self.impl_of(i + 1, j))
                i, public = self.match[j] + 1, False
                continue
            i += 1
            if text in (";", "}"):
                public = False

    def impl_of(self, i, j):
        """The type that a block is of, and the trait or None, by the tokens between `impl` and the brace."""
        ts = self.tokens
        if ts[i].text == "<":
            level = 0
            while True:
                level += ts[i].text == "<"
                level -= ts[i].text == ">"
                i += 1
                if not level:
                    break
        words, level = [], 0
        for t in ts[i:j]:
            if t.text == "<":
                level += 1
            elif t.text == ">":
                level -= 1
            elif not level:
                words.append(t.text)
        if "where" in words:
            words = words[:words.index("where")]
        if "for" in words:
            at = words.index("for")
            trait = [w for w in words[:at] if WORD.fullmatch(w)]
            name = [w for w in words[at + 1:] if WORD.fullmatch(w) and w not in ("mut", "dyn")]
            return (name[-1] if name else "_"), (trait[-1] if trait else "_")
        name = [w for w in words if WORD.fullmatch(w)]
        return (name[-1] if name else "_"), None

    def function(self, i, end, owner, trait, public):
        """The function that begins at `fn`, its clauses, and the `use` lines of its body; returns the place behind it."""
        ts = self.tokens
        item = self.item("function" if owner is None else "method", ts[i + 1], owner, public or trait is not None)
        j = i + 2
        level = 0
        while ts[j].text != "(" or level:
            level += ts[j].text == "<"
            level -= ts[j].text == ">"
            j += 1
        stop = self.match[j]
        for k in range(j, stop):
            if ts[k].text == ":" and WORD.fullmatch(ts[k - 1].text):
                item.params.add(ts[k - 1].text)
            if ts[k].text == "#clause":
                item.params.add(ts[k].clause.label)
        j = stop + 1
        while j < end and ts[j].text not in ("{", ";"):
            if ts[j].text == "#clause":
                item.clauses.append(ts[j].clause)
                self.clauses.append((ts[j].clause, item, owner))
            j = self.match.get(j, j) + 1
        if j < end and ts[j].text == "{":
            for k in range(j, self.match[j]):
                if ts[k].text == "#clause":
                    self.clauses.append((ts[k].clause, item, owner))
                if ts[k].text == "use" and ts[k - 1].text in (";", "{", "}"):
                    m = k
                    while ts[m].text != ";":
                        m += 1
                    self.rust_use(k + 1, m, False)
            j = self.match[j]
        self.functions.append(item)
        return j + 1

    def type_item(self, i, text, public):
        """A type or trait with its fields or variants; returns the place behind it."""
        ts = self.tokens
        item = self.item(text, ts[i + 1], None, public)
        j = i + 2
        while ts[j].text not in ("{", ";", "("):
            j += 1
        if ts[j].text == ";":
            return j + 1
        stop = self.match[j]
        self.blocks.append((i, stop))
        if text == "trait":
            self.scan(j + 1, stop, item.name, item.name)
            return stop + 1
        k = j + 1
        expect = True
        while k < stop:
            t = ts[k].text
            if t == "#":
                k = self.match[k + 1] + 1
                continue
            if t == "#clause":
                self.clauses.append((ts[k].clause, None, item.name))
                self.item("field", Token(ts[k].clause.label, ts[k].line, ts[k].start, ts[k].end), item.name, False)
                k += 1
                continue
            if text == "enum" and expect and WORD.fullmatch(t):
                self.item("variant", ts[k], item.name, public)
                expect = False
            elif text == "struct" and ts[j].text == "{" and WORD.fullmatch(t) and ts[k + 1].text == ":":
                self.item("field", ts[k], item.name, ts[k - 1].text == "pub")
            if t == ",":
                expect = True
            if text == "enum" and t == "{":
                for n in range(k + 1, self.match[k]):
                    if ts[n].text == ":" and WORD.fullmatch(ts[n - 1].text) and ts[n - 2].text in ("{", ",", "]"):
                        self.item("field", ts[n - 1], item.name, public)
            k = self.match.get(k, k) + 1 if t in OPENS else k + 1
        if ts[j].text == "(":
            return stop + 2
        return stop + 1

    def rust_use(self, i, j, public):
        """Reads a tree of `use`."""
        ts = self.tokens

        def tree(i, j, base):
            path = list(base)
            while i < j:
                t = ts[i].text
                if t == "::":
                    i += 1
                elif t == "{":
                    stop = self.match[i]
                    k = i + 1
                    while k < stop:
                        n, level = k, 0
                        while n < stop and (ts[n].text != "," or level):
                            level += ts[n].text == "{"
                            level -= ts[n].text == "}"
                            n += 1
                        tree(k, n, path)
                        k = n + 1
                    return
                elif t == "as":
                    self.uses.append(Import(tuple(path[:-1]), path[-1], ts[i + 1].text, last.line, public))
                    return
                else:
                    path.append(t)
                    last = ts[i]
                    i += 1
            if path:
                self.uses.append(Import(tuple(path[:-1]), path[-1], path[-1], last.line, public))

        tree(i, j, ())


# ---- all crates

class Checkout:
    """The crates that crates.txt lists, by their files. What cannot be read raises OSError or ValueError, with the file."""

    def __init__(self, top):
        self.top = top
        self.below = self.layers()
        self.crates = list(self.below)
        self.antt, self.rt = {}, {}
        self.specs, self.proofs = {}, {}
        for crate in self.crates:
            self.read_crate(crate)
        self.constructors = {i.name for f in self.antt.values() for i in f.items if i.kind == "constructor"}
        self.constructors |= {i.name for f in self.rt.values() for i in f.items if i.kind == "variant"}
        self.constructors |= {"Some", "None", "Ok", "Err", "true", "false", "zero", "suc", "inl", "inr", "refl", "tt"}
        self.modules = {(f.crate, f.module): f for f in self.rt.values()}

    def layers(self):
        """By crate, itself and each crate below it."""
        deps = {}
        for number, row in enumerate(self.text_of("crates.txt").split("\n"), 1):
            name, colon, rest = row.split("#")[0].partition(":")
            if name.strip():
                if not colon:
                    raise ValueError(f"crates.txt:{number}: wants NAME: CRATE ..")
                deps[name.split()[0]] = rest.split()
        below = {}

        def seen(name):
            if name not in below:
                below[name] = {name}
                for dep in deps.get(name, ()):
                    if dep in deps:
                        below[name] |= seen(dep)
            return below[name]

        for name in deps:
            seen(name)
        return below

    def text_of(self, path):
        try:
            with open(os.path.join(self.top, path), encoding="utf-8") as file:
                return file.read()
        except UnicodeDecodeError as error:
            raise ValueError(f"{path}: no UTF-8") from error

    def read_crate(self, crate):
        base = os.path.join(self.top, "crates", crate)
        for folder, ending in (("src", ".rt"), ("specs", ".antt"), ("proofs", ".antt")):
            for at, folders, files in os.walk(os.path.join(base, folder)):
                folders.sort()
                for name in sorted(files):
                    if not name.endswith(ending):
                        continue
                    full = os.path.join(at, name)
                    path = os.path.relpath(full, self.top)
                    inner = os.path.relpath(full, os.path.join(base, folder))[:-len(ending)].split(os.sep)
                    text = self.text_of(path)
                    if ending == ".rt":
                        module = "::".join(part for part in inner if part != "mod")
                        try:
                            self.rt[path] = RtFile(crate, module, path, text)
                        except IndexError as error:
                            raise ValueError(f"{path}: ends within an item") from error
                    else:
                        module = ".".join([folder] + inner)
                        file = AnttFile(crate, module, path, text)
                        self.antt[path] = file
                        (self.specs if folder == "specs" else self.proofs)[(crate, module)] = file

    def sees(self, one, other):
        """Whether one of the two crates is the other, or stands below it."""
        return one in self.below[other] or other in self.below[one]

    def has_module(self, path):
        """Whether a path of a `use` line leads into these crates."""
        parts = path.split(".")
        return parts[0] == "Rattle" and parts[1] in self.below

    # -- where an imported name comes from

    def declared(self, crate, parts):
        """The file of code that a path behind `declared` or `contracts` begins with, and what is left of the path."""
        for cut in range(len(parts), 0, -1):
            file = self.modules.get((crate, "::".join(parts[:cut])))
            if file:
                return file, parts[cut:]
        file = self.modules.get((crate, "lib"))
        return file, parts

    def antt_target(self, path, name):
        """The item that `use path.{name}` brings in, or None where it is not of these crates."""
        parts = path.split(".")
        if len(parts) < 3 or parts[0] != "Rattle" or parts[1] not in self.below:
            return None
        crate, kind = parts[1], parts[2]
        if parts[-1] in ("Goals", "Given") or MADE_MODULES & set(parts[3:]):
            return MADE
        if kind == "specs" and len(parts) > 3 and parts[3] in ("declared", "contracts"):
            file, rest = self.declared(crate, parts[4:])
            if file is None:
                return None
            if rest and rest[0] == "TheConstants":
                return self.pick(file, name, ("const",))
            if rest and rest[-1] == "TheVariants":
                return self.pick(file, name.rstrip("'"), ("variant", "field"), rest[0])
            if rest and rest[-1] == "TheInside":
                return self.pick(file, rest[0], TYPES)
            return self.pick(file, name, TYPES + ("function",))
        for cut in range(len(parts), 3, -1):
            file = (self.specs if kind == "specs" else self.proofs).get((crate, ".".join(parts[2:cut])))
            if file:
                owner = parts[cut] if cut < len(parts) else None
                for item in file.items:
                    if item.name == name and item.kind != "rest" and (owner is None or item.owner == owner):
                        if item.kind != "field" or owner:
                            return item
                for use in file.imports:
                    if use.local == name and use.name and use.scope == "pub":
                        return self.antt_target(use.path, use.name)
                return None
        return None

    def tactic_target(self, file, use):
        """The item of a path in an attribute, as `unfolding(crate::specs::Marks::without)`."""
        crate, kind, module = use.path
        return self.antt_target(".".join(("Rattle", file.crate if crate == "crate" else crate, kind, module)), use.name)

    @staticmethod
    def pick(file, name, kinds, owner=None):
        for item in file.items:
            if item.name == name and item.kind in kinds and (owner is None or item.owner == owner):
                return item
        return None

    def rust_target(self, file, path, name, seen=()):
        """The item that `use path::name` brings into a file of code."""
        if not path:
            crate, inner = file.crate, []
            if name in self.below[file.crate] or name in ("std", "crate"):
                return None
        elif path[0] == "crate":
            crate, inner = file.crate, list(path[1:])
        elif path[0] == "super":
            crate, inner = file.crate, file.module.split("::")[:-1] + list(path[1:])
        elif path[0] == "self":
            crate, inner = file.crate, ([] if file.module == "lib" else file.module.split("::")) + list(path[1:])
        elif path[0] in self.below[file.crate]:  # (another crate may have the name of a module)
            crate, inner = path[0], list(path[1:])
        elif (file.crate, path[0]) in self.modules:
            crate, inner = file.crate, list(path)
        else:
            return None
        return self.in_module(crate, inner, name, seen)

    def in_module(self, crate, inner, name, seen):
        """The item that a module of code has or gives on; `seen` are the questions that led here."""
        if (crate, tuple(inner), name) in seen:
            return None
        seen = seen + ((crate, tuple(inner), name),)
        file = self.modules.get((crate, "::".join(inner) if inner else "lib")) or (self.modules.get((crate, "main")) if not inner else None)
        if file is None and inner:
            parent = self.modules.get((crate, "::".join(inner[:-1]) if inner[:-1] else "lib"))
            if parent is None:
                return None
            for item in parent.items:  # a variant, or what a `mod` block inside the file has
                if item.name == name and item.owner == inner[-1] and item.kind == "variant":
                    return item
            found = self.in_module(crate, inner[:-1], inner[-1], seen)
            if found is not None and found.kind == "enum":
                return self.pick(self.rt[found.path], name, ("variant",), found.name)
            return self.pick(parent, name, TYPES + ("function", "const"))
        if file is None:
            return None
        found = self.pick(file, name, TYPES + ("function", "const"))
        if found:
            return found
        for use in file.uses:
            if use.local == name and use.name != "*":
                return self.rust_target(file, use.path, use.name, seen)
        return None

    def given_out(self, crate):
        """The items that the crate's root gives out."""
        root = self.modules.get((crate, "lib")) or self.modules.get((crate, "main"))
        found = []
        if root is None:
            return found
        for item in root.items:
            if item.public and item.owner is None and item.kind != "mod":
                found.append(item)
            if item.kind == "mod" and item.public:
                file = self.modules.get((crate, item.name))
                if file:
                    found += [i for i in file.items if i.public and i.owner is None]
        for use in root.uses:
            if use.scope:
                item = self.rust_target(root, use.path, use.name)
                if item is not None and item.crate == crate:
                    found.append(item)
        return found

    # -- what definitions cite

    def cited(self, file, tokens, imports, bound):
        """The items that tokens name, by the file's imports."""
        found = []
        for at, t in enumerate(tokens):
            if t.after or t.text in SIGNS or t.text in bound:
                continue
            if at + 1 < len(tokens) and at and tokens[at + 1].text == ":" and tokens[at - 1].text == "pub" and tokens[at - 1].line != tokens[0].line:
                continue  # a field of a record
            item = self.named(file, imports, tokens, at)
            if item is not None and item.kind in ("data", "enum") and at + 2 < len(tokens) and tokens[at + 2].after and tokens[at + 1].text == ".":
                item = self.member_of(item, tokens[at + 2].text) or item
            if item is not None:
                found.append((item, t))
        return found

    def member_of(self, owner, name):
        """A constructor or variant by the name of its type."""
        for item in (self.antt.get(owner.path) or self.rt[owner.path]).items:
            if item.owner == owner.name and item.name == name.rstrip("'") and item.kind in ("constructor", "variant"):
                return item
        return None

    def named(self, file, imports, tokens, at):
        """The item of these crates that the token names, or None."""
        text = tokens[at].text
        if at + 1 < len(tokens) and tokens[at + 1].text == "=" and at and tokens[at - 1].text in ("{", ";"):
            return None  # a field of a record
        local = getattr(file, "local", {}).get(text)
        if local is not None:
            return local
        use = imports.get(text)
        if use is None:
            operator = f"◌{text}◌"
            use = imports.get(operator)
            if use is None:
                return getattr(file, "local", {}).get(operator)
        if use.name is None:
            if at + 2 < len(tokens) and tokens[at + 1].text == "." and tokens[at + 2].after:
                return self.thing(self.antt_target(use.path, tokens[at + 2].text))
            return None
        return self.thing(self.antt_target(use.path, use.name))

    @staticmethod
    def thing(item):
        """The item, where it is one and nothing that rt makes."""
        return item if isinstance(item, Item) else None

    def find_citations(self):
        """Gives each definition and lemma its `cites`."""
        for file in self.antt.values():
            for item in file.items:
                for chunk in item.chunks:
                    item.cites += self.cited(file, chunk, file.names, bound_names(chunk, self.constructors))

    def clause_imports(self, file, at):
        """The imports for contracts at a place of a file of code, by their names there."""
        found = {}
        for use in file.imports:
            if use.scope is None or use.scope[0] <= at < use.scope[1]:
                if use.scope is None and use.local in found and found[use.local].scope:
                    continue
                found[use.local] = use
        return found

    def clause_cites(self, file, clause, function):
        """The items that a clause names, with the tokens; the function is None where it stands at none."""
        if not clause.tokens:
            return []
        bound = bound_names(clause.tokens, self.constructors, True) | (function.params if function else set()) | {"result", "self"}
        return self.cited(file, clause.tokens, self.clause_imports(file, clause.tokens[0].start), bound)
