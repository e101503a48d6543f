"""Compares what two checkouts promise: the clauses of their public calls, and the definitions that these come to.

A definition is told by its content: its tokens, with each name that it cites in the place of that one's content, and its
own variables by the order in which they come. So one that was moved or renamed is the same, and one that says another
thing is another, as is each that comes to it. It stands beside `names`, which alone calls it.
"""
import hashlib
import re
from collections import Counter, defaultdict

from names_read import MADE, SIGNS

DEFINED = ("definition", "record", "data", "lemma")
ROUNDS = 16  # how deep a definition's content is looked into
NAME = re.compile(r"[A-Za-z_][\w']*")
SPACE = re.compile(r"\s+")


class Promise:
    """One clause: its label and words, its content, and where it stands."""

    def __init__(self, label, words, content, place):
        self.label, self.words, self.content, self.place = label, words, content, place


class Contents:
    """The contents of a checkout's definitions."""

    def __init__(self, checkout):
        self.checkout, self.texts = checkout, {}
        checkout.find_citations()
        self.items = [item for file in checkout.antt.values() for item in file.items if item.kind in DEFINED]
        self.by_name = {(item.path, item.name): item for item in self.items}
        self.members = defaultdict(list)
        for file in checkout.antt.values():
            for item in file.items:
                if item.owner:
                    self.members[item.path, item.owner].append(item)
        self.content = {id(item): "" for item in self.items}
        for _ in range(ROUNDS):
            self.content = {id(item): digest(self.of_item(item)) for item in self.items}

    def text(self, path):
        if path not in self.texts:
            self.texts[path] = self.checkout.text_of(path)
        return self.texts[path]

    def of_cited(self, cited, inside):
        """What stands for a name that is cited inside of an item."""
        if cited is MADE:
            return "made"
        if cited is inside:
            return "itself"
        if id(cited) in self.content:
            return self.content[id(cited)]
        owner = self.by_name.get((cited.path, cited.owner))
        if owner is not None:
            place = self.members[owner.path, owner.name].index(cited)
            return f"{'itself' if owner is inside else self.content[id(owner)]}.{place}"
        return f"{cited.kind} {cited.owner} {cited.name}"

    def of_tokens(self, tokens, cites, path, inside=None):
        """The content of tokens; where they are an item's, its own variables have numbers."""
        cited = {(token.line, token.start): item for item, token in cites}
        file = self.checkout.antt.get(path) or self.checkout.rt[path]
        brought = {use.local: use.name or use.path for use in file.imports}
        numbers = {}
        parts = []
        for token in tokens:
            word = token.text
            if (token.line, token.start) in cited:
                parts.append(self.of_cited(cited[token.line, token.start], inside))
            elif word.startswith('"'):
                parts.append(self.text(path)[token.start:token.end])
            elif token.after or word in SIGNS or not NAME.fullmatch(word):
                parts.append(word)
            elif word in brought:
                parts.append(str(brought[word]))
            elif inside is not None and word == inside.name:
                parts.append("itself")
            elif inside is not None:
                parts.append(f"_{numbers.setdefault(word, len(numbers))}")
            else:
                parts.append(word)
        return " ".join(parts)

    def of_item(self, item):
        rows = ([token for token in chunk if token.text not in ("pub", "abbrev", "unfoldable")] for chunk in item.chunks)
        return "\n".join(self.of_tokens(row, item.cites, item.path, item) for row in rows)

    def of_items_alone(self):
        """By the id of each item, its content with nothing in the place of what it cites."""
        deep, self.content = self.content, dict.fromkeys(self.content, "")
        found = {id(item): self.of_item(item) for item in self.items}
        self.content = deep
        return found

    def promises(self, clauses):
        """By crate and call, the promises of public clauses: (file, clause, function or None)."""
        found = defaultdict(list)
        for file, clause, function in clauses:
            call = "what it is seen as" if function is None else "::".join(filter(None, (function.owner, function.name)))
            words, content, place = "", "", file.path
            if clause.tokens:
                first, last = clause.tokens[0], clause.tokens[-1]
                words = SPACE.sub(" ", self.text(file.path)[first.start:last.end])
                content = self.of_tokens(clause.tokens, self.checkout.clause_cites(file, clause, function), file.path)
                place = f"{file.path}:{first.line}"
            found[file.crate, call].append(Promise(clause.label, words, digest(content), place))
        return found


def digest(text):
    return hashlib.sha256(text.encode()).hexdigest()[:16]


def calls_moved(was, now):
    """By the old crate and call, those of a call that one other crate alone has now."""
    found = {}
    for crate, call in was.keys() - now.keys():
        others = [key for key in now.keys() - was.keys() if key[1] == call]
        if len(others) == 1:
            found[crate, call] = others[0]
    return found


def left(promises, same):
    """The promises without those that both sides have."""
    same, found = Counter(same), []
    for promise in promises:
        if same[promise.content]:
            same[promise.content] -= 1
        else:
            found.append(promise)
    return found


def told(counts, kinds):
    return ", ".join(f"{counts[kind]} {kind}" for kind in kinds)


def compare_clauses(was, now, add):
    """Adds a finding for each public clause that has other words; returns the line that counts them."""
    moved = calls_moved(was, now)
    counts = Counter()
    for crate, call in sorted(was.keys() | now.keys() - set(moved.values())):
        one, other = was.get((crate, call), []), now.get(moved.get((crate, call), (crate, call)), [])
        same = Counter(promise.content for promise in one) & Counter(promise.content for promise in other)
        counts["the same"] += sum(same.values())
        one, other = left(one, same), left(other, same)
        words = {promise.words for promise in one} & {promise.words for promise in other}
        counts["with the same words"] += len(words)
        for sign, kind, side in ("-", "gone", one), ("+", "new", other):
            for promise in side:
                if promise.words not in words:
                    counts[kind] += 1
                    add(f"{sign} {' '.join(filter(None, (crate, call, promise.label)))}: {promise.place}: {promise.words}")
    before, after = sum(map(len, was.values())), sum(map(len, now.values()))
    return f"of {before} public clauses before and {after} after {told(counts, ('the same', 'with the same words', 'gone', 'new'))}"


def is_swapped(old, one, new, other):
    """Whether two definitions of the same form cite things of other names and other contents in one place."""
    cited = zip(*([item for item, token in sorted(side.cites, key=lambda cite: cite[1].start)] for side in (one, other)), strict=False)
    return any(a is not MADE and b is not MADE and a.name != b.name and old.of_cited(a, one) != new.of_cited(b, other) for a, b in cited)


def compare_definitions(old, new, reached, add):
    """Adds a finding for each definition whose own content is another; returns the line that counts them."""
    sides = []
    for side in old, new:
        ids = reached(side.checkout)
        sides.append({(item.crate, item.name): item for item in side.items if id(item) in ids})
    was, now = sides
    contents = [{side.content[id(item)] for item in items.values()} for side, items in ((old, was), (new, now))]
    alone = [side.of_items_alone() for side in (old, new)]
    counts = Counter()
    for name in sorted(was.keys() | now.keys()):
        one, other = was.get(name), now.get(name)
        if (one is None or old.content[id(one)] in contents[1]) and (other is None or new.content[id(other)] in contents[0]):
            continue
        if one and other and alone[0][id(one)] == alone[1][id(other)] and not is_swapped(old, one, new, other):
            continue
        kind = "gone" if other is None else "new" if one is None else "changed"
        counts[kind] += 1
        add(f"{kind} {'.'.join(name)}: {' '.join(item.place for item in (one, other) if item)}")
    return f"of {len(was)} definitions that they come to before and {len(now)} after {told(counts, ('changed', 'gone', 'new'))}"


def compare(before, after, clauses, reached, add):
    """Adds a finding for each difference of two checkouts; returns the lines that count them."""
    old, new = Contents(before), Contents(after)
    counted = compare_clauses(old.promises(clauses(before)), new.promises(clauses(after)), add)
    return [counted, compare_definitions(old, new, reached, add)]
