#!/usr/bin/env python3
"""A model of the program `links`, written from docs/ alone. Its output is the stored output of the program:

    python3 tools/links_model.py < crates/links/stdin | cmp - crates/links/stdout

usage: links_model.py [--list-cells N] [--table-cells N] [--words N] [--records N] [--index N]
                      [--numbers lowest|highest|next|random] [--figures] < stdin > stdout

--numbers says which free link number a new triple takes; nothing that is printed depends on it. --figures
adds on stderr how many words, triples and cells there are at the end, and how often a family moved."""
import argparse
import random
import sys


class NoPlace(Exception):
    pass


class DoubleArray:
    """Cells BASE and CHECK; paths of codes with numbers at their ends (docs/CELLS.md)."""

    def __init__(self, n, places):
        self.n = n
        self.base = [0] * n
        self.check = [0] * n
        self.index = [0] * (places + 1)          # the entry of u is index[u]
        self.kids = {1: {}}                      # cell -> {code: child}; what the edges say, kept beside them
        if n >= 2:
            self.base[1] = 1
            self.check[1] = 1
        self.moves = 0

    def free(self, t):
        return self.base[t] == 0 and self.check[t] == 0

    def edge(self, s, a):
        if self.n < 2 or self.base[s] < 0:
            return None
        t = self.base[s] + a
        if t < self.n and self.check[t] == s and t != 1:
            return t
        return None

    def children(self, s):
        if self.base[s] < 0:
            return []
        return sorted(self.kids.get(s, {}))

    def number_at(self, path):
        s = 1
        if self.n < 2:
            return None
        for a in path:
            t = self.edge(s, a)
            if t is None:
                return None
            s = t
        return -self.base[s] if self.base[s] < 0 else None

    def lowest_base(self, codes):
        top = max(codes)
        bot = min(codes)
        n, base, check = self.n, self.base, self.check
        b = 1
        while b + top < n:
            for c in codes:
                t = b + c
                if base[t] != 0 or check[t] != 0:
                    break
            else:
                return b
            b += 1
        return None

    def give_child(self, s, a):
        """A child of s by the code a, at the place that the rule gives; answers its cell."""
        present = self.children(s)
        if present:
            t = self.base[s] + a
            if t < self.n and self.free(t):
                self.base[t] = 1
                self.check[t] = s
                self.kids[s][a] = t
                self.kids[t] = {}
                return t
        b = self.lowest_base(present + [a])
        if b is None:
            raise NoPlace()
        if present:
            self.moves += 1
        old = self.base[s]
        kids = self.kids[s]
        self.base[s] = b
        for c in present:
            f, t = old + c, b + c
            assert kids[c] == f and self.check[f] == s
            self.base[t], self.check[t] = self.base[f], s
            if self.base[t] < 0:
                self.index[-self.base[t]] = t
                self.kids.pop(f, None)
                self.kids[t] = {}
            else:
                grand = self.kids.pop(f)
                self.kids[t] = grand
                for g in grand.values():
                    self.check[g] = t
            self.base[f] = 0
            self.check[f] = 0
            kids[c] = t
        t = b + a
        assert self.free(t)
        self.base[t] = 1
        self.check[t] = s
        kids[a] = t
        self.kids[t] = {}
        return t

    def enter(self, path, u):
        if self.n < 2:
            raise NoPlace()
        saved = (self.base[:], self.check[:], self.index[:], {k: dict(v) for k, v in self.kids.items()})
        s = 1
        try:
            for a in path:
                t = self.edge(s, a)
                s = t if t is not None else self.give_child(s, a)
        except NoPlace:
            self.base, self.check, self.index, self.kids = saved
            raise
        self.base[s] = -u
        self.index[u] = s

    def remove(self, path):
        way = [1]
        for a in path:
            way.append(self.edge(way[-1], a))
        leaf = way[-1]
        u = -self.base[leaf]
        self.index[u] = 0
        for i in range(len(path) - 1, -1, -1):
            t, s = way[i + 1], way[i]
            if self.kids.get(t):
                break
            self.base[t] = 0
            self.check[t] = 0
            del self.kids[s][path[i]]
            self.kids.pop(t, None)
        if not self.kids[1]:
            self.base[1] = 1
        return u

    def in_use(self):
        return sum(1 for t in range(1, self.n) if not self.free(t))

    def verify(self):
        """What the two columns alone say agrees with the families kept beside them."""
        for t in range(2, self.n):
            if not self.free(t):
                s = self.check[t]
                assert self.base[s] > 0 and self.kids[s][t - self.base[s]] == t
        for s, f in self.kids.items():
            for a, t in f.items():
                assert self.base[s] + a == t and self.check[t] == s


class TrieList:
    """A word list over a double array (docs/WORD_LISTS.md)."""

    def __init__(self, cells, places):
        self.k = min(places, 65535)
        self.da = DoubleArray(min(cells, 1048576), places)
        self.roll = []
        self.numbers = {}
        self.want_cells = 0
        self.want_words = 0

    @staticmethod
    def path(word):
        return [b + 2 for b in word] + [1]

    def find(self, word):
        u = self.da.number_at(self.path(word))
        assert u == self.numbers.get(word)
        return u

    def enter(self, word):
        """The word's number, or None where there is no room."""
        u = self.find(word)
        if u is not None:
            return u
        if len(self.roll) >= self.k:
            self.want_words += 1
            return None
        try:
            self.da.enter(self.path(word), len(self.roll) + 1)
        except NoPlace:
            self.want_cells += 1
            return None
        self.roll.append(word)
        self.numbers[word] = len(self.roll)
        return len(self.roll)


class LinkTable:
    """Triples and their link numbers (docs/LINKS.md)."""

    def __init__(self, cells, places, records, numbers='lowest'):
        self.m = min(records, places, 1048575)
        self.da = DoubleArray(min(cells, 1048576), places)
        self.triples = {}
        self.held = {}
        self.numbers = numbers
        self.last = 0
        self.rng = random.Random(1)

    @staticmethod
    def path(x, r, y):
        return [b + 2 for b in (x >> 8, x & 255, r, y >> 8, y & 255)]

    def number_of(self, t):
        u = self.da.number_at(self.path(*t))
        assert u == self.triples.get(t)
        return u

    def free_number(self):
        free = [u for u in range(1, self.m + 1) if u not in self.held]
        if self.numbers == 'lowest':
            return free[0]
        if self.numbers == 'highest':
            return free[-1]
        if self.numbers == 'random':
            return self.rng.choice(free)
        later = [u for u in free if u > self.last]
        return later[0] if later else free[0]

    def put(self, t):
        """The new link number, or a refusal."""
        if self.number_of(t) is not None:
            return None, (6, 3, 0)
        if len(self.triples) >= self.m:
            return None, (9, 3, 0)
        u = self.free_number()
        try:
            self.da.enter(self.path(*t), u)
        except NoPlace:
            return None, (8, 3, 0)
        self.triples[t] = u
        self.held[u] = t
        self.last = u
        return u, None

    def take(self, t):
        u = self.da.remove(self.path(*t))
        assert self.triples.pop(t) == u
        del self.held[u]
        return u


FIELDS = {b'A': 4, b'T': 4, b'D': 3, b'F': 3, b'S': 3, b'L': 2}


def number(text, top):
    if not text or any(b < 48 or b > 57 for b in text):
        return None
    if len(text) > 1 and text[0] == 48:
        return None
    v = int(text)
    return v if v <= top else None


def asked(line):
    """The command of a line: letter, words, relation, count; None where it is no command (docs/LINES.md)."""
    if len(line) > 127:
        return None
    parts = line.split(b'\t')
    letter, fields = parts[0], parts[1:]
    if letter not in FIELDS or len(fields) != FIELDS[letter]:
        return None
    count = None
    if letter in (b'A', b'T'):
        count = number(fields[3], 4294967295)
        if count is None:
            return None
        fields = fields[:3]
    rel = number(fields[-1], 255)
    if rel is None:
        return None
    return letter, fields[:-1], rel, count


class Store:
    def __init__(self, list_cells=2048, table_cells=2048, words=256, records=256, index=256, numbers='lowest'):
        self.list = TrieList(list_cells, words)
        self.table = LinkTable(table_cells, index, records, numbers)
        self.records = [0] * (records + 1)

    def lookups(self, x, y, rel, count=None):
        """The refusals of words and relation that come before the list is asked."""
        if not 1 <= len(x) <= 32:
            return (1, 1, 1)
        if not 1 <= len(y) <= 32:
            return (1, 1, 2)
        if rel == 0:
            return (2, 1, 0)
        if count is not None and not 1 <= count <= 1000000000:
            return (3, 1, 0)
        return None

    def known(self, x, y):
        nx, ny = self.list.find(x), self.list.find(y)
        if nx is None:
            return (4, 2, 1), None, None
        if ny is None:
            return (4, 2, 2), None, None
        return None, nx, ny

    def rows(self, nx, rel):
        out = [(r, y, self.records[u]) for (x, r, y), u in self.table.triples.items()
               if x == nx and (rel == 0 or r == rel)]
        return sorted(out)

    def line(self, line):
        got = asked(line)
        if got is None:
            return refused((12, 1, 0))
        letter, words, rel, count = got
        if letter == b'L':
            return self.do_list(words[0], rel)
        x, y = words
        ref = self.lookups(x, y, rel, count)
        if ref:
            return refused(ref)
        if letter == b'A':
            nx = self.list.enter(x)
            if nx is None:
                return refused((5, 2, 1))
            ny = self.list.enter(y)
            if ny is None:
                return refused((5, 2, 2))
            return self.put(nx, rel, ny, count)
        ref, nx, ny = self.known(x, y)
        if letter == b'F':
            if ref:
                return b'none\n'
            u = self.table.number_of((nx, rel, ny))
            return b'none\n' if u is None else b'%d\t%d\t%d\n' % (nx, ny, self.records[u])
        if ref:
            return refused(ref)
        if letter == b'T':
            return self.put(nx, rel, ny, count)
        u = self.table.number_of((nx, rel, ny))
        if u is None:
            return refused((7, 3, 0))
        if letter == b'D':
            self.table.take((nx, rel, ny))
            return b'ok\n'
        total = sum(c for _, _, c in self.rows(nx, rel))
        return b'%d\n' % ((2 * 1000000 * self.records[u] + total) // (2 * total))

    def put(self, nx, rel, ny, count):
        u, ref = self.table.put((nx, rel, ny))
        if ref:
            return refused(ref)
        self.records[u] = count
        return b'ok\n'

    def do_list(self, x, rel):
        if not 1 <= len(x) <= 32:
            return refused((1, 1, 1))
        nx = self.list.find(x)
        if nx is None:
            return refused((4, 2, 1))
        rows = self.rows(nx, rel)
        if len(rows) > 100:
            return refused((11, 1, 0))
        return b''.join(b'%d\t%d\t%d\n' % r for r in rows) + b'end\t%d\n' % len(rows)


def refused(ref):
    return b'no\t%d\t%d\t%d\n' % ref


def lines_of(data):
    """The lines ended by a feed; bytes after the last feed are ignored."""
    return data.split(b'\n')[:-1]


def run(data, **sizes):
    store = Store(**sizes)
    return b''.join(store.line(line) for line in lines_of(data)), store


def main():
    p = argparse.ArgumentParser()
    p.add_argument('--list-cells', type=int, default=2048)
    p.add_argument('--table-cells', type=int, default=2048)
    p.add_argument('--words', type=int, default=256)
    p.add_argument('--records', type=int, default=256)
    p.add_argument('--index', type=int, default=256)
    p.add_argument('--numbers', default='lowest')
    p.add_argument('--figures', action='store_true')
    a = p.parse_args()
    out, store = run(sys.stdin.buffer.read(), list_cells=a.list_cells, table_cells=a.table_cells, words=a.words,
                     records=a.records, index=a.index, numbers=a.numbers)
    sys.stdout.buffer.write(out)
    if a.figures:
        print('words', len(store.list.roll), 'list cells', store.list.da.in_use(),
              'moves', store.list.da.moves, 'wanted cells', store.list.want_cells, 'wanted words', store.list.want_words,
              '; triples', len(store.table.triples), 'table cells', store.table.da.in_use(),
              'moves', store.table.da.moves, file=sys.stderr)
        store.list.da.verify()
        store.table.da.verify()


if __name__ == '__main__':
    main()
