#!/usr/bin/env python3
"""Makes tests/data/link-checks.txt: queries with three links, derivations right and wrong, and what the checking call answers.

    python3 tests/derivation_vectors.py

It reads derivations by the words of 01 and 02 alone (R-1, R-3, R-8, R-11), and shares nothing with the library. Before it writes, it must answer every
vector of R-8 in the form of 01, and accept every derivation among the vectors of R-11. The derivations are those of R-11 and of link-edges, whole and
with one slip each: a line left out, doubled, exchanged, cut or added, another number, another link.
"""
import pathlib
import random
import sys

DATA = pathlib.Path(__file__).resolve().parent / 'data'
sys.setrecursionlimit(10_000)


class Query:
    """The sections of accepted bytes: per term its link and argument (0 none, 255 nil), and the literals as tuples."""

    def __init__(self, data, links):
        self.links, self.refusal = links, None
        sizes = (1, 3, 3, 3, 2) if links == 1 else (2, 3, 4, 3, 2)
        at, parts = 0, []
        for limit, size in zip((16, 60, 60, 60, 0), sizes):
            if at >= len(data):
                return self.refuse(2, len(data))
            if data[at] > limit:
                return self.refuse(3 if limit else 26, at)
            starts = [at + 1 + size * i for i in range(data[at])]
            at += 1 + size * data[at]
            if at > len(data):
                return self.refuse(2, len(data))
            parts.append((starts, [tuple(data[i:i + size]) for i in starts]))
        if at < len(data):
            return self.refuse(4, at)
        (term_at, terms), (equal_at, equal), (reach_at, reach), (field_at, field), _ = parts
        n = len(terms)
        if links == 3:
            bad = [i for i, (link, byte) in zip(term_at, terms) if (link != 0 if byte in (0, 255) else not 1 <= link <= 3)]
            bad += [i + 1 for i, entry in zip(reach_at, reach) if not 1 <= entry[1] <= 3]
            if bad:
                return self.refuse(22, min(bad))
        else:
            terms = [(1, byte) for byte, in terms]
            reach = [(sign, 1, a, b) for sign, a, b in reach]
        wide, reach_wide = (0, 0) if links == 1 else (1, 1)
        faults = {
            5: [i + wide for t, (i, (_, byte)) in enumerate(zip(term_at, terms), 1) if byte >= t and byte != 255],
            6: [i for starts, _ in parts[1:4] for i in starts if data[i] > 1],
            7: [i + j for i, entry in zip(equal_at, equal) for j in (1, 2) if not 1 <= entry[j] <= n]
            + [i + j + reach_wide for i, entry in zip(reach_at, reach) for j in (1, 2) if not 1 <= entry[j + 1] <= n]
            + [i + 2 for i, entry in zip(field_at, field) if not 1 <= entry[2] <= n],
            8: [i + 1 for i, entry in zip(field_at, field) if not 1 <= entry[1] <= 8],
        }
        for number, places in faults.items():
            if places:
                return self.refuse(number, min(places))
        self.n, self.terms, self.equal, self.reach, self.field = n, terms, equal, reach, field

    def refuse(self, number, place):
        self.refusal = f'refused {number} at {place}'


class Path:
    """What each term became, and per link the links and the reachability facts held, as pairs."""

    def __init__(self, rep, link, reach):
        self.rep, self.link, self.reach = rep, link, reach

    def copy(self):
        return Path(dict(self.rep), {k: set(v) for k, v in self.link.items()}, {k: set(v) for k, v in self.reach.items()})

    def replace(self, low, high):
        new = lambda t: low if t == high else t
        self.rep = {t: new(r) for t, r in self.rep.items()}
        for facts in self.link, self.reach:
            for k in facts:
                facts[k] = {(new(a), new(b)) for a, b in facts[k]}
        return [(low, high)]

    def successors(self, k, a):
        return sorted(b for x, b in self.link[k] if x == a)

    def settle(self):
        """"the two lowest successors of the lowest such term", "by lowest term, then link" """
        doubled = sorted((a, k) for k in self.link for a in self.rep if len(self.successors(k, a)) > 1)
        if not doubled:
            return []
        a, k = doubled[0]
        low, high = self.successors(k, a)[:2]
        return self.replace(low, high) + self.settle()

    def join(self, a, b):
        return [] if a == b else self.replace(min(a, b), max(a, b)) + self.settle()

    def follow(self, k, a):
        return (self.successors(k, a) or [0])[0]


def start(query):
    numbers = range(1, query.links + 1)
    path = Path({t: t for t in range(1, query.n + 1)}, {k: set() for k in numbers}, {k: set() for k in numbers})
    for t, (link, byte) in enumerate(query.terms, 1):
        if byte not in (0, 255):
            path.link[link].add((byte, t))
    pairs = path.settle()
    nils = [t for t, (_, byte) in enumerate(query.terms, 1) if byte == 255]
    for t in nils[1:]:
        pairs += path.join(path.rep[nils[0]], path.rep[t])
    if nils:
        own = path.rep[nils[0]]
        for k in numbers:
            path.link[k].add((own, own))
        pairs += path.settle()
    for sign, a, b in query.equal:
        if sign:
            pairs += path.join(path.rep[a], path.rep[b])
    for sign, k, a, b in query.reach:
        if sign:
            path.reach[k].add((path.rep[a], path.rep[b]))
    return pairs, path


def is_clash(query, path, section, i, j):
    rep = path.rep
    if section == 2 and j == 0 and 1 <= i <= len(query.equal):
        sign, a, b = query.equal[i - 1]
        return not sign and rep[a] == rep[b]
    if section == 3 and j == 0 and 1 <= i <= len(query.reach):
        sign, k, a, b = query.reach[i - 1]
        return not sign and (rep[a], rep[b]) in path.reach[k]
    if section == 4 and 1 <= i <= len(query.field) and 1 <= j <= len(query.field):
        (sign, field, a), (plain, other, b) = query.field[i - 1], query.field[j - 1]
        return not sign and bool(plain) and field == other and rep[a] == rep[b]
    return False


def clashed(query, path):
    return (any(is_clash(query, path, 2, i, 0) for i in range(1, len(query.equal) + 1))
            or any(is_clash(query, path, 3, i, 0) for i in range(1, len(query.reach) + 1))
            or any(is_clash(query, path, 4, i, j) for i in range(1, len(query.field) + 1) for j in range(1, len(query.field) + 1)))


def alternatives(path, k, rule, x, y, z):
    """The alternatives of a rule whose conditions are held, or None: ('=', a, b) and ('>', a, b)."""
    link, reach = (lambda a, b: (a, b) in path.link[k]), (lambda a, b: (a, b) in path.reach[k])
    if rule == 1:
        return [('>', x, x)] if path.rep.get(x) == x and y == z == 0 else None
    if rule == 2:
        return [('>', x, y)] if link(x, y) and z == 0 else None
    if rule == 3:
        return [('>', x, z)] if reach(x, y) and reach(y, z) else None
    if rule == 4:
        return [('=', x, z), ('>', y, z)] if link(x, y) and reach(x, z) else None
    if rule == 5:
        ring = [x]
        while len(ring) <= z and path.follow(k, ring[-1]) not in (0, x):
            ring.append(path.follow(k, ring[-1]))
        returns = len(ring) == z and path.follow(k, ring[-1]) == x
        return [('=', y, t) for t in ring] if returns and reach(x, y) else None
    if rule == 6:
        return [('=', x, y), ('>', z, x)] if reach(x, y) and reach(y, x) and reach(x, z) else None
    if rule == 7:
        return [('>', y, z), ('>', z, y)] if reach(x, y) and reach(x, z) else None
    if rule == 8:
        return [('=', x, y)] if link(x, z) and link(y, z) and reach(x, y) and reach(y, x) else None
    return None


def branches(query, path, line):
    """The branches of a rule line that applies, each with the pairs joined, or None."""
    k, rule = line[0] // 16 + 1, line[0] % 16
    if k > query.links:
        return None
    found = alternatives(path, k, rule, *line[1:])
    if found is None or any(a == b if kind == '=' else (a, b) in path.reach[k] for kind, a, b in found):
        return None
    made = []
    for kind, a, b in found:
        branch, pairs = path.copy(), []
        if kind == '=':
            pairs = branch.join(a, b)
        else:
            branch.reach[k].add((a, b))
        made.append((pairs, branch))
    return made


class Wrong(Exception):
    pass


def refute(query, pairs, path, lines, at):
    """How many lines are read when this path is refuted; Wrong with the number of the first wrong line."""
    def line():
        if at >= len(lines):
            raise Wrong(len(lines) + 1)
        return lines[at]
    for kept, replaced in pairs:
        if line() != (10, kept, replaced, 0):
            raise Wrong(at + 1)
        at += 1
    if line()[0] == 9:
        if not is_clash(query, path, *line()[1:]):
            raise Wrong(at + 1)
        return at + 1
    made = None if clashed(query, path) else branches(query, path, line())
    if made is None:
        raise Wrong(at + 1)
    at += 1
    for pairs, branch in made:
        at = refute(query, pairs, branch, lines, at)
    return at


def check(links, data, derivation):
    query = Query(data, links)
    if query.refusal:
        return query.refusal
    count = int.from_bytes(derivation[:2], 'big')
    if len(derivation) < 2 or len(derivation) != 2 + 4 * count or count > 16000:
        return 'refused 20 at 0'
    lines = [tuple(derivation[i:i + 4]) for i in range(2, len(derivation), 4)]
    try:
        at = refute(query, *start(query), lines, 0)
    except Wrong as wrong:
        return f'wrong {wrong.args[0]}'
    return 'accepted' if at == len(lines) else f'wrong {at + 1}'


def inputs(name):
    """Each query of linksverdict's inputs, and the lines of its derivation where it is refuted."""
    row = (DATA / (name + '.bin')).read_bytes()
    for printed in (DATA / (name + '.out')).read_text().split('--\n')[:-1]:
        end = 2 + int.from_bytes(row[:2], 'big')
        verdict, *lines = printed.splitlines()
        listed = verdict == 'unsat' and not lines[0].startswith('refused')
        yield row[10:end], [tuple(map(int, line.split())) for line in lines] if listed else None
        row = row[end:]


def derivation_of(lines):
    return len(lines).to_bytes(2, 'big') + b''.join(map(bytes, lines))


def slip(chance, lines):
    """The lines with one slip."""
    lines, at, kind = list(lines), chance.randrange(len(lines)), chance.randrange(8)
    rules = [i for i, line in enumerate(lines) if line[0] not in (9, 10)]
    if kind == 0:
        del lines[at]
    elif kind == 1:
        lines.insert(at, lines[at])
    elif kind == 2:
        other = chance.randrange(len(lines))
        lines[at], lines[other] = lines[other], lines[at]
    elif kind == 3:
        del lines[at:]
    elif kind == 4:
        lines.append(chance.choice(lines))
    elif kind == 5 or not rules:
        line, place = list(lines[at]), chance.randrange(4)
        line[place] = chance.choice((0, line[place] + 1, max(line[place] - 1, 0), 255)) % 256
        lines[at] = tuple(line)
    else:
        # another link, or none
        at = chance.choice(rules)
        lines[at] = (lines[at][0] % 16 + 16 * chance.choice((0, 1, 2, 3, 15)), *lines[at][1:])
    return lines


def relinked(chance, data):
    """The query with the link of one reachability literal changed: its clash may be of another link then."""
    at = 1 + 2 * data[0]
    at += 1 + 3 * data[at]
    if not data[at]:
        return data
    place = at + 2 + 4 * chance.randrange(data[at])
    return data[:place] + bytes([chance.choice((1, 2, 3))]) + data[place + 1:]


def cases():
    chance = random.Random(20)
    refuted = [(query, lines) for query, lines in inputs('R-11') if lines]
    edges = [(query, lines) for query, lines in inputs('link-edges') if lines and len(lines) < 40]
    for query, lines in refuted + chance.sample(edges, 20):
        yield query, derivation_of(lines)
        yield query, derivation_of(slip(chance, lines))
        yield query, derivation_of(slip(chance, lines))
        yield relinked(chance, query), derivation_of(lines)


def main():
    for line in (DATA / 'R-8.txt').read_text().splitlines():
        (query, derivation), answer = (bytes.fromhex(w.replace('-', '')) for w in line.split(' = ')[0].split()), line.split(' = ')[1]
        assert check(1, query, derivation) == answer, line
    for name in 'R-11', 'link-edges':
        for query, lines in inputs(name):
            assert lines is None or check(3, query, derivation_of(lines)) == 'accepted', query.hex()
    shown = lambda data: data.hex() or '-'
    with (DATA / 'link-checks.txt').open('w') as out:
        out.write('# A query with three links, a derivation, and what the checking call answers: by tests/derivation_vectors.py\n')
        for query, derivation in cases():
            out.write(f'{shown(query)} {shown(derivation)} = {check(3, query, derivation)}\n')


main()
