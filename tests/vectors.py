#!/usr/bin/env python3
"""Makes stdin and stdout of crates/call_vectors from the vectors in tests/data.

    python3 tests/vectors.py

A line there has parts in hex (`-` is none), in most files a room in decimal behind them, ` = ` and the answer. A case goes in as a byte that
names the call, three parts, each after its length in two bytes, high byte first, and the room in two bytes; the answers are what the
program must print, and behind each every byte that was lent.

buffers.txt, edge-calls.txt, limits.txt and texts.txt are written by hand from 01 and 02: before the parts the call, behind the answer the bytes that it leaves at
the front of the room. link-checks.txt is made by tests/derivation_vectors.py, by a reading of its own. base and rewritten have inputs of heapverdict and what it prints of them: order and query are asked again with the
equalities in other orders. long has derivations of 16,000 lines, which the checking call must accept (02, R-8).
"""
import pathlib
import re

ROOT = pathlib.Path(__file__).resolve().parent.parent
# 01's calls and R-11's; another call is named by its request's number, R-12's hand-back by 0, a program by a letter
VERDICT, DERIVATION, LINKS_VERDICT, LINKS_DERIVATION = b'vdVD'
CALLS = {'verdict': VERDICT, 'derivation': DERIVATION, 'links-verdict': LINKS_VERDICT, 'links-derivation': LINKS_DERIVATION, 'dot': 2,
         'order': 6, 'formula': 7, 'between': 10, 'links-rewrite': 11, 'join': 12, 'rewrite': 13}
CHECK, LINKS_CHECK, HAND_BACK = 8, ord('C'), 0
PROGRAMS = {'formulaverdict': b'f', 'betweenverdict': b'b', 'checkderivation': b'c', 'checklinks': b'k', 'joinqueries': b'j',
            'rewritequery': b'r', 'rewritelinks': b'l'}


def two_bytes(number):
    return number.to_bytes(2, 'big')


def lines(name):
    """Each line of a file that is no comment: its words before ` = `, and the answer."""
    for line in (ROOT / 'tests/data' / name).read_text().splitlines():
        if line and not line.startswith('#'):
            given, answer = line.split(' = ', 1)
            yield given.split(), answer


def piece(word):
    """Hex bytes, or a text in quotes with `_` for a blank and `$` for a newline; behind `*` how often."""
    text, hexes, times = re.fullmatch(r"(?:'([^']*)'|([0-9a-f]+))(?:\*(\d+))?", word).groups()
    bytes_ = bytes.fromhex(hexes) if text is None else text.replace('_', ' ').replace('$', '\n').encode()
    return bytes_ * int(times or 1)


def part(word):
    return b'' if word == '-' else b''.join(piece(p) for p in re.findall(r"(?:'[^']*'|[^,'])+", word))


def parts_of(words):
    return [part(word) for word in words]


def case(call, parts, room=0):
    parts = parts + [b''] * (3 - len(parts))
    return bytes([call]) + b''.join(two_bytes(len(part)) + part for part in parts) + two_bytes(room)


def lent(answer, written, room):
    """Behind the answer all of the room: in hex as far as the last byte that is not zero, and how many zeros follow. A text or a query that is
    written has its length behind the word."""
    if answer in ('text', 'query'):
        answer += f' {len(written)}'
    shown = written.rstrip(b'\0')
    return f'{answer} {shown.hex()}+{room - len(shown)}'


def answered(call, parts, answer, room):
    """A call that has bytes lent; behind a refusal, or an answer that shows nothing, they are zero."""
    said, _, written = answer.rpartition(' ')
    if answer.startswith('refused') or not said:
        said, written = answer, '-'
    return case(call, parts, room), lent(said, part(written), room)


def with_room(call, name):
    return [answered(call, parts_of(words[:-1]), answer, int(words[-1])) for words, answer in lines(name)]


def roomless(call, name, room):
    return [answered(call, parts_of(words), answer, room) for words, answer in lines(name)]


def handed(parts, answer):
    """Behind `part`, query, offset and length the answer has that query's bytes there, and behind a refusal none."""
    bytes_ = b''
    if answer.startswith('part '):
        query, at, size = (int(word) for word in answer.split()[1:])
        bytes_ = parts[query - 1][at:at + size]
    return case(HAND_BACK, parts), lent(answer, bytes_, len(bytes_))


def refusal(query):
    """The number and place of the first of checks 2 to 8 and 26 that stands, in the words of 01 and 02, or None."""
    at, rows = 0, []
    for limit, size in (16, 1), (60, 3), (60, 3), (60, 3), (0, 2):
        if at >= len(query):
            return 2, len(query)
        if query[at] > limit:
            return (3 if limit else 26), at
        rows.append(range(at + 1, at + 1 + size * query[at], size))
        at = rows[-1].stop
        if at > len(query):
            return 2, len(query)
    if at < len(query):
        return 4, at
    terms, *literals = rows
    signs = [i for row in literals for i in row]
    named = [i + 1 for row in literals[:2] for i in row] + [i + 2 for row in literals[:3] for i in row]
    faults = {
        5: [i for n, i in enumerate(terms, 1) if query[i] >= n and query[i] != 255],
        6: [i for i in signs if query[i] > 1],
        7: [i for i in named if not 1 <= query[i] <= len(terms)],
        8: [i + 1 for i in literals[2] if not 1 <= query[i + 1] <= 8],
    }
    return next(((number, min(places)) for number, places in faults.items() if places), None)


def whose(parts, answer):
    """R-12's refusals of one of the two queries, with which it is: "2 to 8 for the first, then the second"."""
    for query, name in zip(parts, ('first', 'second')):
        if refusal(query):
            assert answer == 'refused %d at %d' % refusal(query), answer
            return f'{answer} of the {name} query'
    return answer


def joined():
    for (*words, room), answer in lines('R-12.txt'):
        given, printed = answered(12, parts_of(words), answer, int(room))
        yield given, printed.replace(answer, whose(parts_of(words), answer)) if answer.startswith('refused') else printed


def hand_back():
    for words, answer in lines('R-12-hand-back.txt'):
        parts = parts_of(words)
        yield handed(parts, whose(parts, answer))


def by_hand(name):
    """Lines that name their call, and the bytes that it leaves in the room."""
    for (call, *words), answer in lines(name):
        if call in ('check', 'links-check'):
            yield case(CHECK if call == 'check' else LINKS_CHECK, parts_of(words)), answer
        elif call == 'hand-back':
            yield handed(parts_of(words), answer)
        else:
            said, written = answer.rsplit(' ', 1)
            yield case(CALLS[call], parts_of(words[:-1]), int(words[-1])), lent(said, part(written), int(words[-1]))


def printed(line):
    return part(line[4:]).hex(' ') if line.startswith('hex ') else line


def texts():
    for (program, word), answer in lines('texts.txt'):
        yield case(PROGRAMS[program][0], [part(word)], 4096), '\n'.join(printed(line) for line in answer.split(' / '))


def inputs(name):
    """Each input of heapverdict, and the lines that it prints."""
    row = (ROOT / 'tests/data' / (name + '.bin')).read_bytes()
    for printed in (ROOT / 'tests/data' / (name + '.txt')).read_text().split('--\n')[:-1]:
        end = 2 + int.from_bytes(row[:2], 'big')
        yield row[2:end], printed.splitlines()
        row = row[end:]


def sixteen_thousand():
    """A derivation of 16,000 lines: "Whatever refutation our prover .. writes within 16,000 lines is accepted." """
    for given, (verdict, *rows) in inputs('long'):
        if len(rows) == 16000:
            derivation = two_bytes(16000) + b''.join(bytes(int(number) for number in row.split()) for row in rows)
            return [(case(CHECK, [given[8:], derivation]), 'accepted')]


def turned(row, by):
    return row[-by:] + row[:-by]


def reordered(name):
    """Each accepted query with two or more equalities, with them turned by one, by two, backwards, and turned and backwards. The answer and
    the report are those of the query as it stood (02, R-9).
    """
    for given, printed in inputs(name):
        order, query = given[:8], given[8:]
        if printed[0].startswith('refused'):
            continue
        at = 1 + query[0] + 1
        end = at + 3 * query[at - 1]
        equalities = [query[i:i + 3] for i in range(at, end, 3)]
        if len(equalities) < 2:
            continue
        report = bytes.fromhex(printed[1]) if printed[0] == 'sat' else b''
        answer = lent({'sat': 'sat', 'unsat': 'refuted'}[printed[0]], report, 53)
        on = turned(equalities, 1)
        for other in on, turned(equalities, 2), equalities[::-1], on[::-1]:
            yield case(VERDICT, [order, query[:at] + b''.join(other) + query[end:]], 53), answer


CASES = [
    *with_room(2, 'R-2.txt'),
    *roomless(6, 'R-6.txt', 8),
    *with_room(7, 'R-7.txt'),
    *((case(CHECK, parts_of(words)), answer) for words, answer in lines('R-8.txt')),
    *((case(LINKS_CHECK, parts_of(words)), answer) for words, answer in lines('link-checks.txt')),
    *with_room(10, 'R-10.txt'),
    *joined(),
    *hand_back(),
    *with_room(13, 'R-13-rewriting.txt'),
    *by_hand('buffers.txt'),
    *by_hand('edge-calls.txt'),
    *by_hand('limits.txt'),
    *texts(),
    *sixteen_thousand(),
    *reordered('base'),
    *reordered('rewritten'),
]
crate = ROOT / 'crates/call_vectors'
(crate / 'stdin').write_bytes(b''.join(given for given, _ in CASES))
(crate / 'stdout').write_text(''.join(answer + '\n' for _, answer in CASES))
