#!/usr/bin/env python3
"""The gate's inputs of ruleshares, and what must be printed of them (02, R-14).

    python3 tests/share_vectors.py BENCH          makes stdin and stdout of crates/ruleshares and of crates/share_limits
    python3 tests/share_vectors.py PROGRAM BIN OUT   runs a built ruleshares on each stream of BIN, and compares with OUT

`printed` is a reading of R-14 that shares no line with the proved code. It asks BENCH, an executable of bench/, for what heapverdict prints. It is
held to the 150 vectors of tests/data first: they are the streams of R-14.bin, each after its length in two bytes, high first, and what is
printed of each in R-14.out, with a line `--` behind it.
"""
import math, pathlib, subprocess, sys

ROOT = pathlib.Path(__file__).resolve().parent.parent


def two_bytes(number):
    return number.to_bytes(2, 'big')


def streams(data):
    while data:
        end = 2 + int.from_bytes(data[:2], 'big')
        yield data[2:end]
        data = data[end:]


def parts(text):
    return text.split('--\n')[:-1]


class Reading:
    def __init__(self, bench):
        self.bench, self.known = bench, {}

    def heapverdict(self, order, query):
        """What heapverdict prints, line by line."""
        if (order, query) not in self.known:
            run = subprocess.run([self.bench, 'heapverdict'], input=order + query, stdout=subprocess.PIPE, check=True)
            self.known[order, query] = run.stdout.decode().splitlines()
        return self.known[order, query]

    def printed(self, stream):
        order, rest, lines, counts = stream[:8], stream[8:], [], [0] * 8
        while rest:
            if len(rest) < 2 or int.from_bytes(rest[:2], 'big') > 681:
                lines.append('bad length')
                break
            end = 2 + int.from_bytes(rest[:2], 'big')
            query, rest = rest[2:end], rest[end:]
            first, *behind = self.heapverdict(order, query)
            written = behind if first == 'unsat' and not behind[0].startswith('refused') else []
            lines.append(f'{mark(query):08x} {first} {len(written)}')
            for line in written:
                rule = int(line.split()[0])
                if rule <= 8:
                    counts[rule - 1] += 1
        return ''.join(line + '\n' for line in lines + list(shares(counts)))


def mark(data):
    value = 2166136261
    for byte in data:
        value = (value ^ byte) * 16777619 % 2**32
    return value


def shares(counts):
    total = sum(counts)
    for count in counts:
        common = math.gcd(count, total) or 1
        yield f'{count // common}/{total // common}' if count else '0/1'


# queries of 01's layout without booleans: n, its entries, equalities, links, reach literals, each row after its count, and a byte 0
EMPTY = bytes(5)
SEARCH = bytes.fromhex('03 00 01 00  01 00 01 03  02 01 01 03 00 02 03  00  00')
REMOVAL = bytes.fromhex('04 00 00 01 02  02 01 03 04 00 01 02  02 01 01 02 01 02 01  00  00')
ORDER = bytes.fromhex('01 02 03 08 04 05 06 07')


# 256 bytes, of length 01 00: a term more than the removal has, and two of its literals again and again
BORDER = bytes.fromhex('05 00 00 01 02 00  28 01 03 04') + bytes.fromhex('00 01 02') * 39 + b'\x2a' + bytes.fromhex('01 01 02') * 41 + bytes.fromhex('01 02 01  00  00')
# 681 bytes, the longest that is read: the removal's, and zeros
LONGEST = REMOVAL + bytes(681 - len(REMOVAL))


def after_length(query):
    return two_bytes(len(query)) + query


def long_stream():
    """Above 64 KiB, with a query across the border, more text than the program holds of one piece, queries of 681 and of 256 bytes, and behind
    the last query a length of 682 and a query that is not read."""
    row = ORDER + after_length(EMPTY) * 4800 + after_length(SEARCH) * 700
    row += after_length(REMOVAL) * ((65536 - 300 - len(row)) // (2 + len(REMOVAL)))
    assert 65536 - 683 < len(row) < 65536
    row += after_length(LONGEST) + after_length(BORDER) + after_length(SEARCH) + after_length(REMOVAL)
    return row + two_bytes(682) + after_length(REMOVAL)


def short_streams():
    """What the vectors have none of, or few: whole, cut and bad."""
    yield b''
    yield ORDER[:5]
    yield ORDER
    yield ORDER + after_length(LONGEST) + after_length(SEARCH)
    yield ORDER + after_length(BORDER) + after_length(SEARCH)
    yield ORDER + after_length(SEARCH) + two_bytes(681) + REMOVAL
    yield ORDER + after_length(SEARCH) + two_bytes(len(REMOVAL)) + REMOVAL[:-4]
    yield ORDER + after_length(SEARCH) + two_bytes(682) + after_length(REMOVAL)
    yield ORDER + after_length(SEARCH) + b'\0'
    yield ORDER + after_length(SEARCH) + after_length(REMOVAL)


def make(bench):
    reading = Reading(bench)
    data = (ROOT / 'tests/data/R-14.bin').read_bytes()
    stored = parts((ROOT / 'tests/data/R-14.out').read_text())
    vectors = list(streams(data))
    assert [reading.printed(stream) for stream in vectors] == stored and len(stored) == 150
    crate = ROOT / 'crates/ruleshares'
    (crate / 'stdin').write_bytes(long_stream())
    (crate / 'stdout').write_text(reading.printed(long_stream()))
    # crates/share_limits prints some numbers first, which stand in its stdout by hand, above the first stream's line `--`
    crate = ROOT / 'crates/share_limits'
    short = list(short_streams())
    (crate / 'stdin').write_bytes(data + b''.join(after_length(stream) for stream in short))
    numbers = [line for line in (crate / 'stdout').read_text().splitlines() if line.isdigit()][:40]
    told = stored + [reading.printed(stream) for stream in short]
    (crate / 'stdout').write_text(''.join(line + '\n' for line in numbers) + ''.join(text + '--\n' for text in told))


def compare(program, inputs, outputs):
    differ = 0
    stored = parts(open(outputs).read())
    given = list(streams(open(inputs, 'rb').read()))
    for number, (stream, text) in enumerate(zip(given, stored)):
        got = subprocess.run([program], input=stream, stdout=subprocess.PIPE).stdout.decode()
        if got != text:
            differ += 1
            print('input %d differs' % number)
    print('%d inputs, %d differ' % (len(given), differ))
    sys.exit(1 if differ or len(given) != len(stored) else 0)


if len(sys.argv) == 2:
    make(sys.argv[1])
else:
    compare(*sys.argv[1:4])
