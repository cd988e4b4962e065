#!/usr/bin/env python3
"""Runs every example of README.md and docs/manual against the built programs, and checks the links of all documents and the claims that
pages name.

    python3 tests/manual.py [PAGE ...]

An example is a line `$ COMMAND` in a ```console block, with lines `> MORE` behind it where it goes on; the lines up to the next `$` are
what it must print, standard error included, and it must end with status 0. `.ci/check NAME && ` before a command is
left out: the programs must be built before (`.ci/check`). A block that opens with ```c and a file's name is that file. The examples of a page run one
after the other in a folder of their own, where target, include and examples lead to those of the repository. An example that links the
static library is passed over, and counted so, where `.ci/check lemitsaka_c` has not been run.

A claim is a table's row whose second cell is a file of crates/ in backticks: each name in backticks in its first cell must stand in that
file.

Exit status 0: all agree. 1: something differs, and is printed; or a page has no example.
"""
import pathlib
import re
import shutil
import subprocess
import sys
import tempfile

ROOT = pathlib.Path(__file__).resolve().parent.parent
LIBRARY = 'target/staticlib/liblemitsaka.a'


def blocks(text):
    """The fenced blocks of a page: the words behind the opening fence, the number of the first line, the lines."""
    found, opened = [], None
    for number, line in enumerate(text.splitlines(), 1):
        if opened is None and line.lstrip().startswith('```'):
            opened = (line.lstrip()[3:].split(), number + 1, [])
        elif opened is not None and line.lstrip().startswith('```'):
            found.append(opened)
            opened = None
        elif opened is not None:
            opened[2].append(line)
    return found + ([opened] if opened else [])


def examples(first, lines):
    """The commands of a console block, each with its line and what it must print."""
    found = []
    for number, line in enumerate(lines, first):
        if line.startswith('$ '):
            found.append([number, line[2:], ''])
        elif line.startswith('> ') and found and not found[-1][2]:
            found[-1][1] += '\n' + line[2:]
        elif found:
            found[-1][2] += line + '\n'
        else:
            found.append([number, 'false', line + '\n'])
    return found


def run(command, folder):
    """What a command prints, and a line more where it does not end with status 0."""
    try:
        done = subprocess.run(['sh', '-c', command], cwd=folder, stdin=subprocess.DEVNULL, stdout=subprocess.PIPE,
                              stderr=subprocess.STDOUT, timeout=120)
    except subprocess.TimeoutExpired:
        return '(no end within 120 seconds)\n'
    return done.stdout.decode(errors='replace') + ('(status %d)\n' % done.returncode if done.returncode else '')


def check_examples(page, text, count):
    with tempfile.TemporaryDirectory() as folder:
        for name in ('target', 'include', 'examples'):
            (pathlib.Path(folder) / name).symlink_to(ROOT / name)
        for words, first, lines in blocks(text):
            if len(words) == 2 and words[0] == 'c':
                (pathlib.Path(folder) / words[1]).write_text('\n'.join(lines) + '\n')
            if words[:1] != ['console']:
                continue
            for number, command, wanted in examples(first, lines):
                if LIBRARY in command and not (ROOT / LIBRARY).exists():
                    count['passed over'] += 1
                    continue
                count['examples'] += 1
                got = run(re.sub(r'^\.ci/check \w+ && ', '', command), folder)
                if got != wanted:
                    count['differ'] += 1
                    print('%s:%d: $ %s\nwanted\n%sgot\n%s' % (page, number, command, wanted, got))


def headings(path):
    """The anchors of a page's headings."""
    text = re.sub(r'^```.*?^```', '', path.read_text(), flags=re.M | re.S)
    return {re.sub(r'[^\w\- ]', '', h.lower()).replace(' ', '-') for h in re.findall(r'^#+ (.*)$', text, re.M)}


def check_links(page, text, count):
    for target in re.findall(r'\]\(([^)\s]+)\)', re.sub(r'^```.*?^```', '', text, flags=re.M | re.S)):
        if '://' in target:
            continue
        count['links'] += 1
        name, _, anchor = target.partition('#')
        path = (ROOT / page).parent / name if name else ROOT / page
        if not path.exists() or (anchor and anchor not in headings(path)):
            count['differ'] += 1
            print('%s: no such place: %s' % (page, target))


def check_claims(page, text, count):
    for names, place in re.findall(r'^\| (.*?) \| `(crates/[^`]+)` \|', text, re.M):
        path = ROOT / place
        stated = path.read_text() if path.is_file() else ''
        for name in re.findall(r'`([^`]+)`', names):
            count['claims'] += 1
            if not re.search(r'(?<![\w-])%s(?![\w-])' % re.escape(name), stated):
                count['differ'] += 1
                print('%s: %s does not stand in %s' % (page, name, place))


def main():
    manual = ['README.md'] + sorted(str(p.relative_to(ROOT)) for p in (ROOT / 'docs/manual').glob('*.md'))
    others = [*(ROOT / 'docs').glob('*.md'), *(ROOT / 'docs/changes').glob('*.md'), ROOT / 'bench/README.md']
    others = sorted(str(p.relative_to(ROOT)) for p in others)
    asked = [str(pathlib.Path(p).resolve().relative_to(ROOT)) for p in sys.argv[1:]]
    count = {'examples': 0, 'passed over': 0, 'links': 0, 'claims': 0, 'differ': 0}
    if not shutil.which('xxd'):
        print('xxd is missing: the examples make bytes of hex with it')
    for page in asked or manual + others:
        text = (ROOT / page).read_text()
        check_links(page, text, count)
        check_claims(page, text, count)
        before = count['examples'] + count['passed over']
        check_examples(page, text, count)
        if page in manual and page != 'docs/manual/README.md' and count['examples'] + count['passed over'] == before:
            count['differ'] += 1
            print('%s: no example' % page)
    print(', '.join('%d %s' % (number, name) for name, number in count.items()))
    sys.exit(1 if count['differ'] or not count['examples'] else 0)


main()
