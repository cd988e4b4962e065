#!/usr/bin/env python3
"""Lists the places in src/ that have an older form where today's Rattle has a plainer one.

usage: python3 tools/forms.py [ROOT]        one line for each rule: how many places it finds
       python3 tools/forms.py -l [ROOT]     the places too, as crate:line: what stands there

The rules go by text, so each finds some places that are right as they are, and none sees what only a reader can: docs/DESIGN-PASS.md says of what
they find what was changed and what is kept.
"""

import collections
import glob
import os
import re
import sys


class Source:
    """A file of src/ without its comments, strings and contracts, line for line."""

    def __init__(self, root, path):
        self.crate = os.path.relpath(path, os.path.join(root, "crates")).split(os.sep)[0]
        self.whole = open(path, encoding="utf-8").read()
        lines = [re.sub(r'//.*|b?"(\\.|[^"\\])*"', "", line) for line in self.whole.split("\n")]
        self.lines = ["" if re.match(r"\s*(requires|ensures|ghost)\b", line) else line for line in lines]
        self.text = "\n".join(self.lines)

    def place(self, at):
        return f"{self.crate}:{self.text.count(chr(10), 0, at) + 1}"


def split_list(text):
    """The parts between commas that stand in no bracket."""
    parts, depth, part = [], 0, ""
    for c in text:
        depth += (c in "([{<") - (c in ")]}>")
        if c == "," and depth == 0:
            parts.append(part.strip())
            part = ""
        else:
            part += c
    return [p for p in parts + [part.strip()] if p]


def closing(text, at):
    """The place of the bracket that closes the one at `at`."""
    depth = 0
    for i in range(at, len(text)):
        depth += (text[i] in "([{") - (text[i] in ")]}")
        if depth == 0:
            return i
    return len(text)


def items(source, word):
    """The enums or structs of a file: where, name, parts."""
    for m in re.finditer(rf"^(?:pub )?{word} (\w+)[^{{(;]*([{{(])", source.text, re.M):
        start = m.end() - 1
        yield m.start(), m.group(1), split_list(source.text[start + 1 : closing(source.text, start)])


def functions(source):
    """The functions of a file: where, name, parameters, body."""
    for m in re.finditer(r"^ *(?:pub )?fn (\w+)[^(]*\(", source.text, re.M):
        end = closing(source.text, m.end() - 1)
        start = source.text.find("{", end)
        yield m.start(), m.group(1), split_list(source.text[m.end() : end]), source.text[start : closing(source.text, start) + 1]


def option_enums(sources):
    for s in sources:
        for at, name, parts in items(s, "enum"):
            full = [p for p in parts if "(" in p or "{" in p]
            if len(parts) == 2 and len(full) == 1:
                yield s.place(at), name
            elif any(re.match(r"\w*(Refused|Wrong|Bad|TooMany)\b", p) for p in parts):
                yield s.place(at), name


def flagged_values(sources):
    for s in sources:
        for at, name, parts in items(s, "struct"):
            flags = [p for p in parts if re.search(r": bool$", p)]
            if flags and len(parts) > len(flags):
                yield s.place(at), f"{name} {{ {flags[0].replace('pub ', '')} .. }}"


def number_codes(sources):
    names = r"(how|kind|section|excess|fault|code|number|refusal|status)"
    for s in sources:
        for at, name, parts in list(items(s, "struct")) + [(a, n, p) for a, n, p, _ in functions(s)]:
            for p in parts:
                if re.fullmatch(rf"(pub )?(mut )?{names}: (u8|u16|u32|u64|usize)", p):
                    yield s.place(at), f"{name}: {p}"
        for m in re.finditer(r"\b\w*Refused\((usize|\d+), *(usize|\w+)\)", s.text):
            yield s.place(m.start()), m.group(0)


def shape(body):
    """The tokens of a body, with each name and number as one sign."""
    tokens = re.findall(r"\w+|[^\w\s]", body)
    words = {"if", "else", "while", "for", "in", "return", "let", "mut", "match", "loop", "true", "false", "as", "break", "continue"}
    return tuple(t if not t[0].isalnum() and t[0] != "_" or t in words else "x" for t in tokens)


def twins(sources):
    seen = collections.defaultdict(list)
    for s in sources:
        names = {}
        for at, name, parts, body in functions(s):
            names[name] = at
            form = shape(body)
            if len(form) >= 30:
                seen[form].append((s.place(at), name))
        for name, at in names.items():
            if name.endswith("_in") and name[:-3] in names:
                yield s.place(at), f"{name} and {name[:-3]}"
    for places in seen.values():
        for place, name in places[1:]:
            yield place, f"{name} as {places[0][1]} ({places[0][0]})"


def counting_loops(sources):
    for s in sources:
        for m in re.finditer(r"^ *(?:'\w+: )?(while\b([^{]*)|loop )\{", s.text, re.M):
            body = s.text[m.end() : closing(s.text, m.end() - 1)]
            step = r"\b{}\s*(\+=\s*1;|-=\s*1;|=\s*{}\s*[+-]\s*1;)"
            counted = [w for w in set(re.findall(r"[a-z_]\w*", m.group(2) or body)) if re.search(step.format(w, w), body)]
            if counted:
                yield s.place(m.start()), m.group(0).strip()


def by_hand(sources):
    for s in sources:
        for at, name, parts, body in functions(s):
            arms = re.fullmatch(r"\{\s*match (self|\w+) \{(.*)\}\s*\}", body, re.S)
            if arms and all(re.search(r"=>\s*(true|false|\d+)$", a.strip()) for a in split_list(arms.group(2))):
                yield s.place(at), f"{name}: a match with a literal for each case"
            elif re.match(r"(same|equal|is_same|is_equal|compare|less|copy|print)(_\w+)?$", name):
                yield s.place(at), f"{name}: by its name"


def travellers(sources):
    groups = collections.defaultdict(set)
    for s in sources:
        for at, name, parts, body in functions(s):
            parts = [re.sub(r"'\w+ |mut ", "", p) for p in parts]
            for size in (3, 4, 5):
                for i in range(len(parts) - size + 1):
                    groups[tuple(parts[i : i + size])].add((s.place(at), name))
            if len(parts) > 6:
                groups[("more than six parameters",)].add((s.place(at), name))
    for group, places in groups.items():
        if len(places) >= 3:
            for place, name in sorted(places):
                yield place, f"{name}({', '.join(group)})"


def common_facts(sources):
    facts = collections.defaultdict(set)
    for s in sources:
        for m in re.finditer(r"^ *requires(?: \w+)? \{(.*)\}$", s.whole, re.M):
            for fact in m.group(1).split("×"):
                fact = " ".join(fact.split()).strip("() ")
                if len(fact) > 12:
                    facts[fact].add(f"{s.crate}:{s.whole.count(chr(10), 0, m.start()) + 1}")
    for fact, places in facts.items():
        if len(places) >= 3:
            for place in sorted(places):
                yield place, fact


def parallel_arrays(sources):
    array = r"(?:pub )?\w+: (?:&(?:'\w+ )?(?:mut )?)?\[\w+; (\w+)\]"
    for s in sources:
        for at, name, parts in list(items(s, "struct")) + [(a, n, p) for a, n, p, _ in functions(s)]:
            sizes = [m.group(1) for p in parts for m in [re.fullmatch(array, p)] if m]
            counts = [p for p in parts if re.fullmatch(r"(pub )?(count|length|len|fill|filled|total|size): usize", p)]
            if len(sizes) > len(set(sizes)):
                yield s.place(at), f"{name}: arrays of one size side by side"
            elif sizes and counts:
                yield s.place(at), f"{name}: an array and {counts[0].replace('pub ', '')}"


def step_switches(sources):
    for s in sources:
        for m in re.finditer(r"\bhow == \d|\bplace == \d+ \{|match turn\b|% 5\b", s.text):
            yield s.place(m.start()), m.group(0)


RULES = [
    ("1 enums of the shape of Option or Result", option_enums),
    ("1 structs of a flag and values", flagged_values),
    ("1 numbers for kinds and refusals", number_codes),
    ("2 functions with one shape, or a name and its _in", twins),
    ("3 loops that count by hand", counting_loops),
    ("4 tests, copies and numbers written case by case", by_hand),
    ("5 parameters that travel together, in three functions or more", travellers),
    ("5 facts that three requires or more have", common_facts),
    ("6 parallel arrays, arrays with a count", parallel_arrays),
    ("7 switches on which step to run", step_switches),
]


def main():
    words = [w for w in sys.argv[1:] if w != "-l"]
    root = words[0] if words else os.path.join(os.path.dirname(os.path.realpath(__file__)), "..")
    sources = [Source(root, p) for p in sorted(glob.glob(os.path.join(root, "crates", "*", "src", "**", "*.rt"), recursive=True))]
    for title, rule in RULES:
        found = list(rule(sources))
        places = len({p for p, _ in found})
        print(f"{places:5}  {title}")
        if "-l" in sys.argv:
            for place, what in found:
                print(f"         {place}: {what}")


if __name__ == "__main__":
    main()
