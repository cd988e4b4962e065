#!/usr/bin/env python3
"""Brings the repository's own names to today's spelling: words in snake case, a dash only between two names.

usage: python3 tools/respell.py [ROOT]           renames by tools/respell.tsv (old TAB new TAB kind)
       python3 tools/respell.py --table [ROOT]   makes the table anew from the tree, prints the collisions, renames nothing
       python3 tools/respell.py --check OLD [ROOT]   compares ROOT with the tree OLD before the renaming: counts, and names that fell together

A name keeps its spelling where it comes from the library, from the source, or is one that Rattle makes for proofs.
A second run changes nothing.
"""

import collections
import os
import re
import sys

HERE = os.path.dirname(os.path.realpath(__file__))
TABLE = os.path.join(HERE, "respell.tsv")
RESERVED = set(
    "data record deriving module where use mod pub package open as unfoldable abbrev axiom unfold unfolding ruleset mutual"
    " infix infixl infixr elim let in do Type coe fcoe tcoe hcom com pattern"
    " search omega simp rw cc grind assumption ground first_of hlevel subst grw cap arith rules goal tie result".split()
)
# Chosen by hand, where the rule gives a spelling that is taken: old name, new name.
EXCEPTIONS = {}
# Words for operators that lemmas name: they count as names beside a dash.
ENGLISH = {"hand-back", "small-model"}  # words of sentences too: in a comment or page they stay
OPERATORS = set("le lt ge gt mem subset sublist perm eq ne add sub mul div mod append cons nil suc zero not and or some none pair".split())
MADE_FILES = re.compile(r"/proofs/.*/(Proof|Answers|Invariants)\.antt$")
MADE_TOP = re.compile(r"^(invariant-loop|decreases-|ghost-|invariant-)")
WORD = re.compile(r"[\w'\u2032\u00b7\u2080-\u2089\u207a-\u207f-]+")
ATOM = re.compile(r'[^\s(){}\[\],;."`]+')
NAME = re.compile(r"^[\w'\u2032\u00b7\u2080-\u2089+-]+$")
RELATION = re.compile(r"(?:^|\s)(?:≡|≢|≤|<|≥|>|↔|⊎|≅|≈|∈|⊥|¬|⊤)(?=\s|$|\))")


def texts(root):
    for folder, dirs, files in os.walk(os.path.join(root, "crates")):
        dirs[:] = sorted(d for d in dirs if d not in ("out", ".git"))
        for f in sorted(files):
            if f.endswith((".rt", ".antt", ".edit")):
                yield os.path.join(folder, f)


def pages(root):
    for folder, dirs, files in os.walk(root):
        dirs[:] = sorted(d for d in dirs if d not in ("out", ".git", "crates", "tools"))
        for f in sorted(files):
            if f.endswith(".md"):
                yield os.path.join(folder, f)


def read(path):
    with open(path, encoding="utf-8") as f:
        return f.read()


def pieces(text):
    """Splits antt text in code, comments and quoted texts: pairs (kind, text)."""
    out, i, start, n = [], 0, 0, len(text)
    while i < n:
        c = text[i]
        if c == "-" and text.startswith("--", i) and (i == 0 or text[i - 1] in " \n({[,;"):
            j = text.find("\n", i)
            j = n if j < 0 else j
            out += [("code", text[start:i]), ("comment", text[i:j])]
            i = start = j
        elif c == "{" and text.startswith("{-", i):
            j = text.find("-}", i)
            j = n if j < 0 else j + 2
            out += [("code", text[start:i]), ("comment", text[i:j])]
            i = start = j
        elif c == '"':
            j = i + 1
            while j < n and text[j] not in '"\n':
                j += 2 if text[j] == "\\" else 1
            j = min(j + 1, n)
            out += [("code", text[start:i]), ("quoted", text[i:j])]
            i = start = j
        else:
            i += 1
    out.append(("code", text[start:]))
    return [(k, t) for k, t in out if t]


def rust_pieces(text):
    out, last = [], 0
    for m in re.finditer(r'//[^\n]*|"(?:\\.|[^"\\\n])*"|b?\'(?:\\.|[^\'\\\n])\'(?!\w)', text):
        out += [("code", text[last : m.start()]), ("comment" if m.group().startswith("//") else "quoted", m.group())]
        last = m.end()
    out.append(("code", text[last:]))
    return [(k, t) for k, t in out if t]


USE = re.compile(r"(?m)^[ ]*(?:pub )?(?:open )?(?:ghost )?use ([^\s;{]+?)\.?(?:\{([^}]*)\})?(?:\s+as\s+([^\s;]+))?;?[ ]*$")


def module_file(root, path):
    """The file of a module path of the repository, or None where Rattle makes the module or the library has it."""
    parts = path.split(".")
    if parts[0] != "Rattle" or len(parts) < 4:
        return None
    p = os.path.join(root, "crates", *parts[1:]) + ".antt"
    return p if os.path.isfile(p) else None


def imports(root, text):
    """Names imported from elsewhere than a file of the repository, aliases of its own modules, and other aliases."""
    foreign, own, other = set(), set(), set()
    for m in USE.finditer(text):
        path, names, alias = m.group(1), m.group(2), m.group(3)
        mine = module_file(root, path)
        if alias:
            (own if mine else other).add(alias)
        elif names is None and not mine:
            other.add(path.split(".")[-1])
        if names and not mine:
            for n in names.split(","):
                foreign.update(n.split())
                other.update(w for w in n.split() if w[:1].isupper())
    return foreign, own, other


def signatures(text):
    """Declarations: (line number, indent, holder, marks, name, type); holder is '', 'record' or 'data'."""
    lines = "\n".join("" if l.lstrip().startswith("--") else re.sub(r"\s--\s.*$", "", l) for l in text.split("\n")).split("\n")
    out, holders = [], []
    for i, l in enumerate(lines):
        if not l.strip():
            continue
        ind = len(l) - len(l.lstrip())
        while holders and holders[-1][0] >= ind:
            holders.pop()
        s = l.strip()
        m = re.match(r"^((?:(?:unfoldable|abbrev|pub|pattern|axiom)\s+)*)(record|data|module)\s+([^\s(){},;:]+)", s)
        if m:
            j = i
            whole = l
            while "where" not in whole.split() and j + 1 < len(lines) and j < i + 8:
                j += 1
                whole += " " + lines[j].strip()
            holders.append((ind, m.group(2)))
            if m.group(2) != "module" and m.group(3) != "_":
                out.append((i, ind, m.group(2) + "-head", m.group(1), m.group(3), whole.strip()))
            elif m.group(2) == "module" and m.group(3) != "_":
                out.append((i, ind, "module-head", m.group(1), m.group(3), ""))
            continue
        m = re.match(r"^((?:(?:unfoldable|abbrev|pub|pattern|axiom)\s+)*)([^\s(){},;.:\"]+(?:\s+[^\s(){},;.:\"λ=]+)*)(?:\s*\{[^}]*\})?\s+:(?:\s+(.*))?$", s)
        if m and not s.startswith(("let ", "use ", "in ")) and "=" not in m.group(2):
            t = m.group(3) or ""
            j = i + 1
            while j < len(lines) and lines[j].strip() and len(lines[j]) - len(lines[j].lstrip()) > ind and not re.match(r"^\s*\S+.*\s=(\s|$)", lines[j]) and t.count("\n") < 12:
                t += "\n" + lines[j].strip()
                j += 1
            holder = holders[-1][1] if holders and holders[-1][0] < ind else ""
            for name in m.group(2).split():
                out.append((i, ind, holder if holder in ("record", "data") else "", m.group(1), name, t.replace("\n", " ")))
    return out


def split_top(t, sign):
    parts, depth, last, i = [], 0, 0, 0
    while i < len(t):
        c = t[i]
        if c in "({[":
            depth += 1
        elif c in ")}]":
            depth -= 1
        elif depth == 0 and t.startswith(sign, i) and (i == 0 or t[i - 1] in " )}") :
            parts.append(t[last:i])
            last = i + len(sign)
        i += 1
    parts.append(t[last:])
    return [p.strip() for p in parts]


def result_of(t):
    return split_top(t, "→")[-1]


DATA = set("ℕ ℤ Bool List Option String Char Result Vec Byte U8 U32 U64 Bits Unit Maybe".split())


def is_fact(t, facts):
    """Whether a result type states something, and is no type of values."""
    t = t.strip()
    while t.startswith("(") and t.endswith(")") and len(split_top(t, "→")) == 1:
        d = 0
        for i, c in enumerate(t):
            d += c in "(" 
            d -= c in ")"
            if d == 0:
                break
        if i < len(t) - 1:
            break
        t = t[1:-1].strip()
    if RELATION.search(re.sub(r"\([^()]*\)", "()", re.sub(r"\([^()]*\)", "()", t))):
        return True
    parts = split_top(t, "×")
    if len(parts) > 1:
        return any(is_fact(p, facts) for p in parts)
    if re.match(r"^\(\S+ : ", t):
        return True
    if "→" in t and len(split_top(t, "→")) > 1:
        return is_fact(result_of(t), facts)
    head = re.split(r"[\s(){}]", t)[0] if t else ""
    head = head.split(".")[-1]
    if head in facts:
        return True
    if head in DATA:
        return False
    if len(head) == 1 and head.isupper():
        return " " in t
    return False


def words(part):
    """A part between dashes, in snake case; a part that begins with a capital is a type and stays."""
    if not part or not part[0].islower():
        return part
    part = re.sub(r"([a-z0-9'\u2080-\u2089])([A-Z])", r"\1_\2", part)
    part = re.sub(r"([A-Z])([A-Z][a-z])", r"\1_\2", part)
    return part.lower()


def camel(name):
    return "".join(w[:1].upper() + w[1:] for w in re.split(r"[-_\u00b7]", name))


def old_form(n):
    return bool(NAME.match(n)) and (bool(re.search(r"[a-z0-9'\u2080-\u2089][A-Z]", n.split("-")[0]) and n[0].islower()) or "-" in n or "\u00b7" in n or "\u2032" in n
                                    or bool(re.search(r"(^|[-_\u00b7])[a-z][a-z0-9]*[A-Z]", n)))


def tokens(text, pattern=ATOM):
    """(start, end, token, after a dot)."""
    for m in pattern.finditer(text):
        yield m.start(), m.end(), m.group(), m.start() > 0 and text[m.start() - 1] == "."


def head_of(text, at):
    """The first name of the chain that ends before the dot at `at` - 1."""
    i = at - 1
    while i > 0:
        j = i
        while j > 0 and text[j - 1] not in ' \n\t(){}[],;"`.':
            j -= 1
        if j == i:
            return ""
        if j > 0 and text[j - 1] == ".":
            i = j - 1
            continue
        return text[j:i]
    return ""


class Tree:
    def __init__(self, root):
        self.root = root
        self.files = [p for p in texts(root)]
        self.text = {p: read(p) for p in self.files}
        self.crates = os.path.join(root, "crates")

    def antt(self):
        return [p for p in self.files if p.endswith(".antt")]


def make_table(root):
    tree = Tree(root)
    decl = collections.defaultdict(list)
    facts = set("IsTrue IsSome Memᴰ All Any Dec".split())
    heads = []
    for p in tree.antt():
        for d in signatures(tree.text[p]):
            heads.append((p, d))
            decl[d[4]].append((p, d))
    # predicates, to a fixpoint
    record_fields = collections.defaultdict(list)
    current = None
    for p, d in heads:
        if d[2] == "record-head":
            current = (p, d[4])
        elif d[2] == "record" and current and current[0] == p:
            record_fields[current[1]].append(d[5])
    for p, d in heads:
        r = result_of(d[5])
        if d[2] == "" and re.match(r"^Type\b", r) and "→" in d[5]:
            facts.add(d[4])
    for _ in range(6):
        for n, fs in record_fields.items():
            if n not in facts and any(is_fact(result_of(f), facts) for f in fs):
                facts.add(n)
    fields, ctors, kinds = set(), set(), {}
    predicates, definitions = set(), set()
    made = set()
    for n, ds in decl.items():
        ks = set()
        for p, d in ds:
            rel = "/" + os.path.relpath(p, root)
            if MADE_FILES.search(rel) and d[1] == 0 and MADE_TOP.match(n) and d[2] == "":
                ks.add("made")
            elif rel.endswith("Proof.antt") and d[1] == 0 and re.search(r"[-_]spec$", n):
                ks.add("spec")
            elif d[2] == "record":
                ks.add("field")
            elif d[2] == "data":
                ks.add("constructor")
            elif d[2] in ("record-head", "data-head"):
                ks.add("type")
            elif d[2] == "module-head":
                ks.add("module")
            elif re.match(r"^Type\b", result_of(d[5])):
                ks.add("predicate")
            elif is_fact(result_of(d[5]), facts) and not re.search("unfoldable|abbrev", d[3]):
                ks.add("lemma")
            else:
                ks.add("definition")
        kinds[n] = ks
    known = {n for n, ks in kinds.items() if ks & {"definition", "predicate", "type", "field", "constructor"} and "lemma" not in ks or ks & {"definition", "predicate", "type"}}
    known |= OPERATORS
    fields = {n for n, ks in kinds.items() if "field" in ks}
    # every name of old form that stands in code
    stands = collections.defaultdict(set)
    file_tokens = {}
    foreign_all = {}
    for p in tree.antt():
        text = tree.text[p]
        foreign, own, other = imports(root, text)
        foreign_all[p] = (foreign, own, other)
        toks = set()
        spans = [(m.start(1), m.end(1)) for m in USE.finditer(text)]
        pos = 0
        paths = re.sub(r"(?m)^([ ]*(?:pub )?(?:open )?use )([^\s;{]+)", lambda m: m.group(1) + " " * len(m.group(2)), text)
        for k, t in pieces(paths):
            if k != "code":
                continue
            for s, e, w, dotted in tokens(t):
                toks.add((w, dotted, head_of(t, s) if dotted else ""))
        file_tokens[p] = toks
        for w, dotted, head in toks:
            if not old_form(w) or w in foreign:
                continue
            if dotted and (head in other or not (head in own or head[:1].isupper() or w in fields)):
                continue
            stands[w].add(p)
    table = {}
    kind_of = {}
    kit = set()
    for p in foreign_all:
        kit |= {w for w in foreign_all[p][0] if "-" not in w and NAME.match(w)}
    for n in sorted(stands):
        ks = kinds.get(n, {"binder"})
        if "made" in ks:
            continue
        if n in EXCEPTIONS:
            table[n], kind_of[n] = EXCEPTIONS[n], "exception"
            continue
        base = n.replace("\u2032", "'")
        if "spec" in ks:
            table[n] = re.sub(r"-", "_", base)
            kind_of[n] = "spec"
            continue
        lead = re.match(r"^[+]*", base).group()
        if "predicate" in ks and not ks & {"definition", "field", "constructor", "lemma"}:
            table[n] = camel(base) if len(base.split("_")[0]) > 1 else base
            kind_of[n] = "predicate"
            continue
        parts = [p for p in re.split(r"[-\u00b7]", base)]
        if any(p == "" for p in parts):
            continue
        parts = [words(p) for p in parts]
        if "lemma" in ks and not ks & {"definition", "field", "constructor"}:
            near = set()
            for p, d in decl[n]:
                near |= {w for w, _, _ in file_tokens[p]}
            here = {words(w.replace("\u2032", "'")) for w in near if w in known or w in kit or w in OPERATORS} | OPERATORS
            here |= {w for w in list(here) if w}
            out = parts[0]
            for i in range(1, len(parts)):
                left = out.replace("-", "_").split("_")
                lefts = {"_".join(left[j:]) for j in range(len(left))}
                lefts |= {re.sub(r"[0-9\u2080-\u2089']+$", "", w) for w in lefts}
                right = "_".join(parts[i:]).split("_")
                rights = {"_".join(right[: j + 1]) for j in range(len(right))}
                type_head = out[:1].isupper() and i == 1
                join = "-" if (lefts & here and rights & here) or type_head else "_"
                out += join + parts[i]
            table[n] = out
            kind_of[n] = "lemma"
        elif n[0].isupper() and len(parts) > 1:
            table[n] = parts[0] + "-" + "_".join(parts[1:])
            kind_of[n] = "lemma"
        else:
            table[n] = "_".join(parts)
            kind_of[n] = "/".join(sorted(ks))
    table = {k: v for k, v in table.items() if k != v}
    return tree, table, kind_of, file_tokens, foreign_all, fields, kinds, stands


def rust_names(text):
    code = "".join(t for k, t in rust_pieces(text) if k == "code")
    return set(re.findall(r"\b([a-z_]\w*)\s*:(?!:)", code)) | set(re.findall(r"\blet (?:mut )?(\w+)", code)) | set(re.findall(r"\bfor (\w+) in", code)) | {"result", "self"}


def collisions(root, state):
    tree, table, kind_of, file_tokens, foreign_all, fields, kinds, stands = state
    found = collections.defaultdict(list)
    for n, v in table.items():
        if v in RESERVED:
            found[n].append(("reserved word", v, ""))
    for p, toks in file_tokens.items():
        foreign, own, other = foreign_all[p]
        for want in (False, True):
            new = collections.defaultdict(set)
            for w, dotted, head in toks:
                if dotted != want:
                    continue
                if dotted and (head in other or not (head in own or head[:1].isupper() or w in fields)):
                    continue
                v = table.get(w, w) if w not in foreign else w
                new[v].add(w)
            for v, ws in new.items():
                if len(ws) > 1:
                    for w in ws:
                        if w in table and w not in foreign:
                            found[w].append(("beside " + " ".join(sorted(ws - {w})), v, os.path.relpath(p, root)))
    for p in tree.files:
        if not p.endswith(".rt"):
            continue
        text = tree.text[p]
        items = re.split(r"(?m)^(?=(?:pub |unsafe |#\[|const |static )*(?:fn|struct|enum|impl|trait)\b)", text)
        foreign, own, other = imports(root, text)
        top = set()
        for m in USE.finditer(text):
            top |= set((m.group(2) or "").replace(",", " ").split())
        seen = collections.defaultdict(set)
        for w in top:
            seen[table.get(w, w) if w not in foreign else w].add(w)
        for v, ws in seen.items():
            if len(ws) > 1:
                for w in ws:
                    if w in table:
                        found[w].append(("beside " + " ".join(sorted(ws - {w})), v, os.path.relpath(p, root)))
        for it in items:
            names = rust_names(it)
            code = "".join(t for k, t in rust_pieces(it) if k == "code")
            for s, e, w, dotted in tokens(code, WORD):
                if not dotted and w in table and w not in foreign and table[w] in names:
                    found[w].append(("parameter, field or local of the source", table[w], os.path.relpath(p, root)))
    return found


def resolve(root, state):
    """One name of those that would fall together keeps the spelling: the library's, then a definition, and a lemma last."""
    tree, table, kind_of, file_tokens, foreign_all, fields, kinds, stands = state
    foreign = set()
    for f, _, _ in foreign_all.values():
        foreign |= f
    log = []

    def rank(n):
        ks = kinds.get(n, set())
        if not ks and n in foreign:
            k = 0
        elif ks & {"definition", "type", "predicate", "module"}:
            k = 1
        else:
            k = 2 if "constructor" in ks else 3 if "field" in ks else 4 if "lemma" in ks else 5
        return (k, n in table, "-" in n, n)

    for turn in range(5):
        found = collisions(root, state)
        if not found:
            break
        groups = collections.defaultdict(set)
        places = collections.defaultdict(set)
        for n, why in found.items():
            for reason, v, where in why:
                groups[v].add(n)
                places[v].add(where)
                if reason.startswith("beside"):
                    groups[v].update(reason[7:].split())
                else:
                    groups[v].add("")
        for v in sorted(groups):
            g = sorted((n for n in groups[v] if n), key=rank)
            losers = g if "" in groups[v] else g[1:]
            for i, n in enumerate(losers):
                ks = kinds.get(n, set())
                if "" in groups[v] and n not in table:
                    continue
                new = v + ("_lem" if ks & {"lemma", "field", "constructor"} and not ks & {"definition", "type", "predicate"} and rank(g[0])[0] < 4 else "'")
                while new in table.values():
                    new += "'"
                log.append((n, v, new, " ".join(g[:1]) if g[0] != n else "a word that is taken", " ".join(sorted(places[v])[:2])))
                if n not in table:
                    kind_of[n] = "moved:" + "|".join(x for x in g if x in table) + " " + "/".join(sorted(ks & {"field", "constructor"}))
                    stands.setdefault(n, set())
                else:
                    kind_of[n] = kind_of[n] + " taken"
                table[n] = new
    return log, collisions(root, state)


def write_table(root):
    state = make_table(root)
    log, left = resolve(root, state)
    tree, table, kind_of = state[:3]
    fields = state[5]
    with open(TABLE, "w", encoding="utf-8") as f:
        for n in sorted(table):
            if table[n] != n:
                kind = kind_of.get(n, "")
                f.write(f"{n}\t{table[n]}\t{kind}\n")
        for n in sorted(fields):
            if n not in table:
                pass
    print(f"{sum(1 for n in table if table[n] != n)} names in the table")
    for l in log:
        print("collision: {} -> {}, so {}: {} has it; {}".format(*l))
    for n in sorted(left):
        print("LEFT:", n, left[n][:2])
    return 1 if left else 0


def read_table(root):
    """The table, and the names of fields and constructors. A moved name makes room for another, and moves only with it."""
    table, fields, moved = {}, set(), {}
    for l in read(TABLE).splitlines():
        old, new, kind = l.split("\t")
        if kind.startswith("moved:"):
            moved[old] = (new, kind[6:].split(" ")[0].split("|"))
        else:
            table[old] = new
        if "field" in re.split(r"[/ ]", kind):
            fields.add(old)
    words_of = set()
    for p in texts(root):
        if p.endswith(".antt"):
            words_of.update(m.group() for k, t in pieces(read(p)) if k == "code" for m in ATOM.finditer(t))
    first = {old: new for old, (new, partners) in moved.items() if any(x in words_of for x in partners)}
    return table, fields, first


def swap(text, table, fields, foreign, own, other, pattern):
    out, last = [], 0
    for s, e, w, dotted in tokens(text, pattern):
        if w not in table or w in foreign and not dotted:
            continue
        if dotted:
            head = head_of(text, s)
            if head in other or not (head in own or head[:1].isupper() or w in fields):
                continue
        out += [text[last:s], table[w]]
        last = e
    return "".join(out) + text[last:]


def swap_comment(text, table, made):
    """In a comment: names in camel case, and dashed ones where the comment says more than that one name."""
    body = text.lstrip("-/!{} ").rstrip("-} ")
    alone = made and " " not in body

    def turn(m):
        w = m.group()
        if w not in table or w in ENGLISH or alone:
            return w
        return table[w]

    return WORD.sub(turn, text)


def turn_antt(root, path, text, table, fields):
    foreign, own, other = imports(root, text)
    made = path.endswith("Proof.antt")
    out = []
    for k, t in pieces(text):
        if k == "code":
            # the path of a use line stays, the names in braces do not
            cut, last = [], 0
            for m in re.finditer(r"(?m)^[ ]*(?:pub )?(?:open )?use [^\s;{]+", t):
                cut += [swap(t[last : m.start()], table, fields, foreign, own, other, ATOM), m.group()]
                last = m.end()
            tail = t[last:]
            out += cut + [swap(tail, table, fields, foreign, own, other, ATOM)]
        elif k == "comment":
            out.append(swap_comment(t, table, made))
        else:
            out.append(t)
    return "".join(out)


def turn_rt(root, text, table, fields):
    foreign, own, other = imports(root, text)
    out = []
    for k, t in rust_pieces(text):
        if k == "code":
            cut, last = [], 0
            for m in re.finditer(r"(?m)^[ ]*(?:pub )?(?:ghost )?use [^\s;{]+", t):
                cut += [swap(t[last : m.start()], table, fields, foreign, own, other, WORD), m.group()]
                last = m.end()
            out += cut + [swap(t[last:], table, fields, foreign, own, other, WORD)]
        elif k == "comment":
            out.append(swap_comment(t, table, False))
        else:
            out.append(t)
    return "".join(out)


def turn_edit(root, text, table, fields):
    out = []
    for l in text.splitlines(keepends=True):
        m = re.match(r"^(old|new):", l)
        if m:
            l = l[: m.end()] + swap(l[m.end() :], table, fields, set(), set(), set(), WORD)
        elif l.startswith("#"):
            l = WORD.sub(lambda m: table.get(m.group(), m.group()) if re.search(r"[a-z][A-Z]", m.group()) else m.group(), l)
        out.append(l)
    return "".join(out)


def turn_page(text, table):
    return re.sub(r"(?<!`)`[^`\n]+`(?!`)", lambda m: m.group() if "/" in m.group() else WORD.sub(lambda w: table.get(w.group(), w.group()), m.group()), text)


def turned(root, table, fields, first):
    both = table | first
    for p in texts(root):
        t = read(p)
        n = turn_antt(root, p, t, both, fields) if p.endswith(".antt") else turn_rt(root, t, table, fields) if p.endswith(".rt") else turn_edit(root, t, table, fields)
        yield p, t, n
    for p in pages(root):
        t = read(p)
        yield p, t, turn_page(t, table)


PATHS = re.compile(r"(?m)(?<=use )Rattle\.[^\s;{]+")


def check(old, root):
    """Counts of each renamed name before and after, in antt code, and names of one file that fell together."""
    table, fields, first = read_table(old)
    bad = 0
    for p, t, n in turned(old, table, fields, first):
        if not p.endswith(".antt"):
            continue
        q = os.path.join(root, os.path.relpath(p, old))
        before, after = ([(w, dotted) for k, s in pieces(PATHS.sub("", x)) if k == "code" for _, _, w, dotted in tokens(s)] for x in (t, read(q)))
        if len(before) != len(after):
            bad += 1
            print(f"{q}: {len(before)} words before, {len(after)} after")
            continue
        new = collections.defaultdict(set)
        for a, b in zip(before, after):
            new[b].add(a)
        for b, olds in sorted(new.items()):
            if len(olds) > 1:
                bad += 1
                print(f"{q}: {'.' * b[1]}{b[0]} was {' and '.join(sorted(w for w, _ in olds))}")
    print(f"{bad} places where counts differ or names fell together")
    return 1 if bad else 0


def main(argv):
    args = [a for a in argv if not a.startswith("--")]
    if "--check" in argv:
        return check(args[0], args[1] if len(args) > 1 else ".")
    if "--table" in argv:
        return write_table(args[0] if args else ".")
    root = args[0] if args else "."
    table, fields, first = read_table(root)
    changed = 0
    for p, t, n in turned(root, table, fields, first):
        if t != n:
            changed += 1
            with open(p, "w", encoding="utf-8") as f:
                f.write(n)
    print(f"{changed} files changed")
    return 0


if __name__ == "__main__":
    raise SystemExit(main(sys.argv[1:]) or 0)
