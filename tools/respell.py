#!/usr/bin/env python3
"""Brings the names that this repository's own .antt files declare to today's spelling.

usage: respell.py [--check] [--landed FOLDER] [--table FILE] [--write-table FILE] [ROOT]

Run it once after port.py, at the top of the repository (ROOT, default the current folder). A second run changes nothing.
A word is in snake case (betweenAt, between-inside: between_at, between_inside), a test X? is is_X, an arrow is "gives"
(a→b: a_gives_b, a→: a_gives, →a: gives_a), a prime ′ is an apostrophe. A name that begins with a capital keeps it.
What turns: .antt (code; in comments the words between backticks, and words that only a name can be), and of .rt files the
'ghost use' items, clauses, ghost blocks and comments. What stays: Rust code, strings, names that Rattle makes (goal.x, tie.x, c.x-y), and
in a file that imports the name from a library of the kit every word of that spelling.
--landed FOLDER: a checkout of the commit before port.py; then README.md and docs/ turn as well, from its spelling (also what port.py turned).
docs/landings/ are history and stay.
--write-table FILE writes old, tab, new of each name; --table FILE takes a table and reads no declaration (for trees that hold an edit).
--check writes nothing. Lines: 'renamed: N names, M words in K files'; 'together: ..' where two names of a file would fall together.
"""
import os
import re
import sys

# Names that the rules would spell badly, or into a word of the library.
OVERRIDES = {
    "fits?": "is_fitting", "follows?": "is_following", "starts?": "is_start", "ends?": "is_end", "room?": "has_room",
    "size?": "is_size", "none?": "is_nothing", "whole?": "is_whole",
}
MODS = r"(?:(?:pub|abbrev|unfoldable|data|record|ruleset|mutual)\s+)*"
NAME = r'[^\s(){}.;,@"«»]+'
DECL = re.compile(rf"^([ ]*){MODS}({NAME}(?: {NAME})*?)(?: \{{[^{{}}]*\}}| \([^()]*\))* :(?:\s+(.*))?$")
WORD = re.compile(r'[^\s(){}.;,@"«»]+')
NOT_NAMES = {"let", "in", "elim", "λ", "use", "where", "module", "open", "|", "↦", "→", "×", "⊎", "≡", "=", "_", "data", "record", "as"}
RESERVED = set("""data record deriving module where use mod pub package open as unfoldable abbrev axiom unfold unfolding ruleset mutual infix
infixl infixr elim let in do Type coe fcoe tcoe hcom com search grind omega simp rw cc assumption ground hlevel first_of subst refl tt absurd Unit""".split())
CLAUSE = re.compile(r"\b(?:requires|ensures)\*?\s*(?:\w+\s*)?\{|\bghost\s+(?:\w+\s*:\s*)?\{|\bghost\s+use\b[^;]*;")


def snake(n):
    if n in OVERRIDES:
        return OVERRIDES[n]
    head = n
    n = n.replace("′", "'")
    m = re.match(r"^(.*?)\?(.*)$", n)
    if "→" in n:
        a, b = n.split("→", 1)
        a, b = a and snake(a), b and snake(b)
        return "_gives_".join([a, b]) if a and b else (a + "_gives" if a else "gives_" + b)
    if m:
        base, rest = m.group(1), m.group(2)
        pre = ""
        k = base.rfind("-")
        if k >= 0 and base + "?" not in OVERRIDES:  # true-code? : true_is_code
            pre, base = snake(base[:k]) + "_", base[k + 1:]
        base = OVERRIDES.get(base + "?") or "is_" + snake(base)
        return pre + base + (snake(rest) if rest else "")
    n = re.sub(r"(?<=[a-z0-9])([A-Z])(?=[a-z0-9]|\b|_|-|')", lambda k: "_" + k[1].lower(), n) if not head[:1].isupper() else re.sub(
        r"(?<=[-_])([a-z]\w*?)(?=[-_]|$)", lambda k: re.sub(r"(?<=[a-z0-9])([A-Z])", lambda j: "_" + j[1].lower(), k[1]), n)
    return n.replace("-", "_")


def crates(root):
    for folder, dirs, files in os.walk(os.path.join(root, "crates")):
        dirs[:] = sorted(d for d in dirs if d not in ("out", ".git", "must-fail"))
        for f in sorted(files):
            p = os.path.join(folder, f)
            if f.endswith((".antt", ".rt")) and not os.path.islink(p):
                yield p


def read(p):
    with open(p, encoding="utf-8") as f:
        return f.read()


def made(p):
    return bool(re.search(r"/proofs/.+/(Proof|Answers|Invariants)\.antt$", p))


def declared(p, t):
    """The names that a file declares, in order."""
    out, own = [], made(p)
    for line in t.split("\n"):
        m = DECL.match(line)
        if not m or line.lstrip().startswith(("--", "let ", "|")):
            continue
        names = m.group(2).split(" ")
        if any(n in NOT_NAMES or "=" == n for n in names):
            continue
        if own and re.match(r"(goal|tie)\.", m.group(3) or ""):
            continue  # a goal that Rattle names
        for n in names:
            if own and re.search(r"[-_]spec$", n):
                continue
            out.append(n)
    return out


def imported(t, own_crates):
    """The names that a file takes from the kit's libraries."""
    out = set()
    for m in re.finditer(r"^\s*(?:pub )?use ([^\s{;]+)\.\{([^}]*)\}", t, re.M):
        path = m.group(1).split(".")
        if path[0] == "Rattle" and len(path) > 1 and path[1] in own_crates:
            continue
        if path[0] == "package":
            continue
        for item in m.group(2).split(","):
            item = item.strip()
            if item:
                out.add(item.split(" as ")[0].strip())
                out.add(item.split(" as ")[-1].strip())
    return out


def spoken(p, t):
    """The words that stand alone in a file's antt: not behind a dot, not in a comment, in a .rt file in clauses alone."""
    if p.endswith(".rt"):
        t = "\n".join(t[a:b] for a, b in spans_of(t))
    t = "\n".join(re.split(r"(?:^|(?<=\s))--(?=\s|$)", l)[0] for l in t.split("\n"))
    return {m.group(0) for m in WORD.finditer(t) if t[m.start() - 1:m.start()] != "." and t[m.end():m.end() + 1] != "."}


def turn_words(code, table, stay):
    def one(m):
        w = m.group(0)
        if w in stay:
            return w
        n = table.get(w)
        if n is None:
            return w
        turn_words.count += 1
        return n
    return WORD.sub(one, code)


turn_words.count = 0


def plain(w):
    return re.fullmatch(r"[a-z]+(?:-[a-z]+)*", w) is not None


def turn_comment(c, table, stay):
    """Backticked words, and words that no prose has (camel case, ? inside, →)."""
    c = re.sub(r"`[^`\n]*`", lambda m: "`" + turn_words(m.group(0)[1:-1], table, stay) + "`", c)
    loud = {k: v for k, v in table.items() if not plain(k) and re.search(r"[a-z][A-Z]|→|\w\?\w", k)}
    return turn_words(c, loud, stay)


def turn_antt(t, table, stay):
    out = []
    for line in t.split("\n"):
        m = re.search(r"(?:^|(?<=\s))--(?=\s|$)", line)
        if m:
            out.append(turn_words(line[:m.start()], table, stay) + turn_comment(line[m.start():], table, stay))
        else:
            out.append(turn_words(line, table, stay))
    return "\n".join(out)


def goal_stays(t, table):
    """In Answers and Invariants a label that Rattle makes stays: behind goal., tie., c. and the like it has no own name anyway."""
    out = set()
    for m in re.finditer(r"\b(?:goal|tie)\.([^\s(){}.;,@\"«»]+)", t):
        out.add(m.group(1))
    for m in re.finditer(rf"^(?:abbrev )?(?:pub )?({NAME}) : (?:goal|tie)\.", t, re.M):
        out.add(m.group(1))
    for m in re.finditer(rf"^\s*pub ({NAME}[-_]spec) :", t, re.M):
        out.add(m.group(1))
    return out


def spans_of(t):
    spans = []
    for m in CLAUSE.finditer(t):
        if "{" not in m.group(0) or m.group(0).startswith("ghost use") or m.group(0).endswith(";"):
            spans.append((m.start(), m.end()))
            continue
        d, i = 1, m.end()
        while d and i < len(t):
            d += {"{": 1, "}": -1}.get(t[i], 0)
            i += 1
        spans.append((m.start(), i))
    return spans


def turn_rt(t, table, stay):
    spans = spans_of(t)
    out, at = [], 0
    for a, b in sorted(spans):
        if a < at:
            continue
        out.append(turn_rust_comments(t[at:a], table, stay))
        out.append(turn_words(t[a:b], table, stay))
        at = b
    out.append(turn_rust_comments(t[at:], table, stay))
    return "".join(out)


def turn_rust_comments(t, table, stay):
    return re.sub(r"(?m)(^\s*|\s)//[^\n]*", lambda m: turn_comment(m.group(0), table, stay), t)


def main():
    args, check, landed, table_in, table_out = sys.argv[1:], False, None, None, None
    rest = []
    while args:
        a = args.pop(0)
        if a == "--check":
            check = True
        elif a == "--landed":
            landed = args.pop(0)
        elif a == "--table":
            table_in = args.pop(0)
        elif a == "--write-table":
            table_out = args.pop(0)
        else:
            rest.append(a)
    root = rest[0] if rest else "."
    own = set(os.listdir(os.path.join(root, "crates")))
    files = {p: read(p) for p in crates(root)}
    if table_in:
        table = dict(l.rstrip("\n").split("\t") for l in open(table_in, encoding="utf-8") if "\t" in l)
    else:
        names, defined = {}, set()
        for p, t in files.items():
            if p.endswith(".antt"):
                for n in declared(p, t):
                    names.setdefault(n, []).append(p)
            for use in re.findall(r"^(?:ghost |pub )?use Rattle\.[^;\n]*\{([^}]*)\}", t, re.M):
                for n in re.findall(rf"{NAME} as ({NAME})", use):
                    if re.match(r"[a-z]", n):
                        names.setdefault(n, []).append(p)
            if p.endswith(".antt"):
                defined |= set(re.findall(rf"^ *(?:pub )?(?:abbrev|unfoldable|data|record)(?: pub)? ({NAME})", t, re.M))
                if "/specs/" in p:
                    defined |= set(declared(p, t))
        table = {}
        for n in names:
            s = snake(n)
            if s != n:
                table[n] = s
        # a lemma that would get the name of a definition gets _lem: within one file two names may not fall together
        taken = set(names)
        for n in sorted(table):
            if table[n] in RESERVED:
                print(f"reserved: {n}: {table[n]}; it becomes {table[n]}_of")
                table[n] += "_of"
        for p, t in sorted(files.items()):
            words = spoken(p, t)
            back = {}
            for w in sorted(words):
                back.setdefault(table.get(w, w), []).append(w)
            for new, olds in sorted(back.items()):
                if len(olds) > 1 and any(o in table for o in olds):
                    # a definition keeps the word, the lemma gives way; a word that nothing of the repository declares stays
                    mine = [o for o in olds if o in names]
                    lose = sorted(mine, key=lambda o: (o not in defined, o in table, "-" in o, o))[-1]
                    print(f"together: {os.path.relpath(p, root)}: {', '.join(olds)} would both be {new}: {lose} becomes {new}_lem")
                    table[lose] = new + "_lem"
    n_files = 0
    for p, t in sorted(files.items()):
        if p.endswith(".antt"):
            stay = imported(t, own) | (goal_stays(t, table) if made(p) else set())
            new = turn_antt(t, table, stay)
        else:
            stay = set()
            new = turn_rt(t, table, stay)
        if new != t:
            n_files += 1
            if not check:
                with open(p, "w", encoding="utf-8") as f:
                    f.write(new)
    print(f"renamed: {len(table)} names, {turn_words.count} words in {n_files} files")
    if landed:
        full = full_table(root, landed, table)
        pages = [os.path.join(root, "README.md")]
        for folder, dirs, fs in os.walk(os.path.join(root, "docs")):
            dirs[:] = sorted(d for d in dirs if d != "landings")
            pages += [os.path.join(folder, f) for f in sorted(fs) if f.endswith(".md")]
        for p in pages:
            if not os.path.exists(p):
                continue
            t = read(p)
            new = re.sub(r"`[^`\n]*`", lambda m: "`" + turn_words(m.group(0)[1:-1], full, set()) + "`", t)
            if new != t:
                print(f"page: {os.path.relpath(p, root)}")
                if not check:
                    with open(p, "w", encoding="utf-8") as f:
                        f.write(new)
        if table_out:
            table = full
    if table_out:
        with open(table_out, "w", encoding="utf-8") as f:
            f.writelines(f"{a}\t{b}\n" for a, b in sorted(table.items()))


def full_table(root, landed, table):
    """From the spelling before port.py: the nth name that a file declared there is the nth that it declares now."""
    full, far = dict(table), 0
    for p in crates(landed):
        if not p.endswith(".antt"):
            continue
        q = os.path.join(root, os.path.relpath(p, landed))
        if not os.path.exists(q):
            continue
        a, b = declared(p, read(p)), declared(q, read(q))
        if len(a) != len(b):
            far += 1
            continue
        for x, y in zip(a, b):
            y = table.get(y, y)
            if x != y:
                if full.get(x, y) != y:
                    print(f"two spellings: {x}: {full[x]} and {y}")
                full.setdefault(x, y)
    if far:
        print(f"note: {far} files declare another number of names than before port.py: their names follow the table alone")
    return full


main()
