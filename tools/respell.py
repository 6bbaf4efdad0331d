#!/usr/bin/env python3
"""Run once, right after the kit's port.py: respells this repository's own names in .antt, .rt and .edit files as the kit's CONTRACT_STYLE.md,
'Names', has them.
usage: respell.py [--write] REPOSITORY

A definition, field or constructor is in snake case; a name whose type ends in `Type 0` is in upper camel case; in a lemma a dash stays only
between two names that something declares. A name whose new spelling stands already, mostly since a function of the code has it, is in BY_HAND.
Without --write it prints the table alone, and 'left:' for what it cannot decide: there is none. In .rt files it leaves strings and comments;
answers to goals keep the name that the kit makes.
"""
import os, re, sys, glob, collections

# A lemma that would have its function's name gets _lem; the others got a name by hand.
BY_HAND = {
    "bit-and": "bit-and",
    "chess-rules": "chess_rules_hold",
    "codes-pin": "codes_pin_lem",
    "codes-tell": "codes_tell_lem",
    "frames-compose": "frames_compose_lem",
    "in-check": "is_in_check",
    "leaps-from": "leaps_from_lem",
    "lines-are-read": "lines_are_read_lem",
    "runs-decide": "runs_decide_lem",
    "set-up": "reading_of",
    "solutions-agree": "solutions_agree_lem",
    "solutions-are-right": "solutions_are_right_lem",
    "trials-agree": "trials_agree_lem",
    "trials-are-right": "trials_are_right_lem",
    "trials-end": "trials_end_lem",
    "try-move": "try_move_lem",
    "verdicts-last": "verdicts_last_lem",
    "not-won-facts": "not_won_facts",
    # a fact of one word
    "passable": "IsPassable",
}
# Names that the kit makes too, in other crates, for a variable of the code; and a fact that a trait's ghost member is named like
IN_CRATES = {
    "chess": {"state-is": "state_is", "next-is": "next_is", "count-is": "count_is"},
    "othello": {"next-is": "next_is", "count-is": "count_is"},
    "chess_moves": {"one-is": "one_is"},
    "chess_text": {"file-is": "file_is", "fit": "IsFit"},
    "othello_rules": {"fit": "IsFit"},
}

WORD = r"[^\s(){}.;,@\"«»\[\]\\·]+"
TOKEN = re.compile(WORD)
DECL = re.compile(r"(?m)^( *)((?:abbrev |unfoldable )?)((?:pub )?)(%s) :(?= |\n)" % WORD)
TYPE = re.compile(r"(?m)^ *(?:pub )?(record|data) (%s)" % WORD)


def read(p):
    with open(p, encoding="utf-8", newline="") as f:
        return f.read()


def camel(it):
    return "".join(w[:1].upper() + w[1:] for w in re.split("[-_]", it))


def signature(t, end):
    """The type of a declaration, up to the next line that is not indented deeper."""
    m = re.compile(r"\n(?=\S|\n)").search(t, end)
    return t[end : m.start() if m else len(t)]


def main():
    write = "--write" in sys.argv
    root = [a for a in sys.argv[1:] if a != "--write"][0]
    specs = sorted(glob.glob(f"{root}/crates/*/specs/**/*.antt", recursive=True))
    proofs = sorted(glob.glob(f"{root}/crates/*/proofs/**/*.antt", recursive=True))
    kinds, where = {}, collections.defaultdict(set)
    plain = set()
    for p in specs + proofs:
        t = read(p)
        for m in TYPE.finditer(t):
            kinds.setdefault(m[2], "fact")
            where[m[2]].add(p)
            plain.add(m[2])
        for m in DECL.finditer(t):
            indent, how, pub, name = m.groups()
            sig = signature(t, m.end())
            if re.match(r"\s*[\w'-]+\.(?:at\.)?%s\s*(?:\n|$)" % re.escape(name), sig):
                continue  # an answer to a goal
            if indent and not re.match(r"(?: {2}|    )$", indent):
                continue
            ends = re.search(r"→?\s*Type(?: 0| \{0\})?\s*$", re.sub(r"--.*", "", sig))
            if indent:
                kind = "part"
            elif ends:
                kind = "fact"
            elif how or "/specs/" in p:
                kind = "definition"
            else:
                kind = "lemma"
            if kind != "lemma":
                plain.add(name)
            old = kinds.get(name)
            if old and old != kind:
                kind = "fact" if "fact" in (old, kind) else "definition" if "definition" in (old, kind) else kind
            kinds[name] = kind
            where[name].add(p)
    # std's names that a file imports are names too
    for p in specs + proofs:
        for m in re.finditer(r"use (Rattle\.std\S*?|mathlib\S*?|native\S*?)\.\{([^}]*)\}", read(p)):
            plain |= {w.strip().split(" as ")[0] for w in m[2].split(",")}
    def lemma(name):
        parts = name.split("-")
        out = parts[0]
        left = parts[0]
        for k in range(1, len(parts)):
            rest = parts[k:]
            is_left = any("-".join(parts[j:k]) in plain or "_".join(parts[j:k]) in plain for j in range(k))
            is_right = any("-".join(rest[:j]) in plain or "_".join(rest[:j]) in plain for j in range(1, len(rest) + 1))
            out += ("-" if is_left and is_right else "_") + parts[k]
        return out
    table = {}
    for name, kind in kinds.items():
        if kind == "fact":
            new = camel(name) if "-" in name or "_" in name else name
        elif "-" not in name or not re.match(r"[\w'-]+$", name):
            continue
        elif kind == "lemma":
            new = lemma(name)
        else:
            new = name.replace("-", "_")
        if new != name:
            table[name] = new
    # what stands already
    files = [p for p in glob.glob(f"{root}/crates/**/*", recursive=True) if "/out/" not in p and p.endswith((".antt", ".rt", ".edit"))]
    texts = {p: read(p) for p in files}
    stands = collections.Counter()
    for p, t in texts.items():
        stands.update(set(TOKEN.findall(t)))
    rust = set()
    for p, t in texts.items():
        if p.endswith(".rt"):
            rust |= set(re.findall(r"\b(\w+): ", t)) | set(re.findall(r"(?:const|static|type|struct|enum|trait) (\w+)", t)) | set(re.findall(r"ghost (\w+)", t))
    # what the kit makes: `x-is` of a variable x
    locals_ = set()
    for p, t in texts.items():
        if p.endswith(".rt"):
            locals_ |= set(re.findall(r"\b(?:let (?:mut )?|for )(\w+)", t))
    made = {f"{it}-is" for it in locals_} | {f"{it}-own" for it in locals_}
    by_crate = {old for it in IN_CRATES.values() for old in it}
    for old in [o for o in table if o in made or o in by_crate]:
        if old not in by_crate:
            print(f"left: {kinds[old]} {old}: a name that the kit makes too")
        del table[old]
    for old, new in BY_HAND.items():
        kinds.setdefault(old, "fact")
        table[old] = new
        if old == new:
            del table[old]
    twice = collections.Counter(table.values())
    for old, new in sorted(table.items()):
        in_antt = any(new in TOKEN.findall(texts[p]) for p in files if p.endswith(".antt")) if stands[new] else False
        if twice[new] > 1 or in_antt or (kinds[old] != "part" and new in rust):
            why = "two names would be it" if twice[new] > 1 else "stands in an antt file" if in_antt else "a name of the code"
            print(f"left: {kinds[old]} {old} -> {new}: {why}")
            del table[old]
    n = collections.Counter(kinds[o] for o in table)
    print("renamed:", dict(n))
    if not write:
        for o, w in sorted(table.items()):
            print(f"{kinds[o]}\t{o}\t{w}")
        return
    for p, t in texts.items():
        here = {**table, **IN_CRATES.get(os.path.relpath(p, root).split(os.sep)[1], {})}
        swap = lambda s: TOKEN.sub(lambda m: m[0] if s[: m.start()].endswith("ghost ") else here.get(m[0], m[0]), s)
        if p.endswith(".antt"):
            # keep strings, and the names of goals that the kit makes
            goal = re.compile(r"\"(?:[^\"\\]|\\.)*\"|(?<![\w.])(?:goal|wants|given|need)\.(?:at\.)?%s|use \S+proofs\.\S+\.(?:Goals|Given|Invariants)\S*(?:\.\{[^}]*\})?(?: as %s)?" % (WORD, WORD))
            out, last = [], 0
            for m in goal.finditer(t):
                out += [swap(t[last : m.start()]), m[0]]
                last = m.end()
            new = "".join(out) + swap(t[last:])
        elif p.endswith(".rt"):
            out, last = [], 0
            for m in re.finditer(r"//[^\n]*|\"(?:[^\"\\]|\\.)*\"", t):
                out += [swap(t[last : m.start()]), m[0]]
                last = m.end()
            new = "".join(out) + swap(t[last:])
        else:
            new = swap(t)
        if new != t:
            with open(p, "w", encoding="utf-8", newline="") as f:
                f.write(new)


main()
