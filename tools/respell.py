#!/usr/bin/env python3
"""Spells the repository's own definitions and lemmas as today's Rattle spells names: words in snake case, types and modules in camel case.

usage: python3 tools/respell.py        once, at the top, on what port.py has turned

    valueOf, value-is, Below-bitsOf, Q-UPDOWN  ->  value_of, value_is, Below_bits_of, Q_UPDOWN

Names of src/ stay, and so do names that Rattle makes and names of its library. A lemma that would fall together with another own name gets
`_lem` behind it. In src/ only what a `ghost use` line imports is turned. What is turned is printed, an old and a new name a line.
"""

import collections
import glob
import os
import re
import sys

TOKEN = re.compile(r"--[^\n]*|\"(?:[^\"\\]|\\.)*\"|«[^»]*»|[^\s(){}.;,@\"«»\[\]\\]+|\.")
NAME = re.compile(r"[^\W\d][\w'₀-₉]*(-[\w'₀-₉]+)*")
DECLARED = re.compile(r"^(?:(?:abbrev|unfoldable|pub|mutual) )*([^\s(){}.;,@\"]+)(?: \{[^}]*\}| \([^)]*\))* :(?:\s|$)")
KIND = re.compile(r"^(?:(?:abbrev|unfoldable|pub) )*(data|record|ruleset) (?:pub )?([^\s(){}.;,@\"]+)")


def snake(word):
    parts = []
    for part in word.split("-"):
        if part[:1].islower():
            part = re.sub(r"(?<=[a-z0-9'])([A-Z])", lambda m: "_" + m[1].lower(), part)
        parts.append(part)
    return "_".join(parts)


def is_old(word):
    return bool(NAME.fullmatch(word)) and snake(word) != word


def read(path):
    with open(path, encoding="utf-8") as f:
        return f.read()


def is_own(path):
    """Whether a module's path leads into a file that the repository has, and not to what Rattle makes."""
    found = re.match(r"Rattle\.(\w+)\.(specs|proofs)\.(.+)", path)
    if not found:
        return False
    names = found[3].split(".")
    for end in range(1, len(names) + 1):
        file = f"crates/{found[1]}/{found[2]}/" + "/".join(names[:end]) + ".antt"
        if os.path.isfile(file):
            return not is_generated(file)
    return False


def antt_files():
    for part in ("specs", "proofs"):
        yield from sorted(glob.glob(f"crates/*/{part}/**/*.antt", recursive=True))


def is_generated(path):
    """A proof of a function of src/, whose names are those of its goals."""
    return os.path.basename(path) == "Proof.antt"


def own_names():
    """Top-level names, and the fields and constructors of own types, by where they stand."""
    tops, parts = collections.defaultdict(set), set()
    for path in antt_files():
        if is_generated(path):
            continue
        kind = None
        for line in read(path).split("\n"):
            if not line.strip() or line.startswith("--"):
                continue
            if line[0] not in " \t":
                made = KIND.match(line)
                kind = made[1] if made else None
                declared = DECLARED.match(line)
                if made:
                    tops[made[2]].add(path)
                elif declared:
                    tops[declared[1]].add(path)
            elif kind in ("record", "data"):
                inner = re.match(r"^\s+(?:pub )?([^\s(){}.;,@\"]+) :\s", line)
                if inner:
                    parts.add(inner[1])
    return tops, parts


def table(tops, parts):
    """The new spelling of each own name that has an old one."""
    every = set(tops) | parts
    taken = collections.defaultdict(set)
    for name in every:
        taken[snake(name)].add(name)
    out = {}
    for new, olds in taken.items():
        camel = [n for n in olds if "-" not in n]
        for name in olds:
            # a definition keeps the name, and a lemma that was set off from it by its dash gives way
            clash = len(olds) > 1 and camel and "-" in name
            turned = new + "_lem" if clash and name not in parts else new
            if turned != name:
                out[name] = turned
    # a lemma that an earlier script spelled as a definition is now spelled
    for new, olds in taken.items():
        for name in olds:
            if name == new and any(n != name and "-" not in n for n in olds) and name in tops:
                lemma = [p for p in tops[name] if "/proofs/" in p]
                if lemma and not any("/specs/" in p for p in tops[name]):
                    out[name] = new + "_lem"
    return out


# a definition whose new name a lemma of the library has
CHOSEN = {"takeAt": "taken_at"}
# names in snake case, by the folder whose files have them, that a definition's new name would meet
MET = {
    "crates/told": {"value_there": "value_there_lem"},
    "crates/telling": {"value_there": "value_there_lem"},
    "crates/pieces/proofs": {"is_digit": "is_digit_lem"},
    "crates/retelling/proofs": {"list_put": "list_put_lem"},
    "crates/wide_lists/proofs": {"position_at": "position_at_lem"},
    "crates/entrances": {"other_name": "other_named"},
}


def settle(names, tops):
    """Where two names of one file would become one, the lemma gets `_lem` behind it, until none do."""
    names.update(CHOSEN)
    files = {}
    for path in antt_files():
        text = read(path)
        kept, _ = imported(text)
        words = re.sub(r"(?m)--.*|\"[^\"\n]*\"", "", text)
        tokens = set(re.findall(r"(?<!\.)(?<![\w'])[^\s(){}.;,@\"«»\[\]\\]+", re.sub(r"(?m)^(pub )?use [^\s{]+", "", words)))
        files[path] = ({t for t in tokens if NAME.fullmatch(t)}, kept)
    while True:
        more = {}
        for path, (tokens, kept) in files.items():
            of = collections.defaultdict(set)
            for token in tokens:
                if token in kept:
                    of[token].add(token)
                elif is_old(token):
                    of[names.get(token) or snake(token)].add(token)
                elif token in names and takes(read(path), token, path):
                    of[names[token]].add(token)
                else:
                    of[token].add(token)
            for new, olds in of.items():
                if len(olds) < 2:
                    continue
                dashed = sorted(n for n in olds if "-" in n and n not in kept)
                plain = sorted(n for n in olds if n == new and n in tops and n not in kept and not any("/specs/" in p for p in tops[n]))
                for name in (dashed or plain)[:1]:
                    more[name] = new + "_lem"
                if not dashed and not plain:
                    print(f"look: {path}: {new} from {sorted(olds)}", file=sys.stderr)
        more = {k: v for k, v in more.items() if names.get(k) != v}
        if not more:
            return
        names.update(more)


def imported(text):
    """What a file takes from elsewhere: names that keep their spelling, and aliases of own modules."""
    kept, aliases = set(), set()
    for found in re.finditer(r"(?m)^(?:pub )?use (\S+?)\.\{([^}]*)\}", text):
        path, names = found[1], found[2].split(",")
        ours = is_own(path)
        for name in names:
            old, _, alias = name.strip().partition(" as ")
            if not ours:
                kept.add((alias or old).strip())
    for found in re.finditer(r"(?m)^(?:pub )?use (\S+) as (\S+)", text):
        if is_own(found[1]):
            aliases.add(found[2])
    return kept, aliases


def turn_antt(path, text, names, parts):
    kept, aliases = imported(text)
    if is_generated(path):
        goals = re.findall(r"(?m)^(?:abbrev |pub )*(\S+) : (?:tie|goal)\.", text)
        kept |= set(goals) | set(re.findall(r"(?m)^pub (\S+) : \{M", text))
        kept |= {n for n in re.findall(r"[^\s(){}.;,]+", text) if re.fullmatch(r"[\w-]+-spec", n)}
    out, at, before, dot = [], 0, "", False
    in_use = []
    for found in re.finditer(r"(?m)^(?:pub )?use [^\n]*", text):
        in_use.append((found.start(), found.end()))
    spans = iter(in_use)
    span = next(spans, None)
    for found in TOKEN.finditer(text):
        word = found[0]
        out.append(text[at : found.start()])
        at = found.end()
        while span and found.start() >= span[1]:
            span = next(spans, None)
        use_line = span and span[0] <= found.start() < span[1]
        if word == ".":
            dot = text[found.start() - 1] not in " \n(" and text[at : at + 1] not in (" ", "\n")
            out.append(word)
            continue
        new = word
        if word.startswith("--"):
            new = re.sub(r"[\w'-]+", lambda m: names.get(m[0], m[0]) if re.search("[a-z][A-Z]", m[0]) else m[0], word)
        elif word[0] in "\"«":
            pass
        elif use_line:
            new = turn_import(word, text, span, found.start(), names)
        elif dot:
            if before in aliases or (word in parts and is_old(word)):
                new = names.get(word, snake(word) if is_old(word) else word)
        elif word not in kept and (is_old(word) or word in names):
            if word in names or NAME.fullmatch(word):
                new = names.get(word) or snake(word)
            # a bare name that an earlier script spelled so stays where it is a local one
            if word in names and not is_old(word) and not takes(text, word, path):
                new = word
        out.append(new)
        before, dot = word, False
    out.append(text[at:])
    return "".join(out)


def takes(text, word, path):
    """Whether the file declares a name at its top level or imports it from an own module."""
    if re.search(r"(?m)^(?:abbrev |unfoldable |pub )*%s :" % re.escape(word), text):
        return True
    return bool(re.search(r"(?m)^(?:pub )?use Rattle\.\S+\.\{[^}]*(?<![\w'-])%s(?![\w'-])" % re.escape(word), text))


def turn_import(word, text, span, start, names):
    line = text[span[0] : span[1]]
    open_at = text.find("{", span[0], span[1])
    path = re.match(r"(?:pub )?use (\S+?)(?:\.\{| as |$)", line)[1]
    if not is_own(path) or open_at < 0 or start < open_at:
        return word
    return names.get(word) or (snake(word) if is_old(word) else word)


def turn_source(text, names):
    """Turns what `ghost use` lines import from own definitions, and where the text says it."""
    mine = set()
    for found in re.finditer(r"ghost use (Rattle\.(\w+)\.[^;{]*)\.\{([^}]*)\}", text):
        if is_own(found[1]):
            mine |= {n.strip() for n in found[3].split(",")}
    for found in re.finditer(r"ghost use (Rattle\.(\w+)\.[^;{]*)\.([^\s;{}.]+);", text):
        if is_own(found[1]):
            mine.add(found[3])
    mine = {n: names.get(n) or snake(n) for n in mine if is_old(n)}
    if not mine:
        return text
    word = re.compile(r"(?<![\w'.-])(" + "|".join(map(re.escape, sorted(mine, key=len, reverse=True))) + r")(?![\w'-])")
    return word.sub(lambda m: mine[m[1]], text)


def main():
    for folder, words in MET.items():
        for path in antt_files():
            if path.startswith(folder + "/"):
                text = new = read(path)
                for old, now in words.items():
                    new = re.sub(r"(?<![\w'.-])%s(?![\w'-])" % old, now, new)
                if new != text:
                    with open(path, "w", encoding="utf-8") as f:
                        f.write(new)
    tops, parts = own_names()
    names = table(tops, parts)
    settle(names, tops)
    for name in sorted(names):
        print(f"{name}\t{names[name]}")
    for path in antt_files():
        text = read(path)
        new = turn_antt(path, text, names, parts)
        if new != text:
            with open(path, "w", encoding="utf-8") as f:
                f.write(new)
    for path in sorted(glob.glob("crates/*/src/**/*.rt", recursive=True)):
        text = read(path)
        new = turn_source(text, names)
        if new != text:
            with open(path, "w", encoding="utf-8") as f:
                f.write(new)


if __name__ == "__main__":
    main()
