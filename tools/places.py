#!/usr/bin/env python3
"""Counts in crates/*/src the places that docs/DESIGN-PASS.md speaks of, by plain rules over the text.

    tools/places.py [--list] [FOLDER]      FOLDER holds crates/ (default: this repository)
"""
import pathlib
import re
import sys
from collections import Counter, defaultdict

SHAPES = {"Option", "Result"}


def plain(text):
    """The text without comments and ghost lines."""
    text = re.sub(r"//[^\n]*", "", text)
    return re.sub(r"^ghost use [^\n]*\n", "", text, flags=re.M)


def closing(text, i):
    """Where the brace, bracket or parenthesis at i is closed."""
    depth = 0
    for j in range(i, len(text)):
        depth += text[j] in "([{"
        depth -= text[j] in ")]}"
        if depth == 0:
            return j
    return len(text)


def functions(text):
    """(name, parameters, result, clauses, body) of each function."""
    for m in re.finditer(r"\bfn (\w+)(?:<[^>]*>)?\(", text):
        end = closing(text, m.end() - 1)
        params = text[m.end():end]
        rest = text[end + 1:]
        head = re.match(r"\s*(?:-> ([^\n{]+?))?\s*((?:(?:requires|ensures|decreases)\b[^\n]*\n\s*)*)\{", rest)
        if not head:
            continue
        start = end + 1 + head.end() - 1
        yield m.group(1), params, (head.group(1) or "").strip(), head.group(2), text[start:closing(text, start) + 1]


def enums(text):
    for m in re.finditer(r"\benum (\w+)(?:<[^>]*>)? \{", text):
        body = text[m.end():closing(text, m.end() - 1)]
        found, depth, item = [], 0, ""
        for c in body:
            depth += c in "({["
            depth -= c in ")}]"
            if c == "," and depth == 0:
                found.append(item.strip())
                item = ""
            else:
                item += c
        if item.strip():
            found.append(item.strip())
        yield m.group(1), [re.sub(r"#\[[^\]]*\]", "", x).strip() for x in found]


def structs(text):
    for m in re.finditer(r"\bstruct (\w+)(?:<[^>]*>)?(?: where [^{]*)? \{", text):
        yield m.group(1), re.findall(r"(\w+): ([^,\n]+)", text[m.end():closing(text, m.end() - 1)])


def loops(body):
    """(head, body) of each loop, innermost too."""
    for m in re.finditer(r"\b(while ([^{]+)|loop) \{", body):
        yield (m.group(2) or "loop").strip(), body[m.end():closing(body, m.end() - 1)]


def shape(text):
    """The text with every name, number and string put as one."""
    text = re.sub(r'b?"(?:\\.|[^"\\])*"|b?\'(?:\\.|[^\'\\])\'', "S", text)
    keep = {"if", "else", "while", "loop", "for", "in", "let", "mut", "return", "match", "as", "continue", "break", "fn", "pub"}
    text = re.sub(r"\b[A-Za-z_]\w*\b", lambda m: m.group(0) if m.group(0) in keep else "n", text)
    text = re.sub(r"\b\d\w*\b", "0", text)
    text = re.sub(r"\bn::n\b", "n", text)
    return re.sub(r"\s+", " ", text)


def main():
    names = [a for a in sys.argv[1:] if not a.startswith("--")]
    root = pathlib.Path(names[0] if names else pathlib.Path(__file__).resolve().parent.parent)
    found = defaultdict(list)
    shapes = defaultdict(list)
    facts = defaultdict(set)
    together = defaultdict(set)
    for path in sorted(root.glob("crates/*/src/**/*.rt")):
        where = "/".join(path.relative_to(root / "crates").parts)
        text = plain(path.read_text(encoding="utf-8"))
        for name, variants in enums(text):
            full = [v for v in variants if re.search(r"[({]", v)]
            if full and len(variants) <= 3 and (len(full) == 1 or len(variants) == 2):
                found["1a own enum of the shape of Option or Result"].append(f"{where}: {name} {{ {', '.join(variants)} }}")
        for name, fields in structs(text):
            flags = [f for f, t in fields if t.strip() == "bool"]
            if flags and len(fields) > len(flags):
                found["1b struct with a flag and a value"].append(f"{where}: {name} ({', '.join(flags)})")
        for m in re.finditer(r"^(?:pub )?const (\w+): (u32|i32|u8) = \d+;", text, re.M):
            found["1c constant that numbers a kind"].append(f"{where}: {m.group(1)}")
        for name, params, result, clauses, body in functions(text):
            at = f"{where}: {name}"
            if re.fullmatch(r"usize|u64|u8|u32|Hop", result) and re.search(r"(return |\n\s*)(0|none\(\)|72);?\n", body) and re.search(r"(return (0|none\(\));|^\s*(0|72|none\(\))$)", body, re.M):
                found["1d number that also stands for none"].append(at)
            if body.count("\n") >= 4:
                shapes[shape(body)].append(at)
            for head, inner in loops(body):
                steps = re.findall(r"\b(\w+) (?:\+|-)= 1;", inner)
                if head == "loop" and steps or any(re.search(rf"\b{s}\b", head) for s in steps):
                    found["3 loop that counts an index by one"].append(f"{at} ({head})")
            if len(re.findall(r"=> \d+,", body)) >= 3:
                found["4a enum told as a number by a match"].append(at)
            if re.search(r"while [^{]+\{[^}]*\w+\[[^\]]+\] != \w+\[", body) or "check::same" in body:
                found["4b slices compared by hand"].append(at)
            if re.search(r"\w+\[[^\]]+\] = \w+\[[^\]]+\];", body):
                found["4c bytes copied by hand"].append(at)
            if re.search(r"if \w+ < b'.' \{", body) or re.search(r"if \w+ == \w+ \{ \w+ \} else", body):
                found["4d order written by hand"].append(at)
            for clause in re.findall(r"requires(?: \w+)? \{(.*)\}", clauses):
                for part in re.split(r" × ", clause):
                    fact = re.sub(r"[()]", "", part).strip()
                    fact = re.sub(r"\b\d+\b", "0", fact)
                    facts[fact].add(at)
            ps = sorted(p.strip() for p in re.findall(r"(\w+: [^,]+)", params))
            for i, a in enumerate(ps):
                for b in ps[i + 1:]:
                    together[(a, b)].add(at)
            if re.search(r": bool", params):
                found["7 flag that chooses a step"].append(at)
            if re.search(r"&(?:mut )?\[\w+\], (?:n|count|k|end): usize", params):
                found["6 slice with its length beside it"].append(at)
    for same in shapes.values():
        if len(same) > 1:
            found["2 functions of one shape"].append("; ".join(same))
    for fact, at in facts.items():
        if len(at) > 2:
            found["5a fact in the contracts of three functions"].append(f"{fact}  ({len(at)})")
    for pair, at in together.items():
        if len(at) > 5:
            found["5b parameters that travel together"].append(f"{pair[0]}, {pair[1]}  ({len(at)})")
    for kind in sorted(found):
        print(f"{len(found[kind]):4} {kind}")
        if "--list" in sys.argv:
            for place in found[kind]:
                print("      ", place)


main()
