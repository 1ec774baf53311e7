"""Prints what stands in the contracts of three functions or more in crates/*/src: each part of a `requires`, and each pair of
parameters of one name and type. docs/DESIGN-PASS.md says of each whether a type may hold it.
   python3 tools/design_facts.py FOLDER"""
import collections, itertools, pathlib, re, sys

HEAD = re.compile(r"^( *)(?:pub(?:\([a-z]+\))? )?(?:extern \"C\" )?fn ([a-z_0-9]+)", re.M)


def split_at(text, mark, opening="([{<", closing=")]}>"):
    """The parts of a text between the marks that stand outside of brackets."""
    parts, depth, last = [], 0, 0
    for i, c in enumerate(text):
        if c in opening:
            depth += 1
        elif c in closing and not (c == ">" and text[i - 1] in "-=") and depth:
            depth -= 1
        elif c == mark and depth == 0:
            parts.append(text[last:i])
            last = i + 1
    return [p for p in map(str.strip, parts + [text[last:]]) if p]


def bare(fact):
    fact = " ".join(fact.replace("«", "").replace("»", "").split())
    while fact.startswith("(") and len(split_at(fact, "×", "(", ")")) == 1 and closes_last(fact):
        fact = fact[1:-1].strip()
    return fact


def closes_last(fact):
    depth = 0
    for i, c in enumerate(fact):
        depth += (c == "(") - (c == ")")
        if depth == 0:
            return i == len(fact) - 1
    return False


def facts(clause):
    clause = bare(clause)
    parts = split_at(clause, "×", "(", ")")
    return [clause] if len(parts) == 1 else [f for p in parts for f in facts(p)]


def functions(text):
    for found in HEAD.finditer(text):
        indent = found.group(1)
        end = re.compile(r"^%s\{|\) [^\n]*\{$|\{$" % indent, re.M).search(text, found.end())
        begin = re.compile(r"^%s\{\n|^%s[^\n]*[^{ ] \{\n" % (indent, indent), re.M).search(text, found.start())
        stop = begin.start() if begin else (end.start() if end else len(text))
        head = text[found.start(): (begin.end() if begin else stop)]
        params = re.search(r"\((.*?)\)(?: ->|\n| \{|$)", head[head.find("("):], re.S)
        names = split_at(re.sub(r"//.*", "", params.group(1)), ",") if params else []
        asked = [m.group(1) for m in re.finditer(r"requires(?: [a-z_]+)? \{ (.*?) \}\s*(?=requires|ensures|\{|$)", head, re.S)]
        yield found.group(2), [" ".join(n.split()) for n in names], [f for a in asked for f in facts(a)]


where, pairs = collections.defaultdict(set), collections.defaultdict(set)
for path in sorted(pathlib.Path(sys.argv[1]).glob("crates/*/src/**/*.rt")):
    text = "\n".join(re.sub(r"^\s*//.*", "", l) for l in path.read_text().split("\n"))
    crate = path.parts[-3] if path.parts[-2] == "src" else path.parts[-4]
    for name, params, asked in functions(text):
        for fact in asked:
            where[fact].add(f"{crate}::{name}")
        for pair in itertools.combinations(sorted(p for p in params if ":" in p), 2):
            pairs[pair].add(f"{crate}::{name}")
for title, found in (("parts of a `requires`", where), ("pairs of parameters", {"; ".join(k): v for k, v in pairs.items()})):
    often = sorted(((k, v) for k, v in found.items() if 3 <= len(v)), key=lambda kv: (-len(kv[1]), kv[0]))
    print(f"   {title} in three functions or more: {len(often)}")
    for what, names in often:
        print(f"   {len(names):3} {what}: {', '.join(sorted(names))}")
