"""Prints groups of functions in crates/*/src whose text is the same but for names, numbers, literals and types.
   python3 tools/design_twins.py FOLDER"""
import collections, pathlib, re, sys

KEYWORDS = set("fn let mut if else while for in loop return match true false as pub const struct impl self".split())


def functions(text):
    """(name, line, body) of each function; a body is what stands in its outermost braces behind the contract."""
    for found in re.finditer(r"^( *)(?:pub(?:\([a-z]+\))? )?(?:extern \"C\" )?fn ([a-z_0-9]+)", text, re.M):
        indent = found.group(1)
        begin = re.compile(r"^%s\{$|^%s\S.*\{$" % (indent, indent), re.M).search(text, found.start())
        end = re.compile(r"^%s\}$" % indent, re.M).search(text, found.start())
        if begin and end and begin.start() < end.start():
            yield found.group(2), text.count("\n", 0, found.start()) + 1, text[begin.end():end.start()]


def shape(body):
    body = re.sub(r"//.*", "", body)
    tokens = re.findall(r"b?\"(?:[^\"\\]|\\.)*\"|b?'.'|[A-Za-z_][A-Za-z_0-9]*|\d+|\S", body)
    out = []
    for token in tokens:
        if token[0] in "\"'" or token[:2] in ("b\"", "b'") or token[0].isdigit():
            out.append("0")
        elif re.match(r"[A-Za-z_]", token) and token not in KEYWORDS:
            out.append("x")
        else:
            out.append(token)
    return " ".join(out)


groups = collections.defaultdict(list)
for path in sorted(pathlib.Path(sys.argv[1]).glob("crates/*/src/**/*.rt")):
    for name, line, body in functions(path.read_text()):
        text = shape(body)
        if 12 <= len(text.split()):
            groups[text].append(f"{path.relative_to(sys.argv[1])}:{line}: {name}")
twins = [g for g in groups.values() if 1 < len(g)]
print(f"   {sum(map(len, twins))} functions in {len(twins)} groups")
for group in twins:
    print("   -- " + "; ".join(group))
