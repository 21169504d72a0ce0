#!/usr/bin/env python3
"""Lists the places in src/ that an older form may stand in, a heading for each point of docs/DESIGN-PASS.md.

    python3 tools/places.py            all places
    python3 tools/places.py --count    the counts alone

A line is a place to look at. Tests are left out but for loops."""
import collections
import pathlib
import re
import sys

ROOT = pathlib.Path(__file__).resolve().parent.parent
POINTS = ["1 shapes of Option, flags, codes", "2 twins", "3 loops", "4 conversions by hand", "5 facts and parameters in three",
          "6 lengths beside buffers", "7 switches", "8 answers"]


def sources():
    for path in sorted(ROOT.glob("crates/*/src/**/*.rt")):
        yield path.relative_to(ROOT / "crates"), path.read_text().split("\n")


def without_tests(lines):
    out = []
    for line in lines:
        if line.startswith("#[cfg(test)]"):
            break
        out.append(line)
    return out


def functions(lines):
    """(line number, name, signature, body) of each function with a body."""
    i = 0
    while i < len(lines):
        m = re.match(r"\s*(?:pub(?:\(crate\))? )?(?:const )?fn (\w+)", lines[i])
        if not m:
            i += 1
            continue
        head, j = [], i
        while j < len(lines) and not re.match(r"\s*\{(\})?$", lines[j]) and not lines[j].endswith(("{", "{}", ";")):
            head.append(lines[j])
            j += 1
        while j < len(lines) and "requires" in lines[j] + "ensures":
            if re.match(r"\s*\{(\})?$", lines[j]) or not re.match(r"\s*(requires|ensures)", lines[j]):
                break
            head.append(lines[j])
            j += 1
        indent = re.match(r"\s*", lines[i]).group()
        body = []
        k = j + 1
        while k < len(lines) and lines[k] != indent + "}":
            body.append(lines[k])
            k += 1
        yield i + 1, m.group(1), " ".join(h.strip() for h in head) or lines[i], body
        i = max(k, i + 1)


def enums(lines):
    text = "\n".join(lines)
    for m in re.finditer(r"enum (\w+)[^{]*\{(.*?)\n\s*\}", text, re.S):
        body = re.sub(r"\{[^{}]*\}", "{}", re.sub(r"//.*", "", m.group(2)), flags=re.S)
        variants = [v.strip() for v in re.split(r",\s*(?![^()]*\))", body) if v.strip()]
        yield text[: m.start()].count("\n") + 1, m.group(1), variants


def main():
    found = collections.OrderedDict((p, []) for p in POINTS)
    shapes, facts, groups = collections.defaultdict(list), collections.defaultdict(list), collections.defaultdict(list)
    for path, lines in sources():
        code = without_tests(lines)
        for n, name, variants in enums(code):
            bare = [v for v in variants if re.fullmatch(r"\w+( = \d+)?", v)]
            if len(bare) == 1 and len(variants) in (2, 3, 4) and len(variants) > 1 and path.parts[0] != "cases":
                found[POINTS[0]].append(f"{path}:{n}: enum {name} {{ {', '.join(variants)} }}")
        for n, line in enumerate(lines, 1):
            if re.match(r"\s*(while|loop)\b", line) or re.match(r"\s*for \w+ in .*\.\.", line):
                found[POINTS[2]].append(f"{path}:{n}: {line.strip()}")
        for n, line in enumerate(code, 1):
            if re.search(r"Err\((\w+|_)\) => (return )?(Err|Some|None|\{)", line) or re.search(r"Err\(\w+::\w+::\w+(\(\w+\))?\) =>", line):
                found[POINTS[3]].append(f"{path}:{n}: {line.strip()}")
            if re.search(r"(len|count): usize,", line):
                found[POINTS[5]].append(f"{path}:{n}: {line.strip()}")
            if re.search(r"match (op|class|layout|how|level|kind|bracket)\b", line):
                found[POINTS[6]].append(f"{path}:{n}: {line.strip()}")
        for n, name, head, body in functions(code):
            if re.search(r"&mut .*-> bool", head):
                found[POINTS[0]].append(f"{path}:{n}: fn {name} .. -> bool, and changes something")
            if re.search(r"\b(kind|number): (i32|u8)|-> u8\b|fn kind\(.*-> i32", head):
                found[POINTS[0]].append(f"{path}:{n}: fn {name}: a number for a kind")
            if re.search(r"\b(out|s): &mut \[[^\]]*\], \w+: usize", head):
                found[POINTS[5]].append(f"{path}:{n}: fn {name}: a buffer and a length")
            inside = [b.strip() for b in body if b.strip()]
            if inside and inside[0].startswith("match ") and len(inside) >= 4 and all(
                    re.match(r"(match .*|.* => (b?\"[^\"]*\"|true|false|\d+),?|\}|b?\"[^\"]*\")$", b) for b in inside):
                found[POINTS[3]].append(f"{path}:{n}: fn {name}: a table of literals")
            if inside and re.match(r"if \w+ \{ (1|true|b\"\w+\") \} else", inside[0]):
                found[POINTS[3]].append(f"{path}:{n}: fn {name}: {inside[0]}")
            if re.match(r"(told|equal_\w+|number|digits)$", name):
                found[POINTS[3]].append(f"{path}:{n}: fn {name}")
            shape = re.sub(r"\b[a-z_]\w*\b(?!\()", "x", re.sub(r"\b[A-Z]\w*(::\w+)*|\b\d+\b|b?\"[^\"]*\"|b'.'", "P", " ".join(inside)))
            if len(inside) >= 3:
                shapes[shape].append(f"{path}:{n}: fn {name}")
            for clause in re.findall(r"requires (?:\w+ )?\{(.*?)\}(?= requires| ensures|$)", head):
                facts[re.sub(r"\b(at|left\.next|first\.next|\d+)\b", "_", clause.strip())].append(f"{path}:{n}")
            names = tuple(p.split(":")[0].replace("mut ", "").strip() for p in re.findall(r"\w+: [^,()]+", head.split("->")[0]))
            for a in range(len(names)):
                for b in range(a + 1, len(names)):
                    groups[(path.parts[0], names[a], names[b])].append(f"{path}:{n}")
    for shape, where in shapes.items():
        if len(where) > 1:
            found[POINTS[1]].append(" ~ ".join(where))
    for fact, where in facts.items():
        if len(where) > 2:
            found[POINTS[4]].append(f"{len(where)} contracts: {fact}")
    for (crate, a, b), where in groups.items():
        if len(set(where)) > 2:
            found[POINTS[4]].append(f"{len(set(where))} functions of {crate}: {a}, {b}")
    answers = collections.Counter()
    for path in sorted(ROOT.glob("crates/*/proofs/**/Answers.antt")):
        answers[path.relative_to(ROOT / "crates").parts[0]] += len(re.findall(r"^pub .* : goal", path.read_text(), re.M))
    found[POINTS[7]] = [f"{crate}: {n} answers" for crate, n in answers.items()]
    for point, places in found.items():
        total = sum(answers.values()) if point == POINTS[7] else len(places)
        print(f"{point}: {total}")
        if "--count" not in sys.argv:
            for place in places:
                print("    " + place)


main()
