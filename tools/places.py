#!/usr/bin/env python3
"""Counts places in crates/*/src where the code may be written in an older form than it could be.

usage: tools/places.py [POINT]     a line for each place, and how many there are; with no POINT the counts alone

The points are those of docs/DESIGN-PASS.md. What is found is a candidate: that page says of each what became of it.
"""
import collections
import difflib
import glob
import re
import sys


class Function:
    """A function of a source file: its name, parameters, contract and body, and whether a trait asks for it."""

    def __init__(self, path, line, name, params, result, clauses, body, of_trait):
        self.path, self.line, self.name = path, line, name
        self.params, self.result, self.clauses, self.body = params, result, clauses, body
        self.of_trait = of_trait

    def place(self):
        return f"{self.path}:{self.line} {self.name}"


def sources():
    for path in sorted(glob.glob("crates/*/src/**/*.rt", recursive=True)):
        with open(path, encoding="utf-8") as f:
            yield path, f.read()


def close(text, at, opens, shuts):
    """The index behind the bracket that closes the one at `at`."""
    depth = 0
    for i in range(at, len(text)):
        if text[i] == opens:
            depth += 1
        elif text[i] == shuts:
            depth -= 1
            if depth == 0:
                return i + 1
    return len(text)


def functions():
    for path, text in sources():
        for found in re.finditer(r"^ *(?:pub(?:\(crate\))? )?fn (\w+)(?:<[^(]*>)?\(", text, re.M):
            start = found.end() - 1
            after = close(text, start, "(", ")")
            params = text[start + 1 : after - 1]
            i, clauses, head = after, [], after
            while True:
                part = re.compile(r"\s*(requires|ensures)\*?(?: \w+)? \{").match(text, i)
                if not part:
                    part = re.compile(r"[^{;]*?\n\s*(requires|ensures)\*?(?: \w+)? \{").match(text, i)
                if not part:
                    break
                if not clauses:
                    head = part.start(1)
                end = close(text, part.end() - 1, "{", "}")
                clauses.append((part.group(1), text[part.end() : end - 1].strip()))
                i = end
            if not clauses:
                head = min(x for x in (text.find("{", after), text.find(";", after)) if x >= 0)
            result = text[after:head]
            rest = re.compile(r"\s*\{").match(text, i) if clauses else re.compile(r"[^{;]*\{").match(text, i)
            body = text[rest.end() : close(text, rest.end() - 1, "{", "}") - 1] if rest else ""
            line = text.count("\n", 0, found.start()) + 1
            blocks = [b.group(0) for b in re.finditer(r"^(impl|trait|pub trait)\b[^{]*", text[: found.start()], re.M)]
            of_trait = found.group(0).startswith(" ") and bool(blocks) and (" for " in blocks[-1] or "trait" in blocks[-1])
            yield Function(path, line, found.group(1), params, result, clauses, body, of_trait)


def lines(pattern):
    shape = re.compile(pattern)
    for path, text in sources():
        for n, line in enumerate(text.split("\n"), 1):
            if shape.search(line) and not line.strip().startswith("//"):
                yield f"{path}:{n} {line.strip()}"


def point1():
    """Enums, and functions that give a number where there is a kind or a refusal."""
    yield from lines(r"^\s*(pub )?enum ")
    for f in functions():
        if re.search(r"-> \(?u8\b", f.result):
            yield f"{f.place()} {f.result.strip()}"
        elif re.search(r"Ok\(\(\)\) => 0", f.body):
            yield f"{f.place()} tells a result as a number"


def shape(body):
    """A body with its own names, types and constants left out."""
    text = re.sub(r"//[^\n]*", "", body)
    text = re.sub(r'b?"(\\.|[^"\\])*"', "S", text)
    text = re.sub(r"\b\d\w*\b", "N", text)
    text = re.sub(r"\b[A-Z]\w*\b", "T", text)
    text = re.sub(r"_(one|two|three|four|first|second)\b", "_k", text)
    text = re.sub(r"\b(one|two|three|four|first|second|a|b|c|d)\b", "k", text)
    return " ".join(text.split())


def alike(one, other):
    """Whether two bodies are the same but for types, names by number and constants, or nearly so."""
    return difflib.SequenceMatcher(None, one.split(), other.split()).ratio() >= 0.8


def point2():
    """Functions, in no impl of a trait, that have the same name or names by number, and bodies that are nearly the same;
    and functions of any name whose bodies are the same but for types and constants."""
    by_shape, by_name = collections.defaultdict(list), collections.defaultdict(list)
    for f in functions():
        text = shape(f.body)
        if f.of_trait or not text or f.name == "main":
            continue
        if len(text) > 40:
            by_shape[text].append(f)
        by_name[re.sub(r"_(one|two|three|four)$", "", f.name)].append(f)
    seen = set()
    for group in by_shape.values():
        if len(group) > 1:
            seen.update(f.place() for f in group)
    for group in by_name.values():
        for i, one in enumerate(group):
            for other in group[i + 1 :]:
                same = re.search(r"_(one|two|three|four)$", one.name) and one.name != other.name
                if same or alike(shape(one.body), shape(other.body)):
                    seen.update((one.place(), other.place()))
    yield from sorted(seen)


def point3():
    """Loops over numbers, and loops with a condition."""
    yield from lines(r"^\s*(while|loop)\b|\bfor \w+ in .*\.\.|enumerate\(\)|step_by\(")


def point4():
    """Answers packed anew by match, conversions by arithmetic or `as`, and printing by way of a number."""
    for f in functions():
        if re.search(r"(Ok\((\(\)|\w+)\) => Ok\(|Err\(.*\) => (return )?Err\(|None => None\b|Err\(_\w*\) => Err\()", f.body):
            yield f"{f.place()} packs an answer anew"
        if re.search(r"is_none\(\) \{\s*return None|\bif let Err\(", f.body):
            yield f"{f.place()} hands a refusal on by hand"
        if re.search(r"let \w+ = \w+\.number\(\);", f.body):
            yield f"{f.place()} prints by way of a number"
        if re.search(r"=> true,\s*\S+ => false|=> false,\s*\S+ => true|\}? else \{\s*None\s*\}", f.body):
            yield f"{f.place()} spells out a test"
    yield from lines(r"\bas (u8|u16|u32|u64|usize)\b|256 \* u16|b'0' [<+-]|- (48|87)\b")
    yield from lines(r"^impl.* (From|PartialEq|Ord|Clone|Display)\b.* for ")


def names(params):
    flat = re.sub(r"<[^<>]*>", "", params)
    return [p.split(":")[0].strip().replace("mut ", "") for p in flat.split(",") if ":" in p]


def point5():
    """Premises that three or more functions of a crate share, and parameters that four or more take together."""
    facts, pairs = collections.defaultdict(list), collections.defaultdict(list)
    for f in functions():
        crate = f.path.split("/")[1]
        for kind, clause in f.clauses:
            if kind == "requires":
                for fact in re.split(r" × (?=\()", clause):
                    facts[crate, fact.strip("() ")].append(f)
        taken = [n for n in names(f.params) if n not in ("rt", "heap")]
        for i, one in enumerate(taken):
            for other in taken[i + 1 :]:
                pairs[crate, one, other].append(f)
    for (crate, fact), group in sorted(facts.items()):
        if len(group) >= 3:
            yield f"{crate}: {len(group)} functions require {fact}"
    for (crate, one, other), group in sorted(pairs.items()):
        if len(group) >= 4:
            yield f"{crate}: {len(group)} functions take {one} and {other}"


def point6():
    """Arrays in structs, places beside buffers, and lists that are searched."""
    yield from lines(r"^\s*(pub )?\w+: \[\w+; \w+\],")
    yield from lines(r"buffer: &mut \[u8\], at: usize|total: usize")
    yield from lines(r"\.contains\(&|binary_search")


def point7():
    """Tables of functions, and enums of steps to take."""
    yield from lines(r"\bdyn\b|: fn\(|enum (Call|Step|Action)")


def point8():
    """Proof files, by kind, and their lines."""
    for name in ("Answers", "Invariants", "Proof"):
        for path in sorted(glob.glob(f"crates/*/proofs/**/{name}.antt", recursive=True)):
            yield path
    for path in sorted(glob.glob("crates/*/proofs/*.antt")):
        if not path.endswith("Lib.antt"):
            yield path


def main():
    points = [point1, point2, point3, point4, point5, point6, point7, point8]
    if len(sys.argv) > 1:
        found = list(points[int(sys.argv[1]) - 1]())
        for place in found:
            print(place)
        print(f"point {sys.argv[1]}: {len(found)}")
        return
    for n, point in enumerate(points, 1):
        print(f"point {n}: {len(list(point()))}")


main()
