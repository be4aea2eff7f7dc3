#!/usr/bin/env python3
"""Lists the places of src/ that read like a language without generics, closures, iterators and types with invariants.

usage: python3 tools/places.py [COMMIT]      at the top of the repository; without COMMIT, of the files as they lie there

It goes by the text of the .rt files, so it lists candidates: whether a place stays is said in docs/DESIGN-PASS.md.
The last lines give, for each point, how many places were found.
"""

import collections
import difflib
import itertools
import re
import subprocess
import sys

KEYWORDS = set("""as break const continue else enum false fn for if impl in let loop match mod move mut pub ref return
self Self static struct super trait true type unsafe use where while""".split())
TOKEN = re.compile(r"b?'(?:\\.|[^'\\])'|b?\"(?:\\.|[^\"\\])*\"|'\w+|[A-Za-z_]\w*|\d[\w.]*|[^\s\w]")
KINDS = "PartialEq|Eq|PartialOrd|Ord|Clone|Copy|Hash|Debug|Default"


def read_files(commit):
    if commit:
        names = subprocess.check_output(["git", "ls-tree", "-r", "--name-only", commit], text=True).split("\n")
    else:
        names = subprocess.check_output(["git", "ls-files", "-co", "--exclude-standard"], text=True).split("\n")
    for name in sorted(n for n in names if re.fullmatch(r"crates/\w+/src/.*\.rt", n)):
        if commit:
            yield name, subprocess.check_output(["git", "show", f"{commit}:{name}"], text=True)
        else:
            with open(name) as file:
                yield name, file.read()


def blank_comments(text):
    return re.sub(r"//[^\n]*", lambda m: " " * len(m.group()), text)


def end_of_block(text, start):
    depth = 0
    for i in range(start, len(text)):
        depth += {"{": 1, "}": -1}.get(text[i], 0)
        if depth == 0:
            return i + 1
    return len(text)


def end_of_generics(text, start):
    depth = 0
    for i in range(start, len(text)):
        if text[i] == "<":
            depth += 1
        elif text[i] == ">" and text[i - 1] != "-":
            depth -= 1
        if depth == 0:
            return i + 1
    return len(text)


Function = collections.namedtuple("Function", "file line name parameters answer clauses body")
Struct = collections.namedtuple("Struct", "file line name fields")


def functions_of(file, text):
    for m in re.finditer(r"\bfn (\w+)\s*", text):
        start = m.end()
        if text[start] == "<":
            start = end_of_generics(text, start)
        if text[start] != "(":
            continue
        depth, i = 1, start + 1
        while depth:
            depth += {"(": 1, ")": -1}.get(text[i], 0)
            i += 1
        parameters = " ".join(text[start + 1:i - 1].split())
        clauses, j = [], i
        while True:
            clause = re.compile(r"[^{;]*?\b(requires|ensures)( \w+)? \{").match(text, j)
            if not clause or re.search(r"\bfn\b", clause.group()):
                break
            end = end_of_block(text, clause.end() - 1)
            clauses.append((clause.group(1), " ".join(text[clause.end():end - 1].split())))
            j = end
        answer = re.match(r"\s*->\s*([^{]*?)\s*(?=requires|ensures|where|\{|;|$)", text[i:])
        start = re.compile(r"[^{;]*").match(text, j).end()
        body = text[start:end_of_block(text, start)] if text[start:start + 1] == "{" else ""
        yield Function(file, text[:m.start()].count("\n") + 1, m.group(1), parameters,
                       answer.group(1) if answer else "", clauses, body)


def structs_of(file, text):
    for m in re.finditer(r"\bstruct (\w+)[^;{(]*\{", text):
        body = text[m.end():end_of_block(text, m.end() - 1) - 1]
        fields = re.findall(r"^\s*(?:pub(?:\(\w+\))? )?(\w+): ([^\n]*?),?$", re.sub(r"ghost[^\n]*", "", body), re.M)
        yield Struct(file, text[:m.start()].count("\n") + 1, m.group(1), fields)


def shape(text):
    """The tokens, where a name or a number counts as any other."""
    kept = []
    for token in TOKEN.findall(text):
        if token in KEYWORDS:
            kept.append(token)
        elif re.match(r"[A-Za-z_]", token):
            kept.append("x")
        elif re.match(r"b?[\"'\d]", token):
            kept.append("0")
        else:
            kept.append(token)
    return kept


def alike(one, other):
    return difflib.SequenceMatcher(None, one, other, autojunk=False).ratio()


def loops_of(body):
    for m in re.finditer(r"\b(for .*? in .*?|while .*?) \{\n", body):
        inner = body[m.end():end_of_block(body, m.end() - 2) - 1]
        yield m.group(1), inner.strip()


def point_1(functions, structs, texts):
    for file, text in texts.items():
        for m in re.finditer(r"\benum (\w+)[^{]*\{([^}]*)\}", text):
            if len([v for v in m.group(2).split(",") if v.strip()]) == 2:
                yield f"{file}: enum {m.group(1)} of two variants"
    for f in functions:
        if len(re.findall(r"=> -?\d+,", f.body)) >= 3:
            yield f"{f.file}:{f.line} {f.name}: a match that answers numbers"
        if f.answer == "usize" and re.search(r"return \w+;", f.body) and re.search(r"\.len\(\)\s*\}\s*$", f.body):
            yield f"{f.file}:{f.line} {f.name}: the length stands for 'none'"
        if f.answer == "bool" and "&mut self" in f.parameters:
            yield f"{f.file}:{f.line} {f.name}: a flag says whether it was done"
        if re.search(r"\{ 1 \} else \{ 0 \}", f.body):
            yield f"{f.file}:{f.line} {f.name}: a number for a truth value"


def point_2(functions, structs, texts):
    bodied = [f for f in functions if f.body and len(shape(f.body)) >= 8]
    for f, g in itertools.combinations(bodied, 2):
        if f.name == g.name and f.name in ("fmt", "main", "help"):
            continue
        one = shape(f.parameters) + ["->"] + shape(f.answer) + shape(f.body)
        other = shape(g.parameters) + ["->"] + shape(g.answer) + shape(g.body)
        if alike(one, other) >= 0.85:
            yield f"{f.file}:{f.line} {f.name} and {g.file}:{g.line} {g.name}"
    for s, t in itertools.combinations(structs, 2):
        same = [a for a in s.fields if a in t.fields]
        if len(s.fields) == len(t.fields) >= 2 and len(same) >= len(s.fields) - 1:
            yield f"{s.file}:{s.line} struct {s.name} and {t.file}:{t.line} struct {t.name}"


def point_3(functions, structs, texts):
    for f in functions:
        for head, inner in loops_of(f.body):
            counted = re.match(r"for \(?(\w+)(?:, [^)]*\))? in (.*)", head)
            place = f"{f.file}:{f.line} {f.name}: {head}"
            if counted and ("enumerate" in head or ".." in counted.group(2)) and re.search(rf"\[{counted.group(1)}\]", inner):
                yield place + " (an index into a list)"
            elif re.match(r"while let Some\(\w+\) = next\b", head) and re.search(r"\bnext = [\w.]+\[", inner):
                yield place + " (a list of indices)"
            elif re.search(r"^(if [^{]*\{\s*)?\*?\w+ \+= [^;]*;\s*\}?$", inner) or re.fullmatch(r"(\w+) = \1\.[^;]*;", inner):
                yield place + " (a sum)"
            elif head.startswith("for") and re.fullmatch(r"if [^{]*\{\s*return [^;]*;\s*\}", inner) and "Err" not in inner:
                yield place + " (a search)"


def point_4(functions, structs, texts):
    for file, text in texts.items():
        for m in re.finditer(rf"\bimpl[^{{;]*?\b({KINDS}) for (\w+)", text):
            yield f"{file}: {m.group(1)} for {m.group(2)}"
    for f in functions:
        if f.answer == "&'static str" and "match" in f.body:
            yield f"{f.file}:{f.line} {f.name}: text by a match"
        if len(re.findall(r"=> -?\d+,", f.body)) >= 3:
            yield f"{f.file}:{f.line} {f.name}: a number by a match"
        if re.search(r"\{ 1 \} else \{ 0 \}", f.body):
            yield f"{f.file}:{f.line} {f.name}: a number by an if"


def point_5(functions, structs, texts):
    by_fact, by_crate = collections.defaultdict(list), collections.defaultdict(list)
    for f in functions:
        crate = f.file.split("/")[1]
        for fact in {re.sub(r"\.(now|old|new|entry)\b", "", c) for k, c in f.clauses if not re.search(r"\bresult\b", c)}:
            by_fact[crate, fact].append(f.name)
        by_crate[crate].append((f.name, frozenset(re.findall(r"(\w+: [^,]+(?:<[^>]*>)?)", f.parameters))))
    for (crate, fact), names in sorted(by_fact.items()):
        if len(names) >= 3:
            yield f"{crate}: {{ {fact} }} in {len(names)} contracts: {', '.join(names)}"
    for crate, known in sorted(by_crate.items()):
        shared = {a & b & c for (_, a), (_, b), (_, c) in itertools.combinations(known, 3) if len(a & b & c) >= 2}
        together = {group: [name for name, all in known if group <= all] for group in shared}
        for group, names in sorted(together.items(), key=lambda item: sorted(item[0])):
            if not any(group < other and together[other] == names for other in together):
                yield f"{crate}: parameters {', '.join(sorted(group))} in {', '.join(names)}"


def point_6(functions, structs, texts):
    for s in structs:
        lists = [n for n, t in s.fields if re.match(r"(&'?\w* ?(mut )?\[|Vec<|\[)", t)]
        counts = [n for n, t in s.fields if t == "usize"]
        if lists and counts:
            yield f"{s.file}:{s.line} {s.name}: {', '.join(lists)} with {', '.join(counts)} beside"
        if len(lists) >= 2:
            yield f"{s.file}:{s.line} {s.name}: lists side by side: {', '.join(lists)}"
        for n, t in s.fields:
            if "Option<usize>" in t:
                yield f"{s.file}:{s.line} {s.name}: {n} is an index or none"
    for f in functions:
        for head, inner in loops_of(f.body):
            index = re.match(r"for \((\w+), [^)]*\) in .*enumerate", head)
            if index and re.search(rf"\w\[{index.group(1)}\]", inner):
                yield f"{f.file}:{f.line} {f.name}: lists side by side, by one index"


def point_7(functions, structs, texts):
    for file, text in texts.items():
        for m in re.finditer(r"\bdyn\b|: fn\(|\[fn\(", text):
            yield f"{file}:{text[:m.start()].count(chr(10)) + 1} {m.group()}"
    for f in functions:
        for m in re.finditer(r"\bmatch [^{]*\{", f.body):
            arms = f.body[m.end():end_of_block(f.body, m.end() - 1) - 1]
            calls = re.findall(r"=> (?:\w+::)*(\w+)\([^)]*\),", arms)
            if len(calls) >= 3 and len(calls) == arms.count("=>") and not set(calls) & {"Some", "Ok", "Err", "write"}:
                yield f"{f.file}:{f.line} {f.name}: a match whose arms are calls: {', '.join(calls)}"


def main():
    commit = sys.argv[1] if len(sys.argv) > 1 else None
    texts = {name: blank_comments(text) for name, text in read_files(commit)}
    functions = [f for file, text in texts.items() for f in functions_of(file, text)]
    structs = [s for file, text in texts.items() for s in structs_of(file, text)]
    print(f"{len(texts)} files, {len(functions)} functions, {len(structs)} structs")
    totals = []
    for number, point in enumerate((point_1, point_2, point_3, point_4, point_5, point_6, point_7), 1):
        places = list(point(functions, structs, texts))
        print(f"\npoint {number}")
        for place in places:
            print("  " + place)
        totals.append(f"{number}: {len(places)}")
    print("\nplaces: " + ", ".join(totals))


main()
