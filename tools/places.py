#!/usr/bin/env python3
"""Counts the places of docs/DESIGN-PASS.md in src/: `places.py [-v] [COMMIT]`, of the work tree or of a commit. -v names each place."""
import collections
import re
import subprocess
import sys

args = [a for a in sys.argv[1:] if a != "-v"]
named = "-v" in sys.argv


def run(*command):
    return subprocess.run(command, check=True, capture_output=True, text=True).stdout


def sources(commit):
    """Each file of src/ and of proofs/ with its text."""
    listed = run("git", "ls-tree", "-r", "--name-only", commit).split() if commit else run("git", "ls-files").split()
    for name in listed:
        if re.fullmatch(r"crates/\w+/(src/\w+\.rt|proofs/.*\.antt)", name):
            yield name, run("git", "show", f"{commit}:{name}") if commit else open(name, encoding="utf-8").read()


def blocks(text, opening):
    """The name and the body of each item that begins so."""
    for found in re.finditer(rf"^(?:pub )?{opening} (\w+)[^;{{]*\{{\n(.*?)^\}}", text, re.S | re.M):
        yield found.group(1), found.group(2)


def functions(text):
    """Name, parameters, result and clauses of each function, and whether it is an export."""
    for found in re.finditer(r"^ *(?:pub )?(extern \"C\" )?fn (\w+)(?:<[^(]*>)?\(([^)]*)\)(?: -> ([^\n{]+))?", text, re.M):
        clauses = []
        for row in text[found.end():].split("\n")[1:]:
            if re.match(r" *(requires|ensures)\b", row):
                clauses.append(row.strip())
            elif row.strip() in ("", "{", "}") or not row.startswith("        "):
                break
        yield found.group(2), found.group(3), (found.group(4) or "").strip(), clauses, bool(found.group(1))


places = collections.defaultdict(list)
names = collections.defaultdict(set)
clauses = collections.defaultdict(set)
groups = [("mines", "shown", "bits"), ("rows", "columns"), ("row", "column"), ("out", "at")]
answers = 0

for path, text in sources(args[0] if args else None):
    crate = path.split("/")[1]
    if path.endswith(".antt"):
        answers += len(re.findall(r"^pub [\w-]+ : goal\.", text, re.M))
        continue
    for name, body in blocks(text, "enum"):
        variants = re.findall(r"^    (\w+)([^\n]*)", body, re.M)
        if len(variants) == 2 and {"{" in v[1] or "(" in v[1] for v in variants} == {True, False}:
            places["1 enums of the shape of Option"].append(f"{path} {name}")
    for name, body in blocks(text, "struct"):
        fields = re.findall(r"^    (?:pub )?(\w+): ([^\n]+),", body, re.M)
        if len(fields) > 1 and any(f in ("number", "fault") and t == "u16" or f in ("any", "ever", "hit", "whole", "walked", "more") for f, t in fields):
            places["1 structs with a flag or a refusal beside a value"].append(f"{path} {name}")
        if any(t == "usize" and f == "n" for f, t in fields) and any(t.startswith("[") for f, t in fields):
            places["6 arrays with a length beside them"].append(f"{path} {name}")
    for name, taken, given, contract, exported in functions(text):
        names[name].add(crate)
        if given == "u16" and not exported:
            places["1 functions that answer a number for a refusal"].append(f"{path} {name}")
        if re.search(r"\b(m|which|held): u8|\be: usize", taken) and name not in ("glide_row", "stop_after", "play_record", "is_move"):
            places["1 parameters that are numbers of kinds"].append(f"{path} {name}")
        for group in groups:
            if all(re.search(rf"\b{g}: ", taken) for g in group):
                places[f"5 functions that take {', '.join(group)}"].append(f"{path} {name}")
        for clause in contract:
            said = re.match(r"requires (?:\w+ )?\{ (.*) \}", clause)
            if said:
                clauses[said.group(1)].add(f"{path} {name}")
    for loop in re.finditer(r"^( *)while (.*?) \{\n(.*?)^\1\}", text, re.S | re.M):
        if any(re.search(rf"^ *{n} [+-]= \d+;", loop.group(3), re.M) for n in re.findall(r"[a-z_]+", loop.group(2))):
            places["3 loops that count an index"].append(f"{path} while {loop.group(2)}")
    for found in re.finditer(r"match [\w.]+ \{\n((?: +[^\n]*\n)*? *\})", text):
        arms = re.findall(r"=> (.*?),?$", found.group(1), re.M)
        if arms and all(a in ("true", "false") for a in arms):
            places["4 matches that only say yes or no"].append(f"{path} {arms.count('true')} of {len(arms)}")
    for line, row in enumerate(text.split("\n"), 1):
        if re.search(r"\bas (u8|u16|u32|u64|usize|i8|i16)\b", row):
            places["4 conversions by `as`"].append(f"{path}:{line}{row.rstrip()}")
        if re.search(r"\b(u8|u16|u32|usize)::from\(|::from\(", row):
            places["(conversions by `from`)"].append(f"{path}:{line}")
        if re.search(r"= cells::clear|cells::fill|fn (clear|fill|fill_zero)\b", row):
            places["2 fills and clears by hand"].append(f"{path}:{line}{row.rstrip()}")
        if re.search(r"if (mode|which|kind|code) == \d", row):
            places["7 switches on a number"].append(f"{path}:{line}{row.rstrip()}")

for name, where in names.items():
    if len(where) > 1 and name != "main":
        places["2 function names in two crates or more"].append(f"{name}: {' '.join(sorted(where))}")
for clause, where in clauses.items():
    if len(where) > 2:
        places["5 clauses in three functions or more"].append(f"{len(where)} times: {clause}")
for kind in sorted(places):
    print(f"{len(places[kind]):5}  {kind}")
    if named:
        for place in places[kind]:
            print(f"           {place}")
print(f"{answers:5}  8 answers in proofs/")
