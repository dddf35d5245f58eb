#!/usr/bin/env python3
"""Counts, in the src/ folders of a checkout, the places that docs/DESIGN-PASS.md speaks of.

    tools/design_places.py [--list] [FOLDER]

A line for each point and way of counting; with --list, the places too. What a reader has to judge (is this enum shaped like an
Option?) it lists and does not decide."""
import pathlib, re, sys

listing = "--list" in sys.argv
args = [a for a in sys.argv[1:] if not a.startswith("--")]
root = pathlib.Path(args[0] if args else ".")
files = sorted((root / "crates").glob("*/src/**/*.rt"))
text = {f: f.read_text() for f in files}


def where(f, at):
    return f"{f.relative_to(root / 'crates')}:{text[f].count(chr(10), 0, at) + 1}"


def functions():
    """Every function: file, place, name, parameters, body."""
    for f in files:
        for m in re.finditer(r"^( *)(?:pub )?(?:extern \"C\" )?fn (\w+)(?:<[^>]*>)?\(([^)]*)\)", text[f], re.M):
            indent = m.group(1)
            end = re.compile(rf"^{indent}\}}", re.M).search(text[f], m.end())
            body = text[f][m.end(): end.end() if end else len(text[f])]
            opening = re.search(rf"^{indent}\{{|\{{$", body, re.M)
            yield f, m.start(), m.group(2), m.group(3), body[opening.start():] if opening else body


def report(point, what, places):
    places = list(places)
    print(f"{point:<4}{len(places):>5}  {what}")
    if listing:
        for p in places:
            print("           ", p)


def lines(pattern):
    rule = re.compile(pattern, re.M)
    return [f"{where(f, m.start())}  {m.group(0).strip()}" for f in files for m in rule.finditer(text[f])]


all_functions = list(functions())

report("1", "enums", lines(r"^ *(?:pub )?enum \w+"))
report("1", "arms of a match that are numbers", lines(r"^ +[0-9]+(?:\.\.=[0-9]+)?(?: \| [0-9]+)* =>"))
report("1", "tests of a kind against a number", lines(r"^.*(?:\bkind\b[^;{=]* (?:==|!=|<=?) [0-9]|[0-9] <=? [\w.]*kind\b).*$"))
report("1", "fields that are flags", lines(r"^    pub \w+: bool,"))

shapes = {}
for f, at, name, params, body in all_functions:
    shape = re.sub(r"\b[0-9][0-9_a-fx]*\b|\bu(?:8|16|32|64|size)\b", "#", body)
    shape = re.sub(r"\s+", " ", shape.replace(name, "SELF"))
    if shape.count(";") + shape.count("=>") >= 2:
        shapes.setdefault(shape, []).append(f"{where(f, at)} {name}")
report("2", "functions whose bodies are alike but for numbers and widths", [p for ps in shapes.values() if len(ps) > 1 for p in ps])

report("3", "loops that step a variable by hand", [
    f"{where(f, at)} {name}" for f, at, name, params, body in all_functions
    if re.search(r"\b(?:while|loop)\b", body) and re.search(r"^ +(\w+) [+-]= 1;$", body, re.M)])
report("3", "while and loop", lines(r"^ *(?:while\b.*|loop) \{"))
report("3", "for", lines(r"^ *for .* \{"))

report("4", "functions that give the number or the code of a case by a table of their own", [
    f"{where(f, at)} {name}" for f, at, name, params, body in all_functions
    if name in ("number", "code_of", "number_of") and re.search(r"=> [0-9]", body)])
report("4", "copies of a field under its own name", lines(r"^ +let (\w+) = [\w.]+\.\1;"))
report("4", "calls of std's arithmetic as functions", lines(r"\b(?:num|u64|u32)::(?:wrapping_\w+|count_ones|leading_zeros)\("))
report("4", "if .. true else .. false, and returns of true or false before the end", lines(r"\{ true \} else|else \{ false \}|^        return (?:true|false);"))

groups = {
    "depth, level": {"depth", "level"},
    "words or work, at, k, slots": {"at", "k", "slots"},
    "entries, q": {"entries", "q"},
    "yes, no": {"yes", "no"},
    "words, from": {"words", "from"},
    "table, packed, places, rows": {"table", "packed", "rows"},
    "words, depths, place": {"words", "depths", "place"},
    "needs, limits": {"needs", "limits"},
}
for title, names in groups.items():
    report("5", f"functions that take {title}", [
        f"{where(f, at)} {name}" for f, at, name, params, body in all_functions
        if names <= set(re.findall(r"(\w+):", params))])

report("6", "arrays as buffers", lines(r"\[[^\[\];]+; (?:[0-9]+|[A-Z_]+)\](?= = | \{|,$|$|;|\))"))
report("7", "closures handed on", lines(r"^.*[(,]\s?(?:move )?\|[\w&:, ]+\| .*$"))
report("7", "parameters that are closures, and dyn", lines(r"\bimpl Fn|\bdyn\b|: Fn\("))
proofs = [p for p in (root / "crates").glob("*/proofs/**/*.antt")]
report("8", "files of proofs", [str(p.relative_to(root / "crates")) for p in proofs])
print(f"8   {sum(p.read_text().count(chr(10)) for p in proofs):>5}  lines of proofs")
print(f"    {sum(t.count(chr(10)) for t in text.values()):>5}  lines of src")
