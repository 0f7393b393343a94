#!/usr/bin/env python3
"""Counts places in crates/*/src by form, and lists them: tools/places.py [POINT].

A form is found by its text, so a place is a line (points 1, 3, 4, 6, 7), a pair of functions (2) or a clause or list of parameters (5).
Used for docs/DESIGN-PASS.md, at the commit where that work began and at its end.
"""
import collections, glob, re, sys

FORMS = {
    "1": [
        ("enum of the shape of Option or Result", r"^\s*(pub )?enum (Whose|GroupSort)\b"),
        ("an error that is a number", r"Result<[^;{]*, u(8|16|32|64)>"),
        ("a number for a kind, direction, method or code", r"\b(kind|direction|method|code): u(32|64)\b"),
        ("Option or Result taken apart only to be made again, or to fall back", r"^\s*(None|Err\(\w+\)) => (Err|None|return None|return Err|unreachable\(\)|0,|\w+ = |self\.contract_filed)|^\s*Ok\(\(\)\) => (\{\}|\{)?$|let Some\(\w+\) = .* else \{$"),
        ("an if that makes an Option", r"^\s*(Some\(.*\)|None)$"),
    ],
    "3": [
        ("a range that counts an index", r"\bfor \w+ in (0|1|from)\.\.\w"),
        ("a counter beside a loop", r"let mut (n|count|i|k|at)(: \w+)? = (0|1|from);"),
        ("a while", r"^\s*while "),
    ],
    "4": [
        ("equality by hand", r"fn (is_same_\w+|are_turned|is_turned|is_generating|is_contract)\b|^\s*match \(one, other\)"),
        ("conversion by hand", r"fn (from_code|from_codes|filed|code|number|name)\((code|kind|&?self)|\bas (u64|i64|u32|usize)\b"),
        ("values named only to be printed", r"^\s*let (number|claim|floor|extra|part|sold|bought|own|contract|planned|agreed|filed|group|plant|plan|together|kwh|start|end|factor|multiplier|supplied|curtailed|imbalance|retail|rule|room|baseline|deemed|used|demand|name|first_name|second_name) = [\w.()\[\]:&*-]+;$"),
    ],
    "6": [
        ("a buffer with a length beside it", r"let mut \w*space = \[|= &mut \w*space\[0\.\."),
        ("figures in a slice beside the rows", r"^\s*(pub(\(crate\))? )?(figures|plans|parts|allotted|settled|group_parts|group_plans|share_plans|head_figures|member_figures|part_space|into): &(mut )?\[|\w+: &\[\w+\], \w+: &(mut )?\[\w+\]"),
    ],
    "7": [
        ("a match that picks a step", r"match \((first, second)\)|match (division\.rule|curtailment\.method|head\.kind|kind) \{"),
        ("a loop for each step of a list", r"^\s*for case in \d+\.\.\d+"),
    ],
}


def sources():
    for path in sorted(glob.glob("crates/*/src/**/*.rt", recursive=True)):
        yield path, open(path, encoding="utf-8").read()


def lines_of(forms):
    for what, pattern in forms:
        found = []
        for path, text in sources():
            for n, line in enumerate(text.split("\n"), 1):
                if line.lstrip().startswith("//"):
                    continue
                if re.search(pattern, line):
                    found.append(f"{path}:{n}: {line.strip()}")
        yield what, found


def functions():
    head = re.compile(r"^( *)(?:pub(?:\(crate\))? )?fn (\w+)", re.M)
    for path, text in sources():
        for m in head.finditer(text):
            close = re.compile(rf"^{m.group(1)}}}|^{m.group(1)}{{}}|^{m.group(1)}[^\n]*;$", re.M).search(text, m.end())
            yield path, text.count("\n", 0, m.start()) + 1, m.group(2), text[m.start(): close.end() if close else m.end()]


def twins():
    groups = collections.defaultdict(list)
    keep = set("if else match for in let mut return while Some None Ok Err true false self".split())
    for path, n, name, text in functions():
        start = text.find("\n" + " " * (len(text) - len(text.lstrip())) + "{")
        body = re.sub(r"//[^\n]*", "", text[start:] if start >= 0 else "")
        shape = " ".join(t if t in keep else ("0" if t[0].isdigit() else "x" if re.match(r"\w", t) else t) for t in re.findall(r"\w+|[^\w\s]", body))
        if len(shape.split()) >= 24:
            groups[shape].append(f"{path}:{n}: {name}")
    return [" / ".join(g) for g in groups.values() if len(g) > 1]


def clauses():
    found = collections.defaultdict(set)
    for path, n, name, text in functions():
        for clause in re.findall(r"requires (?:\w+ )?\{ (.*) \}$", text, re.M):
            for fact in clause.split(" × "):
                found[re.sub(r"^\((.*)\)$", r"\1", fact.strip())].add(f"{path}: {name}")
    return [f"{len(w)}: {f}" for f, w in sorted(found.items()) if len(w) >= 3]


def together():
    found = collections.defaultdict(set)
    for path, n, name, text in functions():
        taken = re.search(r"fn \w+(?:<.*?>(?=\())?\((.*?)\)(?= ->|\n|;| \{)", text, re.S)
        names = re.findall(r"(\w+): [&\[\w]", taken.group(1)) if taken else []
        for i, a in enumerate(names):
            for b in names[i + 1:]:
                found[(a, b)].add(f"{path}: {name}")
    return [f"{len(w)}: {a}, {b}" for (a, b), w in sorted(found.items()) if len(w) >= 3]


def main():
    wanted = sys.argv[1:] or ["1", "2", "3", "4", "5", "6", "7"]
    for point in wanted:
        if point == "2":
            parts = [("functions of one shape but for names and numbers", twins())]
        elif point == "5":
            parts = [("a fact in the requires of three or more functions", clauses()), ("two parameters in three or more functions", together())]
        else:
            parts = list(lines_of(FORMS[point]))
        for what, found in parts:
            print(f"{point} {what}: {len(found)}")
            if sys.argv[1:]:
                for place in found:
                    print("    " + place)


main()
