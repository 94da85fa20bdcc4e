"""Counts the places that docs/DESIGN-PASS.md speaks of, in crates/*/src.

Run at the top of the repository: python3 tools/design_places.py [-v] [FOLDER]
It prints a line for each kind of place: the point, the kind, how many there are; with -v also where.
"""
import collections
import pathlib
import re
import sys

args = [a for a in sys.argv[1:] if a != "-v"]
verbose = "-v" in sys.argv
top = pathlib.Path(args[0] if args else ".")
found = collections.OrderedDict()


def put(kind, where, text):
    found.setdefault(kind, []).append((where, " ".join(text.split())[:110]))


# Kinds that a line or two show. Each is a regular expression over the whole text of a file.
KINDS = [
    ("1 own enum of the shape of Result", r"enum Input \{"),
    ("1 Result inside a Result", r"Result<Result<"),
    ("1 a flag in a struct beside what it tells of", r"^    (keep|short): bool"),
    ("1 bool as an answer beside an error", r"Result<bool"),
    ("1 bool for done or refused", r"fn (finish_assignments|arrive)\("),
    ("1 number for a kind: function", r"fn (\w*number|rank)\(\w+(: \w+)?\) -> u8"),
    ("1 number for a kind: field", r"pub (cause|layer): u8"),
    ("3 loop over counted numbers", r"for \w+ in [^{\n]*\.\.[^{\n]*\{"),
    ("3 while", r"^ +while [^{\n]*\{"),
    ("3 index checked by hand", r"if place < \w+\.len\(\)"),
    ("3 loop in place of all, find or fold", r"for \w+ in &?(\*?)\w[\w.&]* \{\n\s+(if let Some\(\w+\) = \w+ \{|if |match )"),
    ("3 match in place of an Option's or Result's method", r"(None => (None|false|true|0|\{\}|reach|Ok\(false\))|Err\(_\) => (Err|Ok|\{)|Some\(\w+\) => Some\()"),
    ("3 let-else that only hands None or an error on", r"let (Some|Ok)\([^)]*\)?\)? = [^{;]*else \{\s*return (None|Err\((Rule|LineFault|OutOfRange|StepFault|SequenceFault|Fault|not_allowed)[^;]*);"),
    ("4 equality by hand", r"fn same_bytes|match found|found == key"),
    ("4 order by hand", r"\|\| \(\w+(\.\w+)? == \w+(\.\w+)? && "),
    ("4 conversion by hand", r"fn (from_word|cause_of|rule_text|sign|word)\("),
    ("4 printing by hand", r"fn (print_report|print_line|rule_text|sign|word)\b"),
    ("6 array with a length beside", r"^    (pub(\(crate\))? )?slots: \[|^    buf: &'a mut"),
    ("6 slice with a place beside", r"^    (pub(\(crate\))? )?(taken|released): usize"),
    ("6 front part of an array by a count kept elsewhere", r"\[(0)?\.\.(count|counts)[\w. ()]*(as usize)?\]|\[0\.\.self\.sequence"),
    ("6 table of indexes", r"const EDGE_NUMBERS"),
    ("7 match that only picks which function runs", r"match key \{\n(\s+//[^\n]*\n)?\s+Key::Form[^{}]*=> Err"),
]

functions = []
for path in sorted(top.glob("crates/*/src/**/*.rt")):
    name = str(path.relative_to(top))
    text = path.read_text()
    for kind, pattern in KINDS:
        for m in re.finditer(pattern, text, re.M):
            put(kind, f"{name}:{text.count(chr(10), 0, m.start()) + 1}", m.group(0))
    for m in re.finditer(r"^( *)(?:pub(?:\(crate\))? )?fn (\w+)(<[^(]*>)?\((.*?)\)([^{]*?)((?:\n\1    (?:requires|ensures)[^\n]*)*)\n?\1? *\{\n(.*?)^\1\}", text, re.M | re.S):
        functions.append((f"{name}:{text.count(chr(10), 0, m.start()) + 1}", m.group(2), m.group(4), m.group(6), m.group(7)))

# Twins: functions of one crate whose bodies are alike once names, types and numbers are left out.
shapes = collections.defaultdict(list)
for where, name, _, _, body in functions:
    if "_tests/" in where:
        continue
    code = re.sub(r"//[^\n]*", "", body)
    tokens = re.findall(r"[A-Za-z_]\w*|\d[\d_]*|b?\"[^\"]*\"|b?'[^']*'|[^\s\w]", code)
    keep = {"if", "else", "match", "for", "in", "return", "let", "mut", "Some", "None", "Ok", "Err", "self", "while"}
    shape = tuple(t if t in keep or not re.match(r"[A-Za-z_0-9b\"']", t) else "x" for t in tokens)
    if len(shape) >= 18:
        shapes[(where.split("/")[1], shape)].append((where, name))
for same in shapes.values():
    if len(same) > 1:
        for where, name in same:
            put("2 twins: functions whose bodies differ in names alone", where, name + " (" + ", ".join(n for _, n in same) + ")")

# Facts in the contracts of three or more functions, and parameters that travel together through three or more.
facts = collections.defaultdict(list)
pairs = collections.defaultdict(list)
for where, name, params, clauses, _ in functions:
    for clause in re.findall(r"requires(?: \w+)? \{(.*)\}", clauses):
        facts["requires " + " ".join(clause.split())].append(where)
    for premise in re.findall(r"ensures(?: \w+)? \{ (\w[\w.]* ≤ \w[\w.]*) →", clauses):
        facts["premise " + premise].append(where)
    flat = [" ".join(p.split()) for p in re.split(r",\s*(?![^<]*>)", params) if ":" in p]
    for i, p in enumerate(flat):
        for q in flat[i + 1:]:
            pairs[(p, q)].append(where)
for fact, places in facts.items():
    if len(places) >= 3:
        for w in places:
            put("5 fact in three or more contracts", w, fact)
together = collections.OrderedDict()
for (p, q), places in pairs.items():
    # a function's subject and what it is asked of are no pair, nor are the two sides of a comparison
    subject = p.startswith(("rt:", "out: &mut S", "draft: &mut", "engine: &mut", "view: &View", "a: &JobKey"))
    if len(places) >= 4 and not subject:
        for w in places:
            together.setdefault(w, []).append(f"({p}, {q})")
for w, groups in together.items():
    put("5 function with parameters that travel together through four or more", w, " ".join(groups))

total = collections.Counter()
for kind in sorted(found):
    places = found[kind]
    total[kind[0]] += len(places)
    print(f"{len(places):4}  {kind}")
    if verbose:
        for where, text in places:
            print(f"        {where}  {text}")
for point in sorted(total):
    print(f"point {point}: {total[point]}")
