#!/usr/bin/env python3
"""Counts the places in src/ that docs/DESIGN-PASS.md speaks of: tools/places.py [-v] [TOP].

Each row is a point of that page, what is looked for, and how often it stands in TOP/crates/*/src (TOP: this repository).
-v lists the places. A row finds candidates; which of them are places is on the page.
"""
import collections
import pathlib
import re
import sys

words = [a for a in sys.argv[1:] if a != "-v"]
verbose = "-v" in sys.argv[1:]
top = pathlib.Path(words[0]) if words else pathlib.Path(__file__).resolve().parent.parent
files = sorted(p for p in top.glob("crates/*/src/**/*.rt"))

LINES = [
    (1, "numbers for kinds or refusals", r"\(u8, u8, u32\)|\bnumber: u8|\bfields: u8|^    number,$"),
    (1, "a number that stands for none or for a refusal", r"\bNONE\b|Err\(_\) => 0|None => 0|None => NONE|Ok\(_\) => \(0"),
    (1, "a match that only makes an Option or a Result again",
     r"None => None|Some\(\w+\) => Some\(|Err\(\w+\) => Err\(|Some\(\w+\) => Ok\(|Some\(\w+\) => \w+\.0|None => (line|false)\b|Ok\(\w+\) => \w+,$"),
    (1, "a test of is_some with the value behind it", r"\.is_some\(\) \{"),
    (1, "a Result handed on as an argument, or thrown away", r": Result<\w+, Fault>[,)]|let _ ="),
    (3, "a loop over numbers", r"\bfor \w+ in [^{]*\.\.[^{]*\{"),
    (3, "an element by a number that was worked out", r"\w\[(\([^\]]* as usize|at \+ |at\]|i\]|k\]|[a-z]+ \+ [a-z]+ as usize)"),
    (3, "a test of the length before an element", r"if \w+ < \w+\.len\(\)|if at \+ 4 <= "),
    (4, "a value made of one other value by a function of its own", r"pub fn (named|of)\("),
    (4, "new of one number", r"pub fn new\(\w+: \w+\) -> Result<"),
    (4, "words printed by a function of its own", r"-> &'static str"),
    (4, "a fault taken out of what was declined", r"Err\(declined\) =>"),
    (4, "a fault of a rule with place 0", r"Fault::of\(Rule::\w+, 0\)"),
    (4, "a site made by a function of its own", r"^(pub\(crate\) )?fn site(_at)?\("),
    (4, "a field copied as it was", r"^\s+(\w+): (self|site)\.\1,$"),
    (6, "a buffer of fixed length with the used part beside it", r"\bLONGEST\b\]"),
    (6, "a row of numbers without names", r"\[\[u32; \d+\]"),
    (6, "arrays side by side", r"^(const|static) (LUMA|CB|CR|ORDERS): "),
    (7, "a macro that chooses a step", r"^macro_rules!"),
]

def show(rows):
    for row in rows:
        print(f"        {row}")

for point, what, pattern in LINES:
    found = []
    for path in files:
        for number, line in enumerate(path.read_text().split("\n"), 1):
            if line.lstrip().startswith(("//", "ghost", "requires", "ensures")):
                continue
            if re.search(pattern, line):
                found.append(f"{path.relative_to(top)}:{number}: {line.strip()}")
    print(f"{point}  {len(found):3}  {what}")
    if verbose:
        show(found)

# ---- point 2: functions and impls whose text is another's but for names, numbers and types
text_of = collections.defaultdict(list)
for path in files:
    text = path.read_text()
    for match in re.finditer(r"^( *)(?:pub(?:\(crate\))? )?fn (\w+).*?\n\1\}\n", text, re.S | re.M):
        body = "\n".join(l for l in match.group(0).split("\n") if not l.lstrip().startswith(("//", "requires", "ensures")))
        body = re.sub(r"\bfn \w+", "fn _", body)
        body = re.sub(r"\b(Luma|Cb|Cr|Alpha)(Part)?\b|\b[A-Z]\w*::\w+|\b0x[0-9a-f_]+\b|\b\d+\b|\"[^\"]*\"", "_", body)
        body = re.sub(r"\s+", " ", body)
        if len(body) > 60:
            text_of[body].append(f"{path.relative_to(top)}: {match.group(2)}")
twins = [v for v in text_of.values() if len(v) > 1]
print(f"2  {sum(len(v) for v in twins):3}  functions that another's text makes but for a constant, a type or a name, in {len(twins)} families")
if verbose:
    show("; ".join(v) for v in twins)

# ---- point 5: clauses that stand three times and more, and parameters that travel together
clauses, parameters = collections.defaultdict(list), collections.defaultdict(list)
for path in files:
    text = path.read_text()
    for match in re.finditer(r"^\s*(?:requires|ensures)(?: \w+)? \{ (.*) \}\s*;?$", text, re.M):
        clauses[match.group(1)].append(str(path.relative_to(top)))
    for match in re.finditer(r"\bfn (\w+)(?:<[^(]*>)?\(([^)]*)\)", text, re.S):
        kinds = [p.strip() for p in match.group(2).split(",") if p.strip()]
        for i in range(len(kinds)):
            for j in range(i + 1, len(kinds)):
                for k in range(j + 1, len(kinds)):
                    parameters[(kinds[i], kinds[j], kinds[k])].append(f"{path.relative_to(top)}: {match.group(1)}")
often = {c: v for c, v in clauses.items() if len(v) > 2}
print(f"5  {sum(len(v) for v in often.values()):3}  clauses that stand in three functions and more, {len(often)} in all")
if verbose:
    show(f"{len(v)} × {c}  ({', '.join(sorted(set(v)))})" for c, v in often.items())
together = {t: v for t, v in parameters.items() if len(v) > 2}
print(f"5  {len(together):3}  threes of parameters that stand in three functions and more")
if verbose:
    show(f"{len(v)} × {', '.join(t)}  ({'; '.join(v)})" for t, v in together.items())

# ---- point 8: what the proofs are made of
for what, pattern in [("lines of proofs", "crates/*/proofs/**/*.antt"), ("lines of specs", "crates/*/specs/*.antt")]:
    print(f"8 {sum(len(p.read_text().splitlines()) for p in top.glob(pattern)):4}  {what}")
answers = sum(len(re.findall(r"^pub \w[^ ]* : goal\.", p.read_text(), re.M)) for p in top.glob("crates/*/proofs/**/Answers.antt"))
print(f"8 {answers:4}  answers")
