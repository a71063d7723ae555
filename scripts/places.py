#!/usr/bin/env python3
"""Lists the places of the sources that a form of today's Rattle may make plainer, point by point.

    python3 scripts/places.py [POINT..] [--tests]

Points: 1 own enums, flags and codes; 2 twins; 3 counted loops; 4 conversions, comparisons and printing by hand;
5 repeated facts and parameters that travel together; 6 lengths and indices beside buffers; 7 switches on what to do;
8 proofs. It goes by text: what it lists is to be read, and docs/DESIGN-PASS.md says what became of each. A place
with a line `// Stays (POINT): ..` beside it, which says why it stays as it is, is marked so. Tests are left out but with
--tests.
"""
import collections
import pathlib
import re
import sys

TOP = pathlib.Path(__file__).resolve().parent.parent
KEYWORDS = set("""as break const continue crate else enum fn for if impl in let loop match mod move mut pub ref return
self Self static struct super trait type use where while true false Some None Ok Err u8 u16 u32 u64 u128 usize bool str
Option Result Vec""".split())

Function = collections.namedtuple("Function", "path name params result clauses body line public")
# What was found, and the lines at which it stands.
Found = collections.namedtuple("Found", "text spots")


class Source:
    """A file of Rattle: its text without comments, and the lines that have a reason beside them."""

    def __init__(self, path):
        self.path = path.relative_to(TOP)
        raw = path.read_text()
        self.text = re.sub(r"//[^\n]*", "", raw)
        self.reasons = [(i + 1, int(m.group(1))) for i, line in enumerate(raw.split("\n")) for m in re.finditer(r"// Stays \((\d)\):", line)]

    def line(self, at):
        return self.text.count("\n", 0, at) + 1

    def spot(self, at):
        return (self.path, self.line(at))


def closing(text, at):
    """The place behind the bracket that closes the one at this place."""
    depth = 0
    for i in range(at, len(text)):
        if text[i] in "([{":
            depth += 1
        elif text[i] in ")]}":
            depth -= 1
            if depth == 0:
                return i + 1
    return len(text)


def split(text):
    """The parts of a text between commas that no bracket encloses."""
    parts, depth, last = [], 0, ""
    for c in text:
        depth += (c in "([{<") - (c in ")]}>")
        if c == "," and depth == 0:
            parts.append(last)
            last = ""
        else:
            last += c
    return [re.sub(r"\s+", " ", p).strip() for p in parts + [last] if p.strip()]


def behind_generics(text, at):
    if not text.startswith("<", at):
        return at
    depth = 0
    while True:
        depth += (text[at] == "<") - (text[at] == ">" and text[at - 1] != "-")
        at += 1
        if depth == 0:
            return at


def functions(source):
    text = source.text
    for m in re.finditer(r"(pub(?:\([a-z]+\))? )?fn (\w+)", text):
        at = behind_generics(text, m.end())
        if not text.startswith("(", at):
            continue
        end = closing(text, at)
        answer = re.match(r"\s*(?:->\s*(.*?))?\s*(?=\n\s*(?:requires|ensures|where)|\{|;)", text[end:], re.S)
        at, clauses = end + (answer.end() if answer else 0), []
        while True:
            clause = re.compile(r"\s*(requires|ensures\*?|decreases)( \w+)? (?=\{)").match(text, at)
            if not clause:
                break
            at = closing(text, clause.end())
            clauses.append((clause.group(1), text[clause.end() + 1 : at - 1].strip()))
        brace = re.compile(r"\s*\{").match(text, at)
        body = text[brace.end() : closing(text, brace.end() - 1) - 1] if brace else ""
        yield Function(
            source.path,
            m.group(2),
            split(text[text.index("(", behind_generics(text, m.end())) + 1 : end - 1]),
            (answer.group(1) or "").strip() if answer else "",
            clauses,
            body,
            source.line(m.start()),
            bool(m.group(1)),
        )


def enums(source):
    for m in re.finditer(r"\benum (\w+)[^{;]*\{", source.text):
        yield m.group(1), split(source.text[m.end() : closing(source.text, m.end() - 1) - 1]), source.spot(m.start())


def at(f):
    return [(f.path, f.line)]


def own_enums(sources):
    for source in sources:
        for name, variants, spot in enums(source):
            bare = [v for v in variants if re.fullmatch(r"\w+", v)]
            if name.endswith("Fault"):
                continue
            if len(variants) == 2 and len(bare) == 1:
                yield Found(f"enum {name} {{ {', '.join(variants)} }}", [spot])
            elif any(re.match(r"(Refused|Unfit|Err\w*|Failed)\b", v) for v in variants) and len(bare) != len(variants):
                yield Found(f"enum {name} has good and bad answers", [spot])
        for f in functions(source):
            arms = [a.strip() for a in re.findall(r"=>\s*([^,]+),", f.body)]
            if f.result == "bool" and any("&mut " in p for p in f.params):
                yield Found(f"fn {f.name} answers bool beside what it changes", at(f))
            if re.fullmatch(r"u\d+|usize", f.result) and "match self" in f.body and sum(a.isdigit() for a in arms) >= 2:
                yield Found(f"fn {f.name} gives numbers for kinds", at(f))
            if f.name != "try_from" and len(re.findall(r"^\s*[0-9]+(?:\.\.=[0-9]+)? => ", f.body, re.M)) >= 2 and "::" in f.body:
                yield Found(f"fn {f.name} gives kinds for numbers", at(f))
            if f.name.endswith(("ending", "endings")) and re.fullmatch(r"\(?(?:u8(?:, )?)+\)?", f.result):
                yield Found(f"fn {f.name} gives numbers for kinds", at(f))
        for m in re.finditer(r"^    (?:pub(?:\(\w+\))? )?(\w+): (bool|Option<u32>),", source.text, re.M):
            yield Found(f"{m.group(1)}: {m.group(2)}", [source.spot(m.start())])


def shape(body):
    words = re.findall(r"'?\w+|[^\s\w]", body)
    return ["n" if w[0].isdigit() else w if w in KEYWORDS or not re.fullmatch(r"\w+", w) else "x" for w in words]


def twins(sources):
    groups = collections.defaultdict(list)
    for source in sources:
        for f in functions(source):
            crate = source.path.parts[1]
            words = shape(f.body)
            if len(words) >= 20:
                groups["same shape", " ".join(words)].append(f)
            elif re.fullmatch(r"\s*\d+\s*", f.body):
                groups["a constant with a contract", f.body.strip()].append(f)
            elif words:
                groups["same name and body", (f.name, " ".join(f.body.split()))].append(f)
            if f.name not in ("from", "try_from"):
                groups["beside each other", (crate, f.name.removeprefix("try_"))].append(f)
    for (what, _), group in groups.items():
        if what == "beside each other" and not any(f.name.startswith("try_") for f in group):
            continue
        if what == "same name and body" and (len({f.path for f in group}) == 1 or group[0].name in ("from", "fmt")):
            continue
        if what == "a constant with a contract" and all(f.public for f in group):
            continue
        if len(group) > 1:
            yield Found(f"{what}: " + ", ".join(f.name for f in group), [(f.path, f.line) for f in group])


def counted_loops(sources):
    for source in sources:
        text = source.text
        for m in re.finditer(r"\b(while (?!let)[^{]*|for (\w+) in [^{]*\.\.[^{]*)\{", text):
            body = text[m.end() : closing(text, m.end() - 1) - 1]
            head = re.sub(r"\s+", " ", m.group(1)).strip()
            by = r"\[[^\]]*\b%s\b[^\]]*\]|\b(?:slot|item)\(%s\b" % (m.group(2), m.group(2))
            if re.search(by, body) if m.group(2) else re.search(r"\+= 1\b", body):
                yield Found(head, [source.spot(m.start())])
        for m in re.finditer(r"let mut (\w+) = [01]\w*;", text):
            part, name = text[m.end() : m.end() + 700], m.group(1)
            if re.search(r"\b(?:for|while)\b", part) and re.search(r"\b%s (?:\+= 1|= %s\.saturating_add\(1\))" % (name, name), part):
                yield Found(f"{name} counted", [source.spot(m.start())])


BY_HAND = [
    (r"None => None\b", "an Option passed on"),
    (r"None => (?:false|return (?:false|None))", "None to false"),
    (r"Some\(_\) => true", "is_some"),
    (r"Some\((\w+)\) => Some\(\1\)", "an Option passed on"),
    (r"Some\((\w+)\) => \1,\s*\n\s*None => [^{]", "unwrap_or"),
    (r"Ok\((\w+|\(\))\) => Ok\(\1\)", "a Result passed on"),
    (r"Ok\(\(\)\) => \w+::\w+,", "a Result turned"),
    (r"Err\(_?\w*\) => Err\(", "an error turned"),
    (r"else \{\s*return None;", "`?`"),
    (r"let Some\([^)]*\) = [^;]*else \{\s*return Err\(\w+(?:::\w+)*(?:\(\w*\))?\);", "ok_or"),
    (r"=> true,\s*\n?\s*[\w:(|) _]+ => (?:true|false),|=> true,\n\s*_ => false", "matches!"),
    (r"fn from_\w+\(", "a conversion of its own name"),
    (r"-> &'static str", "a name as text"),
    (r"\bif same\(", "an equality of its own"),
]


def by_hand(sources):
    for source in sources:
        for pattern, what in BY_HAND:
            for m in re.finditer(pattern, source.text):
                yield Found(what + " by hand", [source.spot(m.start())])


def repeated(sources):
    facts, together = collections.defaultdict(dict), collections.defaultdict(list)
    for source in sources:
        crate = source.path.parts[1]
        for f in functions(source):
            names = [p.split(":")[0].removeprefix("mut ").strip() for p in f.params if ":" in p]
            for kind, fact in f.clauses:
                for name in names:
                    fact = re.sub(r"\b%s\b" % re.escape(name), "_", fact)
                if kind == "requires":
                    facts[crate, fact][f.path, f.line] = f.name
            typed = {re.sub(r"&'\w+ ", "&", re.sub(r"<'\w+>|<'_>", "", p.removeprefix("mut "))) for p in f.params}
            typed = sorted(p for p in typed if ":" in p and not p.endswith(("HostRuntime", ": Global")))
            for i, a in enumerate(typed):
                for b in typed[i + 1 :]:
                    together[crate, a, b].append(f)
    for (crate, fact), places in sorted(facts.items()):
        if len(places) >= 3:
            yield Found(f"{crate}: {len(places)} require {fact}", list(places))
    for (crate, a, b), group in sorted(together.items()):
        if len(group) >= 3:
            yield Found(f"{crate}: {a} and {b} in {', '.join(f.name for f in group)}", [(f.path, f.line) for f in group])


def beside(sources):
    for source in sources:
        for m in re.finditer(r"\bstruct (\w+)[^{;]*\{", source.text):
            body = source.text[m.end() : closing(source.text, m.end() - 1) - 1]
            for field in re.finditer(r"\b(len|index|at|from|to|statement): usize", body):
                yield Found(f"struct {m.group(1)} holds {field.group(1)}: usize", [source.spot(m.start())])
        for f in functions(source):
            if any("&mut [" in p for p in f.params) and re.search(r"\busize|\bu32", f.result):
                yield Found(f"fn {f.name} fills a buffer and answers a length", at(f))
            if any("&mut Vec<" in p for p in f.params):
                yield Found(f"fn {f.name} fills a Vec beside what it goes with", at(f))


def switches(sources):
    bare = set()
    for source in sources:
        for m in re.finditer(r"^(?:pub\(\w+\) )?enum (\w+) \{([^{}()]*)\}", source.text, re.M):
            bare.add(m.group(1))
    for source in sources:
        for f in functions(source):
            for p in f.params:
                m = re.fullmatch(r"(\w+): (\w+)", p)
                if m and m.group(2) in bare and re.search(r"match %s\b" % m.group(1), f.body):
                    yield Found(f"fn {f.name} switches on {p}", at(f))
        for m in re.finditer(r"\[fn\(|\[[^\]]*; \d+\] = \[[a-z]\w*, [a-z]", source.text):
            yield Found("functions in a table", [source.spot(m.start())])


def proofs(_):
    for crate in sorted(p for p in (TOP / "crates").iterdir()):
        answers = bare = lemmas = lines = 0
        for path in sorted(crate.glob("proofs/**/*.antt")):
            text = path.read_text()
            lines += text.count("\n")
            lemmas += path.parent.name == "proofs" and path.name != "Lib.antt"
            for m in re.finditer(r"^pub ([^\s:]+) : goal\.", text, re.M) if path.name == "Answers.antt" else []:
                answers += 1
                body = re.search(r"^%s\b[^=\n]*= (.*)" % re.escape(m.group(1)), text[m.end() :], re.M)
                bare += bool(body and re.fullmatch(r"search (?:rules|\(rules(?:, [\w-]+)*\))", body.group(1).strip()))
        if lines:
            yield Found(f"{crate.name}: {answers} answers, {bare} of them only a search; {lemmas} files of lemmas; {lines} lines", [])


POINTS = [own_enums, twins, counted_loops, by_hand, repeated, beside, switches, proofs]


def main():
    paths = sorted(TOP.glob("crates/*/src/**/*.rt"))
    tests = "--tests" in sys.argv
    sources = [Source(p) for p in paths if tests or p.relative_to(TOP).parts[1] != "examples"]
    reasons = {s.path: s.reasons for s in sources}
    for point in [int(a) for a in sys.argv[1:] if a.isdigit()] or range(1, 9):
        found = list(POINTS[point - 1](sources))
        stay = [any(p == point and (0 <= line - r <= 9 or 0 < r - line <= 3) for path, line in f.spots for r, p in reasons[path]) for f in found]
        print(f"point {point}: {len(found)} found, {sum(stay)} with a reason to stay")
        for f, s in zip(found, stay):
            print("  " + " ".join(([f"{f.spots[0][0]}:{f.spots[0][1]}"] if f.spots else []) + [f.text] + (["[stays]"] if s else [])))


main()
