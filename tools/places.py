#!/usr/bin/env python3
"""Counts the places that docs/DESIGN-PASS.md is about: in src/ of every crate, and for point 8 in proofs/.

usage: places.py [--at COMMIT] [--other] [POINT]

Run at the top of the repository. It prints a line for each point: the count, and the rule by which a place is one. With a POINT
(1a, 5b, ..) it prints the places of that point. --other goes by another rule for each point; --at reads a commit, and not the
files as they stand. What only a reader can tell is not counted.
"""
import argparse
import collections
import difflib
import glob
import io
import itertools
import re
import subprocess
import tarfile
from types import SimpleNamespace as Record

# ---- Reading: functions with their contracts and bodies; types with their fields or variants; answers and lemmas.

QUIET = re.compile(r"""//[^\n]*|b?"(?:\\.|[^"\\])*"|b?'(?:\\[^\n]+?|[^'\\\n])'""", re.S)
CLOSING = {"(": ")", "{": "}", "[": "]", "<": ">"}


def sources(commit):
    wanted = re.compile(r"crates/[^/]+/(src/.*\.rt|proofs/.*\.antt)$").match
    if commit:
        tar = tarfile.open(fileobj=io.BytesIO(subprocess.check_output(["git", "archive", commit, "crates"])))
        return {m.name: tar.extractfile(m).read().decode() for m in tar if wanted(m.name)}
    return {p: open(p, encoding="utf-8").read() for p in glob.glob("crates/**", recursive=True) if wanted(p)}


def flat(text):
    return re.sub(r"\s+", " ", text).strip(" ,")


def blank(m):
    return re.sub(r"[^\n]", " ", m[0])


def past(text, i):
    """The place behind the bracket that closes the one at i."""
    depth = 0
    for j in range(i, len(text)):
        depth += (text[j] == text[i]) - (text[j] == CLOSING[text[i]] and text[j - 1:j + 1] != "->")
        if depth == 0:
            return j + 1
    return len(text)


def parse(path, raw):
    """Notes the file's functions and types, and its code without comments, contracts, imports and ghost lines."""
    crate = path.split("/")[1] + "::"
    text = QUIET.sub(lambda m: blank(m) if m[0].startswith("//") else m[0], raw)
    mask = QUIET.sub(blank, raw)  # without letters and texts too: a bracket in them is none
    code = re.sub(r"^.*\bghost\b.*$|^ *(?:pub )?use [^;]*;", blank, text, flags=re.M)
    impls = []
    for m in re.finditer(r"^ *impl\b([^{;(]*)\{", mask, re.M):
        trait, _, owner = re.sub(r"^<[^>]*>", "", flat(m[1])).strip().rpartition(" for ")
        impls.append((m.end(), past(mask, m.end() - 1), re.match(r"\w*", owner)[0], trait))
    for m in re.finditer(r"^((?: *#\[.*\]\n)*) *(?:pub(?:\(\w+\))? )?(struct|enum) (\w+)[^\n{;(]*([{;(])", mask, re.M):
        end = m.end() if m[4] == ";" else past(mask, m.end() - 1)
        parts = re.findall(r"\w(?:\([^)]*\)|\{[^}]*\}|\[[^\]]*\]|<[^>]*>|[^,])*", flat(text[m.end():end - 1]))
        TYPES.append(Record(path=path, mask=mask, start=m.start(2), end=end, full=crate + m[3], name=m[3], kind=m[2], derives=m[1],
                            parts=parts, fields="\n".join(parts)))
    for m in re.finditer(r"\bfn (\w+)(?=[<(])", mask):
        i = past(mask, m.end()) if mask[m.end()] == "<" else m.end()
        j = past(mask, i)
        taken = flat(text[i + 1:j - 1])
        answer = re.compile(r"\s*->\s*((?:\[[^\]]*\]|[^\n{;\[])*?)\s*(?=[{;]|\n)").match(mask, j)
        j, clauses = answer.end() if answer else j, []
        while c := re.compile(r"\s*(\w+)\s+(?:\w+\s*)?\{").match(mask, j):  # requires, ensures
            j = past(mask, c.end() - 1)
            clauses.append((c[1], flat(text[c.end():j - 1])))
            code = code[:c.start()] + blank([code[c.start():j]]) + code[j:]
        at = mask.find("{", j)
        if at < 0 or ";" in mask[j:at]:  # a function without a body
            continue
        end = past(mask, at)
        owner, trait = next(((o, t) for s, e, o, t in impls if s < m.start() < e), ("", ""))
        params = re.sub(r"^(&(?:'\w+ )?)?((?:mut )?)self\b", r"self: \1\2" + owner, taken)
        full = crate + owner + "::" * bool(owner) + m[1]
        FNS.append(Record(path=path, mask=mask, start=m.start(), at=at + 1, end=end, full=full, name=m[1], free=not owner, trait=trait,
                          params=params, answer=answer[1] if answer else "", clauses=clauses,
                          body=text[at + 1:end - 1], flat=flat(text[at + 1:end - 1])))
    CODE[path] = code


def answers():
    """Each answer: its function and goal, its text, and whether it is one tactic that names no lemma of its own crate."""
    for path, t in PROOFS.items():
        crate, source = path.split("/")[1], {}
        for m in re.finditer(r"^use ([^\n]*?)\.\{([^}]*)\}", t, re.M):
            source.update((re.split(r" as |\.", n.strip())[-1], m[1] + ".") for n in m[2].split(","))
        for m in re.finditer(r"^pub (\S+) : goal\.\S+\n(?:unfolding.*\n)?((?:(?!pub |--|use |unfolding ).*\n?)*)", t, re.M):
            b = flat(re.sub(r"^\S+[^=]*?=\s*", "", m[2].strip(), count=1))
            own = any(source.get(n, "").startswith("Rattle.%s.proofs." % crate) for n in re.findall(r"[\w\-]+", b))
            one = re.match(r"(search|omega|rw|grind|simp|cc|refl)\b", b) and len(re.findall(r"\b(search|omega|rw|grind|simp)\b", b)) < 2
            yield folder(path), m[1], b, bool(one and not own)


def lemmas():
    """Each public lemma: its name, statement and crate. A field of a record has no equation, and is none."""
    for path, t in PROOFS.items():
        if not path.endswith(("/Answers.antt", "/Invariants.antt")):
            for m in re.finditer(r"^( *)pub (\S+) : (.*(?:\n\1 +\S.*)*)", t, re.M):
                if re.search(r"^%s%s( |$)" % (m[1], re.escape(m[2])), t[m.end():], re.M):
                    yield m[2], flat(m[3]), path.split("/")[1]


# ---- Places: a name, where it stands, and its text; or a row of what stands in several.

def folder(path):
    return "::".join(path.split("/")[1:2] + path.split("/")[3:-1])


def here(x, i=None, note=""):
    """A function or type, or what stands at i in a function's body."""
    return x.full, "%s:%d" % (x.path, x.mask.count("\n", 0, x.start if i is None else x.at + i) + 1), flat(note)


def code(pattern):
    """Where the code has the pattern."""
    for path, t in CODE.items():
        for m in re.finditer(pattern, t, re.M):
            x = next((x.full for x in FNS + TYPES if x.path == path and x.start <= m.end() <= x.end), path.split("/")[1])
            yield x, "%s:%d" % (path, t.count("\n", 0, m.end()) + 1), t[t.rfind("\n", 0, m.end()) + 1:].split("\n")[0].strip()


def proofs(file, pattern):
    return [(folder(p), p, m[0]) for p, t in PROOFS.items() if p.endswith(file) for m in re.finditer(pattern, t, re.M)]


def fns(test):
    return [here(f) for f in FNS if test(f)]


def types(kind, test):
    return [here(t) for t in TYPES if t.kind in kind and test(t)]


def bodies(pattern):
    return fns(lambda f: re.search(pattern, f.flat))


def params(pattern, answer=""):
    return fns(lambda f: re.search(pattern, f.params) and answer in ("", f.answer))


def blocks(opening, test=lambda *_: True):
    """The blocks in bodies that open so, and pass a test of the opening, of what is inside, and of what comes after."""
    for f in FNS:
        for m in re.finditer(r"\b(%s) \{" % opening, f.body):
            end = past(f.mask, f.at + m.end() - 1) - f.at
            if test(m[1], f.body[m.end():end - 1], f.body[end:].strip()):
                yield here(f, m.start(), m[1])


def whiles(kind):
    """The `while` loops of a kind, by what the body does with the names that are asked for."""
    def kind_of(asked, body):
        names = re.findall(r"\b[a-z_]\w*\b", asked)
        steps = [n for n in names if re.search(r"\b%s [-+]= 1;" % n, body)]
        grows = [n for n in names if n not in steps and re.search(r"(?<![\w.])%s [-+]?= " % n, body)]
        lent = r"[(,] ?(&mut )?%s ?[,)]|\b%s\.\w+\("  # a field that is asked for grows where its owner is lent
        grows += [n for n in re.findall(r"\b(\w+)\.\w+\b(?!\()", asked) if re.search(lent % (n, n), flat(body))]
        if re.search(r"let .* = \w+$|!= 255$", asked):
            return "walk"
        return "worklist" if steps and grows or "let " in asked else "index" if steps else "more"
    return blocks("while [^{]*?", lambda asked, body, _: kind_of(asked, body) == kind)


def shared(pairs, least):
    """What stands in so many places, with them."""
    where = collections.defaultdict(set)
    for what, place in pairs:
        where[what].add(place)
    rows = sorted((-len(v), k, sorted(v)) for k, v in where.items() if len(v) >= least)
    return ["%3d %s: %s" % (-n, k, " ".join(v)) for n, k, v in rows]


def twins(least=0.75):
    """Pairs of functions by the likeness of their parameters, answers and bodies, the most alike first."""
    words = [re.findall(r"\w+|[^\w\s]", "%s -> %s { %s }" % (f.params, f.answer, f.body)) for f in FNS]
    pairs = []
    for a, b in itertools.combinations(range(len(FNS)), 2):
        x, y = sorted((len(words[a]), len(words[b])))
        m = difflib.SequenceMatcher(None, words[a], words[b], autojunk=False) if x >= 20 and x >= 0.6 * y else None
        if m and m.quick_ratio() >= least and m.ratio() >= least:
            pairs.append("%.2f %s %s" % (m.ratio(), FNS[a].full, FNS[b].full))
    yield from sorted(pairs, reverse=True)


def facts():
    """The facts of contracts: by the first word with a capital, as in `Queue ..` or `Holds (Queue ..)`, or by the text, its values open."""
    def fact(c):
        word = re.match(r"(?:[A-Z]\w* \((?=[A-Z]))?([A-Z]\w*)", c)
        return word[1] if word else re.sub(r"\b[a-z]\w*(\.\w+)*\.(now|old|new)\b|^[a-z]\w*(\.\w+)*(?= [<≤≡])", "_", c)
    required = {fact(c) for f in FNS for k, c in f.clauses if k == "requires"}
    return [(fact(c), f.full) for f in FNS for k, c in f.clauses if fact(c) in required and (k == "requires" or c[0].isupper())]


def together():
    """The largest sets of slices and arrays, by name, that the same functions take."""
    taken = [frozenset(re.findall(r"(\w+): [^,:]*\[", f.params)) for f in FNS]
    sets, more = set(), set(taken)
    while sets != more:
        sets, more = more, more | {a & b for a in more for b in taken}
    return [("+".join(sorted(s)), f.full) for s in sets if len(s) > 1 for f, t in zip(FNS, taken) if s <= t]


def same_index(f):
    """Whether the body uses two arrays at one index."""
    uses = set(re.findall(r"\b([a-z_][\w.]*)\[(?!\d+\])((?:[^\[\];.]|\.(?!\.)|\[[^\[\]]*\])*)\]", f.flat))
    return len({i for _, i in uses}) < len(uses)


# ---- The points: for each its rule and places, and the other rule and its places.

ARRAY, SLICE, NUMBER = r"&(?:'\w+ )?(?:mut )?\[\w+; \w+\]", r"&(?:'\w+ )?(?:mut )?\[u8\]", "u8|u16|usize"
# Loose parameters that travel together: these names, of the types beside them, and else arrays. A Table or a Writer is none.
LOOSE = {"s": SLICE, "program": SLICE, "page": SLICE, "out": SLICE, "terms": SLICE, "knowledge": SLICE, "derivation": SLICE,
         "claim": "Claim|" + SLICE, "end": NUMBER, "at": NUMBER, "from": NUMBER}
GROUPS = """s+inverses marks+order marks+order+end s+claim s+first s+program before+latest heads+lefts+rights s+first+claim out+at
            terms+knowledge+derivation+claim s+program+numbers out+from page+at""".split()
MARKS = {"START_MARK", "KNOWLEDGE_STEP"}
NONE = r"\b(?:255|255u8|RULES|START_MARK|KNOWLEDGE_STEP)\b"
NAMED_NONE = r"\b(Nothing|Absent|Stranger|Shut|Refused|Failed|NotRead|NotWritten)\b"
KIND = r"\b(?:kind|rule|head|letter|number|mark|inner|taker|builder): u8\b"
FLAG, CAST, WIDENING = r"\] (?:==|!=|=) [012]\b", r"\bas (?:u8|u16|u32|usize)\b", r"(?<!fn )\b(?:wide|wide16|index)\("
WIDENED = r"\[(base::)?(wide|index|usize::from)\(|let \w+ = (base::)?(wide|index|usize::from)\(\w.*\[\w+\]"
SWITCHED = r"\bmatch (?:\w+\.)*(?:role|range|side|cipher|operand|target|relation|way|claims|rule) \{"
FIELD = r"\b[a-z]\w*\.\w+ [!=]= |[!=]= [a-z]\w*\.\w+\b(?!\()"
LINKS = r"\b(before|latest)[12]?\[|let mut (before|latest)"
LOOP = "(?:while|for) [^{]*?"


def points():
    enums = {t.name: t.parts for t in TYPES if t.kind == "enum"}
    # Own enums that carry nothing, or only one another: a value of theirs chooses.
    choice = "|".join(n for n, vs in enums.items() if all(re.fullmatch(r"\w+(\((%s)\)| = \w+)?" % "|".join(enums), v) for v in vs)) or "-"
    arm = r"\b(?:(?:%s|rules|kinds)::\w+(?:\(\w+\))?|[A-Z_]{2,}) => (?:\{ )?[^,{}]*\b[a-z]\w*\(" % choice
    given = r"\b(?!(?:if|match|while|for|return)\b)[a-z]\w*\((?:(?:[^()]|\([^()]*\))*,)?\s*(?:(?:%s)::\w+|true|false)(?=[,)])" % choice
    borrows = "|".join(t.name for t in TYPES if t.kind == "struct" and "&" in t.fields) or "-"
    numbers = "|".join(set(re.findall(r"const (\w+): u8", " ".join(CODE.values()))) - MARKS) or "-"
    groups = [(g, f.full) for g in GROUPS for f in FNS
              if all(re.search(r"\b%s: (?:%s)(?:,|$)" % (n, LOOSE.get(n, ARRAY)), f.params) for n in g.split("+"))]

    yield ("1a", "enums of two variants, one of which carries something",
           types("enum", lambda t: len(t.parts) == 2 and re.search(r"[({]", t.fields)),
           "enums with a variant named after nothing or a refusal", types("enum", lambda t: re.search(NAMED_NONE, t.fields)))
    yield "1b", "bytes of arrays that are asked or stored as flags: 0, 1 or 2", code(FLAG), "functions that do", bodies(FLAG)
    yield "1c", "lines with 255 or a constant, for none", code("^.*%s.*" % NONE), "functions with one", bodies(NONE)
    yield "1d", "literal numbers of refusals", code(r"\bnumber: \d"), "functions with one", bodies(r"\bnumber: \d")
    yield ("1e", "constants of bytes: kinds, rules, tests, heads, marks", code(r"\bconst \w+: u8"),
           "functions that use one, but for marks", bodies(r"\b(%s)\b" % numbers))
    yield ("1f", "`let .. else` over an own enum", code(r"^ *let [A-Z]\w*::"),
           "`let .. else` over any type", blocks(r"let [A-Z]\w*\b[^=;]*=[^;]*?\belse"))
    yield ("1g", "fields, parameters and variants that have a kind, rule, head, letter or number as a byte", code(KIND),
           "functions and types with one", params(KIND) + types("struct enum", lambda t: re.search(KIND, t.fields)))
    yield ("2", "pairs of functions whose words and signs are alike by 0.75 or more", twins(),
           "names that free functions of two or more crates have", shared(((f.name, f.full) for f in FNS if f.free), 2))
    yield ("3a", "`while` loops that count an index by one", whiles("index"),
           "`while` loops that step a number by one", blocks("while [^{]*?", lambda asked, body, _: re.search(r"\w [-+]= 1;", body)))
    yield "3b", "`while` loops that walk a chain", whiles("walk"), "invariants over a link", proofs("", "invariant-loop-(j|next) :")
    yield "3c", "`while` loops over a list that grows", whiles("worklist"), "invariants over its head", proofs("", "invariant-loop-head :")
    yield ("3d", "`while` loops that read on by more", whiles("more"),
           "invariants over what is read", proofs("", "invariant-loop-(at|done) :"))
    yield "3e", "`for` loops over numbers", blocks(r"for \S+ in [^{;]*?\.\.[^{;]*?"), "all `for` loops", blocks("for [^{;]*? in [^{;]*?")
    yield ("4a", "functions, no methods, that make a value of values, and no bool",
           fns(lambda f: not f.trait and f.answer != "bool" and not re.search(r"&|\bself\b|\b(%s)\b" % borrows, f.params)),
           "bodies that are one cast or one match",
           fns(lambda f: not f.trait and re.fullmatch(r"\w+ as \w+|match \w+ \{[^{}]*(\{[^{}]*\}[^{}]*)*\}", f.flat)))
    yield ("4b", "tests that compare two or more fields", fns(lambda f: f.answer == "bool" and len(re.findall(FIELD, f.flat)) > 1),
           "tests of two values of one own type", params(r": &?([A-Z]\w*)(,.*)?: &?\1(,|$)", "bool"))
    yield ("4c", "types that derive no equality", types("struct enum", lambda t: "PartialEq" not in t.derives),
           "derives without it", code(r"#\[derive\((?!.*PartialEq)"))
    yield "4d", "lines with a cast by `as`", code("^.*%s.*" % CAST), "functions with one", bodies(CAST)
    yield "4e", "calls of wide, wide16 and index", code(WIDENING), "functions with one", bodies(WIDENING)
    yield ("4f", "functions that print to `out` or a Writer", params(r"\bout: |(?<!self): &mut Writer"),
           "functions with letters in them", bodies("b'|b\""))
    yield ("5a", "facts in three or more contracts, one of which requires it", shared(facts(), 3),
           "facts that three or more require, to the letter",
           shared(((c, f.full) for f in FNS for k, c in f.clauses if k == "requires"), 3))
    yield ("5b", "functions that take a group of loose parameters", (len({f for _, f in groups}), shared(groups, 1)),
           "sets of slices and arrays that five or more functions take", shared(together(), 5))
    yield ("6a", "functions that take a slice to write, and a place in it", params(r"&mut \[u8\], \w+: usize"),
           "functions that write a slice and answer a place", params(r"&mut \[u8\]", "usize"))
    yield ("6b", "functions that take an array, and a count in it", params(r"\[\w+; \w+\], \w+: usize"),
           "functions that write an array and answer a count", params(r"&mut \[\w+; \w+\]", "usize"))
    yield ("6c", "structs with an array or a slice, and a number",
           types("struct", lambda t: re.search(r": [^{;]*\[", t.fields) and re.search(r": (%s)$" % NUMBER, t.fields, re.M)),
           "structs with a field that is named as a count or a place",
           types("struct", lambda t: re.search(r"\b(count|used|nodes|length|end|at): ", t.fields)))
    yield ("6d", "functions that take heads, lefts and rights", params(r"\bheads: .*\blefts: .*\brights: "),
           "bodies that use two arrays at one index", fns(same_index))
    yield ("6e", "loops that return from inside", blocks(LOOP, lambda asked, body, rest: "return" in body),
           "the same, with a constant answer behind them",
           blocks(LOOP, lambda asked, body, rest: "return" in body and re.fullmatch(r"[\w:]+(\(\(\)\))?", rest)))
    yield ("6f", "functions that take before and latest", params(r"\bbefore: .*\blatest: "),
           "functions that take, make or use one of them", fns(lambda f: re.search(r"\bbefore: ", f.params) or re.search(LINKS, f.flat)))
    yield ("6g", "functions that take an array of 256 or 384 numbers", params(r"; (256|384)\]"),
           "bodies that index by a number made wider", bodies(WIDENED))
    yield ("7a", "functions that take a choice: a bool, or an own enum that carries nothing", params(r"(?<!self): (%s|bool)(,|$)" % choice),
           "constants that calls give for one", code(given))
    yield ("7b", "`match` over a choice, a rule or a kind, with an arm that calls a function",
           blocks("match [^{]*?", lambda asked, body, _: re.search(arm, flat(body))), "`match` over what is named so", code(SWITCHED))
    yield "8a", "answers", [a[:3] for a in answers()], "equations that answer", proofs("/Answers.antt", r"^[a-z_]\S*( [a-z])? c =( |$)")
    yield ("8b", "answers of one tactic that names no lemma of its own crate", [a[:3] for a in answers() if a[3]],
           "answers that are a general rule set, cc or arithmetic",
           proofs("/Answers.antt", r"^[a-z_]\S*( [a-z])? c = (search (rules|scan|cases)|cc|omega arith|grind arith)$"))
    yield ("8c", "names that lemmas of two or more crates have", shared(((n, c) for n, _, c in lemmas()), 2),
           "names that they have with the same statement", shared(((n + " : " + s, c) for n, s, c in lemmas()), 2))
    yield ("8d", "texts that three or more answers have", shared(((b, f + "/" + goal) for f, goal, b, _ in answers()), 3),
           "goals of one name and one text in two or more functions", shared(((goal + " = " + b, f) for f, goal, b, _ in answers()), 2))


def main():
    ask = argparse.ArgumentParser(description="Counts the places that docs/DESIGN-PASS.md is about.")
    ask.add_argument("point", nargs="?", metavar="POINT")
    ask.add_argument("--at", metavar="COMMIT")
    ask.add_argument("--other", action="store_true")
    asked, known = ask.parse_args(), False
    for path, raw in sorted(sources(asked.at).items()):
        if path.endswith(".rt"):
            parse(path, raw)
        else:
            PROOFS[path] = raw
    for point, *ways in points():
        rule, places = ways[2:] if asked.other else ways[:2]
        if asked.point in (None, point):
            known = True
            count, places = places if isinstance(places, tuple) else (None, list(places))
            if asked.point:
                print("\n".join(p if isinstance(p, str) else "  ".join(p).rstrip() for p in places))
            else:
                print("%-3s %5d  %s" % (point, len(places) if count is None else count, rule))
    if not known:
        ask.error("no such point")


FNS, TYPES, CODE, PROOFS = [], [], {}, {}

if __name__ == "__main__":
    main()
