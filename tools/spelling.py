#!/usr/bin/env python3
"""Spells the repository's own names of specs/ and proofs/ as the library does: words in snake case, types in camel case,
and a dash only between two names (of functions, constructors or types). Names of src/ stay, and so do those that Rattle
makes for proofs.

usage: tools/spelling.py [--table FILE]      in the repository: rewrites crates/ in place
       --table FILE    writes a line `old new` for each name that changes

It was run once, on the commit in which port.py ran, and refuses to run where no name is in the older spelling.
"""

import glob
import re
import sys

KIT = {"std", "core", "io", "libc", "os"}
TOKEN = re.compile(r"[^\s(){}.;,@\"«»\[\]`|]+")
STRING = re.compile(r'"(?:[^"\\\n]|\\.)*"')
USE = re.compile(r"(?m)^[ \t]*(?:ghost )?(?:pub )?use ([^\s{;]+?)(?:\.\{([^}]*)\})?(?: as ([^\s;]+))?;?$")
SIGNATURE = re.compile(r"^(\s*)((?:(?:pub|abbrev|unfoldable|opaque) )*)([^\s:(){}λ]+)((?: [{(][^{}()]*(?:\([^()]*\)[^{}()]*)*[})])*) : ")

# The library's functions and constructors that the names of lemmas are made of.
LIBRARY = set(
    "length take drop append set sets get_or getD replicate map suc zero add mul sub le lt eq pow mod div and or not cond "
    "true false sum reverse concat filter mem ap refl sym all any min max Mem head last list insert remove trailing"
    " bit_and bit_or bit_xor shl shr".split()
)
# Constructors that would meet a definition.
CONSTRUCTORS = {
    "open-call": "pool_open",
    "offer-call": "pool_offer",
    "take-call": "pool_take",
    "find-call": "pool_find",
    "close-call": "pool_close",
    "turned-back": "turns_back",
}
# Laws that an earlier script had spelled already, and that would now meet a definition: where they stand, and their names.
LAWS = {
    "crates/demands/specs/": ["window_bytes", "room_of", "held_one", "joined_in"],
    "crates/pactl/specs/": ["not_line", "as_line"],
    "crates/rules/specs/lines/LinesMean.antt": ["not_line", "as_line"],
    "crates/call_close/proofs/StayingSteps.antt": ["moved-to"],
    "crates/call_close/proofs/staying/settle/": ["moved-to"],
}


def ours(module):
    m = re.match(r"Rattle\.(\w+)\.", module)
    return bool(m) and m.group(1) not in KIT


def read(path):
    with open(path, encoding="utf-8") as f:
        return f.read()


def uncommented(text):
    return re.sub(r"(?m)(^|(?<=\s))--[^\n]*", "", text)


def is_walk(path):
    return path.endswith("/Proof.antt")


def snake(word):
    if not word or word[0].isupper():
        return word
    word = re.sub(r"(?<=[a-z0-9₀-₉])([A-Z]+)(?=[A-Z][a-z])", lambda m: "_" + m[1].lower() + "_", word)
    return re.sub(r"(?<=[a-z0-9₀-₉])([A-Z]+)", lambda m: "_" + m[1].lower(), word)


def is_old(token):
    if token.startswith("+") or not re.search(r"[A-Za-z]", token) or token.startswith("--"):
        return False
    if re.search(r"[\w'₀-₉]-[\w]", token):
        return True
    return bool(re.match(r"[a-z](?:[\w']*?[a-z0-9₀-₉])?[A-Z]", token))


class Names:
    """What the texts declare: definitions (functions and types), fields, and all names."""

    def __init__(self, specs, walks):
        self.definitions, self.fields, self.declared = set(), set(), set()
        for path in specs:
            text = uncommented(read(path))
            inside = None
            for line in text.split("\n"):
                m = re.match(r"^(?:pub )?(record|data) (\S+)", line)
                if m:
                    inside = m[1]
                    self.definitions.add(m[2])
                    self.declared.add(m[2])
                elif line and not line.startswith(" "):
                    inside = None
                m = SIGNATURE.match(line)
                if not m:
                    continue
                for name in m[3].split():
                    self.declared.add(name)
                if m[1] and inside == "record":
                    self.fields.add(m[3])
                elif m[1] and inside == "data":
                    self.definitions.add(m[3])
                elif not m[1] and re.search(r"abbrev|unfoldable", m[2]):
                    self.definitions.add(m[3])
            # Constructors on one line: data D : Type 0 where a : D | b : D
            for m in re.finditer(r"(?m)^(?:pub )?data [^\n]*\n((?:[ \t]+[^\n]*\n)*)", text):
                for it in re.finditer(r"(?m)^[ \t]+\|? ?([^\s:]+) :", m[1]):
                    self.definitions.add(it[1])
                    self.declared.add(it[1])
            for m in USE.finditer(text):
                if not ours(m[1]) and m[2]:
                    LIBRARY.update(it.strip() for it in m[2].split(",") if re.fullmatch(r"[A-Za-z_]\w*", it.strip()))
        self.known = {snake(it) for it in self.definitions} | self.definitions | LIBRARY

        # A law that would have a definition's name gets `_lem`.
        camel = {snake(it) for it in self.declared if re.match(r"[a-z][^-]*[A-Z][^-]*$", it)}
        self.meet = {it for it in self.declared if "-" in it and it not in self.fields and self.spelled(it) in camel}

    def new(self, token):
        if token in CONSTRUCTORS:
            return CONSTRUCTORS[token]
        new = self.spelled(token)
        return new + "_lem" if token in self.meet else new

    def spelled(self, token):
        prime = re.match(r"^(.*?)('*)$", token)
        base, prime = prime[1], prime[2]
        parts = [snake(it) for it in base.split("-")]
        if base in self.fields:
            return "_".join(parts) + prime
        out = parts[0]
        for left, right in zip(parts, parts[1:]):
            out += ("-" if left in self.known and right in self.known else "_") + right
        return out + prime


def imported(text):
    """The names that a text has from the kit, and the modules of the kit under a name of their own."""
    names, modules = set(), set()
    for m in USE.finditer(text):
        if ours(m[1]):
            continue
        if m[2]:
            for it in m[2].split(","):
                names.update(w.strip() for w in it.split(" as "))
        if m[3] or not m[2]:
            modules.add(m[3] or m[1].split(".")[-1])
    return names, modules


def turned_antt(path, text, names, table):
    kit, modules = imported(text)
    walk = is_walk(path)
    out, at = [], 0
    use_spans = [(m.start(), m.end()) for m in USE.finditer(text) if not ours(m[1])]

    laws = [it for where, those in LAWS.items() if path.startswith(where) for it in those]

    def turn(m):
        token = m.group()
        if token in laws:
            return token.replace("-", "_") + "_lem"
        if not is_old(token):
            return token
        start = m.start()
        if any(a <= start < b for a, b in use_spans):
            return token
        before = text[start - 1] if start else "\n"
        dotted = before == "." and start > 1 and not text[start - 2].isspace()
        if walk:
            if dotted:
                head = re.search(r"([^\s(){};,\[\]]*)\.$", text[:start])
                if head and head[1].split(".")[0] in ("tie", "goal") or token not in names.fields:
                    return token
            elif re.search(r"(?m)^(?:abbrev |pub )*" + re.escape(token) + r"(?: \{[^}]*\})* : \{?(tie\.(Need|invariant|decreases)|M)", text):
                return token
        if dotted:
            head = re.search(r"([^\s(){};,\[\]]*)\.$", text[:start])
            if head and head[1].split(".")[0] in modules | {"mathlib"}:
                return token
        elif token in kit:
            return token
        new = names.new(token)
        if new != token:
            table[token] = new
        return new

    lines = []
    pos = 0
    for line in text.split("\n"):
        code, comment = line, ""
        c = re.search(r"(^|\s)--( |$)", line)
        if c:
            code, comment = line[: c.start()], line[c.start():]
        lines.append((pos, code, comment))
        pos += len(line) + 1
    for pos, code, comment in lines:
        done, last = "", 0
        for m in TOKEN.finditer(text, pos, pos + len(code)):
            done += text[pos + last: m.start()] + turn(m)
            last = m.end() - pos
        done += code[last:]
        out.append(done + turned_comment(comment, names, table, kit))
    return "\n".join(out)


def turned_comment(comment, names, table, kit=()):
    """In comments: what stands in backquotes and is declared, and words in camel case that are declared."""
    said = {"last": ""}

    def quoted(m):
        inner = m[1]

        def word(w):
            t = w.group()
            if t.startswith("-") and said["last"]:
                cut = re.search(r"[-_][^-_]*$", said["last"])
                return (cut[0][0] if cut else "-") + t[1:].replace("-", "_")
            if (t in names.declared or t in table) and is_old(t) and t not in kit:
                said["last"] = names.new(t)
                return said["last"]
            return t

        return "`" + TOKEN.sub(word, inner) + "`"

    comment = re.sub(r"`([^`]*)`", quoted, comment)
    return re.sub(r"(?<![`\w-])[a-z]+[a-z0-9]*[A-Z]\w*", lambda m: names.new(m[0]) if m[0] in names.declared else m[0], comment)


def turned_rt(text, names, table):
    """In a source: names of specs/ in clauses and comments. Names of the program have no capitals inside, so each word in
    camel case is of specs/; words with a dash stand in clauses alone."""
    out = []
    kit, _ = imported(text)
    for line in text.split("\n"):
        c = re.search(r"(^|\s)//( |$)", line)
        code, comment = (line[: c.start()], line[c.start():]) if c else (line, "")
        clause = bool(re.match(r"\s*(ghost|requires|ensures)\b", code)) or "≡" in code
        if re.match(r"\s*ghost use ", code) and not ours(re.match(r"\s*ghost use ([^\s{;]+)", code)[1]):
            out.append(line)
            continue

        def turn(m):
            t = m.group()
            if not is_old(t) or t in kit or ("-" in t and not clause) or t not in names.declared:
                return t
            table[t] = names.new(t)
            return table[t]

        spans = [m.span() for m in STRING.finditer(code)]
        done, last = "", 0
        for m in TOKEN.finditer(code):
            if any(a <= m.start() < b for a, b in spans):
                continue
            done += code[last: m.start()] + turn(m)
            last = m.end()
        done += code[last:]
        out.append(done + turned_comment(comment, names, table))
    return "\n".join(out)


def main(argv):
    antt = sorted(glob.glob("crates/*/specs/**/*.antt", recursive=True) + glob.glob("crates/*/proofs/**/*.antt", recursive=True))
    sources = sorted(glob.glob("crates/*/src/**/*.rt", recursive=True))
    walks = [p for p in antt if is_walk(p)]
    specs = [p for p in antt if not is_walk(p)]
    names = Names(specs, walks)
    if not any(re.match(r"[a-z]+[A-Z]", it) for it in names.declared):
        print("no name is in the older spelling: nothing to do")
        return 2
    table, news = {}, {}
    for path in antt:
        news[path] = turned_antt(path, read(path), names, table)
    for path in sources:
        news[path] = turned_rt(read(path), names, table)
    faults = met(news, table, names)
    if argv[:1] == ["--table"]:
        with open(argv[1], "w", encoding="utf-8") as f:
            for old in sorted(table):
                f.write(f"{old} {table[old]}\n")
        argv = argv[2:]
    for line in faults:
        print(line)
    if argv[:1] == ["--check"]:
        return 1 if faults else 0
    for path, text in news.items():
        if text != read(path):
            with open(path, "w", encoding="utf-8") as f:
                f.write(text)
    return 0


def met(news, table, names):
    """Where two names of one file fall together, or all over the repository where both are exported."""
    faults = []
    back = {}
    for old, new in table.items():
        back.setdefault(new, set()).add(old)
    for new, olds in sorted(back.items()):
        if len(olds) > 1:
            faults.append(f"one name: {sorted(olds)} -> {new}")
    for path in news:
        text = uncommented(read(path)) if path.endswith(".antt") else re.sub(r"//[^\n]*", "", read(path))
        words = {}
        for m in TOKEN.finditer(text):
            start = m.start()
            dotted = start > 1 and text[start - 1] == "." and not text[start - 2].isspace()
            words.setdefault(m.group(), set()).add(dotted)
        for w, kinds in words.items():
            new = table.get(w)
            if new and new in words and False in words[new] and False in kinds:
                faults.append(f"{path}: {w} -> {new}, which stands there already")
    return faults


if __name__ == "__main__":
    raise SystemExit(main(sys.argv[1:]))
