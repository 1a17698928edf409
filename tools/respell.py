#!/usr/bin/env python3
"""Brings the repository's own names to the spelling of today's Rattle: run once, right after the kit's port.py.

usage: tools/respell.py [--table] [ROOT]

Words and lemmas are in snake case, types and modules in camel case. A dash joins two names, as in `length-tabulate`; a plain word is added with
`_`, as in `tabulate_cong`. Which parts of a lemma's name are names is told by its statement: a part is one if the statement has the word. A field
of a record and a name that a `let` binds have no dash. A lemma that would get the name of another definition gets `_lem`.

It reads every .antt file below crates/, makes a table of old and new spellings from what they declare, and turns whole words by it in the .antt
files, the .rt files and the must-fail edits, and in what stands between backquotes in README.md and docs/. --table prints the table alone.
"""
import collections
import os
import re
import sys

TOKEN = re.compile(r'[^\s(){}.;,@"«»`|\[\]]+')
SIGN = r'[^\s(){}.;,@"«»`:]+'
DECLARED = re.compile(rf"^(\s*)((?:pub |abbrev |unfoldable )*)({SIGN}(?: {SIGN})*) :(?: |$)(.*)$")
CASES = re.compile(rf"^(\s*)(?:pub )?(?:record|data) ({SIGN})")
LET = re.compile(rf"\blet ({SIGN}) (?::|=)")
CAMEL = re.compile(r"^[a-z][a-z0-9]*(?:[A-Z][a-z0-9]*)+'*$")
# What a name of the logic stands for in a statement: `mul` for *, and the like.
SIGNS = {
    "mul": "* ·", "add": "+", "sub": "-", "pow": "^", "div": "/", "mod": "%", "xor": "⊕", "suc": "suc", "zero": "0", "one": "1",
    "append": "++", "cons": "∷", "nil": "[]", "le": "≤", "lt": "<", "eqb": "==", "getD": "getD", "not": "not", "and": "and", "or": "or",
}


def snake(word):
    return re.sub(r"(?<=[a-z0-9])([A-Z])", lambda m: "_" + m[1].lower(), word).replace("getD", "get_or").replace("get_d", "get_or")


def files(root, *endings):
    for folder, dirs, names in os.walk(os.path.join(root, "crates")):
        dirs[:] = sorted(d for d in dirs if d != "out")
        for name in sorted(names):
            if name.endswith(endings):
                yield os.path.join(folder, name)


def read(path):
    with open(path, encoding="utf-8") as f:
        return f.read()


def of_a_function(path):
    """Whether a file answers goals of a function: what it declares has names of the checker's making."""
    return os.path.basename(path) in ("Proof.antt", "Answers.antt", "Invariants.antt") and "/proofs/" in path


class Names:
    def __init__(self, root):
        self.statements = collections.defaultdict(list)  # of a lemma or a definition, by its name
        self.fields, self.bound, self.types = set(), set(), set()
        self.outside = set()  # names that some file takes from the logic or from std: they keep their spelling everywhere
        crates = set(os.listdir(os.path.join(root, "crates")))
        for path in files(root, ".antt"):
            for m in re.finditer(r"^ *(?:open )?use ([\w.+◌']+)\.\{([^}]*)\}", read(path), re.M):
                module = m[1].split(".")
                if not (module[0] == "Rattle" and module[1] in crates):
                    self.outside |= set(TOKEN.findall(m[2]))
            if of_a_function(path):
                for m in LET.finditer(read(path)):
                    self.bound.add(m[1])
            else:
                self.declared(path)

    def declared(self, path):
        lines = read(path).splitlines()
        inside = None  # the indentation of the record at hand
        for at, line in enumerate(lines):
            code = line.split(" -- ")[0]
            for m in LET.finditer(code):
                self.bound.add(m[1])
            head = CASES.match(code)
            if head:
                self.types.add(head[2])
                inside = len(head[1])
                continue
            if code.strip() and inside is not None and len(code) - len(code.lstrip()) <= inside:
                inside = None
            m = DECLARED.match(code)
            if not m or code.lstrip().startswith(("--", "use ", "module ", "let ", "λ", "(", "in ", "record ")):
                continue
            statement = m[4]
            for further in lines[at + 1 :]:
                if re.match(rf"^\s*(?:unfolding\b|{re.escape(m[3].split()[0])} )", further) or not further.strip():
                    break
                statement += " " + further
            for name in m[3].split():
                if inside is not None and len(m[1]) > inside:
                    self.fields.add(name)
                else:
                    self.statements[name].append(statement)

    def goals(self, path):
        """The names that a function's proof file declares itself."""
        own = set()
        for line in read(path).splitlines():
            m = DECLARED.match(line)
            if m and not line.startswith(" "):
                own.add(m[3].split()[0])
        return own

    def lemma(self, name):
        said = " ".join(self.statements[name])
        words = {snake(t) for t in TOKEN.findall(said)}

        def is_name(part):
            return part in words or any(s in words for s in SIGNS.get(part, "").split()) or not re.match(r"^[\w']+$", part) or part[0].isupper()

        parts = [snake(p) for p in name.split("-")]
        new = parts[0]
        named = is_name(parts[0])
        for part in parts[1:]:
            here = is_name(part)
            new += ("-" if here and named else "_") + part
            named = named or here
        return new

    def table(self):
        table = {}
        for name in sorted(self.statements):
            if CAMEL.match(name):
                table[name] = snake(name)
        words = set(table.values())
        for name in sorted(self.fields | self.bound):
            if name not in self.statements and (CAMEL.match(name) or "-" in name.strip("-")):
                new = "_".join(snake(p) for p in name.split("-"))
                table[name] = new if name in self.fields or new not in words else new + "_here"
        taken = set(table.values()) | {n for n in self.statements if n not in table and "-" not in n}
        for name in sorted(self.statements):
            if "-" in name.strip("-") and name not in table:
                new = self.lemma(name)
                if name in self.fields:
                    new = "_".join(snake(p) for p in name.split("-"))
                if new in taken:
                    new += "_lem"
                taken.add(new)
                table[name] = new
        return {old: new for old, new in table.items() if old != new and old not in self.outside}


def turn(text, table, own=(), dotted=None):
    """The text with the words of the table turned, but for those in own, and behind a dot those alone that are in dotted, if it is given."""

    def one(m):
        word = m[0]
        if dotted is not None and word not in dotted and text[m.start() - 1 : m.start()] == ".":
            return word
        if word in table and word not in own:
            return table[word]
        bare = word.rstrip("'")
        if bare != word and bare in table and bare not in own:
            return table[bare] + word[len(bare):]
        return word

    return TOKEN.sub(one, text)


def main(argv):
    show = "--table" in argv
    root = next((a for a in argv if not a.startswith("--")), ".")
    names = Names(root)
    table = names.table()
    if show:
        for old, new in sorted(table.items()):
            print(f"{old}\t{new}")
        return
    for path in files(root, ".antt", ".rt", ".edit"):
        old = read(path)
        new = turn(old, table, names.goals(path), names.fields) if of_a_function(path) else turn(old, table)
        if new != old:
            with open(path, "w", encoding="utf-8") as f:
                f.write(new)
    pages = [os.path.join(root, "README.md")] + [os.path.join(root, "docs", n) for n in sorted(os.listdir(os.path.join(root, "docs"))) if n.endswith(".md")]
    for path in pages:
        old = read(path)
        new = re.sub(r"`[^`\n]+`", lambda m: turn(m[0], table), old)
        if new != old:
            with open(path, "w", encoding="utf-8") as f:
                f.write(new)


if __name__ == "__main__":
    main(sys.argv[1:])
