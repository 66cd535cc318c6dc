#!/usr/bin/env python3
"""respell.py [--look]: spells the names that this repository's antt declares as today's Rattle does. Run once, at the top, after port.py.

Definitions, lemmas, constructors and fields that are declared in specs/ and proofs/ get snake case (headerAt, header-end: header_at, header_end), types keep camel case;
a prime is an apostrophe. A crate that has the name of a library of the kit gets the name that CRATES gives. Goes by words, as antt cuts them; a word that a file imports from a library
stays in that file, and so does what Rattle makes itself (behind goal., c., tie. and in folders of functions). Names of src/, strings, inputs and outputs stay.
--look writes nothing and prints the names that fall together.
"""
import io
import pathlib
import re
import subprocess
import sys
import tarfile

CRATES = {"bytes": "byte_numbers"}
# Names that would meet another: what they are called instead.
INSTEAD = {"nan-bits": "nan_bits_lem"}
# Names in snake case, in the files that are named, that a definition's new name would meet: lemmas, a parameter, a rule set.
MADE_WAY = {
    "in_row": ("in_this_row", ["cell_text/proofs/Laws"]),
    "rows_in": ("rows_in_lem", ["new_reading/proofs/Reading"]),
    "columns_of": ("columns_of_lem", ["profile/proofs/Claims"]),
    "units_of": ("units_of_lem", ["reads_after/proofs/Cells"]),
    "text_at": ("text_at_lem", ["text_result/proofs/Local", "record_chain/proofs/Text"]),
    "runs_by": ("runs_by_lem", ["replay/proofs/Running"]),
    "wide_bit": ("wide_bit_lem", ["table_texts/proofs/Table", "table_size/proofs/Laws", "table_writer/proofs/Parts", "table_writer/proofs/Whole"]),
    "head_at": ("head_at_lem", ["table_texts/proofs/Table"]),
    "head_bytes": ("head_bytes_lem", ["table_writer/proofs/Whole"]),
    "on_step": ("on_step_laws", ["tokens/proofs/Formula"]),
}
WORD = re.compile(r'[^\s(){}.;,@"«»`]+')
DECLARED = re.compile(r"^ *(?:(?:pub|abbrev|unfoldable|data|record) +)*([^\s(){}.;,@\"«»:]+)(?: [({][^\n]*)? :(?: |$)", re.M)
RULES = re.compile(r"^ *(?:pub )?ruleset (\S+) =", re.M)
USE = re.compile(r"\buse ([^\s;{]+?)\.?\{([^}]*)\}")
ANSWER = re.compile(r"/proofs/.+/(Proof|Answers|Invariants)\.antt$")
HEADS = {"goal", "c", "w", "l", "g", "tie", "κs"}


def snake(name):
    if name in INSTEAD:
        return INSTEAD[name]
    if name[:1].isupper():
        # a type, or a law that begins with one: a prime alone is respelled
        return name.replace("′", "'")
    new = re.sub(r"(?<=[a-z0-9])[A-Z]+", lambda m: "_" + m[0].lower(), name)
    return new.replace("-", "_").replace("′", "'")


def own(path):
    return path.startswith("Rattle.") and not re.match(r"Rattle\.(std|core|std_\w+)\.", path)


def files():
    for p in sorted(pathlib.Path("crates").rglob("*")):
        if p.suffix in (".antt", ".rt") and p.is_file() and "/out/" not in str(p):
            yield p


def declared(text):
    names = set(DECLARED.findall(text)) | set(RULES.findall(text))
    return {n for n in names if re.match(r"[a-zA-Z]", n) and "_" != n}


def main():
    look = "--look" in sys.argv
    texts = {p: p.read_text(encoding="utf-8") for p in files()}
    table = {}
    for p, t in texts.items():
        if p.suffix == ".antt":
            for n in declared(t):
                if snake(n) != n:
                    table[n] = snake(n)
    there = set()
    for p, t in texts.items():
        if p.suffix == ".antt":
            there |= declared(t) - set(table)
    for old, new in list(table.items()):
        if "-" in old and new in there and not new.endswith("_lem"):
            table[old] = new + "_lem"
        elif new in there and new not in MADE_WAY:
            print(f"there: {old} -> {new}")
    print(f"respell: {len(table)} names")
    meet = {}
    for old, new in table.items():
        meet.setdefault(new, set()).add(old)
    for new, olds in sorted(meet.items()):
        if len(olds) > 1:
            lemmas = sorted(o for o in olds if "-" in o)
            if len(olds) - len(lemmas) > 1 or len(lemmas) > 1:
                print(f"meet: {sorted(olds)} -> {new}")
            for o in lemmas:
                table[o] = new + "_lem"
    out = {}
    for p, t in texts.items():
        out[p] = turn(p, t, table, look)
    if look:
        return
    for p, t in out.items():
        if t != texts[p]:
            p.write_text(t, encoding="utf-8")
    edits(table)
    pages(before(table))
    for old, new in CRATES.items():
        pathlib.Path("crates", old).rename(pathlib.Path("crates", new))


LANDED = "eedfe21da787245255644a5ebd6409756cad2e6f"


def before(table):
    """The table, with the names that port.py had turned already: each name that LANDED declares, and what it is called now."""
    whole = dict(table)
    said = subprocess.run(["git", "archive", LANDED, "crates"], capture_output=True, check=True).stdout
    with tarfile.open(fileobj=io.BytesIO(said)) as tar:
        for m in tar:
            if m.isfile() and m.name.endswith(".antt"):
                for n in declared(tar.extractfile(m).read().decode("utf-8")):
                    if n not in whole and snake(n) != n:
                        whole[n] = snake(n)
    return whole


def edits(table):
    """Must-fail edits: their definitions and laws, and the crates' new names."""
    for p in sorted(pathlib.Path("crates").glob("*/must-fail/*.edit")):
        t = p.read_text(encoding="utf-8")
        if re.match(r"file: (specs|proofs)/", t):
            new = words(re.sub(r"\bRattle·", "Rattle.", t), table, False)
        else:
            new = t
        for old, name in CRATES.items():
            new = re.sub(rf"\bRattle\.{old}\.", f"Rattle.{name}.", new)
            new = re.sub(rf"(?<![\w:.]){old}::", f"{name}::", new)
        if new != t:
            p.write_text(new, encoding="utf-8")


def pages(table):
    """The pages: what stands in backticks, and the book's lists of names."""
    said = set()

    def turned(text):
        def one(m):
            w = m[0]
            if w in table and not w.endswith("s's"):
                said.add(w)
            return table.get(w, w)

        text = re.sub(r"[\w'′-]+", one, text)
        for old, name in CRATES.items():
            text = re.sub(rf"(?<![\w/:.-]){old}(?=::|/)", name, text)
            text = re.sub(rf"^{old}$", name, text)
        return text

    root = pathlib.Path(".")
    for p in [root / "README.md", *sorted((root / "docs").rglob("*.md"))]:
        t = p.read_text(encoding="utf-8")
        if p.name == "BOOK.md":
            continue
        new = re.sub(r"`([^`\n]+)`", lambda m: "`" + turned(m[1]) + "`", t)
        if new != t:
            p.write_text(new, encoding="utf-8")
    for p in sorted((root / "docs" / "book").glob("*.txt")):
        lines = p.read_text(encoding="utf-8").split("\n")
        for i, line in enumerate(lines):
            if line.startswith("- "):
                names, colon, rest = line.partition(": ")
                lines[i] = turned(names).replace(" bytes/", " byte_numbers/") + colon + rest
        p.write_text("\n".join(lines), encoding="utf-8")
    p = root / "crates.txt"
    t = p.read_text(encoding="utf-8")
    for old, name in CRATES.items():
        t = "\n".join(x if x.startswith("#") else re.sub(rf"\b{old}\b", name, x) for x in t.split("\n"))
    p.write_text(t, encoding="utf-8")
    print("pages: " + " ".join(sorted(said)))


def clause_spans(text):
    """The clauses and ghost items of a .rt file, by braces."""
    for m in re.finditer(r"\b(?:requires|ensures)\*?(?: \w+)? \{|\bghost use [^;]*;|\bghost \w+[^{;\n]*\{", text):
        if m[0].endswith(";"):
            yield m.start(), m.end()
            continue
        depth, i = 1, m.end()
        while depth:
            depth += {"{": 1, "}": -1}.get(text[i], 0)
            i += 1
        yield m.start(), i


def turn(path, text, table, look):
    for old, (new, where) in MADE_WAY.items():
        if str(path)[7:-5] in where:
            text = re.sub(rf"(?<![\w.'-]){old}(?![\w.'-])", new, text)
    for old, new in CRATES.items():
        text = re.sub(rf"\bRattle\.{old}\.", f"Rattle.{new}.", text)
        if path.suffix == ".rt":
            text = re.sub(rf"(?<![\w:.]){old}::", f"{new}::", text)
    lent = set()
    for m in USE.finditer(text):
        if not own(m[1]):
            for item in m[2].split(","):
                lent.add(item.strip().split(" as ")[-1].strip())
    mine = {o: n for o, n in table.items() if o not in lent}
    if path.suffix == ".rt":
        out, last = [], 0
        for a, b in clause_spans(text):
            if a < last:
                continue
            out += [text[last:a], words(text[a:b], mine, False)]
            last = b
        new = "".join(out) + text[last:]
    else:
        new = words(text, mine, bool(ANSWER.search(str(path))))
    if look:
        falls(path, text, mine)
    return new


def falls(path, text, mine):
    """Names that would meet another word of the file: of its code in antt, of a function's parameters and clauses in Rattle."""
    if path.suffix == ".antt":
        before = set(WORD.findall(re.sub(r"\b(Rattle|\w+)(\.[\w+-]+)+\.", "", code(text))))
        for o, n in mine.items():
            if o in before and n in before:
                print(f"fall: {path}: {o} -> {n}")
        return
    for a, b in clause_spans(text):
        if text[a:b].startswith("ghost use"):
            continue
        said = set(WORD.findall(text[a:b]))
        head = text[text.rfind("fn ", 0, a):a]
        for o, n in mine.items():
            if o in said and (n in said or re.search(rf"\b{n}:", head)):
                print(f"fall: {path}: {o} -> {n}")


def code(text):
    return re.sub(r"(?m)(^|\s)--( .*|)$", r"\1", text)


def words(text, mine, answer):
    def one(m):
        w = m[0]
        if w not in mine:
            return w
        i = m.start()
        if i and text[i - 1] == "." and answer:
            head = re.search(r"([^\s(){};,@\"«»]+)\.$", text[:i])
            if head and head[1].split(".")[0] in HEADS and len(head[1].split(".")) == 1:
                return w
        return mine[w]

    return WORD.sub(one, text)


main()
