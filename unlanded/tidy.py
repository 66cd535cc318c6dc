#!/usr/bin/env python3
"""tidy.py TREE [--dry] [--keep=NAME,NAME]: takes out of the crates of TREE what nothing uses.

Imports that their file never names; laws of proofs/ and inner definitions of specs/ (those that no contract, law, document or book names); modules
that are then empty; 'pub' before a function of src/ that no other crate calls, is left alone (printed only).
Works by names, file by file: a law counts as used where its own file names it outside its own text, or where another file imports it.
Prints what it took out.
"""
import pathlib
import re
import sys

TREE = pathlib.Path(sys.argv[1])
DRY = "--dry" in sys.argv
CRATES = TREE / "crates"
KEEP = {n for a in sys.argv if a.startswith("--keep=") for n in a[7:].split(",")}
SPLIT = re.compile(r"[\s(){};,.@]+")
SIG = re.compile(r"^( *)((?:pub |abbrev |unfoldable )*)([^\s(){};,.:]+) : ")
SIG_END = re.compile(r"^( *)((?:pub |abbrev |unfoldable )*)([^\s(){};,.:]+) :$")
RULES = re.compile(r"^( *)(?:pub )?ruleset (\S+) = \(?(.*?)\)?$")
USE = re.compile(r"^( *)((?:pub )?use |ghost use )(\S+?)\.\{(.*)\}(;?)$")
USE_AS = re.compile(r"^( *)(?:pub )?(?:ghost )?use (\S+) as (\S+?);?$")


def tokens(text):
    return set(SPLIT.split(text))


def code_only(text):
    """Without comments; '--' starts one in antt, '//' in rt."""
    return re.sub(r"(?m)(^|\s)--( .*|)$", r"\1", text)


def module_of(path):
    """'crate/specs/Module' of a path as a use line has it, or None for what is not the tree's own."""
    m = re.match(r"Rattle·(\w+)(?:·(?:specs|proofs)\.(specs|proofs)|\.(specs|proofs))\.(.+)$", path)
    return f"{m.group(1)}/{m.group(2) or m.group(3)}/{m.group(4)}" if m else None


class File:
    def __init__(self, path):
        self.path = path
        self.rt = path.suffix == ".rt"
        rel = path.relative_to(CRATES).with_suffix("")
        self.crate = rel.parts[0]
        self.module = "/".join(rel.parts) if len(rel.parts) == 3 and rel.parts[1] in ("specs", "proofs") else None
        self.lines = path.read_text(encoding="utf-8").split("\n")
        self.changed = False

    def body(self):
        """What is not a use line and no comment."""
        out = []
        for line in self.lines:
            if USE.match(line) or USE_AS.match(line):
                continue
            out.append(line)
        text = "\n".join(out)
        if self.rt:
            return re.sub(r"//.*", "", text)
        return code_only(text)

    def imports(self):
        """module -> names imported; aliases -> modules"""
        names, whole = {}, []
        for line in self.lines:
            m = USE.match(line)
            if m:
                mod = module_of(m.group(3))
                if mod:
                    for item in m.group(4).split(","):
                        names.setdefault(mod, set()).add(item.split(" as ")[0].strip())
                continue
            m = USE_AS.match(line)
            if m:
                mod = module_of(m.group(2))
                if mod:
                    whole.append(mod)
        return names, whole

    def save(self):
        if self.changed and not DRY:
            self.path.write_text("\n".join(self.lines), encoding="utf-8")


def said(name, toks):
    """Whether an imported name is named: a mixfix one by any of its parts."""
    if name in toks:
        return True
    if "_" in name:
        return any(p and p in toks for p in name.split("_"))
    return False


def drop_imports(f):
    """Takes unused names out of the use lines of a file."""
    toks = tokens(f.body())
    took = []
    out = []
    for line in f.lines:
        m = USE.match(line)
        if m and not m.group(2).startswith("pub"):
            items = [x.strip() for x in m.group(4).split(",")]
            kept = [x for x in items if said(x.split(" as ")[-1].strip(), toks)]
            if len(kept) < len(items):
                took += [x for x in items if x not in kept]
                f.changed = True
                if not kept:
                    continue
                line = f"{m.group(1)}{m.group(2)}{m.group(3)}.{{{', '.join(kept)}}}{m.group(5)}"
            out.append(line)
            continue
        m = USE_AS.match(line)
        if m and not line.lstrip().startswith("pub"):
            if m.group(3) not in toks:
                took.append("as " + m.group(3))
                f.changed = True
                continue
        out.append(line)
    f.lines = out
    return took


def indent(line):
    return len(line) - len(line.lstrip(" "))


class Block:
    """A law with its text: lines [start, end), its comment included."""

    def __init__(self, name, start, sig, end, rules=None):
        self.name, self.start, self.sig, self.end, self.rules = name, start, sig, end, rules


def blocks_of(f):
    """The laws of a file, each a paragraph that starts with its signature; what follows it, indented deeper, belongs to it."""
    out = []
    lines = f.lines
    n = len(lines)
    i = 0
    while i < n:
        line = lines[i]
        if line.startswith("use ") or line.lstrip().startswith("--") or not line.strip():
            i += 1
            continue
        rules = RULES.match(line)
        m = SIG.match(line) or SIG_END.match(line)
        ahead = i == 0 or not lines[i - 1].strip() or lines[i - 1].lstrip().startswith("--") or re.match(r"^ *module .* where$", lines[i - 1]) or RULES.match(lines[i - 1]) \
            or re.match(r"^ +\(.*where$", lines[i - 1])
        if rules and ahead:
            j = i + 1
            while j < n and lines[j].strip() and indent(lines[j]) > indent(line):
                j += 1
            alone = j >= n or not lines[j].strip()
            out.append(Block(rules.group(2), comment_start(lines, i) if alone else i, i, j, rules=True))
            i = j
            continue
        if m and ahead:
            ind = len(m.group(1))
            name = m.group(3)
            j = i + 1
            # to the end of the paragraph, and over paragraphs that stand deeper
            while j < n:
                if lines[j].strip():
                    if indent(lines[j]) < ind:
                        break
                    j += 1
                    continue
                k = j
                while k < n and not lines[k].strip():
                    k += 1
                if k < n and indent(lines[k]) > ind:
                    j = k
                    continue
                break
            # one signature only
            sigs = [x for x in lines[i:j] if (SIG.match(x) or SIG_END.match(x)) and indent(x) == ind]
            start = comment_start(lines, i)
            if len(sigs) == 1:
                out.append(Block(name, start, i, j))
            i += 1 if len(sigs) != 1 else j - i
            continue
        i += 1
    return out


def comment_start(lines, i):
    """Where the comment right above line i starts; a heading belongs to all that follows it."""
    start = i
    while start > 0 and lines[start - 1].lstrip().startswith("--") and not lines[start - 1].lstrip().startswith("-- ----") and indent(lines[start - 1]) == indent(lines[i]):
        start -= 1
    return i if start <= 1 else start


def empty_modules(f):
    """Takes out 'module … where' that nothing follows, and headings that nothing follows."""
    again = True
    while again:
        again = False
        lines = f.lines
        for i, line in enumerate(lines):
            if re.match(r"^ *module ", line):
                end = i
                while end < len(lines) and not lines[end].rstrip().endswith(" where"):
                    end += 1
                k = end + 1
                while k < len(lines) and not lines[k].strip():
                    k += 1
                if k >= len(lines) or indent(lines[k]) <= indent(line):
                    f.lines = lines[:comment_start(lines, i)] + lines[end + 1:]
                    f.changed = again = True
                    break
            elif line.lstrip().startswith("-- ----"):
                k = i + 1
                while k < len(lines) and not lines[k].strip():
                    k += 1
                if k >= len(lines) or lines[k].lstrip().startswith("-- ----") or indent(lines[k]) < indent(line):
                    f.lines = lines[:i] + lines[i + 1:]
                    f.changed = again = True
                    break


def neat(f):
    out = []
    for line in f.lines:
        if not line.strip() and (not out or not out[-1].strip()):
            continue
        out.append(line)
    while out and not out[-1].strip():
        out.pop()
    f.lines = out + [""]


def drop_pubs(files):
    """'pub' before a function that only its own file calls and no document names."""
    docs = "".join(p.read_text(encoding="utf-8") for p in [TREE / "README.md", *(TREE / "docs").glob("*.md"), *(TREE / "docs" / "book").glob("*.txt")] if p.name != "BOOK.md")
    for f in files:
        if not f.rt:
            continue
        for i, line in enumerate(f.lines):
            m = re.match(r"pub fn (\w+)", line)
            if not m or i and f.lines[i - 1].startswith("#["):
                continue
            name = m.group(1)
            if name in KEEP or re.search(rf"\b{f.crate}::{name}\b", docs):
                continue
            if any(re.search(rf"(?:\b{f.crate}::|crate::|\w+::){name}\b", "\n".join(g.lines)) for g in files if g.rt and g is not f and (g.crate == f.crate or f"{f.crate}::{name}" in "\n".join(g.lines))):
                continue
            if any(f"Rattle·{f.crate}.proofs.{name}." in "\n".join(g.lines) for g in files if not g.rt):
                continue
            calls = sum(len(re.findall(rf"(?<![\w:.]){name}\(", x)) for x in f.lines)
            if calls < 2:
                print(f"nobody calls {f.crate}::{name}")
                continue
            print(f"pub {f.crate}::{name}")
            f.lines[i] = line[4:]
            f.changed = True


def main():
    files = [File(p) for p in sorted(CRATES.rglob("*")) if p.suffix in (".rt", ".antt") and p.is_file()]
    # what the documents name: in backticks, and in the book's lines of names
    doc_toks = set()
    for p in sorted((TREE / "docs").rglob("*.md")) + [TREE / "README.md"]:
        if p.name != "BOOK.md":
            for quoted in re.findall(r"`([^`]+)`", p.read_text(encoding="utf-8")):
                doc_toks |= set(re.split(r"[^\w′'-]+", quoted))
    for p in sorted((TREE / "docs" / "book").glob("*.txt")):
        for line in p.read_text(encoding="utf-8").splitlines():
            if line.startswith("- "):
                doc_toks |= set(re.split(r"[\s/.:]+", line[2:].partition(": ")[0]))
    edit_toks = {}
    for p in CRATES.rglob("*.edit"):
        edit_toks.setdefault(p.parts[-3], set()).update(tokens(p.read_text(encoding="utf-8")))
    claims = set()
    for f in files:
        if f.module and "/specs/" in f.module:
            claims |= {m.group(1) for m in re.finditer(r"(?m)^abbrev pub ([A-Z]\w*) : Type \d+$", "\n".join(f.lines))}
    total = 0
    while True:
        took_any = False
        for f in files:
            took = drop_imports(f)
            if took:
                took_any = True
                print(f"imports {f.path.relative_to(TREE)}: {', '.join(took)}")
        users, whole = {}, {}
        for f in files:
            names, wholes = f.imports()
            for mod, ns in names.items():
                for n in ns:
                    users.setdefault((mod, n), []).append(f)
            for mod in wholes:
                whole.setdefault(mod, []).append(f)
        bodies = {}
        for f in files:
            if f.module is None or f.module.endswith("/Lib") or f.rt:
                continue
            blocks = blocks_of(f)
            dead = []
            for b in blocks:
                if "_" in b.name and not b.rules:
                    continue
                if users.get((f.module, b.name)):
                    continue
                hit = False
                for g in whole.get(f.module, []):
                    if g not in bodies:
                        bodies[g] = tokens(g.body())
                    if b.name in bodies[g]:
                        hit = True
                if hit:
                    continue
                rest = "\n".join(x for x in f.lines[:b.start] + f.lines[b.end:] if not USE.match(x) and not USE_AS.match(x))
                if b.name in tokens(code_only(rest)):
                    continue
                if f.path.stem.startswith("Example") or b.name in KEEP:
                    continue
                if b.name in doc_toks and ("-" in b.name or "/specs/" in f.module) or b.name in edit_toks.get(f.crate, ()):
                    continue
                if not b.rules:
                    sig = f.lines[b.sig]
                    m = re.search(r" : ([A-Z]\w*)$", sig)
                    if m and m.group(1) in claims:
                        continue
                    if re.match(r"^abbrev pub [A-Z]\w* : Type \d+$", sig):
                        continue
                dead.append(b)
            for b in reversed(dead):
                print(f"unused {f.path.relative_to(TREE)}: {b.name} ({b.end - b.start} lines)")
                total += b.end - b.start
                f.lines = f.lines[:b.start] + f.lines[b.end:]
                f.changed = True
                took_any = True
            if dead:
                empty_modules(f)
                neat(f)
        if not took_any:
            break
    # modules of proofs that are empty now
    for f in files:
        if f.module and not f.module.endswith("/Lib") and not f.rt and f.changed:
            if not [x for x in f.lines if x.strip() and not x.startswith("--") and not USE.match(x) and not USE_AS.match(x)]:
                print(f"empty {f.path.relative_to(TREE)}")
                if not DRY:
                    lib = f.path.with_name("Lib.antt")
                    lib.write_text("".join(x for x in lib.read_text().splitlines(True) if x.strip() not in (f"pub mod {f.path.stem}", f"mod {f.path.stem}")))
                    f.path.unlink()
                    f.changed = False
    drop_pubs(files)
    for f in files:
        f.save()
    print(f"{total} lines of laws taken out")


main()
