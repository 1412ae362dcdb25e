"""Writes into edits of must-fail/ what they leave out of their crate: python3 checks leave_out CRATE..

`rt ci` tries an edit by a check of its whole crate, of which most says nothing of the wrong body. So an edit may put
`#[cfg(test)]` before a `mod`, a `use`, an `impl` or a `fn` that its functions do not use, and take names out of a
`use`. This writes these lines behind those of the edit's own: out go all functions that are named neither in what the
edit changes nor in what that names in turn, and all modules of which nothing is left, unless a definition or a proof
names a type of theirs. A program's `main` is left empty. The prover then misses functions that have written answers, and
says so; that is no goal, and `python3 checks ci` counts goals alone. It looks at names, but not in clauses, so functions
of one name stay together; where it took too much the rest does not compile, and `python3 checks ci` tells that. Of a
crate with several edits in must-fail/ each is tried over a proof of the whole crate, so there nothing is left out.
"""
import glob
import os
import re
import sys

from checks import ROOT
from checks.gate.judged import owner_of
from checks.gate.trial_edits import applied, bodies_of, written_in

OUT = "#[cfg(test)] "
# a program has a `main`
EMPTY = "fn main() {} "
VISIBLE = r"(?:pub(?:\([a-z]+\))? )?"
# traits of which a type that is only named may be asked
OF_TYPES = {"Clone", "Copy", "Drop", "Eq", "Model", "Ord", "PartialEq", "PartialOrd"}


# where a clause begins
CLAUSE = re.compile(r"\b(?:requires|ensures|ghost)\b(?: \w+)?(?: =)? \{")


def plain(text):
    """Code without comments and what stands in quotes."""
    return re.sub(r'"(?:[^"\\]|\\.)*"', '""', re.sub(r"//[^\n]*", "", text))


def bare(code):
    """Code without clauses, which name types and no function."""
    while clause := CLAUSE.search(code):
        ends, depth = clause.end(), 1
        while depth and ends < len(code):
            depth += {"{": 1, "}": -1}.get(code[ends], 0)
            ends += 1
        code = code[:clause.start()] + code[ends:]
    return code


class Piece:
    """A function, or a block that implements a trait for a type: what may be left out by itself. `opens` is the line in which
    a function's body opens."""

    def __init__(self, lines, kind, first, head, ends, opens, owner=None):
        self.kind, self.first, self.ends, self.head = kind, first, ends, lines[head].strip()
        self.owner = owner
        # the compiler can't pass over clauses with quotes
        self.is_fixed = any('"' in it for it in lines[head:opens])
        self.text = "\n".join(lines[first:ends + 1])
        self.name = self.trait = None
        # whether its trait is one of another crate, which calls it by no name
        self.is_foreign = False
        if kind == "impl":
            heading = re.sub(r"\{[^{}]*\}", "", " ".join(it.strip() for it in lines[head:ends + 1]).split("{ ")[0])
            while re.search(r"<[^<>]*>", heading):
                heading = re.sub(r"<[^<>]*>", "", heading)
            self.trait, self.name = re.search(r"(\w+) for &?(?:mut )?(\w+)", heading).groups()
            self.methods = re.findall(r"fn (\w+)", self.text)
        else:
            self.name = re.search(r"fn (\w+)", self.head)[1]

    def is_named(self, text):
        """Whether code names it: as a function, as a method, or as its type beside its trait or a method of that."""
        if self.kind == "fn":
            return re.search(r"(?<![.\w])%s\b" % self.name, text)
        if self.kind == "method":
            return re.search(r"(\.|>::|\b%s::|\bSelf::)\s*%s\b" % (self.owner, self.name), text)
        called = self.is_foreign or re.search(r"\b%s\b" % self.trait, text)
        called = called or any(re.search(r"(\.|::)\s*%s\b" % it, text) for it in self.methods)
        return called and re.search(r"\b%s\b" % self.name, text)


class Source:
    """A file of src/: its pieces, the types that it has, and all text but that of pieces and of `use` lines."""

    def __init__(self, path):
        with open(path, encoding="utf-8") as it:
            self.text = it.read()
        self.lines = self.text.split("\n")
        self.pieces, self.bound = [], []
        blocks = list(self.blocks())
        for word, first, head, ends in blocks:
            is_of_trait = word == "impl" and re.search(r"\bfor\b", re.sub(r"for<", "", "\n".join(self.lines[head:ends + 1]).split("{\n")[0]))
            if is_of_trait:
                self.pieces.append(Piece(self.lines, "impl", first, head, ends, head))
        for it in bodies_of(self.text):
            within = [(word, top) for word, first, top, ends in blocks if first <= it.first < ends]
            if not within or within[0][0] == "impl" and not any(p.first <= it.first <= p.ends for p in self.pieces):
                head = next(at for at in range(it.first, it.ends + 1) if re.match(r" *%s(?:\w+ )*fn %s\b" % (VISIBLE, it.name), self.lines[at]))
                owner = owner_of(self.lines[within[0][1]])[1] if within else None
                self.pieces.append(Piece(self.lines, "method" if within else "fn", it.first, head, it.ends, it.opens, owner))
        own = {at for it in self.pieces for at in range(it.first, it.ends + 1)}
        used = r"\s*(ghost use|%suse)\b" % VISIBLE
        self.rest = plain("\n".join(line for at, line in enumerate(self.lines) if at not in own and not re.match(used, line)))
        self.types = re.findall(r"(?m)^%s(?:struct|enum|trait|const|static|type) (\w+)" % VISIBLE, self.text)

    def blocks(self):
        """The blocks that implement or declare a trait, or hold a type's methods: the word, and their lines."""
        for head, line in enumerate(self.lines):
            word = re.match(r"%s(?:unsafe )?(impl|trait)\b" % VISIBLE, line)
            if word:
                first = head
                while first and self.lines[first - 1].startswith(("#", "//")):
                    first -= 1
                ends = next(at for at in range(head, len(self.lines)) if re.match(r"\}$|\S.*\{\}$", self.lines[at]))
                yield word[1], first, head, ends

    def begins(self, piece):
        """What stands once in the file, at which a piece begins; None where nothing does."""
        short = re.match(r"%s(?:\w+ )*fn \w+[<(]\w*" % VISIBLE, piece.head)
        return next((it for it in [short and short[0], piece.head] if it and self.text.count(it) == 1), None)

    def uses(self):
        """The `use` lines that name modules of the crate, as line, module and names."""
        for at, line in enumerate(self.lines):
            if re.match(VISIBLE + "use ", line):
                ends = next(it for it in range(at, len(self.lines)) if self.lines[it].endswith(";"))
                whole = " ".join(it.strip() for it in self.lines[at:ends + 1])
                module = re.match(VISIBLE + r"use (?:crate::)?(\w+)::(.*);", whole)
                if module:
                    yield at, ends, module[1], [it.strip() for it in re.sub(r"[{}]", "", module[2]).split(",") if it.strip()]


class Crate:
    """A crate: the files of its modules, by the names of these, and the text of its definitions and proofs."""

    def __init__(self, folder):
        self.folder = folder
        self.paths = {os.path.relpath(it, folder): it for it in glob.glob(folder + "/src/**/*.rt", recursive=True)}
        self.files = {path: Source(it) for path, it in sorted(self.paths.items())}
        types = {it for source in self.files.values() for it in source.types}
        for piece in (it for source in self.files.values() for it in source.pieces if it.kind == "impl"):
            piece.is_foreign = piece.trait not in types
        said = ""
        for path in glob.glob(folder + "/specs/**/*.antt", recursive=True) + glob.glob(folder + "/proofs/**/*.antt", recursive=True):
            with open(path, encoding="utf-8") as it:
                said += it.read()
        self.modules = {path[4:-3]: path for path in self.files if path not in ("src/lib.rt", "src/main.rt")}
        self.named = {self.modules[it] for it in self.modules if "declared.%s." % it.replace("/", ".") in said}

    def left(self, lines):
        """The pieces that stay where an edit has these lines, and the files of which something stays."""
        texts = applied("\n".join(lines) + "\n", self.folder)
        written = plain("\n".join(it[4:] for it in lines if it.startswith("new:")))
        stays = {it for path, text in texts.items() if path in self.files for it in self.files[path].pieces if it.text not in text}
        while True:
            said = "\n".join([written, *(plain(it.text) for it in stays)])
            code = bare(said)
            live = {path for path in self.modules.values() if path in self.named or self.is_live(path, stays, said)}
            rest = "\n".join(self.files[path].rest for path in live)
            live |= {path for path in self.modules.values() if self.has_type(path, rest)}
            calls = "\n".join(re.findall(r"\b\w+\s*\(|::\s*\w+", bare(rest)))
            more = {it for path in self.files for it in self.files[path].pieces if it not in stays and (
                it.is_named(said if it.kind == "impl" else code) or it.kind != "impl" and it.is_named(calls)
                or path in live and it.trait == "Model"
                or path in live and (it.is_foreign or it.trait in OF_TYPES) and it.is_named(said + rest)
                or path in live and (it.is_fixed or not self.files[path].begins(it)))}
            if not more:
                return stays, live
            stays |= more

    def has_type(self, path, text):
        return any(re.search(r"\b%s\b" % it, text) for it in self.files[path].types)

    def is_live(self, path, stays, code):
        return any(it in stays for it in self.files[path].pieces) or self.has_type(path, code)

    def lines(self, path, stays, live):
        """What stands in a file, and what is written in its place."""
        source, within = self.files[path], "" if path in ("src/lib.rt", "src/main.rt") else path[4:-3] + "/"
        for line in source.lines:
            module = re.match(VISIBLE + r"mod (\w+);", line)
            if module and self.modules.get(within + module[1], path) not in live | {path}:
                yield line, OUT + line
        for at, ends, module, names in source.uses():
            it = self.modules.get(within + module, self.modules.get(module))
            if it and it not in live:
                yield source.lines[at], OUT + source.lines[at]
            elif it:
                gone = {piece.name for piece in self.files[it].pieces if piece.kind == "fn" and piece not in stays}
                yield from without(source.lines[at:ends + 1], names, gone - set(self.files[it].types))
        for piece in source.pieces:
            begins = source.begins(piece)
            if piece not in stays and begins:
                yield begins, (EMPTY if piece.name == "main" else "") + OUT + begins


def without(lines, names, gone):
    """The lines of a `use` without the names that are gone."""
    out = [it for it in names if it.split(" as ")[0] in gone]
    if out and len(out) == len(names):
        yield lines[0], OUT + lines[0]
    elif out and len(lines) == 1:
        kept = ", ".join(it for it in names if it not in out)
        yield lines[0], re.sub(r"\{.*\}", lambda _: "{%s}" % kept, lines[0])
    else:
        for line in lines:
            kept = line
            for it in out:
                kept = re.sub(r"\b%s\b,? ?" % it, "", kept)
            if kept != line:
                yield line, kept


def is_left_out(old, new):
    """Whether a pair of texts leaves something out: a mark stands before it, or a `use` has fewer names."""
    listed = re.fullmatch(r"(%suse [\w:]+::\{)?[\w, ]+(\};)?" % VISIBLE, old)
    names = re.findall(r"\w+", new)
    return new.removeprefix(EMPTY) == OUT + old or listed and len(names) < len(re.findall(r"\w+", old)) and set(names) <= set(re.findall(r"\w+", old))


def own(written):
    """The lines of an edit but those that leave something out."""
    lines, kept = [it for it in written.split("\n") if it], []
    for at, line in enumerate(lines):
        if line.startswith("file: "):
            kept.append(line)
        elif line.startswith("old: ") and not is_left_out(line[5:], lines[at + 1][5:]):
            kept += lines[at:at + 2]
    return [it for at, it in enumerate(kept) if not it.startswith("file: ") or kept[at + 1:at + 2] and not kept[at + 1].startswith("file: ")]


def left_out(crate, written):
    """The edit with the lines that leave out what it does not use."""
    own_lines = own(written)
    lines = list(own_lines)
    stays, live = crate.left(own_lines)
    for path in crate.files:
        if path not in crate.modules.values() or path in live:
            pairs = [it for it in crate.lines(path, stays, live) if "old: " + it[0] not in own_lines]
            lines += ["file: " + path] * bool(pairs) + [it for old, new in pairs for it in ("old: " + old, ("new: " + new).rstrip())]
    return "\n".join(lines) + "\n"


def main(crates):
    for name in crates:
        folder = "%s/crates/%s" % (ROOT, name)
        paths = glob.glob(folder + "/must-fail/*.edit")
        if len(paths) != 1:
            print("%s has %d edits in must-fail/: left as it is" % (name, len(paths)))
            continue
        text = left_out(Crate(folder), next(iter(written_in(paths[0]).values())))
        applied(text, folder)
        with open(paths[0], "w", encoding="utf-8") as it:
            it.write(text)
        print("%s: %d lines" % (os.path.relpath(paths[0], ROOT), text.count("\n")))
    return 0


if __name__ == "__main__":
    sys.exit(main(sys.argv[1:]))
