"""Holds what callers may call against its lists: python3 checks doors [--list]

A public call is a function that the front door of a layer (its lib.rt) gives, or a method of one of the types that
checks/gate/doors.txt names for callers. That file has each call that the specification names, below the layer that gives it, with
its signature; --list writes it anew from the sources. So a call that moves, or takes or gives something else, is seen there.
Each of these calls has its row under "Every public call returns" of docs/PROMISES.md, and each row names a test that exists and
calls it; where the row says `CALL` by `OTHER`, or by `OTHER` of all its calls, the test calls that. Each other public call stands
among those for other layers alone, below that table.

It reads sources alone, and builds nothing. What is wrong is a line each; the status is 0 where nothing is.
"""
import glob
import os
import re
import sys
import textwrap

from checks import ROOT

PROMISES = "docs/PROMISES.md"
DOORS = "checks/gate/doors.txt"
# A module of a layer whose functions callers name, too.
MODULES = {"romfs_image": "romfs_image/src/sample.rt"}
# What tests share.
KITS = ("test_kit", "serve_test_kit")


def read(path):
    with open(os.path.join(ROOT, path), encoding="utf-8") as file:
        return file.read()


def files_of(crate):
    return sorted(glob.glob(os.path.join(ROOT, "crates", crate, "src", "**", "*.rt"), recursive=True))


def tests_of(crate):
    """Where the modules of a crate of tests stand below its src/."""
    return "tests/" if os.path.exists(os.path.join(ROOT, "crates", crate, "src/tests.rt")) else ""


def source(crate):
    return "\n".join(read(path) for path in files_of(crate))


def given(text):
    """The names that `pub use` lines give."""
    names = []
    for path in re.findall(r"^pub use ([^;]+);", text, re.M):
        inner = re.search(r"\{(.*)\}", path, re.S)
        names += re.split(r"[,\s]+", inner.group(1).strip(" \n,")) if inner else [path.rpartition("::")[2]]
    return set(names)


def signatures(text, start):
    """The functions that begin so in some source, by name, each as it is declared: what it takes and gives."""
    found = {}
    for part in re.split("^(?=%s)" % start, text, flags=re.M)[1:]:
        part = re.split(r"\s(?:ghost|requires|ensures)\b|\s\{|;", part, maxsplit=1)[0]
        line = re.sub(r"(?<=[(<]) | (?=[)>](?!=))", "", " ".join(part.split()))
        line = re.sub(r"^(?:pub )?fn |,(?=[)>])|,$", "", line)
        found[re.match(r"\w+", line).group()] = line
    return found


def blocks(text):
    """The blocks of a source that have methods: the trait, or none, the type, or none, and what stands in it."""
    for head, block in re.findall(r"^((?:impl|pub trait)\b[^{;]*)\{\n(.*?)^\}", text, re.M | re.S):
        bare = head
        while "<" in bare:
            bare, before = re.sub(r"<[^<>]*>", "", bare), bare
            if bare == before:
                break
        words = re.findall(r"\w+", bare)
        if words[0] == "pub":
            yield words[2], None, block
        elif "for" in words:
            yield words[1], words[words.index("for") + 1], block
        else:
            yield None, words[1], block


def methods(kinds):
    """The public methods of these types by name, as they are declared, and those of the traits among them by the types that have
    them."""
    found, traits, impls = {}, {}, []
    for path in files_of("*"):
        for trait, kind, block in blocks(read(path)):
            if kind is None:
                traits[trait] = signatures(block, "    fn ")
            elif trait is None:
                found.setdefault(kind, {}).update(signatures(block, "    pub fn "))
            else:
                impls.append((trait, kind))
    for trait, kind in impls:
        if trait in kinds:
            found.setdefault(kind, {}).update(traits.get(trait, {}))
    return {kind: them for kind, them in found.items() if kind in kinds and kind not in traits}


def functions(crate):
    """The functions that the lib.rt of a crate gives, as they are declared where they stand."""
    found = {}
    for inner in re.findall(r"^pub use ([^;]+);", read("crates/%s/src/lib.rt" % crate), re.M):
        start = inner.partition("::")[0]
        for name in given("pub use %s;" % inner):
            if name[0].islower():
                below = [path for path in files_of(crate) if os.path.basename(path) == start + ".rt"]
                there = signatures("\n".join(map(read, below)), "pub fn ") if below else functions(start)
                found.update({name: there[name]} if name in there else {})
    return found


def listed():
    """What doors.txt has of each layer: the types that callers name, and the calls as they are declared."""
    layers = {}
    for part in read(DOORS).split("\n\n")[1:]:
        layer, _, lines = part.partition("\n")
        names = re.sub(r"\n {4,}", " ", textwrap.dedent(lines)).strip().splitlines()
        kinds = names.pop(0)[len("types: "):].split(", ") if names[0].startswith("types: ") else []
        layers[layer] = set(kinds), set(names)
    return layers


def public_calls(layers):
    """The calls of all layers as they are declared, by layer and then by `function` or `Type::method`."""
    of_kind = methods(set().union(*(kinds for kinds, _ in layers.values())))
    calls = {}
    for layer, (kinds, _) in layers.items():
        calls[layer] = functions(layer)
        if layer in MODULES:
            calls[layer].update(signatures(read("crates/" + MODULES[layer]), "pub fn "))
        for kind in kinds:
            # the first layer that names a type has its methods
            calls[layer].update({"%s::%s" % (kind, name): "%s::%s" % (kind, it) for name, it in of_kind.pop(kind, {}).items()})
    return calls


def called(text):
    """What is called in some source."""
    return set(re.findall(r"(\w+)(?:::<[^(]*>)?\(", text))


class Row:
    """A row of the table: its calls, the tests that show them, and what these call."""

    def __init__(self, line, calls):
        cells = [cell.strip() for cell in line.strip().strip("|").split("|")]
        self.calls, kind = [], ""
        for name in re.findall(r"`([\w:]+)`", cells[0]):
            kind = name.partition("::")[0] if "::" in name else kind
            method = "%s::%s" % (kind, name.rpartition("::")[2])
            self.calls.append(method if method in calls else name.rpartition("::")[2] if kind.islower() else name)
        self.tests = re.findall(r"`(\w+::\w+|cases/[\w-]+\.case)`", cells[-1])
        self.by = dict(re.findall(r"`(\w+)` by `(\w+)`", cells[-1]))
        self.all_by = re.findall(r", by `(\w+)`", cells[-1])

    def wanted(self):
        """What the tests must call."""
        names = [call.rpartition("::")[2] for call in self.calls]
        return self.all_by or [self.by.get(name, name) for name in names]

    def wrong(self):
        seen = set()
        for test in self.tests:
            crate, _, module = test.partition("::")
            path = "crates/%s/src/%s%s.rt" % (crate, tests_of(crate), module) if module else test
            if not os.path.exists(os.path.join(ROOT, path)):
                yield "%s is not there, and is to show %s" % (path, self.calls[0])
            elif module and "#[test]" not in read(path):
                yield "%s has no test, and is to show %s" % (path, self.calls[0])
            if module:
                seen |= called("\n".join(map(source, (crate, *KITS))))
        if not self.tests:
            yield "no test shows %s" % ", ".join(self.calls)
        yield from ("no test of the row of %s calls %s" % (self.calls[0], name) for name in self.wanted() if name not in seen)


def table(calls):
    """The rows of the table, and the calls for other layers alone."""
    text = read(PROMISES).partition("## Every public call returns")[2].partition("\n## ")[0]
    rows = [Row(line, calls) for line in text.splitlines() if line.startswith("| `")]
    beside = re.findall(r"^For other layers alone, .*$", text, re.M)
    return rows, set(re.findall(r"`([\w:]+)`", "\n".join(beside)))


def gives(layer):
    """The types that the front door of a layer gives."""
    text = read("crates/%s/src/lib.rt" % layer)
    if layer in MODULES:
        text += "\n" + "\n".join("pub use %s;" % name for name in re.findall(r"^pub (?:struct|enum) (\w+)",
                                                                            read("crates/" + MODULES[layer]), re.M))
    return {name for name in given(text) if name[0].isupper()}


def wrapped(line):
    """A line of doors.txt, which may be broken behind a comma alone."""
    filled = textwrap.fill(re.sub("(?<!,) ", "\0", line), 120, initial_indent="  ", subsequent_indent="      ", break_long_words=False)
    return filled.replace("\0", " ")


def written(layers, calls, told):
    """doors.txt with the calls of the table as the sources have them."""
    parts = [read(DOORS).partition("\n\n")[0]]
    for layer, (kinds, _) in layers.items():
        lines = ["types: " + ", ".join(sorted(kinds))] if kinds else []
        lines += [it for name, it in sorted(calls[layer].items()) if name in told]
        parts.append("\n".join([layer, *map(wrapped, lines)]))
    return "\n\n".join(parts) + "\n"


def wrong_doors(layers, calls, told):
    """What is wrong in doors.txt."""
    for layer, (kinds, lines) in layers.items():
        yield from ("%s gives no type %s" % (layer, kind) for kind in sorted(kinds - gives(layer)))
        there = {it for name, it in calls[layer].items() if name in told}
        yield from ("%s has no call %s" % (layer, line) for line in sorted(lines - there))
        yield from ("%s is not listed with its call %s" % (layer, line) for line in sorted(there - lines))


def wrong_rows(names, rows, told, beside):
    """What is wrong in the table."""
    yield from ("%s has no row" % name for name in sorted(names - told - beside))
    yield from ("%s is no public call" % name for name in sorted((told | beside) - names))
    for row in rows:
        yield from row.wrong()


def main(words):
    layers = listed()
    calls = public_calls(layers)
    names = set().union(*calls.values())
    rows, beside = table(names)
    told = {call for row in rows for call in row.calls}
    if words == ["--list"]:
        text = written(layers, calls, told)
        with open(os.path.join(ROOT, DOORS), "w", encoding="utf-8") as file:
            file.write(text)
        return 0
    lines = ["%s: %s" % (DOORS, it) for it in wrong_doors(layers, calls, told)]
    lines += ["%s: %s" % (PROMISES, it) for it in wrong_rows(names, rows, told, beside)]
    for line in lines:
        print(line)
    print("%d public calls in %d rows, %d for other layers alone, %d wrong" % (len(told), len(rows), len(beside), len(lines)))
    return 1 if lines else 0


if __name__ == "__main__":
    sys.exit(main(sys.argv[1:]))
