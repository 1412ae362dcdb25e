"""Edits that put a wrong body into a crate, and which functions' bodies they change.

An edit has a line 'file: src/lib.rt' and then pairs of lines 'old: TEXT' and 'new: TEXT', as `rt` reads it; another file and
its pairs may follow. A file `NAME.edit` has the edit of that name, a file `CRATE.edits` several, with a line 'name: NAME'
before each.
"""
import os
import re

NAMED = re.compile(r"(?m)^name: *(\S+)\n")


class Misfit(Exception):
    """Why an edit does not fit the crate."""


class Body:
    """A function with a body: its lines from its attributes on, where its body opens, and its end. Lines count from 0."""

    def __init__(self, name, cycle, first, opens, ends):
        self.name, self.cycle, self.first, self.opens, self.ends = name, cycle, first, opens, ends


def opening(lines, at, indent):
    """The line at which the body of the function begins whose `fn` stands at this line; None where it has none."""
    for line in range(at, len(lines)):
        text = lines[line]
        is_deeper = not text or text.startswith(indent + " ")
        if not is_deeper and line > at and not re.match(indent + r"([)>]|where$|\{$)", text):
            return None
        if not is_deeper and text.endswith("{"):
            return line
        if not is_deeper and text.endswith((";", "}")):
            return None
    return None


def bodies_of(text):
    """The functions with a body of a file as `rt fmt` lays it out, but for those within others."""
    lines, found, at, cycle = text.split("\n"), [], 0, ""
    while at < len(lines):
        head = re.match(r"( *)(?:pub(?:\([a-z]+\))? )?(?:(?:const|final|unsafe) )*fn (\w+)", lines[at])
        marked = re.match(r" *#\[cycle\((\w+)\)\]", lines[at])
        cycle = "+" + marked[1] if marked else cycle if lines[at].strip() else ""
        opens = opening(lines, at, head[1]) if head else None
        if opens is not None and head[1] + "}" in lines[opens:]:
            first, ends = at, lines.index(head[1] + "}", opens)
            while re.match(head[1] + r"[^ }]", lines[first - 1]) and first:
                first -= 1
            found.append(Body(head[2], cycle, first, opens, ends))
            at, cycle = ends, ""
        at += 1
    return found


def parts_of(text):
    """The text outside of bodies, and each body's."""
    lines, bodies, rest, begun = text.split("\n"), bodies_of(text), [], 0
    for it in bodies:
        rest.append(lines[begun:it.opens + 1])
        begun = it.ends
    return [*rest, lines[begun:]], [lines[it.opens + 1:it.ends] for it in bodies]


class Edit:
    """An edit, what it makes of the crate in this folder, and the bodies that it changes."""

    def __init__(self, name, written, folder):
        self.name, self.written = name, written
        self.texts = applied(written, folder)
        # the bodies, as places among those of a file, with their new texts; none where anything else is changed
        self.changes, self.keys = {}, set()
        for file, text in self.texts.items():
            with open("%s/%s" % (folder, file), encoding="utf-8") as it:
                before = it.read()
            (rest, old), (kept, new) = parts_of(before), parts_of(text)
            if not file.startswith("src/") or rest != kept:
                self.changes, self.keys = {}, set()
                return
            for place, body in enumerate(bodies_of(before)):
                if old[place] != new[place]:
                    self.changes[file, place] = new[place]
                    self.keys.add((file, body.cycle or body.name))


def written_in(path):
    """The edits of a file, as they are written there, by their names."""
    with open(path, encoding="utf-8") as it:
        text = it.read()
    if path.endswith(".edit"):
        return {os.path.basename(path)[:-len(".edit")]: text}
    before, *parts = NAMED.split(text)
    names, edits = parts[::2], parts[1::2]
    twice = sorted({name for name in names if names.count(name) > 1})
    if before.strip() or twice:
        raise Misfit("%s: %s" % (path, "%s stands twice" % twice[0] if twice else "it begins without a name"))
    return {name: edit.rstrip("\n") + "\n" for name, edit in zip(names, edits)}


def applied(written, folder):
    """The texts of the files that an edit changes, by their path in the crate."""
    file, old, texts = None, None, {}
    for line in written.split("\n"):
        word, _, rest = line.partition(":")
        rest = rest[1:] if rest.startswith(" ") else rest
        if word == "file":
            file = rest.strip()
        elif word == "old":
            old = rest
        elif word == "new" and file and old:
            if file not in texts:
                with open("%s/%s" % (folder, file), encoding="utf-8") as it:
                    texts[file] = it.read()
            if texts[file].count(old) != 1:
                raise Misfit("%r stands %d times in %s" % (old, texts[file].count(old), file))
            texts[file] = texts[file].replace(old, rest)
    if not texts:
        raise Misfit("it changes nothing")
    return texts


def together(edits, folder):
    """The texts of the files that these edits change, laid together: no two change the same body."""
    texts = {}
    for file in sorted({file for it in edits for file, _ in it.changes}):
        with open("%s/%s" % (folder, file), encoding="utf-8") as it:
            rest, bodies = parts_of(it.read())
        for edit in edits:
            for (changed, place), body in edit.changes.items():
                if changed == file:
                    bodies[place] = body
        lines = rest[0]
        for body, more in zip(bodies, rest[1:]):
            lines = [*lines, *body, *more]
        texts[file] = "\n".join(lines)
    return texts


def batches_of(edits, most):
    """The edits in groups of at most so many, no two of a group on the same function or cycle of functions."""
    groups = []
    for edit in edits:
        for group in groups:
            if len(group) < most and all(edit.keys.isdisjoint(it.keys) for it in group):
                group.append(edit)
                break
        else:
            groups.append([edit])
    return groups
