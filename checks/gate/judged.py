"""What the prover said of wrong bodies: at what it refused each."""
import re

from checks.gate.trial_edits import bodies_of

GOAL = re.compile(r"note: (?:\./)?(src/\S+):(\d+):\d+: (it is not proved that .*|`search` found no proof .*)")
ERROR = re.compile(r"(?:\./)?((?:src|specs|proofs)/\S+):(\d+):\d+: error\S* (.*)")
AT_NAME = "only at a name"
# a proof that names what is not there, and what cites that proof
NAMES = re.compile(r"has no field|is not in scope|has no `|was not admitted")
HEAD = re.compile(r"(?m)^impl\b[^{]*\{")
IMPL = re.compile(r"impl(?:<.*?>)? (?:(?:\w+::)*(\w+)(?:<(.*)>)? for )?&?(?:'\w+ )?(\w+)")
TYPE = re.compile(r"(?m)^(?:pub(?:\([a-z]+\))? )?(?:struct|enum|trait|type) (\w+)")


def verdict(goals, errors):
    """At what the prover refused, by the texts of these goals and errors; None where there are none."""
    for text in goals:
        goal = re.search(r"\(`([^`]*)`\)", text)
        kinds = {"ensures holds when it returns": "clause", "invariant": "invariant", "measure": "measure"}
        kind = next((kinds[word] for word in kinds if word in text), "requires of a call or an operation")
        return "%s, %s" % (kind, goal[1] if goal else text[:90])
    for text in errors:
        if not NAMES.search(text):
            return "written answer, %s" % text[:90]
    return "%s, %s" % (AT_NAME, errors[0][:90]) if errors else None


def place_of(file):
    """The module of a file of src/, as the parts of its path in the crate."""
    parts = re.sub(r"^src/|(/mod)?\.rt$", "", file).split("/")
    return [] if parts in (["lib"], ["main"]) else parts


def heads_of(text):
    """The heads `impl .. {` of a file, each as one line; an arrow's > would seem to end what stands between < and >."""
    return [" ".join(it.replace("->", "").split()) for it in HEAD.findall(text)]


def owner_of(head):
    """The type that a head `impl .. {` is about, and what it and its trait are called in names of functions."""
    trait, source, kind = IMPL.match(head).groups()
    return kind, kind + (trait or "") + (source if trait == "From" else "")


def elsewhere(text):
    """What types of other modules, which have methods in a file, are called in names of functions: their modules come before."""
    owners = map(owner_of, heads_of(text))
    return {owner for kind, owner in owners if kind not in TYPE.findall(text)}


def is_in(parts, file, text):
    """Whether a function at this path in the crate may stand in a file: in its module, or as a method of another module's type."""
    place = place_of(file)
    return parts[:len(place)] == place or len(parts) > 1 and parts[-2] in elsewhere(text)


class Said:
    """What a check printed: the goals that are left and the errors, each as file, line and text."""

    def __init__(self, text):
        self.goals, self.errors = self.told(GOAL, text), self.told(ERROR, text)
        self.is_ended = bool(re.search(r"(?m)^only=\d+ proved=", text))

    @staticmethod
    def told(kind, text):
        return [(it[1], int(it[2]), it[3]) for it in map(kind.match, text.split("\n")) if it]

    def verdict(self):
        """At what it refused the crate; None where it did not."""
        return verdict([it[2] for it in self.goals], [it[2] for it in self.errors])


def own(edit, told, bodies):
    """What was said of a body that the edit changes, and of the written answers of its function. `bodies` are those of
    each file as it was checked."""
    for file, line, text in told:
        answers = file.startswith("proofs/") and file.split("/")[1:-1]
        if answers and any(answers[-1] in (name, "+" + name) and is_in(answers, it, edit.texts[it]) for it, name in edit.keys):
            yield text
        if any(it == file and bodies[file][at].first < line <= bodies[file][at].ends + 1 for it, at in edit.changes):
            yield text


def refusals(edits, said, texts):
    """At what each of these edits was refused, by its name, where a check of all that they change said this of these
    texts; None where that does not tell."""
    bodies = {file: bodies_of(text) for file, text in texts.items()}
    outcomes = {it.name: None for it in edits}
    # a lemma that fails may be what another function's goal wants
    if any(re.match(r"proofs/.*/", it[0]) is None for it in said.errors):
        return outcomes
    for it in edits:
        found = verdict(list(own(it, said.goals, bodies)), list(own(it, said.errors, bodies)))
        outcomes[it.name] = found if found and not found.startswith(AT_NAME) else None
    return outcomes


def rest_of(edits, said, texts):
    """The edits of a batch that are none of those at which a check stopped before the prover began."""
    bodies = {file: bodies_of(text) for file, text in texts.items()}
    return [it for it in edits if not any(own(it, said.errors, bodies))]
