"""Runs the commands of README.md and docs/MOUNTING.md as they are printed, in a fresh folder.

Blocks of `sh` hold commands. Blocks of `console` show a command after `$` or `#`, more of it after
`>`, and its output. All commands of a page run in order in one shell, as root. If a command needs a
program that is missing here, it and the rest of its block are named. Blocks that need a registry
are named, too: `make registry` runs them.
"""
import os
import re
import shutil
import subprocess

from checks import ROOT
from checks.installed import pages
from checks.installed.roots import BIND, PATH, REC, Failed, hold, mount

# programs that a system may lack
OPTIONAL = ("genromfs", "skopeo", "bwrap", "podman", "runc", "busybox", "mksquashfs", "ping", "setcap")
# what replaces an image of a registry here
STANDS_FOR = {"docker://alpine:3.20": "oci:demo/layout:lantern"}
FAR = ("docker://", "app-strata:1")
FENCE = re.compile(r"^```(\w*)\n(.*?)^```$", re.M | re.S)
# a fresh root has no sudo
SUDO = "sudo() { \"$@\"; }\n"
MARK = "@@ %d ends with "


class Command:
    """A command of a page: its text, the number of its block, and its output if the page shows
    it."""

    def __init__(self, text, block, printed=None):
        self.text, self.block, self.printed = text, block, printed


def read(page):
    with open(os.path.join(ROOT, page), encoding="utf-8") as it:
        return it.read()


def commands_of_sh(text, block):
    """The commands of a block without output."""
    for line in text.splitlines():
        line = re.sub(r"\s+# .*$|^#.*$", "", line).strip()
        if line:
            yield Command(line, block)


def commands_of_console(text, block):
    """The commands of a block with output."""
    found = []
    for line in text.splitlines():
        if line.startswith(("$ ", "# ")):
            found.append(Command(line[2:], block, []))
        elif line.startswith("> "):
            found[-1].text += "\n" + line[2:]
        else:
            found[-1].printed.append(line)
    return found


def commands(page):
    """The commands of a page, in order, with what replaces a registry."""
    found = []
    for block, (kind, text) in enumerate(FENCE.findall(read(page))):
        for far, near in STANDS_FOR.items():
            text = text.replace(far, near)
        if kind in ("sh", "console"):
            found += (commands_of_sh if kind == "sh" else commands_of_console)(text, block)
    return found


def missing_for(text):
    """Which program a command needs that is missing here."""
    for name in OPTIONAL:
        is_named = re.search(r"(?<![\w.-])%s(?![\w./-])" % name, text)
        if is_named and not shutil.which(name, path=PATH):
            return "no " + name
    return None


def split_by_need(found):
    """The commands that can run here; and the others, by what they need."""
    runs, left, ended = [], {}, {}
    far = {it.block for it in found if any(name in it.text for name in FAR)}
    for it in found:
        known = "a registry" if it.block in far else ended.get(it.block)
        why = known or missing_for(it.text)
        if why is None:
            runs.append(it)
        else:
            ended[it.block] = why
            left.setdefault(why, []).append(it.text.split("\n")[0])
    return runs, left


def script_of(runs):
    """One script of all commands, which marks the end of each."""
    return SUDO + "".join(
        "%s\necho \"%s$?\"\n" % (it.text, MARK % at) for at, it in enumerate(runs))


def output_of(script, folder):
    with open("/tmp/printed", "w+", encoding="utf-8") as out:
        subprocess.run(["bash", "--norc", "-c", script], cwd=folder, stdin=subprocess.DEVNULL,
                       stdout=out, stderr=subprocess.STDOUT, timeout=600, check=False)
        out.seek(0)
        return out.read()


def run_all(runs, folder):
    """Runs commands in a folder. Each must succeed, or print what the page shows."""
    rest = output_of(script_of(runs), folder)
    for at, it in enumerate(runs):
        text, mark, rest = rest.partition(MARK % at)
        status, _, rest = rest.partition("\n")
        if not mark:
            raise Failed("`%s` did not end: %.900r" % (it.text, text))
        if it.printed:
            hold("what `%s` prints" % it.text, it.printed, text.splitlines())
        elif status != "0":
            raise Failed("`%s` ends with %s: %.900r" % (it.text, status, text))


def summary(runs, left):
    return "%d commands" % len(runs) + "".join(
        "; left out, %s: %s" % (why, ", ".join("`%s`" % text for text in texts))
        for why, texts in left.items())


def copied(root, names, place):
    """Copies files and folders of a checkout into a root, without what is built."""
    for name in names:
        source, target = os.path.join(ROOT, name), os.path.join(root.top + place, name)
        if os.path.isdir(source):
            shutil.copytree(source, target, symlinks=True,
                            ignore=shutil.ignore_patterns("out", "__pycache__"))
        else:
            os.makedirs(os.path.dirname(target), exist_ok=True)
            shutil.copy2(source, target)


def mounting(root):
    """The recipes of MOUNTING, with the installed commands."""
    runs, left = split_by_need(commands("docs/MOUNTING.md"))
    copied(root, ["demo"], "/root/work")
    # runc looks for control groups
    mount("/sys", root.top + "/sys", None, BIND | REC)
    root.install()
    run_all(runs, "/root/work")
    return summary(runs, left)


def readme(root):
    """The commands of README, in a checkout with a built program."""
    runs, left = split_by_need(commands("README.md"))
    copied(root, [it for it in os.listdir(ROOT) if it not in (".git", "build")], "/root/work")
    os.mkdir(root.top + "/root/work/build")
    shutil.copy(root.program, root.top + "/root/work/build/strata")
    root.enter()
    run_all(runs, "/root/work")
    return summary(runs, left)


def in_reference(root):
    """USE names each option that a help names, but those of the snapshotter, which its man page has."""
    text = read("docs/USE.md")
    root.install()
    named = set().union(*(it for page, it in pages.helps(root).items() if page != pages.SNAPSHOTTER))
    missing = [it for it in named if not re.search(r"(?<![\w-])%s(?![\w-])" % it, text)]
    hold("options that USE leaves out", [], sorted(missing))
    return "%d options" % len(named)
