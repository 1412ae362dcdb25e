"""Man pages and completions: that they can be read, and that they name the options that the programs' helps name."""
import contextlib
import fcntl
import os
import pty
import re
import struct
import subprocess
import termios

from checks import ROOT
from checks.gate.links import LINK, headings
from checks.installed.roots import LeftOut, hold, hold_in
from strata_mount.options import CLEARS, IGNORED, IGNORED_FRONTS, KERNEL, SETS, STRATA

SNAPSHOTTER = "man8/strata-snapshotter.8"
PAGES = ("man1/strata.1", "man1/strata-mount.1", "man1/strata-layers.1", "man8/mount.strata.8", SNAPSHOTTER)
# pages of what is no program
FORMATS = ("man5/strata-attributes.5",)
MAN = "/usr/local/share/man/"
SHARE = "/usr/local/share/"
SUBCOMMANDS = ("check", "list", "serve", "socket")
VERBS = ("image", "convert", "pull", "images", "verify", "remove", "prune", "config", "attributes",
         "seal", "podman")
NARROW, WIDE = 60, 200
OPTION = re.compile(r"(?<![\w-])(--[a-z][a-z-]*|-[A-Za-z])(?![\w-])")
COMPLETED = {"bash": SHARE + "bash-completion/completions/%s", "zsh": SHARE + "zsh/site-functions/_%s",
             "fish": SHARE + "fish/vendor_completions.d/%s.fish"}


def shown(root):
    """Each page is shown without a warning, also by its name, and begins with examples, of which none leaves a namespace."""
    root.needs("man")
    root.install()
    env = dict(os.environ, MANWIDTH="80", MANPAGER="cat")
    for page in PAGES + FORMATS:
        text = root.good("man", "--warnings", "-E", "UTF-8", "-l", MAN + page, env=env)
        name, section = os.path.basename(page).rsplit(".", 1)
        parts = ["SYNOPSIS", "EXIT STATUS"] * (page in PAGES)
        for part in ("NAME", *parts, "DESCRIPTION", "COPYRIGHT", "SEE ALSO", "%s(%s)" % (name.upper(), section)):
            hold_in(page, part, text)
        hold_in(page, "MIT or Apache-2.0.", text)
        hold("examples of %s come first" % page, True, 0 < text.find("\nEXAMPLES") < text.find("\nDESCRIPTION"))
        for line in text.splitlines():
            hold("what ends %s" % line, "unshare" in line and "--background" in line, "unshare" in line and "umount" in line)
        hold("man %s" % name, text, root.good("man", "--warnings", "-E", "UTF-8", section, name, env=env))
    return "%d pages, without a warning" % len(PAGES + FORMATS)


def dead_links(page):
    """The links of an installed page that lead to no file, or to no heading of one."""
    with open(page, encoding="utf-8") as it:
        text = it.read()
    for target in LINK.findall(text):
        path, _, heading = target.partition("#")
        if re.match(r"[a-z]+:", target):
            continue
        place = os.path.join(os.path.dirname(page), path) if path else page
        if not os.path.isfile(place):
            yield target
        elif heading:
            with open(place, encoding="utf-8") as it:
                if heading not in headings(it.read()):
                    yield target


def hold_links(share):
    """Each link of each page in a folder of what is installed leads to a file; how many pages there are."""
    found = [os.path.join(folder, name) for folder, _, names in os.walk(share + "doc/strata")
             for name in names if name.endswith(".md")]
    hold("packed pages", [], [name for name in os.listdir(share + "doc/strata") if name.endswith(".md.gz")])
    for page in found:
        hold("dead links of " + page, [], [*dead_links(page)])
    hold("README and USE are pages", {"README.md", "USE.md"}, {"README.md", "USE.md"} & {*map(os.path.basename, found)})
    return len(found)


def linked(root):
    """Each link of each installed page leads to a file."""
    root.install()
    count = hold_links(SHARE)
    with open(SHARE + "doc/strata-snapshotter/CONTAINERD.md", "rb") as it:
        hold("the snapshotter's page", True, it.read().startswith(b"# containerd"))
    return "%d pages without a dead link" % count


def of_page(page):
    """The options that a page's paragraphs of options, and its synopsis, name."""
    with open(MAN + page, encoding="utf-8") as it:
        text = it.read()
    found = set()
    for line in re.findall(r"^\.TP\n(.*)$", text, re.M):
        found |= set(OPTION.findall(re.sub(r"\\f[A-Z]|\\-", lambda it: "-" if it[0] == "\\-" else " ", line).replace('"', " ")))
    return found


def of_help(text):
    """The options that a help names at the beginning of a line, or that its usage has."""
    found = set()
    for line in text.splitlines():
        front = re.match(r"\s{2,}(-\S.*?)(?:\s{2,}|$)", line)
        if front or line.startswith("usage:") or line.startswith("       "):
            found |= set(OPTION.findall(front[1] if front else line))
    return found


def helped(root, *words):
    done = root.run(*words)
    return done.out + done.err


def helps(root):
    """What each program's helps name."""
    def of(name, *subcommands):
        return set().union(*(of_help(helped(root, name, *words, "--help")) for words in ((), *((it,) for it in subcommands))))
    return {"man1/strata.1": of("strata", *SUBCOMMANDS), "man1/strata-mount.1": of("strata-mount"),
            "man1/strata-layers.1": of("strata-layers", *VERBS), "man8/mount.strata.8": of("/sbin/mount.strata"),
            SNAPSHOTTER: of("strata-snapshotter")}


def options(root):
    """A page, its program's help and its completions name the same options."""
    root.install()
    wanted = helps(root)
    for page in PAGES:
        hold("options of " + page, sorted(wanted[page]), sorted(of_page(page)))
    for page in PAGES[:3]:
        name = os.path.basename(page).rpartition(".")[0]
        longs = sorted(it for it in wanted[page] if it.startswith("--"))
        for shell, place in COMPLETED.items():
            with open(place % name, encoding="utf-8") as it:
                text = it.read()
            if shell == "fish":
                found = {"--" + it for it in re.findall(r"^complete .* -l ([a-z-]+)", text, re.M)}
            else:
                found = set(re.findall(r"(?<![\w-])--[a-z][a-z-]*", text))
            hold("options of %s in %s" % (name, shell), longs, sorted(found))
    return "helps, pages and completions of three shells name the same %d options" % sum(map(len, wanted.values()))


def on_terminal(words, columns):
    """What a program prints on a terminal of so many columns."""
    ours, theirs = pty.openpty()
    fcntl.ioctl(theirs, termios.TIOCSWINSZ, struct.pack("4H", 24, columns, 0, 0))
    process, text = subprocess.Popen(words, stdin=subprocess.DEVNULL, stdout=theirs), b""
    os.close(theirs)
    # a terminal whose other end is closed fails to be read
    with contextlib.suppress(OSError):
        while data := os.read(ours, 4096):
            text += data
    os.close(ours)
    hold("status of %s" % " ".join(words), 0, process.wait())
    return text.decode().splitlines()


def narrow(root):
    """Each help fits a terminal of 60 columns, and those of the two programs for everybody are no wider on others."""
    root.install()
    names = ("strata-mount", "/sbin/mount.strata", "strata-snapshotter", "strata-layers")
    programs = (*([it] for it in names), *(["strata-layers", it] for it in VERBS))
    for words in programs:
        for columns in (NARROW, WIDE) if words[0] in ("strata-mount", "strata-layers") else (NARROW,):
            lines = on_terminal([*words, "--help"], columns)
            hold("an empty help", True, len(lines) > 3)
            hold("wide lines of %s" % " ".join(words), [], [it for it in lines if len(it) > NARROW])
    return "%d helps in %d columns" % (len(programs), NARROW)


def words_of_fstab(root):
    """The page of the mount helper names every word that it takes or passes over."""
    root.install()
    with open(MAN + PAGES[3], encoding="utf-8") as it:
        text = it.read().replace("\\-", "-")
    words = {*IGNORED, *KERNEL, *SETS, *CLEARS, *STRATA, *IGNORED_FRONTS}
    missing = sorted(word for word in words if not re.search(r"(?<![\w-])%s(?![a-z])" % re.escape(word), text))
    hold("words that the page leaves out", [], missing)
    return "%d words of -o" % len(words)


def fault_lines():
    """The fault lines in the table of docs/USE.md, each as a pattern."""
    with open(os.path.join(ROOT, "docs", "USE.md"), encoding="utf-8") as it:
        table = it.read().partition("| Fault line ")[2]
    for line in re.findall(r"`([^`]+)`", "\n".join(row.split(" | ")[0] for row in table.splitlines() if row.startswith("| `"))):
        yield r"\S+".join(map(re.escape, re.split("<[^>]*>", line)))


def faults(root):
    """The page of the program tells of each fault line that it has."""
    root.needs("man")
    lines = list(fault_lines())
    root.install()
    env = dict(os.environ, MANWIDTH="1000", MANPAGER="cat")
    text = root.good("man", "-E", "ascii", "-l", MAN + PAGES[0], env=env).partition("DIAGNOSTICS")[2]
    hold("lines that the page leaves out", [], [line for line in lines if not re.search(line, text)])
    return "%d fault lines" % len(lines)


def bash(root):
    script = ("source /usr/share/bash-completion/bash_completion 2>/dev/null; for name in strata strata-mount strata-layers; do "
              "source %sbash-completion/completions/$name; done; COMP_WORDS=(strata-mount --repl); COMP_CWORD=1; COMP_LINE='strata-mount "
              "--repl'; compopt() { :; }; _strata_mount; echo ${COMPREPLY[*]}; COMP_WORDS=(strata serve --dev); COMP_CWORD=2; _strata; "
              "echo ${COMPREPLY[*]}; complete -p strata strata-mount strata-layers | wc -l" % SHARE)
    hold("bash", "--replace\n--device\n3\n", root.good("bash", "--norc", "-c", script))


def zsh(root):
    script = ("fpath=(%szsh/site-functions $fpath); autoload -Uz compinit; compinit -u -D; "
              "print $_comps[strata] $_comps[strata-mount] $_comps[strata-layers]; "
              "for name in strata strata-mount strata-layers; do autoload +X -Uz _$name || exit 1; done" % SHARE)
    hold("zsh", "_strata _strata-mount _strata-layers\n", root.good("zsh", "-f", "-c", script))
    for name in ("strata", "strata-mount", "strata-layers"):
        root.good("zsh", "-f", "-n", COMPLETED["zsh"] % name)


def fish(root):
    env = dict(os.environ, XDG_DATA_DIRS="/usr/local/share:/usr/share", HOME="/tmp")
    for words, wanted in (("strata-mount --repl", "--replace"), ("strata serve --dev", "--device"), ("strata so", "socket")):
        said = root.good("fish", "--no-config", "-c", "source %s; complete -C %r" % (
            COMPLETED["fish"] % words.split()[0], words), env=env)
        hold("fish: " + words, wanted, said.split("\t")[0])
    root.good("fish", "--no-config", "-n", COMPLETED["fish"] % "strata-layers", env=env)


def shells(root):
    """The completions load in each shell that is here, and complete."""
    root.install()
    told, missing = [], []
    for shell in (bash, zsh, fish):
        try:
            root.needs(shell.__name__)
            shell(root)
            told.append(shell.__name__)
        except LeftOut:
            missing.append(shell.__name__)
    if not told:
        raise LeftOut("no %s" % ", ".join(missing))
    return "completions of " + ", ".join(told) + ("; left out: no " + ", ".join(missing)) * bool(missing)
