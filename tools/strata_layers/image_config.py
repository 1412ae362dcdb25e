"""What an image's configuration says of how it is run, for people and for the programs that run
it."""
import json
import os
import shlex

from strata_format.refused import Refused, one_line, shown
from strata_layers import user_namespace

HOME = "HOME"
# options of bwrap that are followed by a place outside
BINDS = ("--bind", "--bind-try", "--dev-bind", "--dev-bind-try", "--ro-bind", "--ro-bind-try")
OUTSIDE = "run it outside, or in one that has him and his groups"
AS_ROOT = "the image's user is root, and so are you: it would have root's rights here; run this as another user, or say --as-caller"


def is_text(value):
    """Whether a word of the system can say it: JSON may name halves of characters, too."""
    try:
        return isinstance(value, str) and b"\0" not in value.encode()
    except UnicodeEncodeError:
        return False


def texts(value, name):
    """A list of texts of a configuration; none where there is none."""
    found = value.get(name)
    if found is None:
        return []
    if not isinstance(found, list) or not all(is_text(it) for it in found):
        raise Refused("the image's configuration has no valid '%s'" % name)
    return found


def one_text(value, name):
    found = value.get(name)
    if found is None:
        return ""
    if not is_text(found):
        raise Refused("the image's configuration has no valid '%s'" % name)
    return found


def is_variable(text):
    """Whether an entry of an environment has a name, and `=` behind it."""
    name, equals, _ = text.partition("=")
    return name != "" and equals != ""


class RunConfig:
    """How an image is run."""

    def __init__(self, config):
        value = config.get("config")
        value = value if isinstance(value, dict) else {}
        self.entry_point, self.command = texts(value, "Entrypoint"), texts(value, "Cmd")
        self.environment = texts(value, "Env")
        self.folder, self.user = one_text(value, "WorkingDir") or "/", one_text(value, "User")

    def variables(self):
        """The names and values of the environment. An empty HOME is none, as container runtimes
        have it."""
        found = [text.partition("=") for text in self.environment if is_variable(text)]
        return [(name, value) for name, _, value in found if value or name != HOME]

    def no_variables(self):
        """A line of the entries of the environment that no program can get, or None."""
        found = [it for it in self.environment if not is_variable(it)]
        if not found:
            return None
        return one_line("the image's environment has entries that are not NAME=VALUE, left out here: %s"
                        % " ".join(map(shlex.quote, found)))

    def words(self, otherwise=""):
        """The words of the program that the image starts."""
        found = self.entry_point + self.command
        if not found:
            raise Refused("the image says neither an entry point nor a command" + otherwise)
        return found


def config_lines(config):
    """Lines of the shell's words: what it is, and its words."""
    it = RunConfig(config)
    yield " ".join(["entrypoint", *map(shlex.quote, it.entry_point)])
    yield " ".join(["command", *map(shlex.quote, it.command)])
    for text in it.environment:
        yield "env " + shlex.quote(text)
    yield "folder " + shlex.quote(it.folder)
    yield " ".join(["user", *([shlex.quote(it.user)] if it.user else [])])


def become(user, caller):
    """The words before bwrap by which the caller, a user's and a group's number, becomes the user;
    refused where he may not."""
    if (user.uid, user.gid) == caller:
        return []
    if caller[0] != 0:
        raise Refused("the image's user is %d:%d, and you are %d:%d; root can run it as that user, and"
                      " --as-caller runs it with your rights under that number"
                      % (user.uid, user.gid, *caller))
    if not user_namespace.has(user):
        how = "--as-caller runs it with your rights under that number" if user_namespace.is_callers() else OUTSIDE
        raise Refused("the image's user is %d:%d, which this user namespace does not have; %s"
                      % (user.uid, user.gid, how))
    groups = ["--groups", ",".join(map(str, user.groups))] if user.groups else ["--clear-groups"]
    return ["setpriv", "--reuid", str(user.uid), "--regid", str(user.gid), *groups, "--inh-caps=-all"]


def closed_devices():
    """The device numbers of FUSE mounts that only the user may read who mounted them."""
    with open("/proc/self/mountinfo", encoding="utf-8", errors="replace") as mounts:
        for line in mounts:
            front, _, behind = line.partition(" - ")
            kind, *_, options = behind.split()
            if kind.partition(".")[0] == "fuse" and "allow_other" not in options.split(","):
                yield front.split()[2]


def hold_open(options, user):
    """Looks that what options of bwrap bind can be read by another user than who mounted it."""
    closed = {*closed_devices()}
    for option, place in zip(options, options[1:]):
        if option not in BINDS or not os.path.exists(place):
            continue
        device = os.stat(place).st_dev
        if "%d:%d" % (os.major(device), os.minor(device)) in closed:
            raise Refused("%s: mounted without allow_other, so the image's user %d:%d cannot read it; mount it with"
                          " -o allow_other" % (shown(os.fsencode(place)), user.uid, user.gid))


def closed_to(place, user):
    """The first folder on the way to a place that a user may not pass, or None: a process that has
    become him looks at each."""
    ways = [*ways_to(os.path.realpath(place)), *ways_to(os.path.abspath(place))]
    source, told = os.pipe()
    child = os.fork()
    if child == 0:
        try:
            os.setgroups(user.groups)
            os.setresgid(user.gid, user.gid, user.gid)
            os.setresuid(user.uid, user.uid, user.uid)
            os.write(told, b"%d" % count_passed(ways))
        finally:
            os._exit(0)
    os.close(told)
    os.waitpid(child, 0)
    with os.fdopen(source, "rb") as file:
        count = int(file.read() or len(ways))
    return ways[count - 1] if count < len(ways) else None


def ways_to(path):
    """The folders on the way to a whole path, and this."""
    found = []
    while path != "/":
        found.append(path)
        path = os.path.dirname(path)
    return ["/", *reversed(found)]


def count_passed(ways):
    """How many of these this process may look at until it may not."""
    for count, way in enumerate(ways):
        try:
            os.stat(way)
        except PermissionError:
            return count
        except OSError:
            pass
    return len(ways)


def hold_reached(options, user):
    """Looks that another user than the caller reaches what options of bwrap bind."""
    for option, place in zip(options, options[1:]):
        closed = closed_to(place, user) if option in BINDS else None
        if closed is not None:
            raise Refused("%s: the image's user %d:%d may not pass %s; mount it elsewhere, as below /mnt or /srv"
                          % (shown(os.fsencode(place)), user.uid, user.gid, shown(os.fsencode(closed))))


def run_as(user, caller, as_caller):
    """The words before bwrap, and those of bwrap, that make the program the user's, or leave it the
    caller's own rights under the user's numbers. Root's rights it gets only if root says so, and
    without capabilities."""
    is_root = caller[0] == 0 and not user_namespace.is_callers()
    if is_root and user.uid == 0:
        if not as_caller:
            raise Refused(AS_ROOT)
        return become(user, caller), ["--cap-drop", "ALL"]
    if not as_caller:
        return become(user, caller), []
    if is_root:
        raise Refused("--as-caller would give root's rights to the image's user; leave it out")
    return [], ["--unshare-user", "--uid", str(user.uid), "--gid", str(user.gid)]


def bwrap_words(it, user, caller, asked):
    """A whole command of bwrap: the user, environment and folder of the image, then the options that
    are asked for, which thus have the last word, and the image's program or the command that is asked
    for. HOME is the user's home unless the image says another. No word of the image is taken as an
    option."""
    program = asked.command or it.words("; behind -- stands a command to run instead")
    words, own = run_as(user, caller, asked.as_caller)
    if words:
        hold_open(asked.options, user)
        hold_reached(asked.options, user)
    words += ["bwrap", *own, "--clearenv"]
    variables = it.variables()
    if HOME not in dict(variables):
        variables.insert(0, (HOME, user.home))
    for name, value in variables:
        words += ["--setenv", name, value]
    return [*words, "--chdir", it.folder, *asked.options, "--", *program]


def podman_words(it):
    """Words of podman run: all of it, so that only --rootfs follows. podman looks users up, and
    sets HOME, by itself."""
    words = ["--entrypoint", json.dumps(it.words()), "--workdir", it.folder]
    for name, value in it.variables():
        # a name alone would mean the value that it has outside
        words += ["--env", "%s=%s" % (name, value)]
    return words + (["--user", it.user] if it.user else [])
