"""Where this strata stands, installed or in a checkout, and its version, as the program says it
too: `strata-layers 1.0.0`."""
import os

# the folder of these packages: lib/strata where they are installed, and else tools/
TOP = os.path.dirname(os.path.dirname(os.path.realpath(__file__)))
PACKAGES = ("strata_format", "strata_layers", "strata_mount")
INSTALLED = os.path.join(TOP, "version")
SOURCE = os.path.join(os.path.dirname(TOP), "crates", "strata_words", "src", "version.rt")
CONSTANT = 'pub const VERSION: &str = "'


def is_installed():
    """Whether these packages are installed, and not those of a checkout."""
    return os.path.isfile(INSTALLED)


def version():
    """The version: of installed packages the file `version` beside them says it, of a checkout the
    source of the program. FileNotFoundError where there is neither."""
    if is_installed():
        with open(INSTALLED, encoding="ascii") as file:
            return file.read().strip()
    with open(SOURCE, encoding="utf-8") as file:
        return file.read().partition(CONSTANT)[2].partition('"')[0]


def command(name):
    """How a command is called: `strata-NAME` where it is installed, and else `tools/NAME.py`."""
    return "strata-" + name if is_installed() else "tools/%s.py" % name


def program():
    """The path of strata itself."""
    folder = "../bin" if is_installed() else "build"
    return os.path.join(os.path.dirname(TOP), folder, "strata")
