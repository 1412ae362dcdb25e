"""The commands of the Rattle kit that prove a crate and build it."""
import os
import subprocess

TARGET = "x86_64-unknown-linux-gnu"


def said(*words):
    return subprocess.run(words, stdout=subprocess.PIPE, text=True, check=True).stdout.strip()


class Kit:
    """The kit that `rt` is of."""

    def __init__(self):
        self.folder, self.version = os.path.dirname(said("rt", "doc")), said("rt", "version")

    def has(self, library):
        return os.path.isdir("%s/rlibs/%s.rlib" % (self.folder, library))

    def over(self, verb, crate, uses, proved, jobs):
        """The command of this verb on a crate, over what it uses, whose statements stand below `proved`."""
        words = [self.folder + "/bin/rattle", verb, "--crate-name", crate, "--jobs", str(jobs)]
        words += ["--links", crate + "="]
        for name in ["std", *uses]:
            words += ["--extern", "%s=%s/%s.rlib" % (name, self.folder + "/rlibs" if self.has(name) else proved, name)]
        words += ["-L", "dependency=%s/rlibs" % self.folder, "-L", "dependency=" + proved]
        words += ["--antt-project", self.folder + "/rattle/logic/antt-project.json"]
        return [*words, "--logic-built", self.folder + "/logic_built"]

    def root(self, folder):
        """The root file of the crate of a folder."""
        return "src/main.rt" if os.path.exists(folder + "/src/main.rt") else "src/lib.rt"

    def build(self, crate, folder, uses, proved, jobs):
        """What proves the crate of a folder, over what it uses, and then writes it below `proved`: a library as
        CRATE.rlib, which holds its statements, and a program as CRATE.o."""
        words, root = self.over("build", crate, uses, proved, jobs), self.root(folder)
        if root == "src/main.rt":
            return [*words, "--toolchain", self.folder + "/toolchain", "--backend", "llvm",
                    "-o", "%s/%s.o" % (proved, crate), root]
        return [*words, "--statements", "-o", "%s/%s.rlib" % (proved, crate), root]

    def check(self, crate, folder, uses, proved, functions):
        """What checks these functions of the crate of a folder, by their paths in it, and those that they call."""
        only = [word for name in functions for word in ("--only", name)]
        return [*self.over("check", crate, uses, proved, 1), *only, self.root(folder)]

    def link(self, crate, proved, program):
        """What makes an executable file of a program that `build` has written."""
        archives = ["%s/c/lib%s_c.a" % (self.folder, name) for name in ("os", "libc")]
        return [self.folder + "/bin/rattle-link", "--target", TARGET, "--toolchain", self.folder + "/toolchain",
                "-o", program, "%s/%s.o" % (proved, crate), *archives]
