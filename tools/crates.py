"""The crates of the repository, and the calls of `rattle` for one of them: for tools/build, tools/prove and tools/times.
By itself it prints how many checks run side by side, for tools/test.

A library is built as statements, the parts that crates above may cite (`rattle build --statements`, as in the gate), into
crates/NAME/out/built: a check above it then need not read its proofs.
"""
import hashlib
import os
import re
import shutil
import signal
import subprocess

TOP = os.path.dirname(os.path.dirname(os.path.realpath(__file__)))
TARGET = "x86_64-unknown-linux-gnu"
# what a check takes at most, in megabytes
MEMORY = 2500


def toolchain():
    """The folder of the Rattle toolchain, or None if there is no `rt`."""
    rt = shutil.which("rt")
    return rt and os.path.dirname(os.path.dirname(os.path.realpath(rt)))


def processors():
    """How many checks run side by side: one a processor, four at most, as many as the free memory holds."""
    with open("/proc/meminfo", encoding="utf-8") as text:
        free = int(re.search(r"MemAvailable:\s*(\d+)", text.read())[1]) // 1024
    return max(1, min(4, len(os.sched_getaffinity(0)), free // MEMORY))


class Crates:
    """The crates that crates.txt lists, lowest first, and the libraries that each uses."""

    def __init__(self, kit, top=TOP):
        self.kit, self.top, self.uses, self.sums, self.running = kit, top, {}, {}, set()
        self.static = set()
        with open(f"{top}/crates.txt", encoding="utf-8") as lines:
            named = [it.split("#")[0].split(":") for it in lines if ":" in it.split("#")[0]]
        listed = {name.split()[0]: libraries.split() for name, libraries in named}
        self.static.update(name.split()[0] for name, _ in named if name.split()[1:] == ["staticlib"])

        def visit(name):
            for library in listed[name]:
                if library in listed:
                    visit(library)
            self.uses.setdefault(name, listed[name])

        for name in listed:
            visit(name)

    def folder(self, name):
        return f"{self.top}/crates/{name}"

    def own(self, name):
        """The libraries of the repository that the crate uses."""
        return [it for it in self.uses[name] if it in self.uses]

    def below(self, name):
        """The libraries of the repository below the crate, each after those that it uses."""
        found = []
        for library in self.own(name):
            found += [it for it in [*self.below(library), library] if it not in found]
        return found

    def is_program(self, name):
        return os.path.isfile(f"{self.folder(name)}/src/main.rt")

    def files(self, name):
        for part in ("src", "specs", "proofs"):
            for at, folders, files in os.walk(f"{self.folder(name)}/{part}"):
                folders.sort()
                for file in sorted(files):
                    yield f"{at}/{file}"

    def lines(self, name):
        """How many lines a crate has, about which its check's time goes."""
        return sum(open(it, "rb").read().count(b"\n") for it in self.files(name))

    def stamp(self, name):
        """A sum of all that the crate is built from."""
        if name not in self.sums:
            total = hashlib.sha256(repr(self.uses[name]).encode())
            total.update(open(f"{self.kit}/WHAT", "rb").read())
            for file in self.files(name):
                total.update(repr((os.path.relpath(file, self.top), open(file, "rb").read())).encode())
            for library in self.own(name):
                total.update(self.stamp(library).encode())
            self.sums[name] = total.hexdigest()
        return self.sums[name]

    def made(self, name):
        """The folder of a built library, or the file of a static library, which other programs link."""
        return f"{self.folder(name)}/out/built/lib{name}.a" if name in self.static else f"{self.folder(name)}/out/built/{name}.rlib"

    def is_built(self, name):
        try:
            with open(f"{os.path.dirname(self.made(name))}/stamp", encoding="utf-8") as stamp:
                return os.path.exists(self.made(name)) and stamp.read() == self.stamp(name)
        except OSError:
            return False

    def words(self, verb, name):
        """The words of a call of `rattle` for the crate."""
        words = [f"{self.kit}/bin/rattle", verb, "--crate-name", name, "src/main.rt" if self.is_program(name) else "src/lib.rt"]
        for library in ["std", *self.uses[name]]:
            words += ["--extern", f"{library}={self.made(library) if library in self.uses else f'{self.kit}/rlibs/{library}.rlib'}"]
        for folder in [f"{self.kit}/rlibs", *(os.path.dirname(self.made(it)) for it in self.below(name))]:
            words += ["-L", f"dependency={folder}"]
        words += ["--antt-project", f"{self.kit}/rattle/logic/antt-project.json", "--logic-built", f"{self.kit}/logic_built"]
        static = ["--crate-type", "staticlib"] if name in self.static else []
        return [*words, "--links", f"{name}=", *static]

    def call(self, name, words, log, nice=0):
        """Calls a tool in the crate's folder, which gives way to others by how nice it is, and returns its status."""
        words = ["nice", "-n", str(nice), *words] if nice else words
        with subprocess.Popen(words, cwd=self.folder(name), stdin=subprocess.DEVNULL, stdout=log, stderr=subprocess.STDOUT, start_new_session=True) as child:
            self.running.add(child)
            try:
                return child.wait()
            except BaseException:
                self.stop()
                raise
            finally:
                self.running.discard(child)

    def stop(self):
        """Ends all checks that run, with the processes that they started."""
        for child in list(self.running):
            try:
                os.killpg(child.pid, signal.SIGKILL)
            except ProcessLookupError:
                pass

    def build_library(self, name, jobs, log, nice=0):
        """Proves a library and builds it; returns the status."""
        made, stamp = self.made(name), self.stamp(name)
        shutil.rmtree(os.path.dirname(made), ignore_errors=True)
        os.makedirs(os.path.dirname(made))
        kind = ["--toolchain", f"{self.kit}/toolchain"] if name in self.static else ["--statements"]
        status = self.call(name, [*self.words("build", name), "--jobs", str(jobs), *kind, "-o", made], log, nice)
        if not status:
            with open(f"{os.path.dirname(made)}/stamp", "w", encoding="utf-8") as kept:
                kept.write(stamp)
        return status

    def build_program(self, name, jobs, log, nice=0):
        """Proves a program and builds it; returns the status."""
        made = f"{self.folder(name)}/out/{name}"
        os.makedirs(os.path.dirname(made), exist_ok=True)
        tools = ["--toolchain", f"{self.kit}/toolchain"]
        link = [f"{self.kit}/bin/rattle-link", "--target", TARGET, *tools, "-o", f"{made}.new", f"{made}.o"]
        status = self.call(name, [*self.words("build", name), "--jobs", str(jobs), *tools, "-o", f"{made}.o"], log, nice)
        status = status or self.call(name, [*link, f"{self.kit}/c/libos_c.a", f"{self.kit}/c/liblibc_c.a"], log)
        if not status:
            os.replace(f"{made}.new", made)
        return status


if __name__ == "__main__":
    print(processors())
