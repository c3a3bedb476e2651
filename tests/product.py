"""How the tests reach the product: its programs, its C calls through ctypes. What is run was proved as it is now: by the
rt ci of .ci/run, which says so beside what it made, or else by rt, which is asked for it here."""

import contextlib
import ctypes
import fcntl
import functools
import glob
import os
import shutil
import subprocess
import sys
import tempfile

ROOT = os.path.realpath(os.path.join(os.path.dirname(os.path.abspath(__file__)), ".."))
CRATES = os.path.join(ROOT, "crates")
RT = shutil.which("rt") or sys.exit("the Rattle kit is missing: no rt on the PATH")
KIT = os.environ.get("RATTLE_HOME") or os.path.dirname(os.path.dirname(os.path.realpath(RT)))


@contextlib.contextmanager
def locked():
    """One at a time, as in ./leastplan: the lock is on the directory crates/."""
    lock = os.open(CRATES, os.O_RDONLY)
    fcntl.flock(lock, fcntl.LOCK_EX)
    try:
        yield
    finally:
        os.close(lock)


def call(words, folder):
    how = {"stdin": subprocess.DEVNULL, "stdout": subprocess.PIPE, "stderr": subprocess.STDOUT}
    return subprocess.run(words, cwd=folder, **how)


def said_by_rt(*words):
    """What rt says at the top, whatever its status."""
    return call([RT, *words], ROOT).stdout.decode(errors="replace")


def passes(*words, folder):
    """Ends all where a command fails."""
    done = call(words, folder)
    if done.returncode:
        sys.stdout.buffer.write(done.stdout)
        sys.exit("%s %s failed in %s" % (os.path.basename(words[0]), words[1], os.path.relpath(folder, ROOT)))


# ---- what was proved, and when


def in_crate(name, *path):
    return os.path.join(CRATES, name, *path)


def made(name, file):
    """What rt makes of a crate."""
    return in_crate(name, "out", file)


def last_change():
    """When a source was last changed; a directory changes with each file that is put into it or removed."""
    paths = [os.path.join(ROOT, "crates.txt")]
    for top in glob.glob(os.path.join(CRATES, "*", "*")):
        if os.path.basename(top) != "out":
            paths += [top]
            for folder, folders, files in os.walk(top):
                paths += [os.path.join(folder, name) for name in folders + files]
    return max(os.stat(path).st_mtime_ns for path in paths)


def stamp_of(name):
    """Names the kit that the crate was proved with and the folders there were, and is as old as the sources were then at
    least (./leastplan, .ci/run)."""
    return made(name, name + ".proved")


def made_of():
    """What a stamp holds: the kit, and the folders of all crates, so that one that was removed is missed."""
    with open(os.path.join(KIT, "KIT-ID"), "rb") as kit:
        folders = [it for it in glob.glob("crates/*/*/", root_dir=ROOT) if not it.endswith("/out/")]
        return kit.read() + b"".join(it.encode() + b"\n" for it in sorted(folders))


def is_proved(name):
    """Whether the crate was proved with this kit and no source has changed since."""
    try:
        with open(stamp_of(name), "rb") as stamp:
            same = stamp.read() == made_of()
        return same and os.stat(stamp_of(name)).st_mtime_ns >= last_change()
    except OSError:
        return False


@contextlib.contextmanager
def proving(name):
    """Stamps a crate where what is done meanwhile passes; the stamp is of the time before."""
    os.makedirs(made(name, ""), exist_ok=True)
    new = stamp_of(name) + ".new"
    with open(new, "wb") as out:
        out.write(made_of())
    yield
    os.replace(new, stamp_of(name))


@functools.cache
def program_words(name):
    """The words that run a program; rt proves and builds it anew where it is not of these sources. rt run runs it too."""
    path = made(name, name)
    with locked():
        if not (is_proved(name) and os.access(path, os.X_OK)):
            with proving(name):
                passes(RT, "run", folder=in_crate(name))
    return [path]


# ---- archives


def lines_of_crates():
    """The crates that each lists."""
    listed = {}
    with open(os.path.join(ROOT, "crates.txt"), encoding="utf-8") as lines:
        for line in lines:
            name, colon, rest = line.split("#")[0].partition(":")
            if colon:
                listed[name.split()[0]] = rest.split()
    return listed


def below(name, listed):
    """The crates of the repository that a crate stands on, each after those that it uses."""
    found = []
    for dep in listed[name]:
        if dep in listed:
            found += [it for it in [*below(dep, listed), dep] if it not in found]
    return found


def build_words(name):
    """The words that build an archive over the libraries that rt ci left: those of rt lib, which would prove all of these
    again, as it takes no library that rt ci made."""
    listed = lines_of_crates()
    rlib = lambda it: made(it, os.path.join("rlib", it + ".rlib"))
    kit = ["std", *(it for it in listed[name] if it not in listed)]
    words = ["build", "--crate-name", name, "src/lib.rt"]
    words += [word for it in kit for word in ("--extern", "%s=%s/rlibs/%s.rlib" % (it, KIT, it))]
    words += ["-L", "dependency=%s/rlibs" % KIT]
    words += [word for it in listed[name] if it in listed for word in ("--extern", "%s=%s" % (it, rlib(it)))]
    words += [word for it in below(name, listed) for word in ("-L", "dependency=" + os.path.dirname(rlib(it)))]
    words += ["--antt-project", KIT + "/rattle/logic/antt-project.json", "--logic-built", KIT + "/logic_built"]
    words += ["--jobs", "2", "--links", name + "=", "--crate-type", "staticlib", "--toolchain", KIT + "/toolchain"]
    return words + ["--backend", "llvm", "-o", made(name, "lib%s.a" % name)]


def left_by_ci(name):
    """Whether rt ci proved the crate and its libraries still stand there as it built them: rt lib stamps its own."""
    libraries = [made(it, "rlib") for it in below(name, lines_of_crates())]
    whole = all(os.path.isdir(it) and not os.path.exists(os.path.join(it, "stamp")) for it in libraries)
    return is_proved(name) and whole


# The name by which callers in C link an archive, where rt gives it another.
FOR_CALLERS = {"placing_c": "libplacing.a"}


@functools.cache
def archive(name="host"):
    """The static library of a crate that has C calls; made anew where a source has changed since. It is proved again as it
    is built."""
    path = made(name, "lib%s.a" % name)
    with locked():
        if not (is_proved(name) and os.path.exists(path)):
            if left_by_ci(name):
                passes(os.path.join(KIT, "bin", "rattle"), *build_words(name), folder=in_crate(name))
            else:
                with proving(name):
                    passes(RT, "lib", folder=in_crate(name))
        if name in FOR_CALLERS:
            path = shutil.copyfile(path, made(name, FOR_CALLERS[name]))
    return path


# ---- runs


def outcome(name, data, *words, second=None):
    """(standard output, standard error) of the program for this standard input and these words, with the text of a
    second file on descriptor 3, which is closed without one; a crash raises."""
    command = [*program_words(name), *words]
    with tempfile.NamedTemporaryFile() as text:
        if second is not None:
            text.write(second)
            text.flush()
            command = ["sh", "-c", 'exec "$@" 3<"$0"', text.name, *command]
        done = subprocess.run(command, input=data, stdout=subprocess.PIPE, stderr=subprocess.PIPE, timeout=600)
    if done.returncode:
        raise RuntimeError("%s ended with status %d: %r" % (name, done.returncode, done.stderr))
    return done.stdout, done.stderr


def run(name, data, *words, second=None):
    """The standard output alone."""
    return outcome(name, data, *words, second=second)[0]


def built(name):
    """A path for something that the tests build."""
    folder = os.path.join(ROOT, "target", "tests")
    os.makedirs(folder, exist_ok=True)
    return os.path.join(folder, name)


def library(name):
    """The archive as a shared object, loaded; made under a name of its own, as checks run beside each other."""
    shared = built("lib%s.%d.so" % (name, os.getpid()))
    words = ["gcc", "-shared", "-o", shared, "-Wl,--whole-archive", archive(name), "-Wl,--no-whole-archive"]
    subprocess.run(words, check=True)
    loaded = ctypes.CDLL(shared)
    os.remove(shared)
    return loaded


def c_program_passes(name, crate):
    """Builds tests/NAME.c over the archive of a crate and runs it under valgrind."""
    if not shutil.which("valgrind"):
        print("valgrind is missing: the C programs run under it and are not tested without")
        return False
    program, source = built(name), os.path.join(ROOT, "tests", name + ".c")
    words = ["gcc", "-std=c11", "-Wall", "-Wextra", "-Werror", "-g", "-I", os.path.join(ROOT, "include")]
    subprocess.run(words + ["-o", program, source, archive(crate)], check=True)
    checked = ["valgrind", "-q", "--error-exitcode=9", "--leak-check=full", "--main-stacksize=8388608"]
    return subprocess.run(checked + [program]).returncode == 0


class Report:
    """Counts what a check found: one line ok or FAIL for each named part, and the exit status."""

    def __init__(self):
        self.failed = False

    def part(self, name, differences, count):
        """differences: short texts, none where all of the count agree; there must be something to compare."""
        if not count:
            self.failed = True
            print("FAIL %s: nothing was compared" % name)
        elif differences:
            self.failed = True
            print("FAIL %s: %d of %d differ; the first: %s" % (name, len(differences), count, differences[0]))
        else:
            print("ok %s (%d)" % (name, count))
        sys.stdout.flush()

    def exit(self):
        sys.exit(1 if self.failed else 0)
