"""The packages that all tests here try: made once, by ./package in a checkout of its own that has the built program, and
the libraries beside it.

No command that is run here finds a proof kit. What a test makes in folders goes when it ends, but for what others use too.
"""
import contextlib
import functools
import glob
import os
import pty
import re
import select
import shutil
import subprocess
import sys
import tempfile
import time
import unittest

ROOT = os.path.dirname(os.path.dirname(os.path.dirname(os.path.realpath(__file__))))
PROGRAM = os.environ["CHIPFIRE_PACKED"]
#: The library that programs load, and the one that they are linked with.
SHARED, STATIC = LIBRARIES = ("libchipfire.so", "libchipfire.a")
#: Where Debian's own programs lie, and no proof kit.
PATH = "/usr/sbin:/usr/bin:/sbin:/bin"
#: What stands for the kit that proved the program: the checkout's stamp says so.
KIT = "kit of the tests"
SECONDS = 300


def environment(**more):
    """Returns the environment of the commands: nothing of the caller's but what is said."""
    return {"PATH": PATH, "LC_ALL": "C.UTF-8", "HOME": rooms(), "TMPDIR": rooms(), "GIT_CONFIG_GLOBAL": "/dev/null",
            "PYTHONDONTWRITEBYTECODE": "1", **more}


def run(*words, check=False, cwd=None, **more):
    """Runs a command and returns what came of it, with its output as text."""
    how = {"capture_output": True, "encoding": "utf-8", "errors": "replace", "stdin": subprocess.DEVNULL}
    ran = subprocess.run(words, cwd=cwd, env=environment(**more), timeout=SECONDS, **how)
    if check and ran.returncode != 0:
        raise AssertionError(f"{' '.join(words)} ended with status {ran.returncode}: {ran.stdout}{ran.stderr}")
    return ran


def need(*tools):
    """Skips a test where a tool of the system is missing."""
    for tool in tools:
        if shutil.which(tool, path=PATH) is None:
            raise unittest.SkipTest(f"there is no {tool}")


#: What goes, or is put back, when the test ends that runs.
ending = contextlib.ExitStack()


class Test(unittest.TestCase):
    """A test whose folders go when it ends."""

    def tearDown(self):
        ending.close()


def kept(make):
    """Has a function make what it makes once; the folders of that stay until all tests end."""

    @functools.cache
    @functools.wraps(make)
    def once(*given):
        global ending
        of_test, ending = ending, contextlib.ExitStack()
        try:
            return make(*given)
        finally:
            ending = of_test

    return once


@functools.cache
def rooms():
    """Returns the folder of all that the tests write; it goes when they end."""
    rooms.kept = tempfile.TemporaryDirectory(prefix="chipfire-package-")
    return rooms.kept.name


def room():
    """Returns a new folder."""
    path = tempfile.mkdtemp(dir=rooms())
    ending.callback(shutil.rmtree, path, ignore_errors=True)
    return path


def read(path):
    with open(path, "rb") as file:
        return file.read()


def write(path, data):
    with open(path, "wb") as file:
        file.write(data)


def repository_files():
    """Returns the names of the repository's files, those among them that are not committed yet."""
    need("git")
    listed = run("git", "-c", f"safe.directory={ROOT}", "ls-files", "-z", "-co", "--exclude-standard", cwd=ROOT, check=True)
    return [it for it in listed.stdout.split("\0") if os.path.isfile(f"{ROOT}/{it}")]


def commit(top):
    """Commits all that is in a checkout."""
    run("git", "add", "-A", cwd=top, check=True)
    who = ["-c", "user.name=tests", "-c", "user.email=tests@chipfire.invalid"]
    run("git", *who, "commit", "-q", "--allow-empty", "-m", "tests", cwd=top, check=True)


@kept
def sources():
    """Returns a checkout of the repository as it is here, with nothing built in it, and no release; no test changes it."""
    top = room()
    for name in (it for it in repository_files() if not it.startswith("release/")):
        os.makedirs(os.path.dirname(f"{top}/{name}"), exist_ok=True)
        shutil.copy(f"{ROOT}/{name}", f"{top}/{name}")
    run("git", "init", "-q", cwd=top, check=True)
    commit(top)
    return top


@functools.cache
def idle_clones(_source):
    """Returns the clones of a checkout that no test has."""
    return []


def clone_of(source):
    """Returns a clone of a checkout, as it was cloned. When the test ends it is put back, and lent to the next one."""
    clones = idle_clones(source)
    if clones:
        top = clones.pop()
    else:
        top = tempfile.mkdtemp(dir=rooms())
        run("git", "clone", "-q", "--shared", source, top, check=True)
    ending.callback(put_back, top, clones)
    return top


def put_back(top, clones):
    """Has a clone be as it was cloned, if it is still there."""
    if os.path.isdir(top):
        run("git", "reset", "-q", "--hard", "origin/HEAD", cwd=top, check=True)
        run("git", "clean", "-q", "-ffdx", cwd=top, check=True)
        clones.append(top)


def checkout():
    """Returns a checkout of the same, which a test may change."""
    return clone_of(sources())


def library(name):
    """Returns the path of a library that was built."""
    return f"{os.path.dirname(PROGRAM)}/{name}"


def build(top, program=PROGRAM):
    """Puts a program and the libraries into a checkout, as ./chipfire leaves them when all is proved."""
    os.makedirs(f"{top}/target", exist_ok=True)
    shutil.copy(program, f"{top}/target/chipfire")
    for name in LIBRARIES:
        shutil.copy(library(name), f"{top}/target/{name}")
    write(f"{top}/target/chipfire.stamp", f"{KIT}\n".encode())


#: What stands for a cross compiler: it prints its version, and where files lie, beside itself.
COMPILER = """#!/bin/sh
case $1 in --version) echo '{}' ;; *) echo "${{0%/*}}/lib/${{1#*=}}" ;; esac
"""
#: What stands for an emulator: the program is one for this machine.
EMULATOR = "#!/bin/sh\nshift 2\nexec \"$@\"\n"


@functools.cache
def made_up_tools(version="wasm-opt version 1 (made up)", prints=None, compiler="gcc 1 (made up)"):
    """Returns a PATH with a wasm-opt of this version, a Node that prints `prints` or else the version of the program, and
    what stands for a cross compiler and an emulator of aarch64, if one is named."""
    folder = f"{rooms()}/tools {version} {prints} {compiler}"
    os.makedirs(f"{folder}/lib")
    tools = {
        "wasm-opt": f"#!/bin/sh\necho '{version}'\n",
        "node": f"#!/bin/sh\necho '{prints or globals()['version']()}'\n",
    }
    if compiler is not None:
        tools |= {"aarch64-linux-gnu-gcc": COMPILER.format(compiler), "qemu-aarch64": EMULATOR}
        write(f"{folder}/lib/libc.so.6", b"GNU C Library (made up) stable release")
        write(f"{folder}/lib/Scrt1.o", b"")
    for name, text in tools.items():
        write(f"{folder}/{name}", text.encode())
        os.chmod(f"{folder}/{name}", 0o755)
    return f"{folder}:{PATH}"


def make_up_module(top, data=b"\0asm made up"):
    """Changes the script that makes the package for browsers and Node in a checkout: it takes these bytes for the module,
    where the real one needs the kit."""
    script = f"{top}/tools/webassembly.py"
    old, text = "{MODULE: module(), ", read(script).decode()
    assert text.count(old) == 1
    write(script, text.replace(old, f"{{MODULE: {data!r}, ").encode())


def make_up_aarch64(top, built=None):
    """Changes the script that makes what is for aarch64 in a checkout: it takes what a folder has for it, or what is for
    this machine and a byte more. The real one needs the kit."""
    names = [os.path.basename(PROGRAM), *LIBRARIES]
    files = {name: f"{built or os.path.dirname(PROGRAM)}/{name}" for name in names}
    more = bytes(built is None)
    script = f"""import os, shutil, sys
os.makedirs(sys.argv[1])
for name, path in {files!r}.items():
    shutil.copy(path, sys.argv[1])
    with open(f"{{sys.argv[1]}}/{{name}}", "ab") as file:
        file.write({more!r})
"""
    write(f"{top}/tools/aarch64.py", script.encode())


def release(top, path=None, built=None):
    """Makes a release in a checkout by the tools on a PATH, and leaves nothing built there. Made-up scripts stand for those
    that need the kit."""
    make_up_module(top)
    make_up_aarch64(top, built)
    commit(top)
    build(top)
    package(top, "--release", PATH=path or made_up_tools(), check=True)
    shutil.rmtree(f"{top}/target")


def make_parts(top, folder):
    """Makes what is for aarch64, and for browsers and Node, by the scripts of a checkout, in folders of another."""
    run(sys.executable, f"{top}/tools/parts.py", folder, check=True, PATH=made_up_tools())


@functools.cache
def pythons():
    """Returns the Pythons of this machine, those that lie beside the one that runs too, as paths by their versions."""
    folders = [*os.environ["PATH"].split(":"), PATH.split(":")[1], *glob.glob(f"{glob.escape(sys.base_prefix)}/../*/bin")]
    found = {sys.version_info[:2]: sys.executable}
    for path in (it for folder in folders for it in sorted(glob.glob(f"{glob.escape(folder)}/python3.*"))):
        name = re.fullmatch(r"python3\.(\d+)", os.path.basename(path))
        if name and run(path, "-c", "").returncode == 0:
            found.setdefault((3, int(name[1])), path)
    return dict(sorted(found.items()))


@kept
def bare_environment(python):
    """Returns an environment of a Python with nothing but pip in it; no test changes it."""
    top = room()
    run(python, "-m", "venv", top, check=True)
    # (in a copy they would still start this one)
    for name in glob.glob(f"{glob.escape(top)}/bin/pip*"):
        os.remove(name)
    return top


def virtual_environment(python=sys.executable):
    """Returns a new environment of a Python with nothing but pip in it: `bin/python -m pip`."""
    top = f"{room()}/environment"
    shutil.copytree(bare_environment(python), top, symlinks=True)
    return top


def pip(environment, *words, **more):
    """Runs the pip of an environment where it has no network, as far as this system lets us."""
    return run(*without_network(), f"{environment}/bin/python", "-m", "pip", *words, **more)


@functools.cache
def without_network():
    """Returns what starts a command where it has no network, as far as this system lets us."""
    words = ("unshare", "--net")
    is_there = shutil.which(words[0], path=PATH) is not None
    return words if is_there and run(*words, "true").returncode == 0 else ()


def package(top, *words, python=sys.executable, **more):
    """Runs ./package of a checkout."""
    return run(python, f"{top}/package.py", *words, **more)


@kept
def home():
    """Returns a checkout with the program and its packages, which are tried; no test changes it."""
    need("dpkg-deb")
    top = checkout()
    build(top)
    made = package(top)
    if made.returncode != 0:
        raise AssertionError(made.stderr)
    return top


def copied():
    """Returns a copy of that checkout, with its packages."""
    top = room()
    shutil.copytree(home(), top, symlinks=True, dirs_exist_ok=True)
    return top


#: How the name of each package for this machine ends: the archive, the Debian package, and the wheels with and without the
#: program.
PACKAGES = ("-x86_64-linux.tar.xz", "_amd64.deb", "_2_34_x86_64.whl", "_2_14_x86_64.whl")


def path_of(end, top=None):
    """Returns the path of the package whose name ends so, of this machine, and of the wheels that with the program."""
    dist = f"{top or home()}/dist"
    found = [whole for whole in PACKAGES if whole.endswith(end)] or [end]
    return next(f"{dist}/{it}" for it in os.listdir(dist) if it.endswith(found[0]))


def unpack(archive):
    """Returns the folder that was in an archive."""
    need("tar", "xz")
    inside = room()
    run("tar", "-xf", archive, "-C", inside, check=True)
    (name,) = os.listdir(inside)
    return f"{inside}/{name}"


@kept
def unpacked():
    """Returns the folder that was in the archive for this machine."""
    return unpack(path_of(".tar.xz"))


@functools.cache
def version():
    """Returns the version that the program prints."""
    return run(PROGRAM, "--version").stdout.split()[1]


def typed(shell, setup, line, wanted):
    """Returns what a shell shows in a terminal when `line` is typed in it and completed, until that has `wanted`."""
    ours, theirs = pty.openpty()
    where = environment(TERM="xterm", COLUMNS="120", PS1="> ")
    with subprocess.Popen(shell, stdin=theirs, stdout=theirs, stderr=theirs, env=where, start_new_session=True) as running:
        os.close(theirs)
        shown(ours, "> ", 30)
        os.write(ours, f"{setup}; echo is''ready\n".encode())
        shown(ours, "isready", 30)
        os.write(ours, f"{line}\t".encode())
        text = shown(ours, wanted, 30)
        running.kill()
    os.close(ours)
    return text


def shown(terminal, wanted, seconds):
    """Returns what comes from a terminal, without bells and escape sequences, until that has `wanted` or so long."""
    text, end = "", time.monotonic() + seconds
    while wanted not in text and select.select([terminal], [], [], max(0, end - time.monotonic()))[0]:
        text += os.read(terminal, 4096).decode(errors="replace")
        text = re.sub(r"\a|\x1b(\[[0-9;?]*[A-Za-z]|[=>])", "", text)
    return text
