"""What the tests of `rs_files` share: they run the program, and make files in temporary folders."""
import json
import os
import random
import shutil
import subprocess
import sys
import tempfile

HERE = os.path.dirname(os.path.abspath(__file__))
TOP = os.path.dirname(HERE)
PROGRAM = os.environ.get("RS_FILES", os.path.join(TOP, "crates/rs_files/out/rs_files"))
RANDOM = random.Random(47)
SKIPPED = []


def wrong(text):
    print("files: " + text)
    sys.exit(1)


def skipped(reason):
    """Notes that a test, or a part of it, is skipped."""
    SKIPPED.append(reason)


def printed(*words, status=0, env=None, before=None, cwd=None, seconds=300):
    """Runs the program, checks that its status is the wanted one or one of the wanted ones, and returns what it printed on standard output
    and on standard error. `before` is called in the new process. The program must end within this number of seconds."""
    try:
        done = subprocess.run([PROGRAM, *words], stdout=subprocess.PIPE, stderr=subprocess.PIPE, timeout=seconds, env=env, preexec_fn=before, cwd=cwd)
    except subprocess.TimeoutExpired:
        wrong(f"{words} did not end within {seconds} seconds")
    if done.returncode != status and not (isinstance(status, tuple) and done.returncode in status):
        wrong(f"{words} ended with status {done.returncode} instead of {status}: {done.stdout!r} {done.stderr!r}")
    return done.stdout.decode(errors="replace"), done.stderr.decode(errors="replace")


def ended(*words, env=None):
    """Runs the program, and returns its status and what it printed."""
    done = subprocess.run([PROGRAM, *words], stdout=subprocess.PIPE, stderr=subprocess.STDOUT, timeout=300, env=env)
    return done.returncode, done.stdout.decode(errors="replace")


def run(*words, **options):
    """Does the same as `printed`, and returns both texts as one."""
    return "".join(printed(*words, **options))


def preloaded(name, **settings):
    """Returns the environment in which a shared object of this folder is loaded before the program, or None if there is no C compiler."""
    if shutil.which("cc") is None:
        return skipped(f"no cc: {name}")
    built = os.path.join(BUILT.path, name + ".so")
    if not os.path.exists(built):
        subprocess.run(["cc", "-shared", "-fPIC", "-O1", "-Wall", "-o", built, os.path.join(HERE, name + ".c"), "-ldl"], check=True)
    return {**os.environ, "LD_PRELOAD": built, **{key: str(value) for key, value in settings.items()}}


def write(path, data):
    os.makedirs(os.path.dirname(path), exist_ok=True)
    with open(path, "wb") as out:
        out.write(data)


def read(path):
    with open(path, "rb") as file:
        return file.read()


def tree(folder):
    """Returns the contents of all files below a folder, by their names."""
    return {os.path.relpath(os.path.join(at, name), folder): read(os.path.join(at, name)) for at, _, names in os.walk(folder) for name in names}


class Folder:
    """A temporary folder, in the folder `above` if it is given."""

    def __init__(self, above=None):
        self.path = tempfile.mkdtemp(prefix="rs_files.", dir=above)

    def __enter__(self):
        return self

    def __exit__(self, *_):
        shutil.rmtree(self.path, ignore_errors=True)

    def __call__(self, *parts):
        return os.path.join(self.path, *parts)


def spans(volume):
    """Returns the kind, index, start and end of each record of a volume that is whole."""
    found, at = [], 128
    while at < len(volume):
        kind, index = (int.from_bytes(volume[at + i:at + i + 4], "little") for i in (8, 12))
        end = at + 64 + int.from_bytes(volume[at + 16:at + 24], "little")
        found.append((kind, index, at, end))
        at = end
    return found


def left_of(volume, is_whole):
    """Returns how many recovery blocks are left if only the records of `volume` for which `is_whole(start, end)` is true are left. None
    means that a part of the description is lost in all copies."""
    parts = {index for kind, index, _, _ in spans(volume) if kind == 2}
    whole = [(kind, index) for kind, index, start, end in spans(volume) if is_whole(start, end)]
    if {index for kind, index in whole if kind == 2} != parts:
        return None
    return sum(kind == 1 for kind, _ in whole)


def bodies(volume):
    """Returns the place of the first byte of each block in a whole volume."""
    return [start + 64 for kind, _, start, _ in spans(volume) if kind == 1]


def flipped(volume, bit):
    """Returns a volume of which one bit is changed."""
    return volume[:bit // 8] + bytes([volume[bit // 8] ^ 1 << bit % 8]) + volume[bit // 8 + 1:]


def info(volume):
    """Returns what `info --json` prints."""
    return json.loads(run("info", volume, "--json"))


def sparse(path, size):
    """Makes a file of zeros that needs no room on the disk."""
    with open(path, "wb") as out:
        out.truncate(size)


def as_nobody(folder):
    """Gives a folder to the user nobody, and returns a function that makes a new process one of this user. Without root, changes nothing."""
    if os.geteuid() != 0:
        return None
    for path, _, names in os.walk(folder):
        for name in (path, *(os.path.join(path, name) for name in names)):
            os.chown(name, 65534, 65534)

    def become():
        os.setgid(65534)
        os.setuid(65534)

    return become


# The folder of the shared objects that `preloaded` builds.
BUILT = Folder()
