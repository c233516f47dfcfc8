"""Tests of `rs_files` beside the reader in Python, `docs/examples/restore.py`: both restore the same files, and refuse the same volumes of
version 1. `files_format.py` compares both for version 2."""
import os
import struct
import subprocess
import sys

from files_common import RANDOM, TOP, Folder, read, run, tree, write, wrong
from files_format import expected, restored_by_program, snapshot
from files_writer import FOLDER, LINK, Item, Made


def read_in_python(new, *places, whole=True):
    """Runs the reader in Python, checks whether it succeeds, and returns its message."""
    words = [sys.executable, os.path.join(TOP, "docs/examples/restore.py"), new, *places]
    done = subprocess.run(words, stderr=subprocess.PIPE, timeout=300, env={**os.environ, "PYTHONDONTWRITEBYTECODE": "1"})
    if (done.returncode == 0) != whole or b"Traceback" in done.stderr:
        wrong(f"the reader in Python ends with status {done.returncode}: {done.stderr!r}")
    return done.stderr.decode(errors="replace")


def unsound(text):
    """Returns descriptions of version 1 that break a rule. The sound description `text` has the files `a` and `b` of 300 and 100 bytes, in
    7 blocks of 64 bytes, and 2 recovery blocks."""
    changes = ((0, b"\2"), (4, b"\2"), (8, b"A"), (8, b"\0"), (14, b"\2"), (16, b"\6"), (20, b"\0"), (24, b"\1"), (24, b"\3"), (35, b"\x40"), (48, b"\0"), (50, b"/"),
               (50, b"."), (50, b"\0"), (50, b"\xff"), (50, b"b"), (50, b"c"), (51, b"\xff"))
    broken = [text[:at] + byte + text[at + 1:] for at, byte in changes]
    many = text[:20] + struct.pack("<I", 65530) + text[24:] + bytes(32 * (65530 - 2))
    return [*broken, many, text + b"\0", text[:-1], text[:20], b""]


def bad_heads(volume):
    """Returns volumes of version 1 of which neither the first nor the last head can be used."""
    changes = ((0, b"\0"), (8, b"\2"), (12, b"\1"), (23, b"\1"), (16, bytes([volume[16] ^ 2])), (32, bytes([volume[32] ^ 1])))
    head = len(volume) - 64
    both = [volume[:at] + byte + volume[at + 1:head + at] + byte + volume[head + at + 1:] for at, byte in changes]
    return [*both, volume[:63], b""]


def wrong_volumes():
    """The readers refuse volumes of version 1 whose description breaks a rule. If both heads are damaged, the reader in Python restores the
    files, and the program restores them or says that it cannot use the volume."""
    with Folder() as at:
        items = [Item(b"a", RANDOM.randbytes(300)), Item(b"b", RANDOM.randbytes(100))]
        made = Made(items, 64, 2, version=1)
        for number, text in enumerate([made.description, *unsound(made.description)]):
            other = Made(items, 64, 2, version=1, edited=lambda _, text=text: text)
            write(at(f"{number}.rsv"), other.volume(range(other.k + other.r)))
            run("info", at(f"{number}.rsv"), status=4 if number else 0)
            read_in_python(at(f"new{number}"), at(f"{number}.rsv"), whole=not number)
            if number and os.path.exists(at(f"new{number}")):
                wrong("the reader in Python writes files of a volume that breaks a rule")
        if snapshot(at("new0")) != expected(items):
            wrong("the reader in Python restores other files")
        for number, volume in enumerate(bad_heads(made.volume(range(made.k + made.r)))):
            write(at("bad.rsv"), volume)
            is_long = len(volume) > 64
            if restored_by_program(at(f"by {number}"), [at("bad.rsv")]) not in ([({}, False)], [({}, False), (expected(items), True)])[is_long]:
                wrong(f"the program restores other files from a volume with two damaged heads, {number}")
            read_in_python(at(f"bad{number}"), at("bad.rsv"), whole=is_long)
            if is_long and snapshot(at(f"bad{number}")) != expected(items):
                wrong(f"the reader in Python restores other files from a volume with two damaged heads, {number}")


def second_reader():
    """The reader in Python restores what `rs_files` protects, from the volume and from the files that are left."""
    with Folder() as at:
        write(at("set", "a"), RANDOM.randbytes(5000))
        write(at("set", "b", "c"), RANDOM.randbytes(700))
        os.symlink("b/c", at("set", "l"))
        os.makedirs(at("set", "e"))
        before = snapshot(at("set"))
        run("create", at("set"), "-q", "--block", "256", "-r", "30%")
        damaged = bytearray(read(at("set", "a")))
        damaged[1000] ^= 1
        damaged[3000] ^= 1
        write(at("set", "a"), bytes(damaged))
        os.remove(at("set", "b", "c"))
        os.remove(at("set", "l"))
        read_in_python(at("new"), at(), at("set.rsv"))
        if snapshot(at("new", "set")) != before:
            wrong(f"the reader in Python restores other entries: {set(snapshot(at('new', 'set')).items()) ^ set(before.items())}")
        write(at("set", "a"), b"")
        said, more = read_in_python(at("more"), at(), at("set.rsv"), whole=False), snapshot(at("more", "set"))
        if "set/a: " not in said or "blocks are lost" not in said or {*more} != {b"e", b"l"} or not more.items() <= before.items():
            wrong(f"the reader in Python restores {sorted(more)}, and says {said}, if too many blocks are lost")


def places_in_python():
    """The reader in Python writes only into a new folder, replaces nothing there, and writes no file through a symbolic link."""
    with Folder() as at:
        items = [Item(b"a", kind=LINK, target=os.fsencode(at("outside"))), Item(b"b/c", b"text"), Item(b"b/e", kind=FOLDER), Item(b"b/l", kind=LINK, target=b"../a")]
        made = Made(items, 64, 2)
        write(at("set.rsv"), made.volume(range(3)))
        os.mkdir(at("outside"))
        read_in_python(at("new"), at("set.rsv"))
        if snapshot(at("new")) != expected(items) or os.listdir(at("outside")):
            wrong(f"the reader in Python restores other entries: {snapshot(at('new'))}")
        for old in ("new", "outside", "set.rsv"):
            before = tree(at())
            if "File exists" not in read_in_python(at(old), at("set.rsv"), whole=False) or tree(at()) != before:
                wrong("the reader in Python writes into a folder that exists")
        os.symlink("outside", at("link"))
        if "File exists" not in read_in_python(at("link"), at("set.rsv"), whole=False) or os.listdir(at("outside")):
            wrong("the reader in Python writes through a symbolic link")
        # A set that breaks a rule would lead through a link of its own.
        made = Made([items[0], Item(b"a/b", b"x")], 64, 2)
        write(at("set.rsv"), made.volume(range(made.k + made.r)))
        read_in_python(at("other"), at("set.rsv"), whole=False)
        if os.path.exists(at("other")) or os.listdir(at("outside")):
            wrong("the reader in Python restores a set that breaks a rule")
        os.mkdir(at("other"))
        made = Made([Item(b"a", b"x", digest=bytes(32)), Item(b"b", b"y")], 64, 2)
        write(at("set.rsv"), made.volume(range(made.k + made.r)))
        if "new/a: its blocks are right, but its digest is not" not in read_in_python(at("other", "new"), at("set.rsv")):
            wrong("the reader in Python does not compare the digests of files")


TESTS = (wrong_volumes, second_reader, places_in_python)
