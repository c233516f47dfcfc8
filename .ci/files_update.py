"""Tests of volumes that `rs_files` makes again after files were changed, and of damaged volumes that `repair` writes again. A file whose
bytes changed while its length and its times did not is rotten: no new volume may protect its wrong bytes."""
import hashlib
import json
import os
import shutil
import struct

from files_common import RANDOM, Folder, info, preloaded, printed, read, run, spans, tree, write, wrong
from files_writer import TEXT, Item, Made

FILES = {"a": 6000, "b": 3000, "deep/c": 700, "empty": 0}
CREATE = ("--block", "512", "-r", "20%", "-q")


def written(at):
    """Makes files in the folder `set`, and returns them."""
    files = {name: RANDOM.randbytes(size) for name, size in FILES.items()}
    for name, data in files.items():
        write(at("set", name), data)
    return files


def rot(path):
    """Changes a byte of a file, and leaves its times as they are."""
    state = os.stat(path)
    data = bytearray(read(path))
    data[len(data) // 2] ^= 16
    write(path, bytes(data))
    os.utime(path, ns=(state.st_atime_ns, state.st_mtime_ns))


def edited(path, data):
    """Gives a file other bytes and another time."""
    state = os.stat(path)
    write(path, data)
    os.utime(path, ns=(state.st_atime_ns, state.st_mtime_ns + 1))


def damaged(data, place, count=100):
    """Returns other bytes, of which some are changed."""
    return data[:place] + bytes(byte ^ 255 for byte in data[place:place + count]) + data[place + count:]


def changes_in(out):
    """Returns the changes that were printed, without the last line about the volume."""
    return sorted(line for line in out.splitlines() if line.startswith(("edited: ", "new: ", "removed: ", "moved: ", "rotten: ")))


def updated():
    """`update` prints which files were edited, are new or were removed, and makes a volume that protects the files as they are now. It keeps
    the share of recovery blocks, and `-r` changes it."""
    with Folder() as at:
        files = written(at)
        run("create", at("set"), "-o", at("set.rsv"), *CREATE)
        first = info(at("set.rsv"))
        if changes_in(run("update", at("set.rsv"), "--block", "512")) or info(at("set.rsv"))["original_blocks"] != first["original_blocks"]:
            wrong("update without a change prints a change, or makes another volume")
        os.utime(at("set", "deep", "c"), ns=(5, 5))
        if changes_in(run("update", at("set.rsv"), "--block", "512")):
            wrong("update calls a file edited whose bytes are the same")
        edited(at("set", "a"), RANDOM.randbytes(6000))
        edited(at("set", "deep", "c"), files["deep/c"] + b"more")
        os.remove(at("set", "empty"))
        os.rename(at("set", "b"), at("set", "deep", "b"))
        write(at("set", "new"), RANDOM.randbytes(20000))
        before = tree(at("set"))
        changes = changes_in(run("update", at("set.rsv"), "--block", "512"))
        if changes != ["edited: set/a", "edited: set/deep/c", "new: set/deep/b", "new: set/new", "removed: set/b", "removed: set/empty"]:
            wrong(f"update prints the changes {changes}")
        run("verify", at("set.rsv"), status=0)
        found = info(at("set.rsv"))
        share = found["original_blocks"] * first["recovery_blocks"] / first["original_blocks"]
        if abs(found["recovery_blocks"] - share) >= 1 or {file["name"] for file in found["files"]} != {"set/" + name for name in before}:
            wrong(f"update made another volume: {found}")
        for name in ("a", "new"):
            edited(at("set", name), damaged(read(at("set", name)), 700))
        run("repair", at("set.rsv"), "-q")
        if any(read(at("set", name)) != data for name, data in before.items()):
            wrong("the volume of update does not restore the files")
        for name in ("a.damaged", "new.damaged"):
            os.remove(at("set", name))
        if run("update", at("set.rsv"), "-q", "-r", "3") or info(at("set.rsv"))["recovery_blocks"] != 3:
            wrong("update with -q prints something, or -r has no effect")


def updated_links():
    """After `create FOLDER/.`, `update` keeps the symbolic links that are directly in the folder, including one that leads nowhere. It follows a
    link that was itself given to `create`."""
    with Folder() as at:
        written(at)
        os.symlink("a", at("set", "link"))
        os.symlink("nowhere", at("set", "broken"))
        run("create", at("set", "."), "-o", at("set.rsv"), "--block", "512", "-r", "100%", "-q")
        edited(at("set", "b"), RANDOM.randbytes(3000))
        changes = changes_in(run("update", at("set.rsv"), "--folder", at("set"), "--block", "512"))
        if changes != ["edited: b"]:
            wrong(f"update of a folder with links prints the changes {changes}")
        for name in ("link", "broken"):
            os.remove(at("set", name))
        run("repair", at("set.rsv"), "--folder", at("set"), "-q")
        if [os.readlink(at("set", name)) for name in ("link", "broken")] != ["a", "nowhere"]:
            wrong("update does not keep links")
        os.symlink(at("set", "a"), at("named"))
        run("create", at("named"), "-o", at("named.rsv"), *CREATE)
        run("update", at("named.rsv"), "--block", "512", "-q")
        os.remove(at("named"))
        run("repair", at("named.rsv"), "-q", "--folder", at(), "--search", at("set"))
        if os.path.islink(at("named")) or read(at("named")) != read(at("set", "a")):
            wrong("update does not follow a link that was given to create")


def shares():
    """The share of recovery blocks is the same after `update`, and `create` and `update` make the same volume of the same files."""
    with Folder() as at:
        for share, blocks in ((10, 100), (20, 50), (100, 30), (1, 200), (200, 20)):
            write(at("set", "a"), RANDOM.randbytes(512 * blocks))
            run("create", at("set"), "--force", "--block", "512", "-r", f"{share}%", "-q")
            edited(at("set", "a"), RANDOM.randbytes(1024 * blocks))
            run("update", at("set.rsv"), "--block", "512", "-q")
            found, own = info(at("set.rsv")), read(at("set.rsv"))
            if (found["original_blocks"], found["recovery_blocks"]) != (2 * blocks, 2 * blocks * share // 100):
                wrong(f"update of a volume with {share} %: {found}")
            run("create", at("set"), "--force", "--block", "512", "-r", f"{share}%", "-q")
            if read(at("set.rsv")) != own:
                wrong("create makes another volume than update")
            os.remove(at("set.rsv"))


def rotten():
    """A file whose bytes changed while its length and its times did not is named, and the old volumes stay, with the bytes that they have.
    --accept protects the new bytes of the files that it names, and of no others."""
    commands = (("update", "set.rsv"), ("create", "set", "-o", "set.rsv", "--force"), ("split", "set", "-n", "3", "-o", "parts", "--force"))
    for words in commands:
        with Folder() as at:
            files = written(at)
            os.mkdir(at("parts"))
            run("create", at("set"), "-o", at("set.rsv"), *CREATE)
            run("split", at("set"), "-n", "3", "-o", at("parts"), "--block", "512", "-q")
            rot(at("set", "a"))
            rot(at("set", "deep", "c"))
            before = tree(at())
            both = ["a", "deep/c"]
            for more, named in (((), both), (("--accept", "set/a"), both[1:]), (("--accept", "set/b", "--accept", "set/empty"), both)):
                _, errors = printed(*words, *more, status=3, cwd=at())
                if [line for line in errors.splitlines() if "rotten: " in line] != [f"rs_files: rotten: set/{name}" for name in named]:
                    wrong(f"{words} with {more} names the files {errors!r}")
                if tree(at()) != before:
                    wrong(f"{words} with {more} replaced an old volume, or left a file")
            if words[0] != "split":
                run("repair", "set.rsv", "-q", cwd=at())
                if read(at("set", "a")) != files["a"] or read(at("set", "deep", "c")) != files["deep/c"]:
                    wrong("the old volume does not restore rotten files")
                write(at("set", "a"), before["set/a"])
            run(*words, "--accept", "set/a", "--accept", "set/deep/c", "-q", cwd=at())
            run("verify", *(["set.rsv"] if words[0] != "split" else [f"parts/volume000{number}.rsv" for number in (1, 2, 3)]), cwd=at())


def moved(at, old, new):
    """Renames a file of the set. It keeps its bytes and its times."""
    os.makedirs(os.path.dirname(at("set", new)), exist_ok=True)
    os.rename(at("set", old), at("set", new))


def rotten_moved():
    """A file that was moved, and whose bytes changed while its length and its times did not, is named with its old name. The old volume stays,
    and restores it. --accept protects the new bytes if it has the new name."""
    for words in (("update", "set.rsv"), ("create", "set", "-o", "set.rsv", "--force")):
        for old, new in (("a", "new/place"), ("deep/c", "c"), ("a", "b")):
            with Folder() as at:
                files = written(at)
                run("create", at("set"), "-o", at("set.rsv"), "--block", "512", "-r", "100%", "-q")
                moved(at, old, new)
                rot(at("set", new))
                wrong_bytes, before = read(at("set", new)), tree(at())
                for more in ((), ("--accept", "set/" + ("empty" if new != "empty" else "a"))):
                    out, errors = printed(*words, *more, status=3, cwd=at())
                    if [line for line in errors.splitlines() if "rotten: " in line] != [f"rs_files: rotten: set/{new} (was set/{old})"] or tree(at()) != before:
                        wrong(f"{words} {more} of a file that was moved from {old} to {new} and is rotten: {errors!r}")
                    if f"removed: set/{old}" not in changes_in(out) or f"new: set/{new}" in changes_in(out):
                        wrong(f"{words} of a file that was moved from {old} to {new} and is rotten prints {out!r}")
                found = json.loads(printed(*words, "--json", status=3, cwd=at())[0])
                if found["rotten"] != [{"name": "set/" + new, "was": "set/" + old}] or found["volumes"]:
                    wrong(f"{words} --json of a file that was moved and is rotten: {found}")
                run("repair", "set.rsv", "--only", "set/" + old, "-q", cwd=at())
                if read(at("set", old)) != files[old] or read(at("set", new)) != wrong_bytes:
                    wrong(f"the old volume does not restore {old}")
                # While the wrong bytes are there, the old file beside them changes nothing.
                out, errors = printed(*words, status=3, cwd=at())
                named = [line for line in errors.splitlines() if "rotten: " in line]
                if named != [f"rs_files: rotten: set/{new} (was set/{old})"] or "delete the file with the new name" not in errors:
                    wrong(f"{words} after {old} was restored beside the rotten {new}: {errors!r}")
                if changes_in(out) or read(at("set.rsv")) != before["set.rsv"]:
                    wrong(f"{words} after {old} was restored beside the rotten {new} prints {out!r}, or replaced the volume")
                os.remove(at("set", old))
                run(*words, "--accept", "set/" + new, "-q", cwd=at())
                run("verify", "set.rsv", "-q", cwd=at())


def rotten_copies():
    """A copy of a file with the times of this file, and other bytes, is rotten, under a new name and under that of another file. It is not
    edited then. What the program says to do ends this: restore the old file, and delete the other one or move the restored file onto it."""
    for new in ("deep/new", "b"):
        for is_deleted in (True, False):
            with Folder() as at:
                files = written(at)
                run("create", at("set"), "-o", at("set.rsv"), "--block", "512", "-r", "100%", "-q")
                shutil.copy2(at("set", "a"), at("set", new))
                if changes_in(run("update", at("set.rsv"))) != [f"edited: set/{new}" if new in files else f"new: set/{new}"]:
                    wrong(f"update of a copy with the name {new}")
                write(at("set", new), files.get(new, b"first"))
                run("update", at("set.rsv"), "-q")
                shutil.copy2(at("set", "a"), at("set", new))
                rot(at("set", new))
                before = tree(at())
                out, errors = printed("update", at("set.rsv"), status=3)
                if f"rs_files: rotten: set/{new} (was set/a)\n" not in errors or changes_in(out) or tree(at()) != before:
                    wrong(f"update of a rotten copy with the name {new}: {out!r} {errors!r}")
                if "no new volume was made, and the old one was kept" not in errors:
                    wrong(f"update of a rotten copy does not say what became of the volume: {errors!r}")
                os.remove(at("set", "a"))
                run("repair", at("set.rsv"), "--only", "set/a", "-q")
                printed("update", at("set.rsv"), status=3)
                if is_deleted:
                    os.remove(at("set", new))
                else:
                    os.replace(at("set", "a"), at("set", new))
                run("update", at("set.rsv"), "-q")
                run("verify", at("set.rsv"), "-q")
                if read(at("set", "a" if is_deleted else new)) != files["a"]:
                    wrong("a rotten copy is protected, or a file is lost")
    # The damaged file that a repair kept has this length and this time too, and stops nothing.
    with Folder() as at:
        written(at)
        run("create", at("set"), "-o", at("set.rsv"), *CREATE)
        rot(at("set", "deep", "c"))
        run("repair", at("set.rsv"), "-q")
        if changes_in(run("update", at("set.rsv"))) != ["new: set/deep/c.damaged"]:
            wrong("update beside a damaged file that repair kept")


def moved_whole():
    """Files that were moved with their bytes are not rotten, whatever other files have their length and their time, and neither are copies of
    files. A moved file with another time is not rotten either, also if the times differ by a nanosecond."""
    with Folder() as at:
        time = 1_700_000_000 * 10 ** 9
        files = {f"f{number}": RANDOM.randbytes(3000) for number in range(6)}
        for name, data in files.items():
            write(at("set", name), data)
            os.utime(at("set", name), ns=(time, time))
        run("create", at("set"), "-o", at("set.rsv"), *CREATE)
        moved(at, "f2", "deep/f2")
        for name, own in (("f3", time + 1), ("f4", time - 10 ** 9)):
            moved(at, name, "deep/" + name)
            rot(at("set", "deep", name))
            os.utime(at("set", "deep", name), ns=(own, own))
        write(at("set", "copy"), files["f5"])
        os.utime(at("set", "copy"), ns=(time, time))
        run("update", at("set.rsv"), "-q")
        run("verify", at("set.rsv"), "-q")
        # A file that is rotten beside others with its length and its time is named with one that was found nowhere.
        for name in ("f0", "f1", "f5"):
            moved(at, name, "later/" + name)
        rot(at("set", "later", "f1"))
        if "rotten: set/later/f1 (was set/f1)\n" not in printed("update", at("set.rsv"), status=3)[1]:
            wrong("a rotten file among files with its length and its time")
        # Nothing is missing any more, so a further file with this length and this time is new.
        write(at("set", "later", "f1"), files["f1"])
        os.utime(at("set", "later", "f1"), ns=(time, time))
        write(at("set", "other"), RANDOM.randbytes(3000))
        os.utime(at("set", "other"), ns=(time, time))
        if "new: set/other" not in changes_in(run("update", at("set.rsv"))):
            wrong("a new file with the length and the time of files that were moved")


def moved_first():
    """A volume of version 1 has no digests of files: a file that was moved counts as removed and new."""
    with Folder() as at:
        data = RANDOM.randbytes(3000)
        write(at("set", "a"), data)
        seconds = os.stat(at("set", "a")).st_mtime_ns // 10 ** 9
        os.utime(at("set", "a"), ns=(seconds * 10 ** 9, seconds * 10 ** 9))
        write(at("set", "b"), b"b")
        write(at("set.rsv"), Made([Item(b"set/a", data, seconds=seconds), Item(b"set/b", b"b")], 512, 3, version=1).volume())
        moved(at, "a", "c")
        rot(at("set", "c"))
        if changes_in(run("update", at("set.rsv"))) != ["new: set/c", "removed: set/a"]:
            wrong("update of a volume of version 1 and a file that was moved")


def taken_over():
    """`update` takes over the digests of blocks that have the same bytes of the same files in the old volume, and computes those of all others: if
    a file reads as other bytes after it was compared, its old blocks keep their digests. If files before it in the data are added, removed or
    have other lengths, a block has the same bytes only if it moves by a multiple of the block size."""
    with Folder() as at:
        size, block = 40_960, 4096
        files = {name: RANDOM.randbytes(size) for name in ("a", "b", "c")}
        for name, data in files.items():
            write(at("d", name), data)
        made = ("--block", str(block), "-r", "3", "-q")
        run("create", at("d"), *made)
        old = read(at("d.rsv"))
        cases = (("a", "", 0, 0), ("b", "", 0, 0), ("c", "", 0, 0), ("a", "bb", size, 0), ("b", "bb", size, 0), ("c", "bb", size, 0), ("a", "0", size, 0),
                 ("c", "0", 3 * block - 1, 0), ("c", "bb", 64, 11), ("c", "0", block + 1, 11), ("a", "0", 3 * block + 64, 11), ("b", "bb", 100, 0))
        for name, new, bytes_of_new, others in cases:
            write(at("d.rsv"), old)
            if new:
                write(at("d", new), RANDOM.randbytes(bytes_of_new))
            changing = preloaded("change_reads", READ_NAME=f"/d/{name}", READ_AFTER=size)
            if changing is None:
                return
            run("update", at("d.rsv"), *made, env=changing)
            found = json.loads(run("verify", at("d.rsv"), "--json", status=(0, 1, 3)))
            if found["lost_blocks"] != others:
                wrong(f"update of {name} with {bytes_of_new} bytes in {new!r} computes the digests of {found['lost_blocks']} of its blocks instead of {others}")
            if new:
                os.remove(at("d", new))
        # With another size of blocks, no block is at the same place.
        write(at("d.rsv"), old)
        run("update", at("d.rsv"), "--block", "8192", "-r", "3", "-q", env=preloaded("change_reads", READ_NAME="/d/a", READ_AFTER=size))
        if json.loads(run("verify", at("d.rsv"), "--json", status=3))["lost_blocks"] != 5:
            wrong("update with another size of blocks takes over digests")
        write(at("d.rsv"), old)
        os.remove(at("d", "a"))
        run("update", at("d.rsv"), *made, env=preloaded("change_reads", READ_NAME="/d/c", READ_AFTER=size))
        run("verify", at("d.rsv"), status=0)


def kept_blocks():
    """`update` keeps a size of blocks that was given, also if the files grow, and chooses the default size again if it was the default. It takes
    the default too if the files have too many blocks of the old size. `--block` changes the size."""
    with Folder() as at:
        for given, sizes in ((("--block", "16K"), (16384, 16384)), ((), (4096, 8192)), (("--block", "4096"), (4096, 8192)), (("--block", "12K"), (12288, 12288))):
            write(at("set", "a"), RANDOM.randbytes(20_000))
            run("create", at("set"), *given, "-q", "--force")
            run("update", at("set.rsv"), "-q")
            if info(at("set.rsv"))["block_bytes"] != sizes[0]:
                wrong(f"update of a volume with {given} makes blocks of another size")
            write(at("set", "a"), RANDOM.randbytes(9_000_000))
            run("update", at("set.rsv"), "-q")
            if info(at("set.rsv"))["block_bytes"] != sizes[1]:
                wrong(f"update of larger files with {given} makes blocks of {info(at('set.rsv'))['block_bytes']} bytes")
            run("update", at("set.rsv"), "--block", "64K", "-q")
            if info(at("set.rsv"))["block_bytes"] != 65536:
                wrong("update does not take the size of blocks that is given")
            os.remove(at("set.rsv"))
        write(at("set", "a"), RANDOM.randbytes(2000))
        run("create", at("set"), "--block", "2", "-q")
        write(at("set", "a"), RANDOM.randbytes(200_000))
        run("update", at("set.rsv"), "-q")
        if info(at("set.rsv"))["block_bytes"] != 4096:
            wrong("update of files that have too many blocks of the old size")


def accepted_names():
    """A name after --accept that no file of the set has is refused, and nothing is changed."""
    with Folder() as at:
        written(at)
        for words in (("create", at("set")), ("update", at("set.rsv")), ("split", at("set"), "-n", "2", "-o", at("parts"))):
            before = tree(at())
            for name in ("a", "set", "set/none", "set/deep", "/set/a"):
                error = printed(*words, "--accept", "set/a", "--accept", name, status=4)[1]
                if error != f"rs_files: {name}: no file of the set has this name, which follows --accept\n" or tree(at()) != before:
                    wrong(f"{words} --accept {name}: {error!r}")
            run(*words, "--accept", "set/a", "-q")


def nothing_there():
    """If nothing of the set is in its folder, because the folder of the set was renamed or the volume was moved, `update` says what to do."""
    with Folder() as at, Folder() as far:
        written(at)
        run("create", at("set"), "-o", at("set.rsv"), *CREATE)
        volume = read(at("set.rsv"))
        write(far("set.rsv"), volume)
        os.rename(at("set"), at("photos"))
        for folder in (at, far):
            error = printed("update", folder("set.rsv"), status=4)[1]
            if not error.startswith(f"rs_files: {folder()}: nothing of the set is in this folder: ") or "--folder" not in error or read(folder("set.rsv")) != volume:
                wrong(f"update of a set that is not there: {error!r}")
        os.rename(at("photos"), at("set"))
        run("update", far("set.rsv"), "--folder", at(), "-q")


def edited_and_rotten():
    """Beside a rotten file, the other changes are printed, and no volume is made. A file with another time is edited and not rotten, also if
    its length is the same, and if only the nanoseconds of its time changed."""
    with Folder() as at:
        written(at)
        run("create", at("set"), "-o", at("set.rsv"), *CREATE)
        edited(at("set", "b"), RANDOM.randbytes(3000))
        write(at("set", "new"), b"new")
        rot(at("set", "a"))
        before = tree(at())
        out, errors = printed("update", at("set.rsv"), status=3)
        named = [line for line in errors.splitlines() if "rotten: " in line]
        if changes_in(out) != ["edited: set/b", "new: set/new"] or named != ["rs_files: rotten: set/a"] or tree(at()) != before:
            wrong(f"update with a rotten file: {out!r} {errors!r}")
        if printed("update", at("set.rsv"), "-q", status=3)[0] != "" or tree(at()) != before:
            wrong("update -q with a rotten file")
        run("update", at("set.rsv"), "--accept", "set/a", "-q")
        run("verify", at("set.rsv"))


def rotten_lengths():
    """A file that was cut or got longer is rotten if its time has not changed, so that no volume is made. It is edited if its time is a whole
    second, which archives and builds give to many files, or if its time changed by a nanosecond."""
    with Folder() as at:
        second = 1_700_000_000 * 10 ** 9
        for name, change, time, later, rotten in (("cut", -1000, second + 7, 0, True), ("long", 1, second + 999_999_999, 0, True),
                                                  ("whole", -1000, second, 0, False), ("touched", 1, second + 7, 1, False)):
            path = at(name, "file")
            write(path, RANDOM.randbytes(3000))
            os.utime(path, ns=(time, time))
            run("create", at(name), "-o", at(name + ".rsv"), "--block", "512", "-r", "100%")
            volume = read(at(name + ".rsv"))
            write(path, read(path)[:change] if change < 0 else b"x" + read(path))
            os.utime(path, ns=(time + later, time + later))
            out, errors = printed("update", at(name + ".rsv"), status=3 if rotten else 0)
            named = [line for line in errors.splitlines() if "rotten: " in line]
            if rotten and (named != [f"rs_files: rotten: {name}/file"] or read(at(name + ".rsv")) != volume):
                wrong(f"update after a file was changed, whose time was kept: {out!r} {errors!r}")
            if not rotten and changes_in(out) != [f"edited: {name}/file"]:
                wrong(f"update after a file with a time of its own was changed: {out!r} {errors!r}")
            if rotten:
                run("repair", at(name + ".rsv"), "--only", f"{name}/file", status=0)
                run("verify", at(name + ".rsv"))


def refused_updates():
    """`update` refuses a volume of `split`, several volumes, and a volume that it cannot read. `create --force` says that it cannot compare
    the files with an old volume, and replaces it."""
    with Folder() as at:
        written(at)
        os.mkdir(at("parts"))
        run("split", at("set"), "-n", "3", "-o", at("parts"), "-q")
        run("create", at("set"), "-o", at("set.rsv"), *CREATE)
        before = tree(at())
        if "split --force" not in printed("update", at("parts", "volume0001.rsv"), "--folder", at(), status=4)[1]:
            wrong("update of a volume of split")
        printed("update", at("set.rsv"), at("parts", "volume0001.rsv"), status=2)
        if tree(at()) != before:
            wrong("an update that is refused changed something")
        for number, old in enumerate((TEXT + bytes(5000), damaged(read(at("set.rsv")), 128, 10 ** 6))):
            write(at("set.rsv"), old)
            printed("update", at("set.rsv"), status=4)
            if read(at("set.rsv")) != old:
                wrong(f"update replaced the old volume {number}, which it cannot read")
            out, errors = printed("create", at("set"), "-o", at("set.rsv"), "--force", *CREATE, "--json")
            if "the files were not compared with this volume" not in errors or at("set.rsv") not in errors or json.loads(out)["compared"] is not False:
                wrong(f"create --force does not say that it cannot read the old volume {number}: {errors!r}")
            run("verify", at("set.rsv"))
        write(at("set.rsv"), damaged(read(at("set.rsv")), 128))
        out, errors = printed("create", at("set"), "-o", at("set.rsv"), "--force", *CREATE, "--json")
        if errors or json.loads(out)["compared"] is not True:
            wrong("create --force prints an error about a damaged volume that it can read")
        if json.loads(printed("update", at("set.rsv"), "--json")[0])["compared"] is not True:
            wrong("update --json does not say that it compared the files")
        if "compared" in json.loads(printed("create", at("set"), "-o", at("new.rsv"), *CREATE, "--json")[0]):
            wrong("create --json without an old volume says whether it compared the files")


def damages(volume):
    """Yields damaged volumes with a name: a whole copy of the description is left in each."""
    blocks = [start for kind, _, start, _ in spans(volume) if kind == 1]
    yield "a block", damaged(volume, blocks[0] + 100)
    yield "all blocks", b"".join(volume[start:end] if kind == 2 else damaged(volume[start:end], 80) for kind, _, start, end in spans(volume))
    yield "the first copy", damaged(volume, 128, blocks[0] - 128)
    yield "a head", damaged(volume, blocks[0] + 20, 1)
    yield "inserted bytes", volume[:blocks[0]] + b"xyz" + volume[blocks[0]:]
    yield "the last third gone", volume[:len(volume) * 2 // 3]
    yield "the first third gone", volume[len(volume) // 3:]
    yield "bytes at the end", volume + b"more"
    yield "the line of text", damaged(volume, 3, 5)


def repaired_volumes():
    """`repair` writes a damaged volume again with the bytes that it had, and keeps the damaged one. It does the same beside a damaged file."""
    with Folder() as at:
        files = written(at)
        run("create", at("set"), "-o", at("set.rsv"), *CREATE)
        volume = read(at("set.rsv"))
        for name, bad in damages(volume):
            for place in (None, "a"):
                write(at("set.rsv"), bad)
                if place and name not in ("all blocks", "the last third gone", "the first third gone"):
                    edited(at("set", place), damaged(files[place], 2000, 20))
                run("verify", at("set.rsv"), status=1)
                out = run("repair", at("set.rsv"))
                now = tree(at())
                if now["set.rsv"] != volume or f"written again: {at('set.rsv')}\n" not in out:
                    wrong(f"repair of a volume with damage of {name} and of the file {place}: {out!r}")
                if now.pop("set.rsv.damaged", b"") != bad or any(now["set/" + file] != data for file, data in files.items()):
                    wrong(f"repair of a volume with damage of {name} does not keep it, or does not restore the file {place}")
                now.pop("set/a.damaged", None)
                if len(now) != len(files) + 1:
                    wrong(f"repair of a volume with damage of {name} leaves {[*now]}")
                os.remove(at("set.rsv.damaged"))
                if os.path.exists(at("set", "a.damaged")):
                    os.remove(at("set", "a.damaged"))
                run("verify", at("set.rsv"))


def kept_volumes():
    """A damaged volume stays as it is if not all blocks can be restored, and with --to. A second damaged volume gets a second name."""
    with Folder() as at:
        files = written(at)
        run("create", at("set"), "-o", at("set.rsv"), *CREATE)
        volume = read(at("set.rsv"))
        name, bad = next(damages(volume))
        write(at("set.rsv"), bad)
        edited(at("set", "a"), RANDOM.randbytes(6000))
        before = tree(at())
        run("repair", at("set.rsv"), status=3)
        if tree(at()) != before:
            wrong("repair of files that cannot be restored changed something")
        write(at("set", "a"), files["a"])
        edited(at("set", "b"), damaged(files["b"], 100, 5))
        run("restore", at("set.rsv"), "--to", at("to"))
        if read(at("set.rsv")) != bad or read(at("to", "set", "b")) != files["b"] or os.path.exists(at("set.rsv.damaged")):
            wrong("restore changed the volume")
        write(at("set.rsv.damaged"), b"older")
        run("repair", at("set.rsv"), "-q")
        if (read(at("set.rsv")), read(at("set.rsv.damaged")), read(at("set.rsv.damaged2"))) != (volume, b"older", bad):
            wrong("repair replaced a damaged volume that was kept before")


def repaired_parts():
    """`repair` writes damaged volumes of `split` again beside the files: each gets the bytes that it had. The other volumes are not written."""
    with Folder() as at:
        files = written(at)
        os.mkdir(at("parts"))
        run("split", at("set"), "-n", "4", "--lose", "2", "-o", at("parts"), "--block", "512", "-q")
        whole = tree(at("parts"))
        paths = [at("parts", name) for name in sorted(whole)]
        for number, (name, bad) in enumerate(damages(read(paths[1]))):
            write(paths[1], bad)
            if number % 2:
                write(paths[3], damaged(read(paths[3]), 900, 200))
                edited(at("set", "b"), damaged(files["b"], 0, 1500))
            times = [os.stat(path).st_mtime_ns for path in paths]
            given = paths if number % 3 else paths[::-1]
            run("repair", *given, "--folder", at(), "-q")
            now = tree(at("parts"))
            kept = {path: now.pop(path) for path in [*now] if path.endswith(".damaged")}
            if now != whole or len(kept) != 1 + number % 2 or kept["volume0002.rsv.damaged"] != bad or read(at("set", "b")) != files["b"]:
                wrong(f"repair of volumes of split with damage of {name}")
            if any(os.stat(paths[i]).st_mtime_ns != times[i] for i in (0, 2)):
                wrong("repair wrote a whole volume again")
            for path in [at("parts", path) for path in kept] + [at("set", "b.damaged")] * (number % 2):
                os.remove(path)
            found = json.loads(run("verify", *paths, "--folder", at(), "--json"))
            if found["lost_blocks"] or any(volume["state"] != "whole" for volume in found["volumes"]):
                wrong(f"verify after the repair of volumes of split: {found}")


def parts_alone():
    """`repair` of volumes of `split` without --folder writes the damaged volumes again, from the blocks in the volumes that are named. It makes
    no file of the set, although original blocks are lost, and although a volume is missing. Each volume gets the bytes that it had."""
    with Folder() as at:
        files = written(at)
        os.mkdir(at("parts"))
        run("split", at("set"), "-n", "5", "--lose", "2", "-o", at("parts"), "--block", "512", "-q")
        whole = tree(at("parts"))
        paths = [at("parts", name) for name in sorted(whole)]
        os.rename(at("set"), at("gone"))
        out = printed("repair", *paths)[0]
        if not out.startswith("all volumes are whole") or tree(at("parts")) != whole:
            wrong(f"repair of whole volumes of split says {out!r}")
        for number, (name, bad) in enumerate(damages(read(paths[1]))):
            write(paths[1], bad)
            given = paths
            if number % 2:
                write(paths[3], damaged(read(paths[3]), 900, 2000))
            else:
                given = [path for path in paths[::-1] if path != paths[4]]
            before = {path: os.stat(path).st_mtime_ns for path in (paths[0], paths[2], paths[4])}
            out, error = printed("verify", *given, status=1)
            if "repair writes damaged volumes again" not in out:
                wrong(f"verify of volumes of split with damage of {name} says {out!r}")
            out, error = printed("repair", *given)
            now = tree(at("parts"))
            kept = {path for path in now if path.endswith(".damaged")}
            if {path: now[path] for path in now if path not in kept} != whole or len(kept) != 1 + number % 2 or now["volume0002.rsv.damaged"] != bad:
                wrong(f"repair of volumes of split alone with damage of {name} leaves {sorted(now)}: {(out, error)}")
            if f"written again: {paths[1]}\nkept: {paths[1]}.damaged\n" not in out or error or sorted(os.listdir(at())) != ["gone", "parts"]:
                wrong(f"repair of volumes of split alone with damage of {name} says {(out, error)}")
            if any(os.stat(path).st_mtime_ns != time for path, time in before.items()):
                wrong("repair wrote a whole volume again")
            for path in kept:
                os.remove(at("parts", path))
        write(paths[1], damaged(read(paths[1]), 900, 2000))
        before = tree(at())
        if "restore" not in printed("repair", *paths, "--only", "set/a", status=4)[1]:
            wrong("repair --only of volumes of split does not name restore")
        if "cannot be restored without" not in printed("repair", *paths[1:3], status=3)[1] or tree(at()) != before:
            wrong("repair of too few volumes of split")
        if json.loads(printed("repair", *paths[1:3], "--json", status=3)[0])["written"]:
            wrong("repair --json of too few volumes of split")
        for failure in ({"FAIL_SYNC": "volume0002.rsv.rs_files.part2"}, {"FAIL_WRITE": "volume0002.rsv.rs_files.part3", "FAIL_FROM": 0}):
            env = preloaded("fail_calls", **failure)
            if env and (printed("repair", *paths, status=4, env=env)[1] == "" or tree(at()) != before):
                wrong(f"repair of volumes of split that fails leaves {sorted(tree(at()))}")
        write(at("parts", "volume0002.rsv.rs_files.part3"), b"other")
        if "volume0002.rsv.rs_files.part3" not in printed("repair", *paths, status=4)[1] or read(at("parts", "volume0002.rsv.rs_files.part3")) != b"other":
            wrong("repair of volumes of split replaced the part of another run")
        if "volume0002.rsv.rs_files.part3: warning: " not in printed("verify", *paths, status=1)[1]:
            wrong("verify does not name the part with the restored blocks")
        os.remove(at("parts", "volume0002.rsv.rs_files.part3"))
        found = json.loads(printed("repair", *paths, "--json")[0])
        if found["written"] != [{"path": paths[1], "kept": paths[1] + ".damaged"}] or found["restored"]:
            wrong(f"repair --json of volumes of split prints {found}")
        os.remove(paths[1] + ".damaged")
        write(paths[0], b"no volume")
        said = printed("repair", *paths, status=1)[0].splitlines()[-1:]
        if not said[0].endswith(" are not in these volumes: restore can still make all files") or sorted(os.listdir(at())) != ["gone", "parts"]:
            wrong(f"repair with a volume that cannot be read says {said}")
        run("restore", *paths[1:], "--to", at(), "-q")
        if {name: data for name, data in tree(at("set")).items()} != files:
            wrong("restore after a repair of volumes of split")


def foreign_bytes():
    """A volume with other bytes in front of it, which are most of the file, is written again by `repair`, as `verify` says, and kept."""
    with Folder() as at:
        written(at)
        run("create", at("set"), "-o", at("set.rsv"), *CREATE)
        volume = read(at("set.rsv"))
        for bad in (RANDOM.randbytes(10 * len(volume)) + volume, RANDOM.randbytes(3 * len(volume)) + volume + RANDOM.randbytes(5 * len(volume))):
            write(at("set.rsv"), bad)
            if "repair writes damaged volumes again" not in printed("verify", at("set.rsv"), status=1)[0]:
                wrong("verify of a volume with other bytes in front")
            if f"written again: {at('set.rsv')}\n" not in run("repair", at("set.rsv")):
                wrong("repair of a volume with other bytes in front does not write it again")
            if (read(at("set.rsv")), read(at("set.rsv.damaged"))) != (volume, bad):
                wrong("repair of a volume with other bytes in front writes other bytes, or does not keep the damaged ones")
            os.remove(at("set.rsv.damaged"))
            run("verify", at("set.rsv"), "-q")


def made_record(volume, kind, index, body):
    """Returns a record of the set of a volume."""
    head = volume[128:136] + struct.pack("<IIQ", kind, index, len(body)) + volume[152:184]
    return head + hashlib.sha256(head).digest()[:8] + body


def extra_records():
    """A volume that has a record twice, or a block of another volume, is damaged, and `repair` writes it again. A part of the description that
    a volume has too often does not make up for a missing one. A record of a kind that the program does not know is no damage."""
    with Folder() as at:
        for number in range(150):
            write(at("set", f"file {number}"), RANDOM.randbytes(60))
        run("create", at("set"), "-o", at("set.rsv"), "--block", "512", "-r", "8", "-q")
        volume = read(at("set.rsv"))
        blocks, parts = ([volume[start:end] for kind, _, start, end in spans(volume) if kind == number] for number in (1, 2))
        front, original = 128 + len(parts[0]), made_record(volume, 1, 0, read(at("set", "file 0")) + bytes(452))
        later = [made_record(volume, 77 + i, 5, RANDOM.randbytes(200)) for i in range(3)]
        if len(parts[1]) != len(parts[0]) or parts[1] == parts[0]:
            wrong("the description of this test has too few parts")
        both = volume.replace(blocks[1], blocks[1] + later[1], 1)
        cases = [("a block twice", volume + blocks[2], "outside of its blocks"), ("a block twice in a row", volume.replace(blocks[0], 2 * blocks[0], 1), "outside of its blocks"),
                 ("a part once more", volume + parts[0], "outside of its blocks"), ("an original block", volume + original, "outside of its blocks"),
                 ("a part instead of another", volume[:front] + parts[0] + volume[front + len(parts[1]):], "1 damaged or missing part of its description"),
                 ("a block twice and one less", volume.replace(blocks[0], blocks[1], 1), "1 damaged or missing block"),
                 ("a later record and a damaged block", damaged(both, both.index(blocks[0]) + 100), "1 damaged or missing block")]
        for what, bad, text in cases:
            write(at("set.rsv"), bad)
            out = run("verify", at("set.rsv"), status=1)
            if f"{at('set.rsv')}: the volume " not in out or text not in out or "repair writes damaged volumes again" not in out:
                wrong(f"verify of a volume with {what} says {out!r}")
            if f"written again: {at('set.rsv')}\n" not in run("repair", at("set.rsv")) or (read(at("set.rsv")), read(at("set.rsv.damaged"))) != (volume, bad):
                wrong(f"repair of a volume with {what}")
            os.remove(at("set.rsv.damaged"))
        for what, other in (("in front", volume[:128] + later[0] + volume[128:]), ("at the end", volume + later[0]), ("in the middle", both),
                            ("everywhere", both[:128] + later[0] + both[128:] + later[2])):
            write(at("set.rsv"), other)
            if json.loads(run("verify", at("set.rsv"), "--json"))["volumes"][0]["state"] != "whole":
                wrong(f"a record of an unknown kind {what} of a volume is damage")
        run("split", at("set"), "-n", "3", "-o", at("v"), "--block", "512", "-q")
        paths = [at("v", name) for name in sorted(os.listdir(at("v")))]
        one, other = read(paths[0]), read(paths[1])
        start, end = next((start, end) for kind, _, start, end in spans(other) if kind == 1)
        write(paths[0], one + other[start:end])
        found = json.loads(run("verify", *paths, "--json", status=1))
        if [volume["state"] for volume in found["volumes"]] != ["damaged", "whole", "whole"]:
            wrong(f"verify of a volume with a block of another one: {found}")
        run("repair", *paths, "-q")
        if read(paths[0]) != one:
            wrong("repair of a volume with a block of another one")


def early_refusal():
    """`repair --only` without --folder is refused for volumes of `split` before blocks are looked for: what cannot be read is not named, and
    the name after --only is not looked up."""
    with Folder() as at:
        written(at)
        run("split", at("set"), "-n", "3", "-o", at("v"), "--block", "512", "-q")
        paths = [at("v", name) for name in sorted(os.listdir(at("v")))]
        places = [start + 100 for kind, _, start, _ in spans(read(paths[1])) if kind == 1]
        failing = preloaded("change_reads", READ_NAME="/volume0002.rsv", READ_FROM=places[1], READ_TO=places[1] + 1)
        wanted = "rs_files: volumes of split hold the files: name the folder of the files with --folder, or use restore\n"
        for name in ("set/a", "none"):
            if printed("repair", *paths, "--only", name, "--progress", "always", status=4, env=failing) != ("", wanted):
                wrong("repair --only of volumes of split looks for blocks before it is refused")
        if printed("repair", *paths, "--folder", at(), "--only", "set/none", status=4)[1] == wanted:
            wrong("repair --only of volumes of split is refused with --folder")


def failed_rewrites():
    """If a damaged volume cannot be written again, `repair` leaves nothing behind: no part, and no second name of the damaged volume. Volumes
    that have their names stay, and are named."""
    with Folder() as at:
        written(at)
        os.mkdir(at("parts"))
        run("split", at("set"), "-n", "3", "-o", at("parts"), "--block", "512", "-q")
        whole = tree(at("parts"))
        paths = [at("parts", name) for name in sorted(whole)]
        for path in paths[:2]:
            write(path, damaged(read(path), 900, 200))
        before = tree(at("parts"))
        first, second = ("volume0001.rsv", "volume0002.rsv")
        failures = ({"FAIL_RENAME": first + ".rs_files.part2"}, {"FAIL_RENAME": first + ".rs_files.part2", "FAIL_LINK": 1}, {"FAIL_SYNC": second + ".rs_files.part2"},
                    {"FAIL_WRITE": second + ".rs_files.part2", "FAIL_FROM": 0})
        for failure in failures:
            failing = preloaded("fail_calls", **failure)
            if failing is None:
                return
            run("repair", *paths, "--folder", at(), status=4, env=failing)
            if tree(at("parts")) != before:
                wrong(f"repair of volumes with {failure} leaves {sorted(tree(at('parts')))}")
        out = printed("repair", *paths, "--folder", at(), status=4, env=preloaded("fail_calls", FAIL_RENAME=second + ".rs_files.part2"))[0]
        now = tree(at("parts"))
        if f"written again: {paths[0]}\n" not in out or paths[1] in out.split("written again: ")[1]:
            wrong(f"repair of volumes of which the second cannot get its name says {out!r}")
        if now != {**before, first: whole[first], first + ".damaged": before[first]}:
            wrong(f"repair of volumes of which the second cannot get its name leaves {sorted(now)}")


def unwritten_volumes():
    """If a damaged volume cannot be written again, because nothing says which volume of the set it is, `repair` ends with 1, as `verify` does.
    It writes the other damaged volumes, and does not change this one."""
    with Folder() as at:
        written(at)
        os.mkdir(at("parts"))
        run("split", at("set"), "-n", "4", "--lose", "2", "-o", at("parts"), "--block", "512", "-q")
        whole = tree(at("parts"))
        paths = [at("parts", name) for name in sorted(whole)]
        second = read(paths[1])
        parts = b"".join(second[start:end] for kind, _, start, end in spans(second) if kind == 2)
        for bad in (b"", bytes(len(second)), second[:128] + parts, None):
            write(paths[1], bad or b"")
            if bad is None:
                os.remove(paths[1])
            write(paths[2], damaged(whole["volume0003.rsv"], 900, 200))
            run("verify", *paths, "--folder", at(), status=1)
            run("repair", *paths, "--folder", at(), "-q", status=1)
            out = printed("verify", *paths, "--folder", at(), status=1)[0]
            if "repair writes damaged volumes again" in out or "make them again with split --force" not in out:
                wrong(f"verify promises that repair writes a volume that it cannot write: {out!r}")
            now = tree(at("parts"))
            if now.pop("volume0002.rsv", None) != bad or now.pop("volume0003.rsv.damaged", None) is None or \
                    now != {name: data for name, data in whole.items() if name != "volume0002.rsv"}:
                wrong(f"repair of a volume that nobody knows: {[*now]}")
            os.remove(at("parts", "volume0003.rsv.damaged"))
            run("verify", *paths, "--folder", at(), status=1)


TESTS = (updated, updated_links, shares, rotten, rotten_moved, rotten_copies, moved_whole, moved_first, taken_over, kept_blocks, accepted_names, nothing_there, edited_and_rotten, rotten_lengths,
         refused_updates, repaired_volumes, kept_volumes, repaired_parts, parts_alone, foreign_bytes, extra_records, early_refusal, failed_rewrites, unwritten_volumes)
