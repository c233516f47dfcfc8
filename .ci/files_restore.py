"""Tests of `restore` and of the parts that `verify`, `repair` and `restore` share: what can be restored is restored, --only, --json, --quick,
and what the commands say when a folder or a file is not where they look."""
import json
import os
import re
import shutil
import subprocess

from files_common import PROGRAM, RANDOM, TOP, Folder, info, preloaded, printed, read, run, tree, write, wrong
from files_writer import Item, Made

CREATE = ("--block", "512", "-q")


def made(at, files, *options):
    """Makes files in the folder `set`, and the volume `set.rsv` beside it. Returns the files."""
    for name, data in files.items():
        write(at("set", name), data)
    run("create", at("set"), *CREATE, *options)
    return files


def object_of(*words, **options):
    """Returns the object that a command prints with --json: it prints nothing else on standard output."""
    found = json.loads(printed(*words, "--json", **options)[0])
    if found["status"] != options.get("status", 0):
        wrong(f"{words} --json says the status {found['status']}")
    return found


def names_in(found, *lists):
    """Returns the names in lists of an object."""
    return tuple([one["name"] for one in found[name]] for name in lists)


def folders(path):
    """Returns the folders below a folder, by their names."""
    return {os.path.relpath(os.path.join(at, name), path) for at, names, _ in os.walk(path) for name in names if not os.path.islink(os.path.join(at, name))}


def files_in(path):
    """Returns the contents of all files below a folder, by their names, without symbolic links."""
    names = (os.path.relpath(os.path.join(at, name), path) for at, _, found in os.walk(path) for name in found)
    return {name: read(os.path.join(path, name)) for name in names if not os.path.islink(os.path.join(path, name))}


def rotated(data):
    """Returns other bytes of the same length."""
    return bytes(byte ^ 255 for byte in data)


def one_command():
    """`restore` gets files from volumes of `split` and of `create`. It names each, ends with status 0, and changes nothing else. The commands
    that it replaces are refused."""
    with Folder() as at, Folder() as far:
        files = made(at, {"a": RANDOM.randbytes(3000), "deep/b": RANDOM.randbytes(700), "empty": b""}, "-r", "100%")
        run("split", at("set"), "-n", "3", "-o", far("parts"), *CREATE)
        parts = [far("parts", f"volume000{number}.rsv") for number in (1, 3)]
        before = tree(at()), tree(far("parts"))
        out, error = printed("restore", *parts, "--to", far("new"))
        if out.splitlines() != ["restored: set/a", "restored: set/deep/b", "restored: set/empty", "restored 3 files"] or error:
            wrong(f"restore of volumes of split prints {(out, error)}")
        if tree(far("new", "set")) != files or (tree(at()), tree(far("parts"))) != before:
            wrong("restore of volumes of split")
        # Lost blocks are found in the folders after --search.
        run("restore", parts[0], "--to", far("short"), "-q", status=3)
        run("restore", parts[0], "--to", far("found"), "--search", at("set"), "-q")
        if tree(far("found", "set")) != files or tree(far("short", "set")) != {"empty": b""}:
            wrong("restore of volumes of split with --search")
        # The volumes of split hold all blocks, and files are looked for only with --folder.
        shutil.copytree(at("set"), far("parts", "set"))
        run("restore", *parts, "--to", far("all"), "-q")
        out = printed("restore", *parts, "--to", far("none"), "--folder", at())[0]
        if tree(far("all", "set")) != files or os.path.exists(far("none")) or "all files are whole" not in out:
            wrong(f"restore of volumes of split with --folder: {out!r}")
        # With a volume of create, the files that are there are used, and the whole ones are not written.
        damaged = files["a"][:600] + rotated(files["a"][600:])
        write(at("set", "a"), damaged)
        os.remove(at("set", "empty"))
        before = tree(at())
        out, error = printed("restore", at("set.rsv"), "--to", far("mended"))
        if out.splitlines()[-3:] != ["restored: set/a", "restored: set/empty", "restored 2 files"] or error or tree(at()) != before:
            wrong(f"restore of a volume of create prints {(out, error)}")
        if tree(far("mended", "set")) != {"a": files["a"], "empty": b""}:
            wrong("restore of a volume of create")
        os.rename(at("set"), far("moved"))
        os.mkdir(far("files"))
        os.rename(far("moved"), far("files", "set"))
        run("restore", at("set.rsv"), "--folder", far("files"), "--to", far("again"), "-q")
        if tree(far("again", "set")) != {"a": files["a"], "empty": b""}:
            wrong("restore with --folder")
        run("repair", at("set.rsv"), "--folder", far("files"), "--to", far("x"), status=2)
        run("join", *parts, "--to", far("x"), status=2)
        if "--to" not in run("restore", *parts, status=2) or os.path.exists(far("x")):
            wrong("a command line that is wrong")


def restored_twice():
    """A second `restore` into a folder names the entries that are already there, with the right bytes, writes only the others, and ends with
    status 0. Something else with the name of an entry is an error, and is not changed."""
    with Folder() as at, Folder() as far:
        files = made(at, {"a": RANDOM.randbytes(3000), "b": RANDOM.randbytes(700), "deep/c": RANDOM.randbytes(600), "empty": b""}, "-r", "100%")
        os.mkdir(at("set", "folder"))
        os.symlink("a", at("set", "link"))
        run("split", at("set"), "-n", "3", "-o", far("parts"), *CREATE)
        restore = ("restore", far("parts", "volume0001.rsv"), far("parts", "volume0003.rsv"), "--to", far("new"))
        run(*restore, "-q")
        names = [f"set/{name}" for name in ("a", "b", "deep/c", "empty", "folder", "link")]
        nothing = f"nothing was written into {far('new')}, because all files are there already"
        times = {name: os.lstat(far("new", name)).st_mtime_ns for name in names}
        if printed(*restore) != ("".join(f"existing: {name}\n" for name in names) + nothing + "\n", ""):
            wrong(f"a second restore prints {printed(*restore)}")
        found = object_of(*restore)
        if names_in(found, "existing", "restored", "failed", "lost") != (names, [], [], []):
            wrong(f"a second restore --json prints {found}")
        if printed(*restore, "-q") != ("", "") or {name: os.lstat(far("new", name)).st_mtime_ns for name in names} != times:
            wrong("a second restore changes something, or prints something with -q")
        # What is missing is restored, and what has other bytes is an error.
        os.remove(far("new", "set", "b"))
        out, error = printed(*restore)
        if out.splitlines() != [*(f"existing: {name}" for name in names if name != "set/b"), "restored: set/b", "restored 1 file"] or error:
            wrong(f"a restore of a missing file prints {(out, error)}")
        os.remove(far("new", "set", "b"))
        os.remove(far("new", "set", "link"))
        os.symlink("b", far("new", "set", "link"))
        write(far("new", "set", "a"), rotated(files["a"]))
        out, error = printed(*restore, status=4)
        if any(f"{far('new', 'set', name)}: it exists: use --force to overwrite it\n" not in error for name in ("a", "link")) or "2 files could not be restored" not in error:
            wrong(f"a restore over other bytes says {error!r}")
        if "restored: set/b\n" not in out or files_in(far("new", "set")) != {**files, "a": rotated(files["a"])} or os.readlink(far("new", "set", "link")) != "b":
            wrong(f"a restore over other bytes prints {out!r}, and makes {sorted(tree(far('new')))}")
        # A file behind a symbolic link is not there, also if its bytes are right.
        shutil.rmtree(far("new"))
        run(*restore, "-q")
        os.rename(far("new", "set", "deep"), far("deep"))
        os.symlink(far("deep"), far("new", "set", "deep"))
        os.rename(far("new", "set", "b"), far("b"))
        os.symlink(far("b"), far("new", "set", "b"))
        error = printed(*restore, status=4)[1]
        if "set/deep/c: a folder of its path is a symbolic link" not in error or "set/b: it exists" not in error:
            wrong(f"a restore of files behind symbolic links says {error!r}")
        if (read(far("b")), read(far("deep", "c"))) != (files["b"], files["deep/c"]):
            wrong("a restore writes through symbolic links")
        # With --force, all is written again. With only some blocks, the other files are there.
        os.remove(far("new", "set", "deep"))
        if "existing" in printed(*restore, "--force")[0] or files_in(far("new", "set")) != files:
            wrong("restore --force")
        os.remove(far("new", "set", "a"))
        found = object_of("restore", far("parts", "volume0001.rsv"), "--to", far("new"), "--only", "set/a", "--only", "set/empty", status=3)
        if names_in(found, "existing", "restored", "lost") != (["set/empty"], [], ["set/a"]):
            wrong(f"a second restore of too few blocks prints {found}")
    with Folder() as at:
        # A set of version 1 has no digests of files.
        write(at("set.rsv"), Made([Item(b"a", b"bytes"), Item(b"b", b"")], 64, 2, version=1).volume(range(3)))
        run("restore", at("set.rsv"), "--to", at("new"), "-q")
        if "new/a: it exists: use --force" not in printed("restore", at("set.rsv"), "--to", at("new"), status=4)[1]:
            wrong("a second restore of version 1")


def restored_parts():
    """If blocks of some files are lost, `restore` makes the other files, names those that cannot be restored, ends with status 3, and leaves no
    empty folder."""
    with Folder() as at, Folder() as far:
        files = made(at, {**{f"d{number:02}/f": RANDOM.randbytes(512) for number in range(20)}, "e/empty": b"", "large": RANDOM.randbytes(5120)})
        os.mkdir(at("set", "folder"))
        os.symlink("large", at("set", "link"))
        run("split", at("set"), "-n", "5", "-o", far("parts"), *CREATE)
        # Original block i is in volume i mod 5, and each of the first 20 files is one block.
        for number in range(5):
            kept = {name: data for name, data in files.items() if name == "e/empty" or name != "large" and int(name[1:3]) % 5 == number}
            out, error = printed("restore", far("parts", f"volume000{number + 1}.rsv"), "--to", far("new"), status=3)
            if files_in(far("new", "set")) != kept:
                wrong(f"restore of one of five volumes makes {sorted(files_in(far('new', 'set')))}")
            if os.readlink(far("new", "set", "link")) != "large" or folders(far("new")) != {"set", "set/folder", *(f"set/{os.path.dirname(name)}" for name in kept)}:
                wrong(f"restore of one of five volumes makes the folders {sorted(folders(far('new')))}")
            lost = [line.split(": ")[2] for line in error.splitlines() if ": cannot be restored: " in line]
            if lost != [f"set/{name}" for name in sorted(files) if name not in kept] or "cannot be restored without" not in error:
                wrong(f"restore of one of five volumes says {error!r}")
            if f"restored {len(kept)} files, 1 symbolic link, 1 folder\n" not in out:
                wrong(f"restore of one of five volumes says {out!r}")
            shutil.rmtree(far("new"))
        shutil.rmtree(at("set"))
        write(at("set", "deep", "only"), RANDOM.randbytes(5120))
        run("split", at("set"), "-n", "3", "-o", far("three"), *CREATE)
        run("restore", far("three", "volume0001.rsv"), "--to", far("nothing", "here"), "-q", status=3)
        if os.path.exists(far("nothing")):
            wrong("restore leaves an empty folder if it can restore nothing")


def repaired_parts_of_sets():
    """If more blocks are lost than there are recovery blocks, `repair` restores what can be restored. It changes nothing in a folder that has
    nothing of the set."""
    with Folder() as at, Folder() as far:
        os.mkdir(at("set"))
        os.mkdir(at("set", "folder"))
        os.symlink("a", at("set", "link"))
        files = made(at, {"a": RANDOM.randbytes(9216), "b": RANDOM.randbytes(2048), "deep/c": RANDOM.randbytes(2048), "empty": b""}, "-r", "1")
        other = rotated(files["a"])
        write(at("set", "a"), other)
        write(at("set", "b"), files["b"] + b"more")
        os.rename(at("set", "deep", "c"), at("set", "moved"))
        for name in ("empty", "link"):
            os.remove(at("set", name))
        os.rmdir(at("set", "deep"))
        os.rmdir(at("set", "folder"))
        out, error = printed("repair", at("set.rsv"), status=3)
        restored = {line.split(": ")[1] for line in out.splitlines() if line.startswith("restored: ")}
        if restored != {"set/b", "set/deep/c", "set/empty", "set/link", "set/folder"} or "rs_files: cannot be restored: set/a\n" not in error:
            wrong(f"repair of a part of the files says {(out, error)}")
        now = {name: data for name, data in files_in(at("set")).items() if name not in ("moved", "b.damaged")}
        if now != {**files, "a": other} or os.readlink(at("set", "link")) != "a" or not os.path.isdir(at("set", "folder")):
            wrong(f"repair of a part of the files makes {sorted(now)}")
        os.rename(at("set"), far("set"))
        before = os.listdir(at())
        for command in (("repair",), ("verify",)):
            out, error = printed(*command, at("set.rsv"), status=3)
            if os.listdir(at()) != before or out.splitlines()[0] != f"no file was found in {at()}: if the files are in another folder, name it with --folder":
                wrong(f"{command} in a folder that has nothing of the set says {(out, error)}")
            if "set/" in out + error:
                wrong(f"{command} in a folder that has nothing of the set lists files: {(out, error)}")


def unlike_digests():
    """If restored bytes do not have their digest, only the files with these bytes are not restored, and no new folder is left."""
    for version in (1, 2):
        with Folder() as at:
            items = [Item(b"d/a", RANDOM.randbytes(1024)), Item(b"d/b", RANDOM.randbytes(512)), Item(b"e/c", RANDOM.randbytes(300))]
            wrong_set = Made(items, 512, 3, version=version, is_coded=False)
            write(at("set.rsv"), wrong_set.volume())
            write(at("d", "b"), items[1].data + b"appended")
            write(at("e", "c"), items[2].data + b"appended")
            for words, folder in ((("restore", at("set.rsv"), "--to", at("new")), "new"), (("repair", at("set.rsv")), "")):
                out, error = printed(*words, status=4)
                if [line for line in out.splitlines() if line.startswith("restored: ")] != ["restored: d/b", "restored: e/c"]:
                    wrong(f"{words[0]} of version {version} with a wrong recovery block says {(out, error)}")
                if read(at(folder, "d", "b")) != items[1].data or read(at(folder, "e", "c")) != items[2].data or os.path.exists(at(folder, "d", "a")):
                    wrong(f"{words[0]} of version {version} with a wrong recovery block makes other files")
                if at(folder, "d", "a") + ": its restored bytes do not have their digest" not in error or "1 file could not be restored" not in error:
                    wrong(f"{words[0]} of version {version} with a wrong recovery block says {error!r}")
                if any(name.endswith(".part") for name in tree(at())):
                    wrong(f"{words[0]} of version {version} with a wrong recovery block leaves a part")
    with Folder() as at:
        items = [Item(b"deep/er/a", RANDOM.randbytes(600))]
        write(at("set.rsv"), Made(items, 512, 3, is_coded=False).volume())
        run("restore", at("set.rsv"), "--to", at("new"), "-q", status=4)
        if os.listdir(at()) != ["set.rsv"]:
            wrong(f"restore of nothing leaves {os.listdir(at())}")


def named():
    """--only NAME takes one file of a set, or all that is in a folder. A name that is not in the set is refused, and nothing is read."""
    with Folder() as at, Folder() as far:
        files = made(at, {"a": RANDOM.randbytes(900), "deep/b": RANDOM.randbytes(900), "deep/er/c": RANDOM.randbytes(900), "deep-e": RANDOM.randbytes(900)}, "-r", "100%")
        run("split", at("set"), "-n", "2", "-o", far("parts"), *CREATE)
        for words in (("verify",), ("verify", "--quick"), ("repair",), ("restore", "--to", far("new"))):
            for name in ("set/dee", "deep", "set/deep/b/x", "set/x", "a"):
                before = tree(at())
                _, error = printed(words[0], at("set.rsv"), *words[1:], "--only", "set/a", "--only", name, status=4)
                if f"{name}: this name is not in the set" not in error or tree(at()) != before or os.path.exists(far("new")):
                    wrong(f"{words} --only {name} says {error!r}")
        for name, own in (("set/a", {"a"}), ("set/deep", {"deep/b", "deep/er/c"}), ("set/deep/", {"deep/b", "deep/er/c"}), ("set", set(files)), ("set/deep/er/c", {"deep/er/c"})):
            run("restore", far("parts", "volume0001.rsv"), "--to", far("new"), "--only", name, "-q")
            if tree(far("new", "set")) != {name: files[name] for name in own}:
                wrong(f"restore --only {name} makes {sorted(tree(far('new', 'set')))}")
            shutil.rmtree(far("new"))
        run("restore", far("parts", "volume0001.rsv"), "--to", far("new"), "--only", "set/a", "--only", "set/deep/b", "-q")
        if set(tree(far("new", "set"))) != {"a", "deep/b"}:
            wrong("restore with two names")
        for name in ("a", "deep/b", "deep/er/c"):
            write(at("set", name), rotated(files[name]))
        for name, status in (("set/deep-e", 0), ("set/a", 1), ("set/deep", 1)):
            found = object_of("verify", at("set.rsv"), "--only", name, status=status)
            if any(not (file["name"] + "/").startswith(name + "/") for file in found["files"]) or {file["state"] for file in found["files"]} != {"damaged" if status else "whole"}:
                wrong(f"verify --only {name} says {found}")
            out = printed("verify", at("set.rsv"), "--only", name, status=status)[0]
            if ("damaged: " in out) != bool(status) or ("set/a" in out) != (name == "set/a"):
                wrong(f"verify --only {name} says {out!r}")
        run("repair", at("set.rsv"), "--only", "set/deep/b", "-q")
        now = tree(at("set"))
        if now["deep/b"] != files["deep/b"] or now["a"] == files["a"] or now["deep/er/c"] == files["deep/er/c"]:
            wrong("repair --only restores other files")
        run("verify", at("set.rsv"), "--only", "set/deep/b", "-q")
        # A damaged volume is written again only by a repair of all.
        write(at("set.rsv"), read(at("set.rsv")) + b"more")
        for name in ("set/deep/b", "set"):
            run("repair", at("set.rsv"), "--only", name, "-q")
            if not read(at("set.rsv")).endswith(b"more"):
                wrong(f"repair --only {name} writes a volume")
        # Other files are not read if those with these names are whole.
        unreadable = preloaded("change_reads", READ_NAME="/set/a", READ_FROM=0, READ_TO=1000)
        if unreadable is not None:
            if printed("verify", at("set.rsv"), "--only", "set/deep-e", "--only", "set/deep/b", "-q", env=unreadable)[1]:
                wrong("verify --only reads another file")


def quick():
    """`verify --quick` compares sizes and times, targets and folders. It reads no file, says so, and does not see wrong bytes."""
    with Folder() as at:
        os.mkdir(at("set"))
        os.mkdir(at("set", "folder"))
        os.symlink("a", at("set", "link"))
        files = made(at, {"a": RANDOM.randbytes(900), "b": RANDOM.randbytes(900), "c": RANDOM.randbytes(900)}, "-r", "100%")
        out, error = printed("verify", at("set.rsv"), "--quick")
        if out.splitlines()[0] != "unchanged by size and time: 3 files, 1 symbolic link, 1 folder" or "wrong bytes" not in out.splitlines()[1] or error:
            wrong(f"verify --quick says {(out, error)}")
        state = os.stat(at("set", "a"))
        write(at("set", "a"), rotated(files["a"]))
        os.utime(at("set", "a"), ns=(state.st_atime_ns, state.st_mtime_ns))
        for name, data in (*files.items(), ("a", rotated(files["a"]))):
            # The first read of a file would append a byte to it.
            growing = preloaded("change_reads", READ_NAME="/set/" + name, READ_GROWS=1)
            if growing is not None and (printed("verify", at("set.rsv"), "--quick", "-q", env=growing) != ("", "") or os.path.getsize(at("set", name)) != len(data)):
                wrong(f"verify --quick reads the file {name}")
        for path in (at("set", "b.rs_files.part"), at("set.rsv.rs_files.part2")):
            write(path, b"")
            warned = printed("verify", at("set.rsv"), "--quick", "-q")[1]
            if not warned.startswith(f"rs_files: {path}: warning: an rs_files that was killed left this file") or warned.count("\n") != 1:
                wrong(f"verify --quick does not name the part {path}: {warned!r}")
            os.remove(path)
        state = os.stat(at("set", "b"))
        os.utime(at("set", "b"), ns=(state.st_atime_ns, state.st_mtime_ns + 1))
        os.remove(at("set", "link"))
        os.symlink("b", at("set", "link"))
        os.rmdir(at("set", "folder"))
        write(at("set", "c"), files["c"] + b"x")
        found = object_of("verify", at("set.rsv"), "--quick", status=1)
        states = {file["name"][4:]: file["state"] for file in found["files"]}
        if states != {"a": "unchanged", "b": "changed", "c": "changed", "folder": "missing", "link": "changed"} or found["quick"] is not True:
            wrong(f"verify --quick --json says {found}")
        out = printed("verify", at("set.rsv"), "--quick", status=1)[0]
        if out.splitlines()[:4] != ["changed: set/b", "changed: set/c", "missing: set/folder", "changed: set/link"]:
            wrong(f"verify --quick says {out!r}")
        run("verify", at("set.rsv"), "--quick", "--only", "set/a")
        run("verify", at("set.rsv"), "--quick", "--search", at(), status=2)


def nothing_to_do():
    """`restore` of a set that is whole says that nothing was written, and writes nothing."""
    with Folder() as at:
        made(at, {"a": RANDOM.randbytes(900), "b": RANDOM.randbytes(900)}, "-r", "100%")
        for more in ((), ("--only", "set/a")):
            out, error = printed("restore", at("set.rsv"), "--to", at("new"), *more)
            if out.splitlines()[-1] != f"nothing was written into {at('new')}, because nothing is damaged or missing" or error or os.path.exists(at("new")):
                wrong(f"restore of a whole set {more} says {(out, error)}")
        if printed("restore", at("set.rsv"), "--to", at("new"), "-q") != ("", "") or object_of("restore", at("set.rsv"), "--to", at("new"))["restored"]:
            wrong("restore of a whole set with -q or --json")
        write(at("set", "b"), b"")
        if "nothing was written" in printed("restore", at("set.rsv"), "--to", at("new"))[0] or not os.path.exists(at("new", "set", "b")):
            wrong("restore of a damaged file says that nothing was written")


def left_out():
    """Names that are not UTF-8, and links with such targets, are in the list `left_out` of --json, with what else was left out."""
    with Folder() as at:
        write(at("set", "a"), b"1")
        os.mkfifo(at("set", "pipe"))
        write(os.fsencode(at("set", "deep")) + b"/\xff", b"2")
        write(os.fsencode(at("set", "deep")) + b"/\xfe", b"2")
        os.symlink(b"\xff", os.fsencode(at("set", "link")))
        named = [{"path": at("set", "deep"), "reason": "2 names in this folder left out, because this is not UTF-8"},
                 {"path": at("set", "link"), "reason": "the target of this symbolic link is not UTF-8: it is left out"},
                 {"path": at("set", "pipe"), "reason": "this is a pipe, a socket or a device"}]
        for words in (("create", at("set")), ("update", at("set.rsv")), ("split", at("set"), "-n", "2", "-o", at("parts"))):
            for more, status in (((), 4), (("--skip-names",), 0)):
                force = ("--force",) if more and words[0] != "update" else ()
                found = object_of(*words, *more, *force, status=status)
                if sorted(found["left_out"], key=lambda left: left["path"]) != named or found["files"] != 1:
                    wrong(f"{words} --json of names that are not UTF-8: {found}")
        out, error = printed("update", at("set.rsv"), status=4)
        if any((f"left out: {left['path']}: " in out) != (left is named[2]) or (f"rs_files: {left['path']}: {left['reason']}\n" in error) != (left is not named[2]) for left in named):
            wrong(f"names that are not UTF-8 are printed wrongly: {(out, error)}")


def closed_early():
    """A program that ends before it has read all of what `info` prints is no error, and nothing is printed."""
    with Folder() as at:
        items = [Item(b"%050d" % number) for number in range(5000)]
        write(at("many.rsv"), Made(items, 512, 0).volume())
        for more in ((), ("--json",)):
            told = subprocess.Popen([PROGRAM, "info", at("many.rsv"), *more], stdout=subprocess.PIPE, stderr=subprocess.PIPE)
            begun = told.stdout.read(100)
            told.stdout.close()
            error = told.stderr.read()
            if told.wait() or error or len(begun) != 100:
                wrong(f"info {more} whose reader ends: {told.returncode} {error!r}")
            told.stderr.close()
            if len(printed("info", at("many.rsv"), *more)[0]) < 5000 * 50:
                wrong("info of many files does not print all")


def objects():
    """With --json, each command prints one object on standard output, with what it did and found, and nothing else. After an error, the object
    has the reason."""
    with Folder() as at, Folder() as far:
        write(at("set", "a"), RANDOM.randbytes(5000))
        write(at("set", "b \"quoted\"\n"), RANDOM.randbytes(700))
        os.mkdir(at("set", "folder"))
        os.symlink("a", at("set", "link"))
        os.mkfifo(at("set", "pipe"))
        found = object_of("create", at("set"), "--block", "512", "-r", "3")
        wanted = {"status": 0, "files": 2, "links": 1, "folders": 1, "block_bytes": 512, "original_blocks": 12, "recovery_blocks": 3, "volumes": [{"path": at("set.rsv")}],
                  "left_out": [{"path": at("set", "pipe"), "reason": "this is a pipe, a socket or a device"}], "edited": [], "new": [], "removed": [], "rotten": []}
        if found != wanted:
            wrong(f"create --json prints {found}")
        os.remove(at("set", "pipe"))
        found = object_of("split", at("set"), "-n", "2", "-o", far("parts"))
        if found["volumes"] != [{"path": far("parts", f"volume000{number}.rsv")} for number in (1, 2)] or found["files"] != 2:
            wrong(f"split --json prints {found}")
        state = os.stat(at("set", "a"))
        whole = read(at("set", "a"))
        write(at("set", "a"), rotated(whole))
        os.utime(at("set", "a"), ns=(state.st_atime_ns, state.st_mtime_ns))
        os.rename(at("set", "b \"quoted\"\n"), at("set", "c"))
        found = object_of("update", at("set.rsv"), status=3)
        if names_in(found, "rotten", "edited", "new", "removed") != (["set/a"], [], ["set/c"], ["set/b \"quoted\"\n"]) or found["volumes"]:
            wrong(f"update --json of a rotten file prints {found}")
        found = object_of("update", at("set.rsv"), "--accept", "set/a")
        if names_in(found, "rotten", "edited", "new") != ([], ["set/a"], ["set/c"]) or found["volumes"] != [{"path": at("set.rsv")}]:
            wrong(f"update --json prints {found}")
        before = read(at("set.rsv"))
        write(at("set.rsv"), before + b"more")
        os.remove(at("set", "link"))
        os.rename(at("set", "c"), at("set", "d"))
        write(at("set", "a"), rotated(whole) + b"more")
        found = object_of("verify", at("set.rsv"), status=1)
        if found["moved"] != [{"name": "set/c", "path": at("set", "d")}] or [volume["state"] for volume in found["volumes"]] != ["damaged"]:
            wrong(f"verify --json prints {found}")
        found = object_of("repair", at("set.rsv"))
        wanted = [{"name": "set/a", "kept": at("set", "a.damaged")}, {"name": "set/c"}, {"name": "set/link"}]
        if found["restored"] != wanted or found["moved"] != [{"name": "set/c", "path": at("set", "d")}] or found["failed"] or found["lost"]:
            wrong(f"repair --json prints {found}")
        if found["written"] != [{"path": at("set.rsv"), "kept": at("set.rsv.damaged")}] or read(at("set.rsv")) != before:
            wrong(f"repair --json prints {found}")
        found = object_of("repair", at("set.rsv"))
        if (found["restored"], found["written"], found["lost_blocks"]) != ([], [], 0):
            wrong(f"repair --json of whole files prints {found}")
        write(far("new", "set", "a"), b"in the way")
        found = object_of("restore", far("parts", "volume0001.rsv"), "--to", far("new"), status=4)
        if [one["name"] for one in found["failed"]] != ["set/a"] or "use --force" not in found["failed"][0]["reason"]:
            wrong(f"restore --json of a file that exists prints {found}")
        if names_in(found, "restored", "lost") != (["set/b \"quoted\"\n", "set/folder", "set/link"], []):
            wrong(f"restore --json prints {found}")
        shutil.rmtree(at("set"))
        run("split", far("new", "set"), "-n", "9", "-o", at("nine"), *CREATE)
        found = object_of("restore", at("nine", "volume0009.rsv"), "--to", far("lost"), status=3)
        if names_in(found, "restored", "lost") != (["set/folder", "set/link"], ["set/a", "set/b \"quoted\"\n"]):
            wrong(f"restore --json of too few blocks prints {found}")
        for words in (("create", at("none")), ("info", at("none")), ("verify", at("nine", "volume0001.rsv"), "--only", at("none"))):
            if at("none") not in object_of(*words, status=4)["error"]:
                wrong(f"{words} --json does not print the reason")
        for words in (("update", at("none")), ("verify", at("none")), ("repair", at("none")), ("restore", at("none"), "--to", at("x"))):
            if object_of(*words, status=4) != {"status": 4, "error": "no volume can be read"}:
                wrong(f"{words} --json does not print the reason")


def wrong_words():
    """With --json, a wrong command line gives one object with the message, too, and so does a failure before the command begins."""
    with Folder() as at:
        write(at("a"), b"bytes")
        run("create", at("a"), *CREATE)
        cases = ((("verify", at("a.rsv"), "--nonsense"), "--nonsense"), (("verify",), "VOLUME"), (("nonsense", at("a.rsv")), "nonsense"),
                 (("split", at("a"), "-o", at("v")), "--volumes"), (("create", at("a"), "--block", "7"), "--block: write an even number"),
                 (("split", at("a"), "-n", "3", "--lose", "3", "-o", at("v")), "--lose must be"), (("update", at("a.rsv"), at("b.rsv")), "name one volume"), (("verify", at("a.rsv"), "--quick", "--search", at()), "--quick reads no file"))
        for words, reason in cases:
            for line in ((*words, "--json"), (words[0], "--json", *words[1:])):
                out, error = printed(*line, status=2)
                found = json.loads(out)
                if found["status"] != 2 or reason not in found["error"] or reason not in error or set(found) != {"status", "error"} or out.count("\n") != 1:
                    wrong(f"{line} prints {(out, error)}")
            if printed(*words, status=2)[0] or len(words) > 1 and printed(*words, "--", "--json", status=2)[0]:
                wrong(f"{words} prints something on standard output")
        for words in (("--help",), ("verify", "--json", "--help"), ("--version",)):
            if not printed(*words)[0] or "{" in printed(*words)[0]:
                wrong(f"{words} prints an object")
        out, error = printed("verify", b"caf\xe9", "--json", status=4)
        if json.loads(out)["status"] != 4 or not error:
            wrong(f"a word that is not UTF-8: {(out, error)}")


def lists_and_hints():
    """Long lists are cut, and say how many lines more there are. A folder after --folder or --search that is not there is an error."""
    with Folder() as at:
        made(at, {f"{number:03}": RANDOM.randbytes(10) for number in range(60)}, "-r", "100%")
        for number in range(47):
            os.remove(at("set", f"{number:03}"))
        out = printed("verify", at("set.rsv"), status=1)[0]
        if [line for line in out.splitlines() if line.startswith("missing")] != [f"missing: set/{number:03}" for number in range(20)] or "and 27 more: --json lists all\n" not in out:
            wrong(f"verify of many missing files says {out!r}")
        if len([file for file in object_of("verify", at("set.rsv"), status=1)["files"] if file["state"] == "missing"]) != 47:
            wrong("verify --json cuts a list")
        write(at("file"), b"")
        for option in ("--folder", "--search"):
            for command in (("verify",), ("repair",), ("restore", "--to", at("new"))):
                for path, reason in ((at("typo"), "there is no such folder"), (at("file"), "this is no folder")):
                    if printed(command[0], at("set.rsv"), *command[1:], option, path, status=4) != ("", f"rs_files: {path}: {reason}\n"):
                        wrong(f"{command} {option} with a folder that is not there")
        if f"{at('typo')}: there is no such folder" not in run("update", at("set.rsv"), "--folder", at("typo"), status=4) or os.path.exists(at("new")):
            wrong("update with a folder that is not there")


def cut_lists():
    """`update`, `repair` and `restore` print the first 20 names of each list, and say how many more there are. --json has all."""
    names = [f"{number:03}" for number in range(60)]
    with Folder() as at:
        made(at, {name: RANDOM.randbytes(10) for name in names}, "-r", "100%")
        volume = read(at("set.rsv"))
        for name in names[:47]:
            os.remove(at("set", name))
        more = "and 27 more restored: --json lists all\nrestored 47 files\n"
        for words in (("restore", at("set.rsv"), "--to", at("new")), ("repair", at("set.rsv"))):
            out = printed(*words)[0]
            if [line for line in out.splitlines() if line.startswith("restored: ")] != [f"restored: set/{name}" for name in names[:20]] or more not in out:
                wrong(f"{words[0]} of many files says {out!r}")
        for name in names[:47]:
            os.remove(at("set", name))
        found = object_of("repair", at("set.rsv"))
        if [file["name"] for file in found["restored"]] != [f"set/{name}" for name in names[:47]]:
            wrong(f"repair --json cuts a list: {found}")
        for command in ("text", "json"):
            write(at("set.rsv"), volume)
            for number, name in enumerate(names):
                if number < 21:
                    write(at("set", name), b"other")
                elif number < 43 and os.path.exists(at("set", name)):
                    os.remove(at("set", name))
                write(at("set", f"new{number}"), b"n")
            if command == "json":
                found = object_of("update", at("set.rsv"))
                if [len(found[key]) for key in ("edited", "removed", "new", "rotten")] != [21, 22, 60, 0]:
                    wrong(f"update --json cuts a list: {found}")
                continue
            out = printed("update", at("set.rsv"))[0]
            for word, count in (("edited", 21), ("removed", 22), ("new", 60)):
                if sum(line.startswith(word + ": ") for line in out.splitlines()) != 20 or f"and {count - 20} more {word}: --json lists all\n" not in out:
                    wrong(f"update of many files says {out!r}")


def next_steps():
    """What the program says to do fits the set: `update` for a volume of create, and not `split`. `repair` names the damaged volume that it kept,
    and with --only no other file that was moved. `split` names the volumes that an older run has left."""
    with Folder() as at:
        made(at, {name: RANDOM.randbytes(3000) for name in ("a", "b", "c")}, "-r", "100%")
        volume = read(at("set.rsv"))
        write(at("other.rsv"), b"no volume")
        out = printed("verify", at("set.rsv"), at("other.rsv"), status=1)[0]
        if "make it again with update, or with create --force\n" not in out or "split" in out:
            wrong(f"verify of a volume of create and of no volume says {out!r}")
        write(at("set.rsv"), volume[:-700] + bytes(64) + volume[-636:])
        if f"written again: {at('set.rsv')}\nkept: {at('set.rsv')}.damaged\n" not in printed("repair", at("set.rsv"))[0]:
            wrong("repair does not name the damaged volume that it kept")
        os.rename(at("set", "a"), at("set", "x"))
        os.remove(at("set", "b"))
        for words in (("verify", at("set.rsv")), ("restore", at("set.rsv"), "--to", at("new")), ("repair", at("set.rsv"))):
            status = int(words[0] == "verify")
            if "moved: " in printed(*words, "--only", "set/b", status=status)[0]:
                wrong(f"{words[0]} --only names a file that it is not about")
            os.path.exists(at("set", "b")) and os.remove(at("set", "b"))
            shutil.rmtree(at("new"), ignore_errors=True)
            if object_of(*words, "--only", "set/b", status=status)["moved"]:
                wrong(f"{words[0]} --only --json names a file that it is not about")
            os.path.exists(at("set", "b")) and os.remove(at("set", "b"))
            shutil.rmtree(at("new"), ignore_errors=True)
        if f"moved: set/a is at {at('set', 'x')}\n" not in printed("repair", at("set.rsv"), "--only", "set/a")[0]:
            wrong("repair --only does not name the file that was moved")
        split = ("split", at("set"), "-o", at("parts"), "--force", "-n")
        if "an older split" in run(*split, "5"):
            wrong("split names older volumes where there are none")
        error = printed(*split, "3", "-q")[1]
        old = [at("parts", f"volume000{number}.rsv") for number in (4, 5)]
        if error != "".join(f"rs_files: {path}: warning: an older split made this volume, and the new ones do not belong to it: delete it\n" for path in old):
            wrong(f"split with fewer volumes says {error!r}")
        if not all(os.path.exists(path) for path in old):
            wrong("split with fewer volumes deletes volumes")
        paths = sorted(at("parts", name) for name in os.listdir(at("parts")))
        if "If an older split has left it, delete it" not in printed("verify", *paths, status=4)[1]:
            wrong("verify of volumes of two splits does not say what to do")
        for path in old:
            os.remove(path)
        run("verify", *paths[:3], "-q")


def said_by_create():
    """`create` warns once if its largest file is larger than what the recovery blocks can restore, and names what it leaves out. The version is
    that of the product, and help texts have examples."""
    with Folder() as at:
        write(at("set", "large"), RANDOM.randbytes(10240))
        write(at("set", "larger"), RANDOM.randbytes(10241))
        write(at("set", "small"), RANDOM.randbytes(512))
        os.mkfifo(at("set", "pipe"))
        create = ("create", at("set"), "-o", at("set", "set.rsv"), "--block", "512", "--force")
        out, error = printed(*create, "-r", "20")
        if error.count("warning") != 1 or "set/larger: warning: this file has 10241 bytes, and the recovery blocks can restore 10240" not in error:
            wrong(f"create of a file that is too large says {error!r}")
        if f"left out: {at('set', 'pipe')}: this is a pipe, a socket or a device\n" not in out:
            wrong(f"create with a pipe says {out!r}")
        out, error = printed(*create, "-r", "21")
        if error or f"left out: {at('set', 'set.rsv')}: this is a volume that is replaced\n" not in out:
            wrong(f"create beside an old volume says {(out, error)}")
        if printed(*create, "-q") != ("", ""):
            wrong("create -q prints something")
        for number in range(30):
            os.mkfifo(at("set", f"pipe{number}"))
        if "and 12 more: --json lists all\n" not in printed(*create)[0]:
            wrong("create does not cut the list of what it left out")
        # The other commands look in the folder of the volume, and in the folder above it if this is the folder of the set.
        hint = "the files are in another folder, so the other commands need --folder"
        write(at("set", "deep", "file"), RANDOM.randbytes(700))
        for output, needed in ((("set.rsv",), False), (("set", "set.rsv"), False), (("other", "set.rsv"), True), (("set", "deep", "set.rsv"), True)):
            shutil.rmtree(at("other"), ignore_errors=True)
            os.makedirs(os.path.dirname(at(*output)), exist_ok=True)
            create = ("create", at("set", "large"), at("set", "small")) if output[0] == "other" else ("create", at("set"))
            folder = at("set") if output[0] == "other" else at()
            out = printed(*create, "-o", at(*output), "--force", "-r", "100%")[0]
            if (f"{at(*output)}: {hint} {folder}\n" in out) != needed or (hint in out) != needed:
                wrong(f"create into {output} says {out!r}")
            run("verify", at(*output), "-q", status=(1, 3) if needed else 0)
            run("verify", at(*output), "--folder", folder, "-q")
            if hint in printed(*create, "-o", at(*output), "--force", "-q")[0]:
                wrong("create -q says where the files are")
            os.remove(at(*output))
    header = read(os.path.join(TOP, "include/reed_solomon_simd.h")).decode()
    version = re.search(r'RS_VERSION_TEXT "([^"]*)"', header).group(1)
    if printed("--version")[0] != f"rs_files {version}\n":
        wrong("the version is not that of the product")
    needed = {"split": ("--output", "--volumes"), "restore": ("--to",)}
    for command in ("create", "split", "update", "verify", "repair", "restore", "info"):
        text = printed(command, "--help")[0]
        statuses = {"verify": "0134", "repair": "0134", "info": ""}.get(command, "034")
        if re.findall(r"(?:Status |\s)(\d): ", text) != [*statuses]:
            wrong(f"the help text of {command} names other statuses than {statuses}")
        if f"\n  rs_files {command} " not in text.split("Example")[1]:
            wrong(f"the help text of {command} has no example")
        if any(f"{option} <" not in text.split("\n")[2] for option in needed.get(command, ())):
            wrong(f"the usage of {command} does not have the options that it needs")
        if ("--quiet" in text) == (command == "info") or ("--force" in text) != (command in ("create", "split", "restore")) or "--memory" not in text:
            wrong(f"the help text of {command} has an option that means nothing, or lacks one")


TESTS = (one_command, restored_twice, restored_parts, repaired_parts_of_sets, unlike_digests, named, quick, nothing_to_do, left_out, closed_early, objects, wrong_words, lists_and_hints, cut_lists, next_steps, said_by_create)
