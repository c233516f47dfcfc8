"""Tests of where `rs_files` writes: long names, names in use, folders and symbolic links in the way, and permission bits. If a file cannot be
written, all others are, and no file of the program's own is left."""
import json
import os
import re
import stat

from files_common import RANDOM, Folder, bodies, as_nobody, info, preloaded, printed, read, run, skipped, sparse, tree, write, wrong


def parts_in(folder):
    """Returns the names of files that are still being written, below a folder."""
    return sorted(name for _, _, names in os.walk(folder) for name in names if ".part" in name)


def restored_but(names, words, files, folder, faults, **options):
    """Runs a command that restores all files but `names`. Checks its status and messages, that the files below `folder` are those of
    `files` then, and that no file of the program's own is left. `faults` are the paths and reasons that the messages must have."""
    out, error = printed(*words, status=4, **options)
    lines = error.splitlines()
    for path, reason in faults:
        if not any(line.startswith(f"rs_files: {path}: ") and reason in line for line in lines):
            wrong(f"{words[0]} does not say of {path}: {reason}: {error}")
    many = f"{len(names)} file{'' if len(names) == 1 else 's'}"
    if f"rs_files: {many} could not be restored" not in lines or f"restored {len(files) - len(names)} file" not in out:
        wrong(f"{words[0]} does not say how many files it restored: {out} {error}")
    if parts_in(folder):
        wrong(f"{words[0]} left {parts_in(folder)}")
    after = tree(folder)
    for name, data in files.items():
        if name not in names and after.get(name) != data:
            wrong(f"{words[0]} does not restore {name} beside a file that cannot be restored")


def output_in_use():
    """With --force, only an old volume is replaced, whole or damaged. Another file, a folder, a pipe or a link is not."""
    with Folder() as at:
        write(at("photos", "one.jpg"), RANDOM.randbytes(3000))
        write(at("photos", "two.jpg"), RANDOM.randbytes(30))
        write(at("other"), b"another file")
        os.mkdir(at("photos", "folder"))
        os.mkfifo(at("pipe"))
        os.symlink("photos/one.jpg", at("link"))
        os.symlink("nowhere", at("broken"))
        before = tree(at("photos"))
        places = [at("photos", "one.jpg"), at("photos", "two.jpg"), at("other"), at("photos", "folder"), at("pipe"), at("link")]
        for place in places:
            error = printed("create", at("photos"), "-o", place, "--force", status=4)[1]
            if error != f"rs_files: {place}: this is no volume, so --force does not replace it: name another place with -o, or remove it first\n":
                wrong(f"create over {place}: {error}")
            if "exists: use --force" not in run("create", at("photos"), "-o", place, status=4):
                wrong(f"create over {place} without --force")
        if at("broken") + ": No such file" not in run("create", at("photos"), "-o", at("broken"), "--force", status=4):
            wrong("create over a link that leads nowhere")
        write(at("v", "volume0002.rsv"), b"of somebody else")
        if at("v", "volume0002.rsv") + ": this is no volume" not in run("split", at("photos"), "-n", "3", "-o", at("v"), "--force", status=4):
            wrong("split over another file")
        if tree(at("photos")) != before or tree(at("v")) != {"volume0002.rsv": b"of somebody else"} or read(at("other")) != b"another file" or not os.path.islink(at("link")):
            wrong("a file that is no volume was replaced")
        run("create", at("photos"), "-q")
        volume = read(at("photos.rsv"))
        for damaged in (volume, bytes(200) + volume[200:], volume[:200] + bytes(len(volume) - 200), volume[:100]):
            write(at("photos.rsv"), damaged)
            run("create", at("photos"), "-q", "--force")
            if read(at("photos.rsv")) != volume:
                wrong("create --force does not replace an old volume")
        if parts_in(at()):
            wrong(f"left: {parts_in(at())}")


def long_names():
    """Files with names of up to 255 bytes are restored, damaged ones are kept, and their volume can have a long name."""
    with Folder() as at:
        names = ["n" * 247, "n" * 248, "n" * 250, "n" * 255, "n" * 254 + "o", "\u00e9" * 127, "x" + "\u00e9" * 127, "\u65e5" * 85, "short"]
        for name in names:
            write(at("d", name), RANDOM.randbytes(700))
        before = tree(at("d"))
        volume = at("v" * 251 + ".rsv")
        for _ in range(2):
            run("create", at("d"), "-o", volume, "-q", "--block", "512", "-r", "100%", "--force")
        for name in names[:5]:
            os.remove(at("d", name))
        damaged = {name: b"?" + before[name][1:] for name in names[5:]}
        for name, data in damaged.items():
            write(at("d", name), data)
        if "restored 9 files, and kept 4 damaged files" not in run("repair", volume):
            wrong("files with long names")
        after = tree(at("d"))
        kept = {name: after.pop(name) for name in list(after) if name.endswith(".damaged")}
        if after != before or sorted(kept.values()) != sorted(damaged.values()):
            wrong(f"files with long names are not restored: {[len(name) for name in after]} {[len(name) for name in kept]}")
        for name in kept:
            write(at("d", name), kept[name])
        for name in names[-2:]:
            write(at("d", name), b"?")
        run("repair", volume, "-q")
        if {name: data for name, data in tree(at("d")).items() if ".damaged" not in name} != before or sum(name.endswith(".damaged2") for name in tree(at("d"))) != 2:
            wrong("files with long names are not restored a second time")
        run("split", at("d"), "-n", "3", "-o", at("v"), "-q", "--block", "512")
        for name in before:
            os.remove(at("d", name))
        run("restore", *[at("v", name) for name in sorted(os.listdir(at("v")))[1:]], "--to", at("j"), "-q")
        if {name: data for name, data in tree(at("j", "d")).items() if "damaged" not in name} != before or parts_in(at()):
            wrong("restore of files with long names")


def long_paths():
    """A message has the whole path and the whole reason, for paths of any length."""
    with Folder() as at:
        deep = at("d", *["f" * 255] * 12)
        path = os.path.join(deep, "n" * 255)
        write(path, b"1")
        before = tree(at("d"))
        run("create", at("d"), "-q")
        os.rename(path, path[:-1])
        os.mkdir(path)
        faults = [(path, "a folder has the name of this file: remove it or give it another name")]
        restored_but([*before], ("repair", at("d.rsv")), before, at("d"), faults)
        missing = os.path.join(deep, "m" * 255)
        for words in (("create", missing), ("verify", missing), ("info", missing)):
            if f"rs_files: {missing}: No such file or directory (os error 2)\n" not in printed(*words, status=4)[1]:
                wrong(f"{words[0]} does not say the whole path and the reason")
        if f"rs_files: {path[:-1]}: it exists: use --force to overwrite it\n" != printed("create", at("d"), "-o", path[:-1], status=4)[1]:
            wrong("create over a file with a long path")
        over = at("e" * 300)
        if f"rs_files: {over}: File name too long (os error 36)\n" != printed("create", over, status=4)[1]:
            wrong("no message for a name that is too long")
        os.chmod(path[:-1], 0)
        if f"rs_files: {path[:-1]}: Permission denied (os error 13)\n" != printed("create", path[:-1], "-o", at("x.rsv"), status=4, before=as_nobody(at()))[1]:
            wrong("no message for a file with a long path that must not be read")


def blocked():
    """If a file cannot be restored, `repair` and `restore` name it with the reason, and restore all others."""
    with Folder() as at:
        for name in ("a", "b", "closed/c", "deep/er/d", "e", "file/f"):
            write(at("d", *name.split("/")), RANDOM.randbytes(3000))
        before = tree(at("d"))
        run("create", at("d"), "-q", "--block", "512", "-r", "100%")
        run("split", at("d"), "-n", "4", "--lose", "2", "-o", at("v"), "-q", "--block", "512")
        volumes = [at("v", f"volume000{number}.rsv") for number in (2, 4)]

        def block(folder):
            """Puts a folder, a file and a folder without permission where files are restored."""
            os.makedirs(os.path.join(folder, "b", "inner"))
            write(os.path.join(folder, "file"), b"a file")
            os.makedirs(os.path.join(folder, "closed"))
            nobody = as_nobody(at())
            os.chmod(os.path.join(folder, "closed"), 0o500)
            return nobody

        for name in before:
            os.remove(at("d", name))
        for name in ("closed", "file"):
            os.rmdir(at("d", name))
        nobody = block(at("d"))
        blocked = ["b", "closed/c", "file/f"]
        faults = [("b", "a folder has the name of this file"), ("closed/c", "Permission denied"), ("file/f", "Not a directory")]
        restored_but(blocked, ("repair", at("d.rsv")), before, at("d"), [(at("d", name), reason) for name, reason in faults], before=nobody)
        if not os.path.isdir(at("d", "b", "inner")) or read(at("d", "file")) != b"a file":
            wrong("repair changed what is in the place of a file")
        found = json.loads(printed("verify", at("d.rsv"), "--json", status=1, before=nobody)[0])
        if {file["name"]: file["state"] for file in found["files"]} != {f"d/{name}": "missing" if name in blocked else "whole" for name in before}:
            wrong(f"verify after an incomplete repair: {found}")
        for force in ((), ("--force",)):
            nobody = block(at(f"j{len(force)}", "d"))
            write(at(f"j{len(force)}", "d", "e"), b"another e")
            as_nobody(at("j0") if not force else at("j1"))
            more = [] if force else ["e"]
            reasons = faults + [("e", "exists: use --force")] * len(more)
            paths = [(at(f"j{len(force)}", "d", name), reason) for name, reason in reasons]
            restored_but(blocked + more, ("restore", *volumes, "--to", at(f"j{len(force)}"), *force), before, at(f"j{len(force)}", "d"), paths, before=nobody)
            if more and read(at("j0", "d", "e")) != b"another e":
                wrong("restore overwrites a file without --force")
        for folder in ("d", "j0/d", "j1/d"):
            os.chmod(at(folder, "closed"), 0o700)
            os.rmdir(at(folder, "b", "inner"))
            os.rmdir(at(folder, "b"))
            os.remove(at(folder, "file"))
        run("repair", at("d.rsv"), "-q")
        if tree(at("d")) != before:
            wrong("repair after nothing is in its way")


def inputs_kept():
    """`restore --force` never overwrites a file or a volume that it reads."""
    with Folder() as at:
        write(at("a"), RANDOM.randbytes(3000))
        write(at("b"), RANDOM.randbytes(3000))
        before = {name: read(at(name)) for name in ("a", "b")}
        run("create", at("a"), at("b"), "-o", at("set.rsv"), "-q", "--block", "512", "-r", "8")
        write(at("a"), b"?" + before["a"][1:])
        os.remove(at("b"))
        restored_but(["a"], ("restore", at("set.rsv"), "--to", at(), "--force"), before, at(), [(at("a"), "this file is read")])
        # A set of which a file has the path of one of its volumes.
        write(at("s", "volume0001.rsv"), RANDOM.randbytes(3000))
        write(at("s", "z"), RANDOM.randbytes(300))
        names = tree(at("s"))
        run("split", at("s", "volume0001.rsv"), at("s", "z"), "-n", "2", "-o", at("v"), "-q", "--block", "512")
        volumes = tree(at("v"))
        restored_but(["volume0001.rsv"], ("restore", at("v", "volume0001.rsv"), at("v", "volume0002.rsv"), "--to", at("v"), "--force"), names, at("v"),
                     [(at("v", "volume0001.rsv"), "this file is read")])
        if {name: data for name, data in tree(at("v")).items() if name != "z"} != volumes:
            wrong("restore overwrites a volume that it reads")


def links():
    """No file is written through a symbolic link out of the folder: the file is named, and the others are restored."""
    with Folder() as at:
        for name in ("a", "sub/b", "sub/deep/c"):
            write(at("d", *name.split("/")), RANDOM.randbytes(3000))
        before = tree(at("d"))
        run("create", at("d"), "-q", "--block", "512", "-r", "100%")
        os.rename(at("d", "sub"), at("outside"))
        outside = tree(at("outside"))
        os.symlink(at("outside"), at("d", "sub"))
        write(at("outside", "b"), b"of somebody else")
        os.remove(at("outside", "deep", "c"))
        os.rmdir(at("outside", "deep"))
        os.remove(at("d", "a"))
        faults = [(at("d", name), "a folder of its path is a symbolic link") for name in ("sub/b", "sub/deep/c")]
        restored_but(["sub/b", "sub/deep/c"], ("repair", at("d.rsv")), before, at("d"), faults)
        if tree(at("outside")) != {"b": b"of somebody else"} or os.listdir(at("outside")) != ["b"]:
            wrong(f"repair wrote through a symbolic link: {os.listdir(at('outside'))}")
        os.makedirs(at("new", "d"))
        os.symlink(at("outside"), at("new", "d", "sub"))
        faults = [(at("new", "d", name), "a folder of its path is a symbolic link") for name in ("sub/b", "sub/deep/c")]
        missing = {name: before[name] for name in ("sub/b", "sub/deep/c")}
        restored_but([*missing], ("restore", at("d.rsv"), "--to", at("new"), "--force"), missing, at("new", "d"), faults)
        if tree(at("outside")) != {"b": b"of somebody else"}:
            wrong("restore wrote through a symbolic link")
        # The folder itself may be a link, and a link in the place of a file is replaced, and not the file to which it leads.
        os.symlink("real", at("goal"))
        os.mkdir(at("real"))
        run("restore", at("d.rsv"), "--to", at("goal"), "-q")
        if tree(at("real", "d")) != {name: data for name, data in before.items() if name != "a"}:
            wrong("repair into a folder that is named by a link")
        os.remove(at("d", "sub"))
        os.rename(at("outside"), at("d", "sub"))
        write(at("victim"), b"of somebody else")
        os.remove(at("d", "a"))
        os.symlink(at("victim"), at("d", "a"))
        run("repair", at("d.rsv"), "-q")
        if read(at("victim")) != b"of somebody else" or {name: read(at("d", name)) for name in before} != before or os.path.islink(at("d", "a")):
            wrong("repair of a file in whose place a link is")
        if outside["b"] != before["sub/b"]:
            wrong("the files of the test")


def modes():
    """A file is readable by nobody else while it is written, and the bits that let it run as its owner or group are not restored."""
    with Folder() as at:
        log = at("log")
        logged = preloaded("log_syncs", SYNC_LOG=log)
        if logged is None:
            return
        wanted = {"private": 0o600, "plain": 0o644, "program": 0o755, "closed": 0o000, "setuid": 0o4755, "setgid": 0o2755, "sticky": 0o1777, "all": 0o7777}
        for name, mode in wanted.items():
            write(at("d", name), RANDOM.randbytes(700))
            os.chmod(at("d", name), mode)
        run("create", at("d"), "-q", "--block", "512", "-r", "100%")
        run("split", at("d"), "-o", at("v"), "-n", "2", "-q")
        for name in wanted:
            os.remove(at("d", name))

        def open_to_all():
            os.umask(0)

        run("repair", at("d.rsv"), "-q", env=logged, before=open_to_all)
        run("restore", at("v", "volume0001.rsv"), "--to", at("j"), "-q", env=logged, before=open_to_all)
        steps = [line.split("\t") for line in read(log).decode().splitlines()]
        changed = [step for step in steps if step[0] == "mode"]
        if len(changed) != 2 * len(wanted) or any(int(step[2], 8) & 0o177 for step in changed):
            wrong(f"the permission bits of files while they are written: {changed}")
        for folder in (at("d"), at("j", "d")):
            found = {name: stat.S_IMODE(os.stat(os.path.join(folder, name)).st_mode) for name in wanted}
            if found != {name: mode & 0o777 for name, mode in wanted.items()}:
                wrong(f"the permission bits of restored files: { {name: oct(mode) for name, mode in found.items()} }")


def unread():
    """For each file and each volume of which blocks cannot be read, a message has the path and the reason."""
    with Folder() as at:
        block = 512
        write(at("d", "a"), RANDOM.randbytes(40 * block))
        run("create", at("d"), "-q", "--block", str(block), "-r", "10")
        unreadable = preloaded("change_reads", READ_NAME="/d/a", READ_FROM=3 * block + 100, READ_TO=5 * block + 10)
        if unreadable is None:
            return
        error = f"rs_files: {at('d', 'a')}: 3 blocks cannot be read: Input/output error (os error 5)\n"
        for words, status in ((("verify", at("d.rsv")), 1), (("verify", at("d.rsv"), "-q"), 1), (("verify", at("d.rsv"), "--json"), 1),
                              (("restore", at("d.rsv"), "--to", at("new"), "--force"), 0)):
            if printed(*words, status=status, env=unreadable)[1] != error:
                wrong(f"{words} of a file that cannot be read everywhere: {printed(*words, status=status, env=unreadable)[1]}")
        place = bodies(read(at("d.rsv")))[1]
        unreadable = preloaded("change_reads", READ_NAME="d.rsv", READ_FROM=place, READ_TO=place + 1)
        error = f"rs_files: {at('d.rsv')}: 1 block cannot be read: Input/output error (os error 5)\n"
        for command, status in (("verify", 1), ("repair", 0)):
            if printed(command, at("d.rsv"), status=status, env=unreadable)[1] != error:
                wrong(f"{command} with a volume that cannot be read everywhere")
        write(at("d", "a"), read(at("d", "a"))[:-600])
        if printed("verify", at("d.rsv"), status=1)[1]:
            wrong("verify says that blocks of a short file cannot be read")


def split_set(at, number):
    """Splits a set of two files with 14 blocks into this number of volumes, of which one may be lost. Returns the paths of the volumes."""
    write(at("set", "a"), RANDOM.randbytes(6000))
    write(at("set", "b"), RANDOM.randbytes(700))
    run("split", at("set"), "-n", str(number), "--lose", "1", "-o", at("v"), "-q", "--block", "512")
    return [at("v", f"volume000{place}.rsv") for place in range(1, number + 1)]


def spread_volumes():
    """`verify` says of volumes of `split` whether they hold all blocks. The files need not be there."""
    with Folder() as at:
        volumes = split_set(at, 4)
        if printed("verify", *volumes) != ("all volumes are whole, with 14 original blocks and 5 recovery blocks: restore makes the files from them\n", ""):
            wrong(f"verify of whole volumes: {printed('verify', *volumes)}")
        if printed("verify", *volumes, "-q") != ("", "") or json.loads(printed("verify", *volumes, "--json")[0])["status"] != 0:
            wrong("verify of whole volumes, with -q or --json")
        # The last volume has the blocks 3, 7, 11 and 15, of which the blocks from 14 on are recovery blocks.
        words = "3 of 14 original blocks and 1 of 5 recovery blocks are not in these volumes: restore can still make all files\n"
        if printed("verify", *volumes[:3], status=1) != (words, ""):
            wrong(f"verify of three volumes: {printed('verify', *volumes[:3], status=1)}")
        out, error = printed("verify", *volumes[:2], status=3)
        if out or "cannot be restored without" not in error:
            wrong(f"verify of two volumes: {out} {error}")
        whole = read(volumes[1])
        write(volumes[1], whole[:-1] + bytes([whole[-1] ^ 1]))
        out = printed("verify", *volumes, status=1)[0]
        if "volume0002.rsv: the volume has 1 damaged or missing part of its description\n" not in out or "restore" not in out or "missing:" in out:
            wrong(f"verify of a damaged volume: {out}")
        write(volumes[1], whole)
        os.remove(at("set", "b"))
        out = printed("verify", *volumes, "--folder", at(), status=1)[0]
        if "missing: set/b\n" not in out or "missing: set/a\n" in out:
            wrong(f"verify of volumes with one of two files beside them: {out}")
        # Volumes of create hold no file, so the files must be there.
        write(at("other", "c"), b"")
        run("create", at("other"), "-q")
        os.remove(at("other", "c"))
        if f"no file was found in {at()}: " not in printed("verify", at("other.rsv"), status=1)[0]:
            wrong("verify of an empty file that is missing")


def damaged_blocks():
    """`verify` names each volume of which a block is damaged, also if the same block is in a file or in another volume."""
    with Folder() as at:
        volumes = split_set(at, 3)
        before, whole = tree(at("set")), read(volumes[1])
        # The files have 14 blocks, so there are 7 recovery blocks. The second volume has the blocks 1, 4, 7, 10, 13, 16 and 19.
        blocks = bodies(whole)
        kept = "all files and recovery blocks are whole, but a volume is damaged or cannot be read: repair writes damaged volumes again\n"
        lost = "all files are whole, but 1 of 7 recovery blocks cannot be used: repair writes damaged volumes again\n"
        for places, number, words in ((blocks[:1], "1 damaged or missing block", kept), ([blocks[0] + 511, *blocks[1:2]], "2 damaged or missing blocks", kept),
                                      (blocks[5:6], "1 damaged or missing block", lost), ((blocks[4] + 1, blocks[6] + 1), "2 damaged or missing blocks", lost)):
            damaged = bytearray(whole)
            for place in places:
                damaged[place] ^= 1
            wanted = f"{volumes[1]}: the volume has {number}\n{words}"
            for command, status, more in (("repair", 0, f"written again: {volumes[1]}\nkept: {volumes[1]}.damaged\n"), ("verify", 1, "")):
                write(volumes[1], bytes(damaged))
                found = printed(command, *volumes, "--folder", at(), status=status)
                if found != (wanted + more, ""):
                    wrong(f"{command} of volumes with wrong bytes at {places}: {found}")
                if command == "repair" and read(volumes[1]) != whole:
                    wrong("repair writes another volume")
            os.remove(volumes[1] + ".damaged")
            if printed("verify", *volumes, "--folder", at(), "-q", status=1) != ("", ""):
                wrong("verify -q of a volume with damaged blocks")
            found = json.loads(run("verify", *volumes, "--folder", at(), "--json", status=1))
            states = [volume["state"] for volume in found["volumes"]]
            if states != ["whole", "damaged", "whole"] or {file["state"] for file in found["files"]} != {"whole"} or found["status"] != 1 or found["lost_blocks"] != 0:
                wrong(f"verify --json of volumes with wrong bytes at {places}: {found}")
        # A whole copy of the volume has all its blocks, and no file is there.
        write(at("copy.rsv"), whole)
        found = printed("verify", *volumes, at("copy.rsv"), status=1)
        if found[0].splitlines()[0] != f"{volumes[1]}: the volume has 2 damaged or missing blocks" or "but all blocks are in these volumes" not in found[0]:
            wrong(f"verify of a damaged volume beside a copy that is whole: {found}")
        place = bodies(read(volumes[0]))[1]
        unreadable = preloaded("change_reads", READ_NAME="volume0001.rsv", READ_FROM=place, READ_TO=place + 1)
        if unreadable is not None:
            write(volumes[1], whole)
            found = printed("verify", *volumes, "--folder", at(), status=1, env=unreadable)
            if found != (f"{volumes[0]}: the volume has 1 damaged or missing block\n{kept}", f"rs_files: {volumes[0]}: 1 block cannot be read: Input/output error (os error 5)\n"):
                wrong(f"verify of a volume of which a block cannot be read: {found}")
        if tree(at("set")) != before:
            wrong("verify or repair changed a file")


def no_files():
    """If a folder or a pipe is in the place of a file, `verify` gives the reason why the file is missing."""
    with Folder() as at:
        for name in ("a", "b", "c"):
            write(at("d", name), RANDOM.randbytes(700))
        run("create", at("d"), "-q", "--block", "512", "-r", "100%")
        os.remove(at("d", "a"))
        os.mkdir(at("d", "a"))
        os.remove(at("d", "b"))
        os.mkfifo(at("d", "b"))
        error = f"rs_files: {at('d', 'a')}: a folder has the name of this file\nrs_files: {at('d', 'b')}: this is no regular file\n"
        out = "missing: d/a\nmissing: d/b\n3 lost blocks, and 5 of 5 recovery blocks left: the files can be repaired\n"
        if printed("verify", at("d.rsv"), status=1) != (out, error) or printed("verify", at("d.rsv"), "-q", status=1) != ("", error):
            wrong(f"verify of a folder and a pipe in the place of files: {printed('verify', at('d.rsv'), status=1)}")
        found, said = printed("verify", at("d.rsv"), "--json", status=1)
        if [file["state"] for file in json.loads(found)["files"]] != ["missing", "missing", "whole"] or said != error:
            wrong(f"verify --json of a folder and a pipe in the place of files: {found} {said}")


def percents(text):
    """Returns the percentages in a text that a command prints, one after another."""
    return [int(number) for number in re.findall(r"\r(\d+)%", text)]


def progress_to_end():
    """Progress is in proportion to the bytes that are read, also if volumes hold more than the set needs, or files are missing."""
    with Folder() as at:
        for name in "abcd":
            write(at("set", name), RANDOM.randbytes(100 * 512))
        run("create", at("set"), "-q", "--block", "512", "-r", "400")
        run("split", at("set"), "-n", "2", "-o", at("v"), "-q", "--block", "512")
        volumes = [at("v", "volume0001.rsv"), at("v", "volume0002.rsv")]

        def check(steps, *words, status=0, env=None):
            """Checks that the percentages grow to 100 in at least so many steps, and returns what the command prints."""
            text = printed("verify", *words, "--progress", "always", status=status, env=env)[1]
            found = percents(text)
            if found != sorted(set(found)) or found[-1] != 100 or len(found) < steps:
                wrong(f"progress of verify {words}: {found}")
            return text

        check(100, at("set.rsv"))
        check(100, *volumes)
        # The files and the first volume are read before the end of the first volume, and the second volume after it.
        sizes = [os.path.getsize(volume) for volume in volumes]
        before = 100 * (400 * 512 + sizes[0]) // (400 * 512 + sum(sizes))
        place = bodies(read(volumes[0]))[0]
        unreadable = preloaded("change_reads", READ_NAME="volume0001.rsv", READ_FROM=place, READ_TO=place + 1)
        if unreadable is not None:
            text = check(100, *volumes, "--folder", at(), status=1, env=unreadable)
            if percents(text.split("volume0001.rsv: 1 block cannot be read")[0])[-1] != before:
                wrong(f"progress of verify before the end of the first volume: {percents(text.split('rs_files')[0])}")
        for name in "bc":
            os.remove(at("set", name))
        check(90, at("set.rsv"), status=1)


def too_large():
    """A file that no set can have, and too many blocks, have their own messages."""
    if not os.path.isdir("/dev/shm"):
        return skipped("no /dev/shm: files of 2^62 bytes")
    with Folder("/dev/shm") as at:
        os.mkdir(at("set"))
        try:
            sparse(at("set", "a"), 1 << 62)
        except OSError:
            return skipped("no file of 2^62 bytes")
        for words in ((), ("--block", "1024G"), ("--block", "4096")):
            error = printed("create", at("set"), "-o", at("x.rsv"), *words, status=4)[1]
            if "2^62 bytes or more" not in error or "-r" in error:
                wrong(f"create of a file of 2^62 bytes: {error}")
        sparse(at("set", "a"), 1 << 57)
        for words in (("create", at("set"), "-o", at("x.rsv")), ("create", at("set"), "-o", at("x.rsv"), "--block", "4096"), ("split", at("set"), "-n", "3", "-o", at("v"))):
            error = printed(*words, status=4)[1]
            if "more than 65535 blocks, even with the largest blocks" not in error or "--lose" in error or "-r" in error.split():
                wrong(f"{words[0]} of a file of 2^57 bytes: {error}")
        os.remove(at("set", "a"))
        for number in range(65536):
            with open(at("set", str(number)), "wb") as out:
                out.write(b"1")
        # Many small files share blocks.
        run("create", at("set"), "-o", at("x.rsv"), "-q")
        if info(at("x.rsv"))["original_blocks"] != 1024:
            wrong("create of 65536 files of 1 byte")


TESTS = (output_in_use, long_names, long_paths, blocked, inputs_kept, links, modes, unread, spread_volumes, damaged_blocks, no_files, progress_to_end, too_large)
