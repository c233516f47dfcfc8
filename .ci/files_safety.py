"""Tests that `rs_files` loses no file if a stream is closed, if a call of the system fails at the last step of a command, or if somebody
puts another file in the place of one that it reads or writes. Tests of times, sizes, progress and names, and of paths that are empty."""
import json
import os
import resource
import shutil

from files_common import RANDOM, Folder, info, preloaded, printed, read, run, tree, write, wrong


def changed(data, place):
    """Returns bytes of which one is changed."""
    return data[:place] + bytes([data[place] ^ 1]) + data[place + 1:]


def closed_streams():
    """If standard input, output or error is closed, nothing that is printed goes into a file of the set. If `/dev/null` cannot be opened in
    its place, the program fails."""
    with Folder() as at:
        data = RANDOM.randbytes(3_000_000)
        for closed in ((0,), (1,), (2,), (0, 1, 2)):
            def close():
                for stream in closed:
                    os.close(stream)

            write(at("a"), data)
            os.utime(at("a"), (1, 1))
            run("create", at("a"), "-q", "--force")
            whole = read(at("a.rsv"))
            run("create", at("a"), "--force", "--progress", "always", before=close)
            if read(at("a.rsv")) != whole:
                wrong(f"create without the streams {closed} writes another volume")
            run("split", at("a"), "-n", "2", "-o", at("v"), "--force", "--progress", "always", before=close)
            run("verify", at("v", "volume0001.rsv"), at("v", "volume0002.rsv"), "--folder", at(), "-q")
            write(at("a"), changed(data, 1_000_000))
            run("repair", at("a.rsv"), "--progress", "always", before=close)
            if read(at("a")) != data:
                wrong(f"repair without the streams {closed} restores another file")
        failing = preloaded("fail_calls", FAIL_OPEN="/dev/null")
        if failing is not None and "/dev/null: Permission denied" not in run("verify", at("a.rsv"), status=4, env=failing):
            wrong("no message if /dev/null cannot be opened")


def old_volumes():
    """If a new volume cannot be synced, or the first one cannot get its name, `split --force` replaces no old volume. If a later one
    cannot get its name, the others do. If several cannot, each of them is named."""
    with Folder() as at:
        write(at("set", "a"), RANDOM.randbytes(50_000))
        split = ("split", at("set"), "-n", "3", "-o", at("v"), "-q")
        run(*split)
        old = tree(at("v"))
        write(at("set", "a"), RANDOM.randbytes(50_000))
        for variable, number in (("FAIL_SYNC", 1), ("FAIL_SYNC", 2), ("FAIL_SYNC", 3), ("FAIL_RENAME", 1)):
            failing = preloaded("fail_calls", **{variable: f"volume000{number}.rsv.rs_files.part"})
            if failing is None:
                return
            text = run(*split, "--force", status=4, env=failing)
            if f"{at('v', f'volume000{number}.rsv')}: Input/output error" not in text or tree(at("v")) != old:
                wrong(f"split --force with {variable} of volume {number}: {text}{sorted(tree(at('v')))}")
        text = run(*split, "--force", status=4, env=preloaded("fail_calls", FAIL_RENAME="volume0002.rsv.rs_files.part"))
        new = tree(at("v"))
        if at("v", "volume0002.rsv") + ": Input/output error" not in text or new.keys() != old.keys() or new["volume0002.rsv"] != old["volume0002.rsv"]:
            wrong(f"split --force without the new name of volume 2: {text}{sorted(new)}")
        run("restore", at("v", "volume0001.rsv"), at("v", "volume0003.rsv"), "--to", at("new"), "-q")
        if tree(at("new", "set")) != tree(at("set")):
            wrong("the volumes that got their names do not restore the files")
        # Each volume that does not get its name is named, in order.
        text = run("split", at("set"), "-n", "12", "--lose", "3", "-o", at("w"), "-q", status=4, env=preloaded("fail_calls", FAIL_RENAME="2.rsv.rs_files.part"))
        wanted = "".join(f"rs_files: {at('w', name)}: Input/output error (os error 5)\n" for name in ("volume0002.rsv", "volume0012.rsv"))
        if text != wanted or len(os.listdir(at("w"))) != 10:
            wrong(f"split without the new names of two volumes: {text}{sorted(os.listdir(at('w')))}")


def killed_between():
    """If `split --force` is killed before the first rename, all old volumes are there. If it is killed between two renames, all new volumes
    are whole, under their final names or under the others."""
    with Folder() as at:
        write(at("set", "a"), RANDOM.randbytes(50_000))
        split = ("split", at("set"), "-n", "3", "-q", "--force")
        run(*split, "-o", at("v"))
        old = tree(at("v"))
        write(at("set", "a"), RANDOM.randbytes(50_000))
        run(*split, "-o", at("w"))
        new = tree(at("w"))
        for number in (1, 2, 3):
            names = [f"volume000{i}.rsv" for i in (1, 2, 3)]
            killing = preloaded("fail_calls", KILL_RENAME=names[number - 1] + ".rs_files.part")
            if killing is None:
                return
            for name, data in old.items():
                write(at("v", name), data)
            run(*split, "-o", at("v"), status=-9, env=killing)
            renamed = {name: (new if i + 1 < number else old)[name] for i, name in enumerate(names)}
            parts = {name + ".rs_files.part": new[name] for name in names[number - 1:]}
            if tree(at("v")) != {**renamed, **parts}:
                wrong(f"split --force that is killed before the rename of volume {number} leaves {sorted(tree(at('v')))}")
            for name in parts:
                os.remove(at("v", name))


def failed_repair():
    """If a restored file cannot get its name, the damaged file has its own name again, and no other one."""
    with Folder() as at:
        data = {name: RANDOM.randbytes(5000) for name in ("a", "b", "gone")}
        for name, content in data.items():
            write(at("d", name), content)
        run("create", at("d"), "-q", "--block", "512", "-r", "30")
        for more in ({}, {"FAIL_LINK": 1}):
            write(at("d", "a"), changed(data["a"], 700))
            write(at("d", "b"), changed(data["b"], 700))
            os.remove(at("d", "gone"))
            before = tree(at("d"))
            failing = preloaded("fail_calls", FAIL_RENAME=".rs_files.part", **more)
            if failing is None:
                return
            text = run("repair", at("d.rsv"), status=4, env=failing)
            if tree(at("d")) != before or "rs_files: 3 files could not be restored" not in text or "restored 0 files\n" not in text:
                wrong(f"repair without final names, {more}: {text}{sorted(tree(at('d')))}")
            text = run("repair", at("d.rsv"), status=4, env=preloaded("fail_calls", FAIL_RENAME="/a.rs_files.part", **more))
            after = {"a": before["a"], "b": data["b"], "b.damaged": before["b"], "gone": data["gone"]}
            if tree(at("d")) != after or "restored 2 files, and kept 1 damaged file as NAME.damaged" not in text:
                wrong(f"repair without the final name of one file, {more}: {text}{sorted(tree(at('d')))}")
            run("repair", at("d.rsv"), "-q")
            if {name: read(at("d", name)) for name in data} != data or read(at("d", "a.damaged")) != before["a"]:
                wrong("repair after a file did not get its name")
            os.remove(at("d", "a.damaged"))
            os.remove(at("d", "b.damaged"))


def folders_without_sync():
    """If a folder cannot be synced, the files in it have their names, and the program only prints a warning that names the folder."""
    with Folder() as at:
        data = RANDOM.randbytes(50_000)
        write(at("d", "a"), data)
        failing = preloaded("fail_calls", FAIL_FOLDERS=1)
        if failing is None:
            return
        warning = "rs_files: {}: warning: this folder cannot be synced: Invalid argument (os error 22)\n"
        if printed("create", at("d", "a"), "-o", at("a.rsv"), "-q", env=failing) != ("", warning.format(at())):
            wrong("create in a folder that cannot be synced")
        if printed("split", at("d"), "-n", "2", "-o", at("v"), "-q", env=failing) != ("", warning.format(at()) + warning.format(at("v"))):
            wrong("split into a folder that cannot be synced")
        write(at("d", "a"), changed(data, 5))
        error = printed("repair", at("a.rsv"), "--folder", at("d"), "-q", env=failing)[1]
        if error != warning.format(at("d")) or read(at("d", "a")) != data or read(at("d", "a.damaged")) != changed(data, 5):
            wrong(f"repair in a folder that cannot be synced: {error}")
        error = printed("restore", at("v", "volume0001.rsv"), at("v", "volume0002.rsv"), "--to", at("new"), "-q", env=failing)[1]
        if error != "".join(warning.format(path) for path in (at(), at("new"), at("new", "d"))) or tree(at("new")) != {"d/a": data}:
            wrong(f"restore into a folder that cannot be synced: {error}")


def times():
    """A file has its old time, to the second, after `repair` and `restore`."""
    with Folder() as at:
        data = {"a": RANDOM.randbytes(5000), "b": RANDOM.randbytes(700), "empty": b""}
        seconds = {"a": 1_000_000_000, "b": 1, "empty": 1_700_000_000}
        for name, content in data.items():
            write(at("d", name), content)
            os.utime(at("d", name), (seconds[name], seconds[name]))
        run("create", at("d"), "-q", "--block", "512", "-r", "20")
        run("split", at("d"), "-n", "3", "-o", at("v"), "-q")
        write(at("d", "a"), changed(data["a"], 600))
        for name in ("b", "empty"):
            os.remove(at("d", name))
        run("restore", at("d.rsv"), "--to", at("other"), "-q")
        run("repair", at("d.rsv"), "-q")
        run("restore", at("v", "volume0001.rsv"), at("v", "volume0002.rsv"), "--to", at("new"), "-q")
        for folder in (at("d"), at("other", "d"), at("new", "d")):
            found = {name: os.stat(os.path.join(folder, name)).st_mtime for name in data}
            if found != seconds or any(read(os.path.join(folder, name)) != content for name, content in data.items()):
                wrong(f"the times or contents of files in {folder}: {found}")


def sizes_shown():
    """`verify --json`, `info --json` and `info` show the size of each file, also of a damaged or missing one."""
    with Folder() as at:
        sizes = {"d/a": 5000, "d/b": 0, "d/c": 700, "d/e": 123}
        for name, size in sizes.items():
            write(at(name), RANDOM.randbytes(size))
        run("create", at("d"), "-q", "--block", "512", "-r", "20")
        write(at("d", "a"), bytes(40))
        os.remove(at("d", "c"))
        files = json.loads(printed("verify", at("d.rsv"), "--json", status=1)[0])["files"]
        states = {"d/a": "damaged", "d/b": "whole", "d/c": "missing", "d/e": "whole"}
        if files != [{"name": name, "kind": "file", "size": size, "state": states[name]} for name, size in sizes.items()]:
            wrong(f"verify --json shows the files {files}")
        if info(at("d.rsv"))["files"] != [{"name": name, "kind": "file", "size": size} for name, size in sizes.items()]:
            wrong(f"info --json shows the files {info(at('d.rsv'))['files']}")
        if printed("info", at("d.rsv"))[0].splitlines()[2:] != [f"{size:>14}  {name}" for name, size in sizes.items()]:
            wrong("info shows other sizes or names")


def progress_of_restores():
    """`split`, `repair` and `restore` show progress if the user asks for it, and show none if the user does not. `repair` and `restore` first look
    for blocks, and then restore them, and `split` compares old volumes first: each step has its own progress."""
    with Folder() as at:
        data = RANDOM.randbytes(3_000_000)
        write(at("a"), data)
        run("create", at("a"), "-q")
        write(at("a"), changed(data, 5))
        run("split", at("a"), "-n", "2", "-o", at("v"), "-q")
        for words, status, steps in ((("split", at("a"), "-n", "2", "-o", at("v"), "--force"), 0, 2),
                                     (("restore", at("v", "volume0002.rsv"), "--to", at("new"), "--force"), 0, 2),
                                     (("restore", at("a.rsv"), "--to", at("other"), "--force"), 0, 2)):
            for more, shown in (((), False), (("--progress", "never"), False), (("--progress", "always"), True), (("--progress", "always", "-q"), True)):
                error = printed(*words, *more, status=status)[1]
                if error.count("\r100%, ") != (steps if shown else 0) or not shown and error:
                    wrong(f"progress of {words[0]} with {more}: {error!r}")


def same_length():
    """A file that changes while it is read, but keeps its length: `create` and `split` say so, and finish no volume."""
    changing = preloaded("change_reads", READ_NAME="/a", READ_WRITES=1)
    if changing is None:
        return
    with Folder() as at:
        for words in (("create", at("a")), ("split", at("a"), "-n", "2", "-o", at("v"))):
            write(at("a"), bytes(20_000))
            os.utime(at("a"), (1, 1))
            text = run(*words, "--block", "512", status=4, env=changing)
            if at("a") + ": this file changed while it was read: try again" not in text or tree(at()) != {"a": b"x" + bytes(19_999)}:
                wrong(f"{words[0]} from a file that changes and keeps its length: {text}")


def shown_names():
    """Control characters of names are shown escaped, and names in JSON are as they are."""
    with Folder() as at:
        name, shown = "a\x1b[31m\nb\t\x7f\u0085 \u00e9\\", "a\\u{1b}[31m\\nb\\t\\u{7f}\\u{85} \u00e9\\"
        data = RANDOM.randbytes(5000)
        write(at("d", name), data)
        write(at("d", "z"), b"")
        volume = at("d\x1b.rsv")
        out = [printed("create", at("d"), "-o", volume, "--block", "512", "-r", "20")]
        if not out[0][0].startswith(at("d\\u{1b}.rsv") + ": 2 files in 10 blocks"):
            wrong(f"create shows {out}")

        def seen(text, *words, **options):
            """Checks that a command prints a text, and no control character but the ends of lines."""
            printed_both = "".join(printed(*words, **options))
            if text not in printed_both or any(ord(character) < 32 and character != "\n" or 127 <= ord(character) < 160 for character in printed_both):
                wrong(f"{words[0]} shows {printed_both!r}")

        seen(f"          5000  d/{shown}\n", "info", volume)
        unreadable = preloaded("change_reads", READ_NAME=name, READ_FROM=600, READ_TO=601)
        if unreadable is not None:
            seen(at("d", shown) + ": 1 block cannot be read: ", "verify", volume, status=1, env=unreadable)
        write(at("d", name), changed(data, 5))
        seen(f"damaged: d/{shown}\n", "verify", volume, status=1)
        os.remove(at("d", name))
        seen(f"missing: d/{shown}\n", "verify", volume, status=1)
        whole = read(volume)
        write(volume, whole[:-1])
        seen(at("d\\u{1b}.rsv") + ": the volume has 1 damaged or missing part of its description\n", "verify", volume, status=1)
        write(volume, whole)
        if json.loads(printed("verify", volume, "--json", status=1)[0])["files"][0]["name"] != "d/" + name or info(volume)["files"][0]["name"] != "d/" + name:
            wrong("a name in JSON is another one")
        os.mkdir(at("d", name))
        seen(at("d", shown) + ": a folder has the name of this file\n", "verify", volume, status=1)
        seen(at("d", shown) + ": a folder has the name of this file: remove it", "repair", volume, status=4)


def empty_paths():
    """An empty path of an option, as that of a variable of a shell that is not set, is a wrong command line."""
    with Folder() as at:
        write(at("a"), RANDOM.randbytes(5000))
        run("create", at("a"), "-q")
        run("split", at("a"), "-n", "2", "-o", at("v"), "-q")
        os.remove(at("a"))
        before = tree(at())
        for option, *words in (("--output", "create", at("v"), "-o", ""), ("--output", "split", at("v"), "-n", "2", "--output="),
                               ("--to", "restore", at("v", "volume0001.rsv"), "--to", ""), ("--to", "restore", at("a.rsv"), "--to="),
                               ("--folder", "repair", at("a.rsv"), "--folder", ""), ("--folder", "verify", at("a.rsv"), "--folder=")):
            if printed(*words, status=2, cwd=at()) != ("", f"rs_files: {option}: the path is empty\n") or tree(at()) != before:
                wrong(f"{words} with an empty path")


REPLACED = "another file was put in its place"


def victim_of(at):
    """Makes a file of somebody else, which only its owner may read. Returns its path, and a function that checks that it has not changed."""
    path, data = at("outside", "victim"), RANDOM.randbytes(100)
    write(path, data)
    os.chmod(path, 0o600)
    os.utime(path, (5, 5))

    def check(words):
        found = os.stat(path)
        if (read(path), found.st_mode & 0o7777, found.st_mtime) != (data, 0o600, 5) or os.listdir(at("outside")) != ["victim"]:
            wrong(f"{words} writes into a file of somebody else, or changes it")

    return path, check


def replaced_parts():
    """Somebody puts a symbolic link in the place of a file that is being written. Nothing is written through the link, the file to which it
    leads keeps its bytes, permission bits and time, and the other files are restored."""
    with Folder() as at:
        victim, check = victim_of(at)
        data = {name: RANDOM.randbytes(3000) for name in ("e", "f", "g")}
        for name, content in data.items():
            write(at("d", name), content)
        run("create", at("d"), "-q", "--block", "512", "-r", "100%")
        damaged = changed(data["f"], 700)
        for when in ("AT_LENGTH", "AT_RENAME"):
            for name, content in {**data, "f": damaged}.items():
                write(at("d", name), content)
            os.remove(at("d", "g"))
            env = preloaded("replace_files", REPLACED=at("d", "f.rs_files.part"), REPLACED_BY=victim, **{when: "/f.rs_files.part"})
            if env is None:
                return
            text = run("repair", at("d.rsv"), status=4, env=env)
            check("repair")
            # A link that replaces the file at the last moment gets its name. The damaged file keeps its second name.
            left, kept = ("f.rs_files.part", "f") if when == "AT_LENGTH" else ("f", "f.damaged")
            if at("d", "f") + f": {REPLACED}" not in text or "restored 1 file\n" not in text or os.readlink(at("d", left)) != victim:
                wrong(f"repair with a link in the place of a part, {when}: {text}")
            os.remove(at("d", left))
            if tree(at("d")) != {"e": data["e"], kept: damaged, "g": data["g"]} or (at("d", "f.damaged: the damaged file has this name") in text) != (kept != "f"):
                wrong(f"repair with a link in the place of a part, {when}: {sorted(tree(at('d')))} {text}")
            os.remove(at("d", kept))
        for words in (("create", at("d"), "-o", at("new.rsv")), ("split", at("d"), "-n", "2", "-o", at())):
            part = at("new.rsv.rs_files.part" if words[0] == "create" else "volume0001.rsv.rs_files.part")
            text = run(*words, status=4, env=preloaded("replace_files", REPLACED=part, REPLACED_BY=victim, AT_LENGTH=part))
            check(words[0])
            if f": {REPLACED}" not in text or os.readlink(part) != victim:
                wrong(f"{words[0]} with a link in the place of a part: {text}")
            os.remove(part)
        if sorted(os.listdir(at())) != ["d", "d.rsv", "outside"]:
            wrong(f"a link in the place of a part left {os.listdir(at())}")


def many_files():
    """More files than a process may open are restored. A link in the place of a part that is not open is not followed either."""
    with Folder() as at:
        victim, check = victim_of(at)
        files = {f"{number:03}": RANDOM.randbytes(number % 3 * 700) for number in range(300)}
        for name, content in files.items():
            write(at("d", name), content)
        run("split", at("d"), "-n", "2", "-o", at("v"), "-q", "--block", "256")
        volumes = at("v", "volume0001.rsv"), at("v", "volume0002.rsv")

        def few():
            resource.setrlimit(resource.RLIMIT_NOFILE, (120, 120))

        for number in range(1100):
            write(at("more", str(number)), b"")
        run("create", at("more"), "-q")
        run("verify", at("more.rsv"), "-q")
        run("restore", *volumes, "--to", at("new"), "-q", before=few)
        run("restore", *volumes, "--to", at("small"), "-q", "--memory", "1", before=few)
        if tree(at("new", "d")) != files or tree(at("small", "d")) != files:
            wrong("restore of many files")
        for name in ("010", "250"):
            to = at("with" + name)
            text = None
            for target in (victim, None):
                more = {} if target is None else {"REPLACED_BY": target}
                env = preloaded("replace_files", REPLACED=os.path.join(to, "d", name + ".rs_files.part"), AT_LENGTH=f"/d/{name}.rs_files.part", **more)
                if env is None:
                    return
                text = run("restore", *volumes, "--to", to, status=4, env=env, seconds=60)
                check("restore")
                os.remove(os.path.join(to, "d", name + ".rs_files.part"))
                if os.path.join(to, "d", name) + f": {REPLACED}" not in text or "rs_files: 1 file could not be restored" not in text:
                    wrong(f"restore with another file in the place of a part: {text}")
                if tree(os.path.join(to, "d")) != {other: content for other, content in files.items() if other != name}:
                    wrong("restore of the other files")
                for other in os.listdir(os.path.join(to, "d")):
                    os.remove(os.path.join(to, "d", other))


def replaced_files():
    """Somebody puts a symbolic link or a pipe in the place of a file after `create` has found it. It is not read, and no volume is made."""
    with Folder() as at:
        secret = at("outside", "secret")
        write(secret, RANDOM.randbytes(3000))
        for words in (("create", at("d"), "-o", at("new.rsv")), ("create", at("d", "a"), "-o", at("new.rsv")), ("split", at("d"), "-n", "2", "-o", at("v"))):
            part = "/new.rsv.rs_files.part" if words[0] == "create" else "/volume0001.rsv.rs_files.part"
            for reason, settings in ((REPLACED, {"REPLACED_BY": secret, "AT_OPEN": "/d/a"}), ("this is no regular file", {"REPLACED_BY": secret, "AT_LENGTH": part}),
                                     ("this is no regular file", {"AT_LENGTH": part})):
                write(at("d", "a"), RANDOM.randbytes(3000))
                env = preloaded("replace_files", REPLACED=at("d", "a"), **settings)
                if env is None:
                    return
                text = run(*words, status=4, env=env, seconds=60)
                if at("d", "a") + f": {reason}\n" not in text or os.path.exists(at("new.rsv")) or os.path.exists(at("v")) and os.listdir(at("v")):
                    wrong(f"{words[0]} of a file that is replaced, {settings}: {text}")
                os.remove(at("d", "a"))
        # A symbolic link that is named is followed.
        os.symlink(secret, at("link"))
        run("create", at("link"), "-q")
        if [(file["name"], file["size"]) for file in info(at("link.rsv"))["files"]] != [("link", 3000)]:
            wrong("create of a file that is named by a link")


def own_parts():
    """Files whose names are those that the program gives to its own files come back, into an empty folder and in their own."""
    with Folder() as at:
        names = ("a", "a.part", "a.part2", "b", "b.part/c", "e", "e.damaged", "e.damaged.part", "n" * 120 + ".part", "n" * 200)
        files = {name: RANDOM.randbytes(700) for name in names}
        for name, content in files.items():
            write(at("d", *name.split("/")), content)
        run("create", at("d"), "-q", "--block", "512", "-r", "100%")
        run("split", at("d"), "-n", "2", "-o", at("v"), "-q")
        run("restore", at("v", "volume0001.rsv"), at("v", "volume0002.rsv"), "--to", at("new"), "-q")
        os.mkdir(at("none"))
        run("restore", at("d.rsv"), "--folder", at("none"), "--to", at("other"), "-q")
        if tree(at("new", "d")) != files or tree(at("other", "d")) != files:
            wrong(f"files with names of parts, in an empty folder: {sorted(tree(at('new')))}")
        for name in names:
            os.remove(at("d", *name.split("/")))
        os.rmdir(at("d", "b.part"))
        damaged = changed(files["e"], 5)
        write(at("d", "e"), damaged)
        run("repair", at("d.rsv"), "-q")
        if tree(at("d")) != {**files, "e.damaged2": damaged}:
            wrong(f"files with names of parts, in their own folder: {sorted(tree(at('d')))}")
        # A file with the name of a part is protected only if it is named.
        files = {name: RANDOM.randbytes(700) for name in ("f", "f.rs_files.part", "f.rs_files.part2")}
        for name, content in files.items():
            write(at("parts", name), content)
        run("create", *(at("parts", name) for name in files), "-o", at("parts.rsv"), "-q", "--block", "512", "-r", "100%")
        run("restore", at("parts.rsv"), "--folder", at("none"), "--to", at("more"), "-q")
        if tree(at("more")) != files:
            wrong(f"files with names of parts, which were named: {sorted(tree(at('more')))}")
        write(at("parts", "f"), b"damaged")
        for name in ("f.rs_files.part", "f.rs_files.part2"):
            os.remove(at("parts", name))
        run("repair", at("parts.rsv"), "--folder", at("parts"), "-q")
        if tree(at("parts")) != {**files, "f.damaged": b"damaged"}:
            wrong(f"files with names of parts, which were named, in their own folder: {sorted(tree(at('parts')))}")


def attributes_refused():
    """If the permission bits or the time of a restored file cannot be set, the file is kept, with a warning. The exit status is the same."""
    with Folder() as at:
        data = RANDOM.randbytes(3000)
        write(at("d", "a"), data)
        os.chmod(at("d", "a"), 0o640)
        os.utime(at("d", "a"), (7, 7))
        run("create", at("d"), "-q", "--block", "512", "-r", "100%")
        run("split", at("d"), "-n", "2", "-o", at("v"), "-q")
        mode = "rs_files: {}: warning: its permission bits cannot be set: Operation not permitted (os error 1)\n"
        time = "rs_files: {}: warning: the time of its last change cannot be set: Operation not permitted (os error 1)\n"
        for number, (settings, warnings) in enumerate((({"FAIL_MODE": 1}, mode), ({"FAIL_TIME": 1}, time), ({"FAIL_MODE": 1, "FAIL_TIME": 1}, mode + time))):
            failing = preloaded("fail_calls", **settings)
            if failing is None:
                return
            to, other, damaged = at(f"j{number}"), at(f"r{number}"), changed(data, 5)
            write(at("d", "a"), damaged)
            for words, folder, status in ((("restore", at("v", "volume0001.rsv"), at("v", "volume0002.rsv"), "--to", to), os.path.join(to, "d"), 0),
                                          (("restore", at("d.rsv"), "--to", other), os.path.join(other, "d"), 0), (("repair", at("d.rsv")), at("d"), 0)):
                path = os.path.join(folder, "a")
                out, error = printed(*words, status=status, env=failing)
                if error != warnings.replace("{}", path) or "restored 1 file" not in out:
                    wrong(f"{words[0]} with {settings}: {out} {error}")
                found = os.stat(path)
                if read(path) != data or found.st_mode & 0o777 != (0o600 if "FAIL_MODE" in settings else 0o640) or (found.st_mtime == 7) == ("FAIL_TIME" in settings):
                    wrong(f"{words[0]} with {settings} restores another file")
            if tree(at("d")) != {"a": data, "a.damaged": damaged}:
                wrong(f"repair with {settings}: {sorted(tree(at('d')))}")
            os.remove(at("d", "a.damaged"))
            shutil.rmtree(to)
            shutil.rmtree(other)


def odd_volumes():
    """A pipe, a folder or a device that is named as a volume is refused at once. The other volumes are used."""
    with Folder() as at:
        data = RANDOM.randbytes(3000)
        write(at("a"), data)
        run("create", at("a"), "-q", "--block", "512", "-r", "100%")
        run("split", at("a"), "-n", "2", "-o", at("v"), "-q")
        os.mkfifo(at("pipe.rsv"))
        os.mkdir(at("folder.rsv"))
        os.symlink(at("pipe.rsv"), at("link.rsv"))
        for odd in (at("pipe.rsv"), at("folder.rsv"), at("link.rsv"), "/dev/zero"):
            error = f"rs_files: {odd}: this is no regular file\n"
            for words in (("info", odd), ("info", at("a.rsv"), odd)):
                if printed(*words, status=4, seconds=60)[1] != error:
                    wrong(f"{words} with a volume that is no regular file")
            for words in (("verify", odd), ("repair", odd), ("restore", odd, "--to", at("new"))):
                if printed(*words, status=4, seconds=60)[1] != error + "rs_files: no volume can be read\n":
                    wrong(f"{words} with a volume that is no regular file")
            for words, status in ((("verify", odd, at("a.rsv"), "--folder", at(), "--json"), 1), (("repair", at("a.rsv"), odd), 1),
                                  (("restore", at("v", "volume0001.rsv"), odd, at("v", "volume0002.rsv"), "--to", at("new"), "--force"), 0)):
                out, said = printed(*words, status=status, seconds=60)
                if said != error or words[0] == "verify" and json.loads(out)["volumes"][1] != {"name": odd, "state": "unreadable"}:
                    wrong(f"{words} with a volume that is no regular file: {out} {said}")
        if read(at("new", "a")) != data:
            wrong("restore with a volume that is no regular file")


TESTS = (closed_streams, old_volumes, killed_between, failed_repair, folders_without_sync, times, sizes_shown, progress_of_restores, same_length,
         shown_names, empty_paths, replaced_parts, many_files, replaced_files, own_parts, attributes_refused, odd_volumes)
