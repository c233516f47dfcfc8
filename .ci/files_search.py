"""Tests of files and blocks that `rs_files` finds at other places: in files that were renamed or moved, and at any byte of a file. What
it has to find comes from the bytes of the files, and from the rules of docs/FORMAT.md about the places of files. The last tests are those of
volumes of version 1."""
import json
import os
import shutil

from files_common import RANDOM, Folder, preloaded, printed, read, run, sparse, tree, write, wrong
from files_update import changes_in, damaged, rot
from files_writer import TEXT, Item, Made, laid_out

SIZES = {"a": 5000, "b": 4096, "c": 700, "deep/d": 3000, "deep/er/e": 2000, "f": 1}


class Protected:
    """Files in the folder `set` with the volume `set.rsv`. Blocks have 256 bytes, so one block can have bytes of several files."""

    def __init__(self, at, files=None, block=256, recovery=4):
        self.at, self.block, self.recovery = at, block, recovery
        self.files = files or {name: RANDOM.randbytes(size) for name, size in SIZES.items()}
        for name, data in self.files.items():
            write(at("set", name), data)
        run("create", at("set"), "-o", at("set.rsv"), "--block", str(block), "-r", str(recovery), "-q")
        self.names = sorted(self.files, key=lambda name: name.replace("/", "\0"))
        data, self.starts = laid_out([Item(name.encode(), self.files[name]) for name in self.names], 64)
        self.data = data + bytes(-len(data) % block)

    def has_bytes(self, start, seen):
        """Returns whether all files with bytes in a block have their bytes of this block in `seen`."""
        for name, begin in zip(self.names, self.starts):
            first, last = max(start, begin), min(start + self.block, begin + len(self.files[name]))
            if first < last and seen.get(name, b"")[first - begin:last - begin] != self.data[first:last]:
                return False
        return True

    def lost(self, moved, others):
        """Returns how many blocks are not in the files under their names, and how many of these are neither in files that moved nor in one
        piece in the bytes of `others`."""
        seen = {name: read(self.at("set", name)) for name in self.names if os.path.isfile(self.at("set", name))}
        later = {**seen, **{name: read(path) for name, path in moved.items()}}
        before = [at for at in range(0, len(self.data), self.block) if not self.has_bytes(at, seen)]
        after = [at for at in before if not self.has_bytes(at, later) and not any(self.data[at:at + self.block] in other for other in others)]
        return len(before), len(after)

    def others(self, *folders):
        """Returns the bytes of the files below folders, without those of whole files of the set."""
        found = {os.path.join(folder, name): data for folder in folders for name, data in tree(folder).items()}
        for name, data in self.files.items():
            if found.get(self.at("set", name)) == data:
                del found[self.at("set", name)]
        return list(found.values())

    def check(self, what, moved, *folders):
        """Checks what `verify` says: which files moved to which paths, and how many blocks were found. Then repairs the files. `folders` are
        those that are searched in addition."""
        words = [word for folder in folders for word in ("--search", folder)]
        before, after = self.lost(moved, self.others(self.at("set"), *folders))
        if before <= self.recovery or after > self.recovery:
            wrong(f"{what}: this test has {before} lost blocks, and {after} after the search")
        found = json.loads(run("verify", self.at("set.rsv"), *words, "--json", status=1))
        if found["lost_blocks"] != after or found["whole_recovery_blocks"] != self.recovery:
            wrong(f"{what}: verify finds {found['lost_blocks']} lost blocks instead of {after} of {before}")
        out = run("verify", self.at("set.rsv"), *words, status=1)
        lines = {line for line in out.splitlines() if line.startswith("moved: ")}
        blocks = f"{before - after} lost block{'' if before - after == 1 else 's'} found in other files or at other places\n"
        if lines != {f"moved: set/{name} is at {path}" for name, path in moved.items()} or blocks not in out:
            wrong(f"{what}: verify does not say what moved, or {blocks!r}: {out!r}")
        self.repair(what, *words)

    def repair(self, what, *words):
        """Repairs the files, and checks their bytes. No bytes that were in a folder before may be gone."""
        before = tree(self.at())
        run("repair", self.at("set.rsv"), *words, "-q")
        if any(not os.path.isfile(self.at("set", name)) or read(self.at("set", name)) != data for name, data in self.files.items()):
            wrong(f"{what}: repair does not restore the bytes of the files")
        after = tree(self.at())
        if not {*before.values()} <= {*after.values()} or after["set.rsv"] != before["set.rsv"]:
            wrong(f"{what}: repair removed the bytes of a file")
        run("verify", self.at("set.rsv"), "-q")


def moved_files():
    """Files that were renamed or moved into another folder of the set, and folders that were renamed, are found and restored."""
    with Folder() as above:
        for what, moves in (("renamed file", {"a": "z"}), ("renamed folder", {"deep": "other"}), ("folder in a folder", {"deep/er": "er"}),
                            ("file in another folder", {"b": "deep/b"}), ("new folder", {"a": "new/a", "b": "new/er/c"}),
                            ("all files", {name: "new/" + name for name in ("a", "b", "c", "deep", "f")})):
            at = Folder(above.path)
            made = Protected(at)
            for old, new in moves.items():
                os.makedirs(os.path.dirname(at("set", new)), exist_ok=True)
                os.rename(at("set", old), at("set", new))
            places = {name: new + name[len(old):] for name in SIZES for old, new in moves.items() if name == old or name.startswith(old + "/")}
            made.check(what, {name: at("set", place) for name, place in places.items()})


def moved_to_entries():
    """A file is found that was moved into an empty folder of the set, into a folder to which a link of the set leads, or to the target of a link
    that led nowhere."""
    for place, link in (("inbox/a", None), ("deep/a", "deep"), ("newest", "newest")):
        with Folder() as at:
            files = {"a": RANDOM.randbytes(5000), "deep/b": RANDOM.randbytes(300)}
            for name, data in files.items():
                write(at("set", name), data)
            os.mkdir(at("set", "inbox"))
            if link:
                os.symlink(link, at("set", "latest"))
            run("create", at("set"), "--block", "256", "-r", "1", "-q")
            os.rename(at("set", "a"), at("set", place))
            if f"moved: set/a is at {at('set', place)}\n" not in run("verify", at("set.rsv"), status=1):
                wrong(f"verify does not find a file that was moved to {place}")
            run("repair", at("set.rsv"), "-q")
            if any(read(at("set", name)) != files["a"] for name in ("a", place)):
                wrong(f"repair does not restore a file that was moved to {place}")


def renamed_set():
    """The folder of the set was renamed: all its files are found in the new folder, and in the old place after a repair."""
    with Folder() as at:
        made = Protected(at)
        os.rename(at("set"), at("photos"))
        out = run("verify", at("set.rsv"), status=1)
        if any(f"moved: set/{name} is at {at('photos', name)}\n" not in out for name in SIZES):
            wrong(f"the folder of a set was renamed: {out!r}")
        made.repair("renamed set")


def own_folder():
    """`--folder` with a folder of the set itself is as good as the folder above it, however it is spelled: nothing is copied."""
    with Folder() as at:
        made = Protected(at)
        os.mkdir(at("far"))
        os.symlink(at("set"), at("far", "link"))
        spelled = ((at("set"), None), (at("set") + "/", None), ("set", at()), (".", at("set")), ("../set/.", at("set")), (at("far", "link"), None), (at(), None))
        for folder, cwd in spelled:
            write(at("set", "b"), damaged(made.files["b"], 300))
            names = {os.path.join(where, name) for where, _, names in os.walk(at()) for name in names}
            volume, options = at("set.rsv"), ("--folder", folder)
            if "damaged: set/b\n" not in printed("verify", volume, *options, status=1, cwd=cwd)[0]:
                wrong(f"verify --folder {folder} does not find the files")
            if "damaged: set/b" not in printed("verify", volume, *options, "--only", "set/b", status=1, cwd=cwd)[0]:
                wrong(f"verify --only --folder {folder} does not find the file")
            printed("restore", volume, *options, "--to", at("new"), "-q", cwd=cwd)
            if tree(at("new")) != {"set/b": made.files["b"]}:
                wrong(f"restore --folder {folder} restores {sorted(tree(at('new')))}")
            shutil.rmtree(at("new"))
            if "restored: set/b\n" not in printed("repair", volume, *options, cwd=cwd)[0]:
                wrong(f"repair --folder {folder} does not restore a file")
            os.remove(at("set", "b.damaged"))
            if {os.path.join(where, name) for where, _, names in os.walk(at()) for name in names} != names:
                wrong(f"repair --folder {folder} makes other files")
            printed("verify", volume, *options, "-q", cwd=cwd)
            printed("update", volume, *options, "-q", cwd=cwd)
            if tree(at("set")) != made.files:
                wrong(f"update --folder {folder} changes a file")
            printed("verify", volume, "--quick", *options, "-q", cwd=cwd)
    # The volume is in the folder of the set.
    with Folder() as at:
        made = Protected(at)
        os.rename(at("set.rsv"), at("set", "set.rsv"))
        os.remove(at("set", "f"))
        if "missing: set/f\n" not in printed("verify", at("set", "set.rsv"), status=1)[0]:
            wrong("verify of a volume in the folder of the set")
        run("repair", at("set", "set.rsv"), "-q")
        if {name: data for name, data in tree(at("set")).items() if name != "set.rsv"} != made.files:
            wrong("repair with a volume in the folder of the set")
    # A folder of the set that has the name of the folder above it: its files are there under their names.
    with Folder() as at:
        made = Protected(at, {"a": RANDOM.randbytes(700), "set/a": RANDOM.randbytes(900)}, recovery=8)
        write(at("set", "set", "a"), b"other")
        printed("repair", at("set.rsv"), "--folder", at(), "-q")
        if read(at("set", "set", "a")) != made.files["set/a"] or os.path.exists(at("set", "set", "set")):
            wrong("a folder with the name of the folder above it")


def renamed_top():
    """If the folder of the set was renamed, all commands say what to do. `repair --folder` with this folder copies nothing into it, but it restores
    files of which there are copies in other folders. `create --force` compares the files under their new names with the old volume, also
    their bytes."""
    with Folder() as at:
        made = Protected(at)
        os.rename(at("set"), at("photos"))
        before = tree(at())
        hint = "if the folder of the set was renamed, give it its old name again. Or make the volume again with create NEW -o VOLUME --force, "
        for words in ((), ("--folder", at("photos"))):
            if hint not in printed("verify", at("set.rsv"), *words, status=1)[0]:
                wrong(f"verify {words} of a folder that was renamed does not say what to do")
        out, error = printed("repair", at("set.rsv"), "--folder", at("photos"), status=4)
        if hint not in out or "this is the folder of the set, and it was renamed: nothing was restored" not in error or tree(at()) != before:
            wrong(f"repair --folder with a folder that was renamed: {(out, error)}")
        found = json.loads(printed("repair", at("set.rsv"), "--folder", at("photos"), "--json", status=4)[0])
        if "nothing was restored" not in found["error"]:
            wrong(f"repair --folder --json with a folder that was renamed: {found}")
        shutil.copytree(at("photos"), at("far", "copy"))
        run("repair", at("set.rsv"), "--folder", at("far"), "-q")
        if tree(at("far", "set")) != made.files:
            wrong("repair --folder with a folder that has copies of the files does not restore them")
        shutil.rmtree(at("far"))
        for words in ((), ("--folder", at("photos"))):
            if "create NEW -o VOLUME --force, which compares" not in printed("update", at("set.rsv"), *words, status=4)[1]:
                wrong(f"update {words} of a folder that was renamed does not say what to do")
        again = ("create", at("photos"), "-o", at("set.rsv"), "--force")
        for seconds in (False, True):
            if seconds:
                run(*again, "-q")
                os.rename(at("photos"), at("pictures"))
                again = ("create", at("pictures"), *again[2:])
            folder = again[1]
            rot(os.path.join(folder, "b"))
            error = printed(*again, status=3)[1]
            if f"rs_files: rotten: {os.path.basename(folder)}/b (was " not in error:
                wrong(f"create --force of a folder that was renamed protects a rotten file: {error}")
            rot(os.path.join(folder, "b"))
        run(*again, "-q")
        run("verify", at("set.rsv"), "-q")
        if tree(at("pictures")) != made.files:
            wrong("a command changed a file of a folder that was renamed")


def deleted_set():
    """A set that was deleted, and of which there are copies below the folder that `--folder` names, is restored: this folder was not renamed. It
    counts as renamed only if it has all files of the set, and nothing has the name of the folder of the set."""
    hint = "if the folder of the set was renamed"
    equal = RANDOM.randbytes(900)
    files = {"a": equal, "b": equal, "deep/c": RANDOM.randbytes(700), "empty": b""}

    def case(what, change, folder, is_hinted, is_refused=False, files=files):
        with Folder() as at:
            made = Protected(at, files, recovery=40)
            change(at)
            before = tree(at())
            words = ("repair", at("set.rsv"), *(("--folder", at(folder)) if folder is not None else ()))
            out, error = printed(*words, status=4 if is_refused else 0)
            if (hint in out) != is_hinted or ("it was renamed: nothing was restored" in error) != is_refused:
                wrong(f"{what}: repair prints {(out, error)}")
            if is_refused:
                if tree(at()) != before:
                    wrong(f"{what}: repair changed a file")
            elif tree(at(folder or "", "set")) != made.files or any(tree(at()).get(name) != data for name, data in before.items()):
                wrong(f"{what}: repair did not restore the files, or changed another one")

    def copied(at, names):
        for name in names:
            write(at(name), files[name])

    def emptied(at):
        copied(at, files)
        for name in files:
            os.remove(at("set", name))

    def removed(at, names):
        copied(at, names)
        shutil.rmtree(at("set"))

    def renamed(at, name="photos"):
        os.rename(at("set"), at(name))

    def damaged_too(at):
        renamed(at)
        write(at("photos", "b"), b"other")

    def touched(at):
        renamed(at)
        os.utime(at("photos", "a"), (1e9, 1e9))
        os.utime(at("photos", "b"), (1e9, 1e9))

    for folder in (None, ""):
        case("emptied folder with all copies beside it", emptied, folder, False)
        case("removed folder with a copy", lambda at: removed(at, ["a"]), folder, True)
        case("removed folder with most copies", lambda at: removed(at, ["a", "b"]), folder, True)
        case("removed folder of one file with a copy", lambda at: removed(at, ["a"]), folder, True, files={"a": equal})
    case("removed folder with all copies in the folder of the volume", lambda at: removed(at, files), None, True)
    case("renamed folder", renamed, "photos", True, True)
    case("renamed folder below the folder after --folder", lambda at: renamed(at, "photos"), "", True)
    case("renamed folder with a damaged file", damaged_too, "photos", True)
    case("renamed folder of one file", renamed, "photos", True, files={"a": equal})
    # Of equal files, one is found. The other one has its length and its time.
    case("renamed folder of which equal files were touched", touched, "photos", True)
    with Folder() as at:
        made = Protected(at, files)
        renamed(at)
        run("repair", at("set.rsv"), "--folder", at("photos"), "--only", "set/a", "-q")
        if tree(at("photos", "set")) != {"a": files["a"]}:
            wrong("repair --only of a folder that was renamed")
        shutil.rmtree(at("photos", "set"))
        run("restore", at("set.rsv"), "--folder", at("photos"), "--to", at("new"), "-q")
        if tree(at("new", "set")) != made.files:
            wrong("restore of a folder that was renamed")
    # A file that was renamed has no folder.
    with Folder() as at:
        write(at("a"), equal)
        run("create", at("a"), "-q")
        os.rename(at("a"), at("b"))
        if hint in printed("verify", at("a.rsv"), status=1)[0]:
            wrong("verify takes a file that was renamed for a folder")


def many_moved():
    """Of many files that were moved, 20 are printed, after the hint on --folder, and --json has all."""
    with Folder() as at:
        names = [f"{number:02}" for number in range(27)]
        Protected(at, {name: RANDOM.randbytes(300) for name in names}, recovery=2)
        os.rename(at("set"), at("photos"))
        for lost, command, status in ((0, "verify", 1), (9, "verify", 3), (9, "repair", 3)):
            for name in names[:lost]:
                write(at("photos", name), b"other")
            lines = printed(command, at("set.rsv"), status=status)[0].splitlines()
            first = [number for number, line in enumerate(lines) if line.startswith("moved: ")]
            if not lines[0].startswith(f"no file was found in {at()}: ") or first != [*range(1, 1 + min(20, 27 - lost))]:
                wrong(f"{command} of many files that were moved prints {lines}")
            if ("and 7 more: --json lists all" in lines) != (not lost):
                wrong(f"{command} of many files that were moved does not say how many more there are: {lines}")
            found = json.loads(printed(command, at("set.rsv"), "--json", status=status)[0])
            if [file["name"] for file in found["moved"]] != ["set/" + name for name in names[lost:]]:
                wrong(f"{command} --json of many files that were moved: {found['moved']}")


def announced():
    """A search that goes through many files, or through every byte of much data, is announced, and not with -q. A short one is not."""
    long, much = "looking for lost files in many files below", "looking for lost blocks at every byte of the files below"
    with Folder() as at, Folder() as far:
        Protected(at)
        write(at("set", "a"), b"other")
        if printed("verify", at("set.rsv"), status=3)[1].count("\n") != 1:
            wrong("a short search is announced")
        sparse(far("large"), 1 << 30)
        words = ("verify", at("set.rsv"), "--search", far())
        error = printed(*words, status=3)[1]
        if f"rs_files: {much} {at()}: this takes a while\nrs_files: {much} {far()}: this takes a while\n" not in error or long in error:
            wrong(f"a search through 1 GiB says {error!r}")
        os.remove(far("large"))
        for number in range(10_000):
            write(far("d", f"{number:05}"), b"")
        error = printed(*words, status=3)[1]
        if f"rs_files: {long} {far()}: this takes a while\n" not in error or much in error or long in printed(*words, "-q", status=3)[1]:
            wrong(f"a search through 10,000 files says {error!r}")


def one_size():
    """The search for many files of one size takes no more than in proportion to their number, and each of them is found."""
    def spent(count):
        with Folder() as at:
            for number in range(count):
                write(at("set", f"{number:06}"), number.to_bytes(4, "little") + bytes(60))
            run("create", at("set"), "-q")
            os.rename(at("set"), at("new"))
            before = os.times()
            found = json.loads(printed("verify", at("set.rsv"), "--json", status=1)[0])
            if len(found["moved"]) != count:
                wrong(f"{len(found['moved'])} of {count} files of one size are found")
            after = os.times()
            return after.children_user - before.children_user

    spent(100)
    few, many = spent(3000), spent(30_000)
    if many > 25 * few + 1:
        wrong(f"a search for 30,000 files of one size takes {many:.1f} s, and one for 3000 files {few:.1f} s")


def exchanged_files():
    """A file moved, and another file of the set took its old name. Also two files that exchanged their names."""
    with Folder() as above:
        for what, moves in (("old name in use", (("a", "z"), ("b", "a"))), ("exchanged names", (("a", "t"), ("b", "a"), ("t", "b"))),
                            ("names in a circle", (("a", "t"), ("b", "a"), ("deep/d", "b"), ("t", "deep/d")))):
            at = Folder(above.path)
            made, place = Protected(at), {name: name for name in SIZES}
            for old, new in moves:
                os.rename(at("set", old), at("set", new))
                place = {name: new if now == old else now for name, now in place.items()}
            made.check(what, {name: at("set", now) for name, now in place.items() if name != now})


def shifted_blocks():
    """Blocks are found at any byte: after bytes were inserted or removed, in files that were joined, and inside a larger file."""
    def change(name, edit):
        return lambda at: write(at("set", name), edit(read(at("set", name))))

    def joined(at):
        write(at("set", "joined"), read(at("set", "a")) + read(at("set", "b")))
        os.remove(at("set", "a"))
        os.remove(at("set", "b"))

    def inside(at):
        write(at("set", "archive"), RANDOM.randbytes(100001) + read(at("set", "a")) + RANDOM.randbytes(300))
        os.remove(at("set", "a"))

    def both(at):
        joined(at)
        change("deep/d", lambda data: b"x" + data)(at)

    with Folder() as above:
        for what, edit in (("byte inserted at the front", change("a", lambda data: b"x" + data)),
                           ("first byte removed", change("a", lambda data: data[1:])),
                           ("bytes inserted in the middle", change("b", lambda data: data[:1000] + RANDOM.randbytes(77) + data[1000:])),
                           ("halves exchanged", change("a", lambda data: data[2500:] + data[:2500])),
                           ("joined files", joined), ("inside a larger file", inside), ("joined files and a byte inserted", both)):
            at = Folder(above.path)
            made = Protected(at, recovery=8)
            edit(at)
            made.check(what, {})


def shifted_far():
    """Many lost blocks are found although many other bytes come before them in their file."""
    with Folder() as at:
        made = Protected(at, {"large": RANDOM.randbytes(2000 * 256), "z": RANDOM.randbytes(500)})
        write(at("set", "archive"), RANDOM.randbytes(3_000_000) + made.files["large"])
        os.remove(at("set", "large"))
        made.check("blocks behind 3 MB of other bytes", {})


def overlapping_blocks():
    """In a file with few bytes that are not zero, and in a file that equals another one, bytes of some blocks overlap with those of others. All
    blocks are found after a byte was inserted at the front."""
    sparse_bytes = bytearray(1_000_000)
    for place in range(0, len(sparse_bytes), 5000):
        sparse_bytes[place] = 1 + RANDOM.randrange(20)
    twice = RANDOM.randbytes(30_000)
    with Folder() as above:
        at = Folder(above.path)
        made = Protected(at, {"disk.img": bytes(sparse_bytes), "text": b"text"}, block=4096, recovery=8)
        write(at("set", "disk.img"), b"!" + sparse_bytes)
        made.check("a byte in front of many zeros", {})
        at = Folder(above.path)
        made = Protected(at, {"x": twice, "y": twice}, block=512, recovery=2)
        write(at("set", "z"), b"!" + twice)
        os.remove(at("set", "x"))
        os.remove(at("set", "y"))
        made.check("two equal files, and a byte in front of one", {})


def searched_folders():
    """Files and blocks are found in the folders after --search, and not without them. These folders do not change."""
    with Folder() as at:
        made = Protected(at, recovery=8)
        write(at("set", "b"), b"b" + RANDOM.randbytes(4095))
        write(at("backup", "old", "one"), made.files["a"])
        write(at("more", "two"), b"front" + made.files["b"])
        os.remove(at("set", "a"))
        os.rename(at("set.rsv"), at("volumes.rsv"))
        os.mkdir(at("apart"))
        os.rename(at("set"), at("apart", "set"))
        before = tree(at())
        words = ("verify", at("volumes.rsv"), "--folder", at("apart"))
        run(*words, status=3)
        run(*words, "--search", at("backup"), status=3)
        out = run(*words, "--search", at("backup"), "--search", at("more"), status=1)
        if f"moved: set/a is at {at('backup', 'old', 'one')}\n" not in out:
            wrong(f"--search does not find a file: {out!r}")
        run("repair", at("volumes.rsv"), "--folder", at("apart"), status=3)
        if tree(at()) != before:
            wrong("verify, or repair without enough blocks, changed a file")
        run("repair", at("volumes.rsv"), "--folder", at("apart"), "--search", at("backup"), "--search", at("more"), "-q")
        after = tree(at())
        if any(after.get(name) != data for name, data in before.items() if not name.startswith("apart")):
            wrong("repair changed a folder that was only searched, or the volume")
        if any(after["apart/set/" + name] != data for name, data in made.files.items()):
            wrong("repair with --search does not restore the bytes of the files")


def equal_blocks():
    """A block that is lost is taken from another block with its bytes: a file and its copy, of which one is damaged in more blocks than
    there are recovery blocks. The copy begins at any place in its first block."""
    for between in (0, 256, 64, 500):
        with Folder() as at:
            data = RANDOM.randbytes(4096)
            made = Protected(at, {"a": data, "b": RANDOM.randbytes(between), "copy": data, "d": RANDOM.randbytes(999)}, recovery=2)
            write(at("set", "copy"), bytes(byte ^ 1 for byte in data))
            made.repair(f"a damaged copy after {between} bytes")


def wrong_digests():
    """Bytes that have both sums of a lost block and not its digest are not believed: neither for a repair, nor beside the right bytes."""
    def with_same_sums(block):
        """Returns a block with the same two sums: 1 is added to a byte, 2 are taken from the next, and 1 is added to the one after it."""
        for i in range(len(block) - 2):
            if block[i] < 255 and block[i + 1] > 1 and block[i + 2] < 255:
                return block[:i] + bytes([block[i] + 1, block[i + 1] - 2, block[i + 2] + 1]) + block[i + 3:]
        return wrong("no block with the same sums")

    with Folder() as at:
        made = Protected(at)
        blocks = [made.files["a"][start:start + 256] for start in range(0, 4864, 256)]
        write(at("set", "z"), b"".join(with_same_sums(block) for block in blocks))
        os.remove(at("set", "a"))
        before = tree(at())
        out = run("verify", at("set.rsv"), status=3)
        found = json.loads(run("verify", at("set.rsv"), "--json", status=3))
        if found["lost_blocks"] != 20 or "found in other" in out:
            wrong(f"bytes with the sums of a block are believed: {out!r}")
        run("repair", at("set.rsv"), status=3)
        if tree(at()) != before:
            wrong("repair wrote bytes that have the sums of a block")
        write(at("set", "z"), read(at("set", "z")) + made.files["a"])
        made.check("the right bytes behind bytes with the same sums", {})


def many_tries():
    """Many blocks that have both sums of a lost block, and not its digest, do not end the search of a file: the right bytes after them are
    found."""
    with Folder() as at:
        files = {"a": bytes(range(1, 255)) * 3, "b": RANDOM.randbytes(5120)}
        for name, data in files.items():
            write(at("set", name), data)
        run("create", at("set"), "--block", "64", "-r", "1", "-q")
        block = files["b"][1024:1088]
        place = next(i for i in range(62) if block[i] < 255 and block[i + 1] > 1 and block[i + 2] < 255)
        like = block[:place] + bytes([block[place] + 1, block[place + 1] - 2, block[place + 2] + 1]) + block[place + 3:]
        write(at("set", "z"), like * 1500 + RANDOM.randbytes(7) + files["b"])
        os.remove(at("set", "b"))
        run("verify", at("set.rsv"), status=1)
        run("repair", at("set.rsv"), "-q")
        if read(at("set", "b")) != files["b"]:
            wrong("the search at every byte ends before the right bytes")


def unread_places():
    """Bytes of a file that cannot be read do not end the search at every byte: the blocks before and after them are found, and a message
    names the file. A file that cannot be read anywhere is left after some places, however long it is."""
    if preloaded("change_reads") is None:
        return
    with Folder() as at:
        data, block = RANDOM.randbytes(200 * 256), 256
        write(at("set", "a"), data)
        run("create", at("set"), "--block", str(block), "-r", "40", "-q")
        os.remove(at("set", "a"))
        write(at("set", "z"), b"shifted" + data)
        verify = ("verify", at("set.rsv"), "--json")
        told = "/set/z: warning: lost blocks are not looked for in the bytes that cannot be read: Input/output error (os error 5)\n"
        # A sector, the first bytes, the last bytes, and two sectors with a block between them
        for first, last in ((20480, 24576), (0, 100), (len(data) - 100, len(data) + 7), (16384, 24576)):
            failing = preloaded("change_reads", READ_NAME="/set/z", READ_FROM=first, READ_TO=last)
            first, last = first // 4096 * 4096, -(-last // 4096) * 4096
            least = sum(7 + start + block > first and 7 + start < last for start in range(0, len(data), block))
            out, error = printed(*verify, status=1, env=failing)
            if not 0 < json.loads(out)["lost_blocks"] <= least or not error.endswith(told):
                wrong(f"the search with bytes that cannot be read from {first} to {last}: {(out, error)}")
            if printed(*verify, "-q", status=1, env=failing)[1]:
                wrong("verify -q names bytes that cannot be read")
        run("repair", at("set.rsv"), "-q", env=failing)
        if read(at("set", "a")) != data:
            wrong("repair with bytes that cannot be read in the file with the blocks")
        os.remove(at("set", "a"))
        sparse(at("set", "z"), 1 << 40)
        failing = preloaded("change_reads", READ_NAME="/set/z", READ_FROM=0, READ_TO=1 << 50)
        if told not in printed(*verify, status=3, env=failing, seconds=60)[1]:
            wrong("verify does not name a file that cannot be read anywhere")


def first_version_spread():
    """`update` does not replace a volume of version 1 of `split`, whether it has original blocks or only some of the recovery blocks. It does
    replace a damaged one of `create`."""
    with Folder() as at:
        for sizes, recovery, count in (((1000, 300), 2, 3), ((200,), 2, 3), ((200,), 3, 2)):
            items = [Item(b"set/%d" % i, RANDOM.randbytes(size)) for i, size in enumerate(sizes)]
            made = Made(items, 256, recovery, version=1)
            for item in items:
                write(at(item.name.decode()), item.data)
            for number, volume in enumerate(made.volumes(count)):
                write(at("set.rsv"), volume)
                before = tree(at())
                error = printed("update", at("set.rsv"), status=4)[1]
                if error != f"rs_files: {at('set.rsv')}: this is one of several volumes: make them again with split --force\n" or tree(at()) != before:
                    wrong(f"update of volume {number + 1} of {count} of version 1: {error!r}")
            write(at("set.rsv"), damaged(made.volume(), 64 + len(made.description) + 20, 3))
            run("update", at("set.rsv"), "-q")
            if read(at("set.rsv"))[:len(TEXT)] != TEXT:
                wrong("update does not replace a damaged volume of version 1")
            shutil.rmtree(at("set"))


def first_version_moved():
    """A volume of version 1 has neither digests of files nor sums: nothing is found elsewhere, and `verify` says what is missing."""
    with Folder() as at:
        items = [Item(b"set/a", RANDOM.randbytes(1000)), Item(b"set/b", RANDOM.randbytes(300))]
        made = Made(items, 256, 2, version=1)
        for item in items:
            write(at(item.name.decode()), item.data)
        write(at("set.rsv"), made.volume())
        run("verify", at("set.rsv"))
        os.rename(at("set", "a"), at("set", "z"))
        before = tree(at())
        out = run("verify", at("set.rsv"), status=3)
        if "moved: " in out or "found in other" in out or "missing: set/a\n" not in out or "4 lost blocks, and 2 recovery blocks left" not in out:
            wrong(f"verify of a renamed file with a volume of version 1: {out!r}")
        run("repair", at("set.rsv"), status=3)
        if tree(at()) != before:
            wrong("repair with a volume of version 1 changed something")
        shutil.move(at("set", "z"), at("set", "a"))
        run("verify", at("set.rsv"))


def first_version_updated():
    """`update` reads a volume of version 1, finds edited and rotten files with it, and makes a volume of version 2. `repair` leaves a damaged
    volume of version 1 as it is, does not say that it writes it again, and ends with 1."""
    with Folder() as at:
        items = [Item(b"set/a", RANDOM.randbytes(1000)), Item(b"set/b", RANDOM.randbytes(300))]
        for item in items:
            write(at(item.name.decode()), item.data)
            os.utime(at(item.name.decode()), ns=(item.seconds * 10 ** 9 + 123456789,) * 2)
        volume = Made(items, 256, 2, version=1).volume()
        for place in (70, len(volume) // 2, len(volume) - 60):
            write(at("set.rsv"), damaged(volume, place, 3))
            before = tree(at())
            out = run("verify", at("set.rsv"), status=1) + run("repair", at("set.rsv"), status=1)
            if tree(at()) != before or "written again" in out:
                wrong(f"verify and repair of a damaged volume of version 1 say {out!r}")
        write(at("set.rsv"), volume)
        rot(at("set", "a"))
        if "rotten: set/a\n" not in printed("update", at("set.rsv"), status=3)[1] or read(at("set.rsv")) != volume:
            wrong("update with a volume of version 1 does not find a rotten file")
        write(at("set", "a"), b"other")
        if changes_in(run("update", at("set.rsv"))) != ["edited: set/a"] or read(at("set.rsv"))[:len(TEXT)] != TEXT:
            wrong("update does not make a volume of version 2 from one of version 1")
        run("verify", at("set.rsv"))


TESTS = (moved_files, moved_to_entries, renamed_set, own_folder, renamed_top, deleted_set, many_moved, announced, one_size, exchanged_files, shifted_blocks, shifted_far, overlapping_blocks, searched_folders, equal_blocks, wrong_digests, many_tries, unread_places, first_version_spread, first_version_moved, first_version_updated)
