"""Tests of the volumes that `rs_files` writes: each byte is as docs/FORMAT.md says, and as `files_writer.py` writes it. Links, empty folders,
times and permission bits come back."""
import os
import re
import shutil
import struct

from files_common import RANDOM, TOP, Folder, info, read, run, spans, tree, write, wrong
from files_format import READER, expected, snapshot
from files_writer import FILE, FOLDER, LINK, Item, Made, copies_of, encoded


def description_in(volume):
    """Returns the description in a volume that is whole."""
    parts = {index: volume[start + 104:end] for kind, index, start, end in spans(volume) if kind == 2}
    return b"".join(parts[index] for index in sorted(parts))


def fields_in(text):
    """Returns the fields of a description, and the number of its volumes."""
    volumes, length = struct.unpack_from("<II", text, 28)
    at, fields = 36, []
    while at < 36 + length:
        kind, size = struct.unpack_from("<II", text, at)
        fields.append((kind, text[at + 8:at + 8 + size]))
        at += 8 + size
    return fields, volumes


def items_of(entries, folder):
    """Returns the entries of a description as items with the bytes of the files in a folder, if the folder has these entries."""
    items = []
    for entry in entries:
        path = os.path.join(os.fsencode(folder), entry.name)
        state = os.lstat(path)
        data = read(path) if entry.kind == FILE else b""
        times = (entry.seconds * 10 ** 9 + entry.nanoseconds, entry.mode)
        if entry.kind == FILE and times != (state.st_mtime_ns, state.st_mode & 0o7777):
            wrong(f"{path}: the description has the time and the permission bits {times}")
        if entry.kind == LINK and os.readlink(path) != entry.target or entry.kind == FOLDER and os.listdir(path):
            wrong(f"{path}: the description has another link or folder")
        items.append(Item(entry.name, data, entry.kind, entry.target, entry.mode, entry.seconds, entry.nanoseconds))
    return items


def made_of(volume, folder):
    """Returns the set of a volume that the program has written, made again from the files in a folder."""
    text = description_in(volume)
    found = READER.read_second(text)
    fields, volumes = fields_in(text)
    if [kind for kind, _ in fields] != [1] or not fields[0][1].startswith(b"rs_files "):
        wrong(f"the fields of a description: {fields}")
    items = items_of(found.entries, folder)
    if {item.name for item in items} != {*snapshot(folder)} - {name for name in snapshot(folder) if name.endswith(b".rsv")}:
        wrong(f"a set has other entries: {[item.name for item in items]}")
    return Made(items, found.b, found.r, volumes=volumes, fields=fields)


def mixed_folder(at, largest):
    """Makes a folder with entries of all kinds."""
    for number, size in enumerate((0, 1, 63, 64, 65, largest, 0, 500)):
        write(at("set", f"{number}"), RANDOM.randbytes(size))
        os.utime(at("set", f"{number}"), ns=(RANDOM.randrange(2 ** 60),) * 2)
        os.chmod(at("set", f"{number}"), RANDOM.choice((0o600, 0o644, 0o755, 0o400)))
    for name in (b"2-x", b"d/e/f", b"d-", b"d.", b"\xc3\xa9", b"a\nb", b"d/e-", b"~"):
        write(os.path.join(os.fsencode(at("set")), name), RANDOM.randbytes(RANDOM.randrange(200)))
    os.makedirs(at("set", "empty", "deep"), mode=0o750)
    os.chmod(at("set", "empty", "deep"), 0o710)
    for name, target in (("link", "1"), ("away", "/nowhere"), ("d/up", ".."), ("to folder", "d")):
        os.symlink(target, at("set", name))


def written():
    """Each byte of a volume of `create` and of the volumes of `split` is as the page says."""
    for largest, block, recovery in ((1000, 64, 5), (3000, 130, 40), (700, 4096, 1), (4000, 1000, 2), (2000, 250, 16)):
        with Folder() as at:
            mixed_folder(at, largest)
            run("create", at("set", "."), "-o", at("set.rsv"), "--block", str(block), "-r", str(recovery), "-q")
            volume = read(at("set.rsv"))
            made = made_of(volume, at("set"))
            if volume != made.volume():
                wrong(f"create writes another volume for blocks of {block} bytes and {recovery} recovery blocks")
            run("split", at("set", "."), "-n", "3", "-o", at("v"), "--block", str(block), "-q")
            volumes = [read(at("v", f"volume000{number}.rsv")) for number in (1, 2, 3)]
            if volumes != made_of(volumes[0], at("set")).volumes(3):
                wrong(f"split writes other volumes for blocks of {block} bytes")


def copies():
    """The copies of the description are where the page says, for few and many records, and for short and long descriptions."""
    for files, size, block, recovery in ((1, 1, 4096, 1), (1, 40_000, 4096, 2), (1, 3_000_000, 8192, 65), (1, 900_000, 32768, 300), (3000, 10, 64, 40), (1, 0, 4096, 1), (15_000, 3, 4096, 7)):
        with Folder() as at:
            for number in range(files):
                write(at("set", f"{number:07}"), RANDOM.randbytes(size))
            run("create", at("set"), "--block", str(block), "-r", str(recovery), "-q")
            volume = read(at("set.rsv"))
            found, text = spans(volume), description_in(volume)
            count = sum(kind == 1 for kind, _, _, _ in found)
            parts = -(-len(text) // 4096)
            number = copies_of(count, count * (64 + block), len(text), len(text) + 104 * parts)
            places = [j * count // (number - 1) for j in range(number)]
            k = READER.read_second(text).k
            wanted = [place for i in range(count + 1) for place in [(2, part) for part in range(parts)] * places.count(i) + [(1, k + i)] * (i < count)]
            if [(kind, index) for kind, index, _, _ in found] != wanted:
                wrong(f"{files} files of {size} bytes: a volume of {count} records has {len(found) - count} parts of {parts}, and not {number} copies")


def restored_entries():
    """Links, empty folders, times to the nanosecond and permission bits come back, by `repair` and by `restore`, and no file is written through
    a link."""
    with Folder() as at:
        mixed_folder(at, 1000)
        run("create", at("set"), "-q", "--block", "64", "-r", "100%")
        run("split", at("set"), "-n", "3", "-o", at("v"), "--block", "64", "-q")
        before = snapshot(at("set"))
        run("verify", at("set.rsv"), "-q")
        os.rename(at("set"), at("old"))
        run("restore", at("v", "volume0001.rsv"), at("v", "volume0003.rsv"), "--to", at("new"), "-q")
        if snapshot(at("new", "set")) != before:
            wrong(f"restore makes other entries: {set(snapshot(at('new', 'set')).items()) ^ set(before.items())}")
        run("repair", at("set.rsv"), "-q")
        if snapshot(at("set")) != before:
            wrong(f"repair restores other entries: {set(snapshot(at('set')).items()) ^ set(before.items())}")
        for name in ("link", "to folder", "empty/deep", "5"):
            path = at("set", name)
            (os.rmdir if os.path.isdir(path) and not os.path.islink(path) else os.remove)(path)
        run("verify", at("set.rsv"), status=1)
        run("repair", at("set.rsv"), "-q")
        if snapshot(at("set")) != before:
            wrong(f"repair restores other links and folders: {set(snapshot(at('set')).items()) ^ set(before.items())}")
        # A folder of the set is replaced by a link: nothing is written through it.
        shutil.rmtree(at("set", "d"))
        os.mkdir(at("outside"))
        os.symlink(at("outside"), at("set", "d"))
        run("repair", at("set.rsv"), "-q", status=4)
        if os.listdir(at("outside")):
            wrong("repair writes through a link")


def small_files():
    """The volume of 3,000 small files is at most 11 % of their bytes, and the descriptions. All of them come back."""
    with Folder() as at:
        size = 0
        for number in range(3000):
            data = RANDOM.randbytes(RANDOM.randrange(200, 3000))
            size += len(data)
            write(at("set", f"{number % 30}", f"{number}.txt"), data)
        run("create", at("set"), "-q")
        volume = read(at("set.rsv"))
        records = sum(end - start for kind, _, start, end in spans(volume) if kind == 1)
        if records > 0.11 * size or len(volume) != 128 + sum(end - start for _, _, start, end in spans(volume)):
            wrong(f"a volume of {len(volume)} bytes with {records} bytes of recovery blocks protects {size} bytes")
        if info(at("set.rsv"))["original_blocks"] > size / 4096 * 1.1:
            wrong("small files do not share blocks")
        before, lost = tree(at("set")), [f"7/{number}.txt" for number in range(7, 2000, 90)] + ["9/9.txt"]
        for name in lost:
            os.remove(at("set", name))
        run("repair", at("set.rsv"), "-q")
        if tree(at("set")) != before:
            wrong("small files do not come back")


def page():
    """The recovery blocks and the description that docs/FORMAT.md shows are those of the program and of the writer."""
    with open(os.path.join(TOP, "docs/FORMAT.md"), encoding="utf-8") as file:
        text = file.read()
    shown = {name: bytes.fromhex(re.sub(r"\s", "", block)) for name, block in re.findall(r"^<!-- vector: (.*?) -->\n```\n(.*?)```", text, re.DOTALL | re.MULTILINE)}
    for k, r in ((2, 3), (3, 2)):
        data = bytes(range(1, 66 * k + 1))
        blocks = encoded(k, r, tuple(data[at:at + 66] for at in range(0, len(data), 66)))
        if shown[f"{k}:{r}"] != b"".join(blocks):
            wrong(f"FORMAT.md shows other recovery blocks for {k} originals")
        with Folder() as at:
            write(at("a"), data)
            run("create", at("a"), "--block", "66", "-r", str(r), "-q")
            volume = read(at("a.rsv"))
            if [volume[start + 64:end] for kind, _, start, end in spans(volume) if kind == 1] != blocks:
                wrong(f"create makes other recovery blocks for {k} originals")
    made = Made([Item(b"a", bytes(range(1, 133)), mode=0o644, seconds=1_000_000_000)], 66, 3, fields=((1, b"example"),))
    if shown["description"] != made.description or shown["head"] != made.block(2)[:64] or shown["part"] != made.copy()[:104]:
        wrong("FORMAT.md shows another description")
    if not READER.head_at(shown["head"], 0):
        wrong("FORMAT.md shows a head that is not one")


TESTS = (written, copies, restored_entries, small_files, page)
