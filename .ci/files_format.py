"""Tests of version 2 of the format of volumes (docs/FORMAT.md). Most of the volumes are made by `files_writer.py`, and read by the program
and by the reader in Python, `docs/examples/restore.py`. If RS_READERS is `python`, only the latter reads them. RS_MUTANTS is the number of
changed volumes of the test `mutants`."""
import concurrent.futures
import importlib.util
import json
import os
import random
import shutil
import subprocess
import time

import files_writer
from files_common import PROGRAM, RANDOM, TOP, Folder, flipped, info, left_of, printed, read, run, spans, write, wrong
from files_writer import FOLDER, LINK, Item, Made

HAS_PROGRAM = os.environ.get("RS_READERS") != "python"


def loaded(path):
    """Returns the reader in Python as a module."""
    spec = importlib.util.spec_from_file_location("restore", path)
    module = importlib.util.module_from_spec(spec)
    spec.loader.exec_module(module)
    return module


READER = loaded(os.path.join(TOP, "docs/examples/restore.py"))
READER.print = lambda *_, **__: None


def sorted_items(*items):
    """Returns entries in the order of version 2."""
    return sorted(items, key=lambda item: item.name.replace(b"/", b"\0"))


def left_in_python(volumes):
    """Returns how many recovery blocks the reader in Python finds in volumes, or None if it finds no description."""
    try:
        description, name = READER.set_of(volumes)
    except ValueError:
        return None
    blocks = READER.blocks_of(description, name, volumes)
    found = {index for index, block in blocks if READER.has_digest(description, index, block)}
    return sum(index >= description.k for index in found)


def program(folder, *words):
    """Runs the program in a folder of its own. Returns its status and its standard output."""
    done = subprocess.run([PROGRAM, *words], cwd=folder, stdout=subprocess.PIPE, stderr=subprocess.DEVNULL, timeout=100)
    return done.returncode, done.stdout


def left_by_program(at, number, made, volume):
    """Returns how many recovery blocks `verify` finds in a volume beside the whole files, or None if it finds no description."""
    folder = at(str(number))
    for item in made.items:
        write(os.path.join(folder, os.fsdecode(item.name)), item.data)
    write(os.path.join(folder, "set.rsv"), volume)
    status, out = program(folder, "verify", "set.rsv", "--json")
    shutil.rmtree(folder)
    if status == 4:
        return None
    found = json.loads(out)
    if found["lost_blocks"] or status not in (0, 1):
        wrong(f"verify of whole files with volume {number} ends with status {status}: {out!r}")
    return found["whole_recovery_blocks"]


def check_left(at, made, cases, some=None):
    """Checks how many recovery blocks the readers find. A case has a name, a volume and the number that is left, or None. If `some` is not
    None, the program gets only these cases."""
    for name, volume, left in cases:
        if left_in_python([volume]) != left:
            wrong(f"{name}: the reader in Python finds {left_in_python([volume])} recovery blocks, and not {left}")
    if not HAS_PROGRAM:
        return
    cases = cases if some is None else some
    with concurrent.futures.ThreadPoolExecutor(os.cpu_count()) as runs:
        found = runs.map(lambda i: left_by_program(at, i, made, cases[i][1]), range(len(cases)))
        for (name, _, left), by_program in zip(cases, found):
            if by_program != left:
                wrong(f"{name}: the program finds {by_program} recovery blocks, and not {left}")


def small_set(recovery=2, block_bytes=4, count=1):
    """Returns a small set with one volume."""
    items = [Item(b"a", RANDOM.randbytes(6))] if count == 1 else [Item(b"%04d" % i, RANDOM.randbytes(3)) for i in range(count)]
    return Made(items, block_bytes, recovery, is_coded=count == 1)


def flipped_bits():
    """One bit of a volume of version 2 is changed, wherever it is: at most the recovery block of the record with this bit is lost. The
    program gets all eight bits of each byte of a volume of 1 record, one bit of each byte of a volume of 2 records, and one bit of every
    third byte of a volume of 5 records. If RS_BITS is `all`, it gets all bits of all three."""
    with Folder() as at:
        for recovery in (1, 2, 5):
            made = small_set(recovery)
            volume, cases, some = made.volume(), [], []
            is_all = recovery == 1 or os.environ.get("RS_BITS") == "all"
            for bit in range(8 * len(volume)):
                place = bit // 8
                left = left_of(volume, lambda start, end: not start <= place < end)
                cases.append((f"bit {bit % 8} of byte {place} of a volume of {recovery} records", flipped(volume, bit), left))
                if is_all or bit % 8 == place % 8 and (recovery == 2 or place % 3 == 0):
                    some.append(cases[-1])
            check_left(at, made, cases, some)


def moved_bytes():
    """Bytes are inserted into a volume, or missing from it, at each place, and a volume is cut at each length, from both sides. The program
    gets every third case."""
    with Folder() as at:
        made = small_set(3)
        volume, cases = made.volume(), []
        for place in range(len(volume) + 1):
            left = left_of(volume, lambda start, end: not start < place < end)
            cases.append((f"3 bytes inserted at {place}", volume[:place] + b"xyz" + volume[place:], left))
            left = left_of(volume, lambda start, end: not start < place + 1 or not place < end)
            cases.append((f"byte {place} removed", volume[:place] + volume[place + 1:], left))
            cases.append((f"cut at {place}", volume[:place], left_of(volume, lambda start, end: end <= place)))
            cases.append((f"without the first {place} bytes", volume[place:], left_of(volume, lambda start, end: start >= place)))
        check_left(at, made, cases, cases[::3])


def zeroed(volume, sectors):
    """Returns a volume with sectors of 4096 zeros."""
    changed = bytearray(volume)
    for sector in sectors:
        end = min(len(volume), 4096 * (sector + 1))
        changed[4096 * sector:end] = bytes(end - 4096 * sector)
    return bytes(changed)


def damages(volume):
    """Yields kinds of damage of a volume: a name, the least and the mean number of recovery blocks of 97 that par2 keeps, and a function
    that returns a damaged volume and says which records are whole."""
    size, sectors, chance = len(volume), len(volume) // 4096, random.Random(66)

    def of_sectors(count):
        gone = chance.sample(range(sectors), count)
        return zeroed(volume, gone), lambda start, end: not any(start < 4096 * (i + 1) and 4096 * i < end for i in gone)

    def of_ends():
        return zeroed(volume, [0, size // 4096]), lambda start, end: start >= 4096 and end <= size // 4096 * 4096

    def of_cut(front, back):
        return volume[front:size - back], lambda start, end: start >= front and end <= size - back

    def of_insertion(place):
        return volume[:place] + chance.randbytes(3) + volume[place:], lambda start, end: not start < place < end

    def of_removal():
        place = 4096 * chance.randrange(sectors)
        return volume[:place] + volume[place + 4096:], lambda start, end: end <= place or start >= place + 4096

    yield "1 zeroed sector", 95, 95.4, lambda: of_sectors(1)
    # The least number of par2 was 89 in 12 trials, by chance: a sector that lies in two records costs two blocks, for par2 too.
    yield "5 zeroed sectors", 87, 90.3, lambda: of_sectors(5)
    yield "20 zeroed sectors", 66, 70.2, lambda: of_sectors(20)
    yield "the first and the last sector", 96, 96, of_ends
    yield "1 bit of byte 24", 96, 96, lambda: (flipped(volume, 8 * 24 + chance.randrange(8)), lambda start, end: True)
    yield "the last 10 %", 88, 88, lambda: of_cut(0, size // 10)
    yield "the first 10 %", 86, 86, lambda: of_cut(size // 10, 0)
    yield "5 % at both ends", 86, 86, lambda: of_cut(size // 20, size // 20)
    yield "3 bytes inserted at the front", 97, 97, lambda: of_insertion(0)
    yield "3 bytes inserted anywhere", 96, 96.2, lambda: of_insertion(chance.randrange(size))
    yield "4096 bytes in front", 97, 97, lambda: (chance.randbytes(4096) + volume, lambda start, end: True)
    yield "a sector removed", 95, 95, of_removal
    yield "bytes after the end", 97, 97, lambda: (volume + chance.randbytes(5000), lambda start, end: True)


def large_set():
    """Returns a set of 4 MB in blocks of 4096 bytes with 97 recovery blocks. In Python, these are any bytes with the right digests."""
    sizes = [1_000_000, 700_000, 600_000, 500_000, 400_000, 400_000, 300_000, 100_000]
    items = [Item(b"d/%d" % i, RANDOM.randbytes(size)) for i, size in enumerate(sizes)]
    return Made(items, 4096, 97, is_coded=False)


def damaged_places():
    """After each kind of damage of a volume, all recovery blocks are left whose records are whole. In 12 trials, these are at least as many
    as par2 keeps in 12 trials. In the mean of 300 trials, they are as many as par2 keeps in the mean."""
    with Folder() as at:
        made = large_set()
        volume, cases = made.volume(), []
        for name, least, mean, damaged in damages(volume):
            trials = [damaged() for _ in range(300)]
            lefts = [left_of(volume, is_whole) or 0 for _, is_whole in trials]
            if min(lefts[:12]) < least or sum(lefts) < 300 * mean:
                wrong(f"{name}: {lefts} recovery blocks are left, and par2 keeps {least}, and {mean} in the mean")
            cases += [(name, changed, left) for (changed, _), left in zip(trials[:12], lefts)]
        check_left(at, made, cases)


def whole_copies():
    """Each part of the description is damaged in all copies but one, in another copy each time. If a part is damaged in all copies, there is
    no description."""
    with Folder() as at:
        made = small_set(4, 64, 300)
        volume = made.volume()
        copies = {}
        for kind, index, start, end in spans(volume):
            if kind == 2:
                copies.setdefault(index, []).append((start, end))
        if len(copies) < 5 or len(copies[0]) < 3:
            wrong(f"a volume of {len(copies)} parts in {len(copies[0])} copies")
        cases = []
        for turn in range(20):
            changed = bytearray(volume)
            for index, places in copies.items():
                for start, end in places[:turn % len(places)] + places[turn % len(places) + 1:]:
                    changed[RANDOM.randrange(start, end)] ^= 1 << RANDOM.randrange(8)
                RANDOM.shuffle(places)
            cases.append((f"parts of different copies, {turn}", bytes(changed), 4))
        for index, places in copies.items():
            changed = bytearray(volume)
            for start, end in places:
                changed[RANDOM.randrange(start, end)] ^= 1 << RANDOM.randrange(8)
            cases.append((f"part {index} damaged in all copies", bytes(changed), None))
        check_left(at, made, cases)


def joined_volumes():
    """The records of a volume are found in any order, after other bytes, between records of other sets, and in pieces of a volume."""
    with Folder() as at:
        made, other = small_set(6), small_set(3, 64, 3)
        volume, foreign = made.volume(), other.volume()
        records = [volume[start:end] for _, _, start, end in spans(volume)]
        half = [start for kind, _, start, _ in spans(volume) if kind == 1][3]
        unknown = made.record(77, 0, RANDOM.randbytes(100))
        cases = [("two volumes of one set", made.volume(range(made.k, made.k + 4)) + made.volume(range(made.k + 3, made.k + 6)), 6),
                 ("a volume before another set", volume + foreign, 6), ("a volume twice", volume + volume, 6),
                 ("bytes between two pieces", volume[:half] + RANDOM.randbytes(777) + volume[half:], 6),
                 ("the pieces in the other order", volume[half:] + volume[:half], 6), ("the first piece", volume[:half], 3),
                 ("the second piece", volume[half:], 3), ("records in the other order", b"".join(records[::-1]), 6),
                 ("records of another kind", unknown + unknown.join(records) + unknown, 6),
                 ("records without the text at the front", volume[128:], 6), ("records of a set in a record", volume + made.record(9, 0, foreign), 6),
                 ("a record whose length is wrong", volume + made.record(1, made.k, b"x" * 10_000)[:200], 6),
                 ("a head without a body", volume + made.record(1, made.k, b"")[:64], 6),
                 ("a block with another index", volume + made.record(1, made.k + 1, made.blocks[made.k]), 6),
                 ("a block with an index that is too large", volume + made.record(1, made.k + made.r, made.blocks[made.k]), 6),
                 ("no record", RANDOM.randbytes(10_000), None), ("no byte", b"", None), ("no block", made.volume([]), 0)]
        for _ in range(20):
            RANDOM.shuffle(records)
            cases.append(("shuffled records", b"".join(part for record in records for part in (RANDOM.randbytes(RANDOM.randrange(9)), record)), 6))
        check_left(at, made, cases)


def snapshot(folder):
    """Returns what is below a folder: the bytes, permission bits and times of files, the targets of links, and empty folders."""
    found, folder = {}, os.fsencode(folder)
    for path, folders, names in os.walk(folder):
        for name in folders + names:
            place = os.path.join(path, name)
            state, key = os.lstat(place), os.path.relpath(place, folder)
            if os.path.islink(place):
                found[key] = ("link", os.readlink(place))
            elif os.path.isdir(place):
                found.update({} if os.listdir(place) else {key: ("folder", state.st_mode & 0o7777)})
            else:
                found[key] = ("file", state.st_mode & 0o7777, state.st_mtime_ns, read(place))
    return found


def restored_in_python(new, places):
    """Returns what the reader in Python restores into a new folder, and whether it succeeds."""
    try:
        faults = READER.restore(new, places)
    except (OSError, ValueError) as fault:
        faults = [fault]
    return snapshot(new) if os.path.exists(new) else {}, not faults


def restored_by_program(new, places):
    """Returns what `restore` writes into a new folder, and whether it succeeds."""
    done = subprocess.run([PROGRAM, "restore", *places, "--to", new, "-q"], stdout=subprocess.PIPE, stderr=subprocess.PIPE, timeout=20)
    if done.returncode not in (0, 3, 4):
        wrong(f"restore ends with status {done.returncode}: {done.stderr!r}")
    return snapshot(new) if os.path.exists(new) else {}, done.returncode == 0


def readers():
    """Returns the functions that restore, each with its name."""
    return [("the reader in Python", restored_in_python), *([("the program", restored_by_program)] if HAS_PROGRAM else [])]


def expected(items):
    """Returns the snapshot of a folder into which these entries are restored."""
    made = {FOLDER: lambda item: ("folder", item.mode & 0o777), LINK: lambda item: ("link", item.target)}
    of_file = (lambda item: ("file", item.mode & 0o777, item.seconds * 10 ** 9 + item.nanoseconds, item.data))
    return {item.name: made.get(item.kind, of_file)(item) for item in items}


def inner_volume():
    """The first file of a set is itself a volume, and the first 4096 bytes of a volume of the set are zeroed. So the first whole description in
    this volume is that of the inner volume. The readers restore the files of the set, in whatever order they get the volumes."""
    inner = Made([Item(b"x", RANDOM.randbytes(2000))], 64, 5)
    items = [Item(b"a.rsv", inner.volume()), Item(b"b", RANDOM.randbytes(60_000))]
    with Folder() as at:
        made = Made(items, 16_384, 3, volumes=3)
        paths = [at(f"{number}.rsv") for number in range(3)]
        for path, volume in zip(paths, made.volumes(3)):
            write(path, volume)
        damaged = bytes(4096) + read(paths[0])[4096:]
        if not 0 < damaged.find(inner.copy()) < damaged.find(made.copy()):
            wrong("the inner volume is not where the test expects it")
        write(paths[0], damaged)
        for name, restored in readers():
            for left in (paths, paths[::-1], paths[:2], paths[1::-1]):
                found = restored(at("new"), left)
                if found != (expected(items), True):
                    wrong(f"{name} restores {sorted(found[0])} of a set with a volume")
                shutil.rmtree(at("new"))


def all_kinds():
    """Returns entries of all kinds: files of sizes around the unit and the block, odd names, links and empty folders. The program cannot
    write the two whose names or targets are not UTF-8, and names them."""
    files = [Item(b"f/%03d" % size, RANDOM.randbytes(size), nanoseconds=RANDOM.randrange(10 ** 9)) for size in (0, 1, 63, 64, 65, 127, 128, 129, 1000)]
    odd = [Item(name, RANDOM.randbytes(50)) for name in (b"-", b"\xff\xfe", b"a'b\"c\nd", b" ", b"deep/er/and/deeper", "\u00e9".encode(), b"f-1", b"f.x", b"~")]
    modes = [Item(b"m/%o" % mode, b"x", mode=mode) for mode in (0o600, 0o755, 0o4755, 0o7777, 0o400, 0)]
    links = [Item(b"l/" + name, kind=LINK, target=target) for name, target in ((b"up", b"../f/128"), (b"out", b"/nowhere/x"), (b"odd", b"\xff"), (b"self", b"."))]
    folders = [Item(b"e/1", kind=FOLDER, mode=0o750), Item(b"e/2/3", kind=FOLDER, mode=0o700), Item(b"z", kind=FOLDER, mode=0o755)]
    return sorted_items(*files, *odd, *modes, *links, *folders)


def all_entries():
    """Entries of all kinds come back from volumes of which some are lost, at both rates, with their times and permission bits."""
    items = all_kinds()
    with Folder() as at:
        for block, recovery, volumes, lost in ((64, 9, 6, 1), (130, 7, 5, 1), (500, 20, 3, 2), (4096, 3, 2, 1), (2, 0, 1, 0)):
            some = items if recovery else [item for item in items if not item.data]
            made = Made(some, block, recovery, volumes=volumes, fields=((1, b"a test"), (5, b""), (2 ** 31 - 1, b"?")))
            paths = []
            for number, volume in enumerate(made.volumes(volumes)):
                paths.append(at(f"{block}.{number}.rsv"))
                write(paths[-1], volume)
            for name, restored in readers():
                left = RANDOM.sample(paths, volumes - lost)
                found = restored(at("new"), left)
                wanted = expected(item for item in some if name != "the program" or b"\xff" not in item.name + item.target)
                if found != (wanted, len(wanted) == len(some)):
                    wrong(f"{name} restores other entries of blocks of {block} bytes: {set(found[0].items()) ^ set(wanted.items())}")
                subprocess.run(["chmod", "-R", "u+rwx", at("new")], check=True)
                shutil.rmtree(at("new"))


def longest_name():
    """A name of 65,535 bytes, the longest one in a description, is read. No file system has room for it, so its file is named as one that cannot be
    restored, and the others are restored."""
    if not HAS_PROGRAM:
        return
    name = b"/".join([b"d" * 255] * 256)[:65_535]
    items = sorted_items(Item(name, b"long"), Item(b"a", RANDOM.randbytes(200)), Item(b"z", b""))
    for version in (1, 2):
        with Folder() as at:
            write(at("set.rsv"), Made(items, 64, 9, version=version).volume())
            if [file["name"].encode() for file in info(at("set.rsv"))["files"]] != [b"a", name, b"z"] or len(name) != 65_535:
                wrong(f"info of a name of 65,535 bytes in version {version}")
            found = json.loads(printed("verify", at("set.rsv"), "--json", status=1)[0])
            if {(file["name"].encode(), file["state"]) for file in found["files"]} != {(b"a", "missing"), (name, "missing"), (b"z", "missing")}:
                wrong(f"verify of a name of 65,535 bytes in version {version}")
            for words, folder in ((("restore", at("set.rsv"), "--to", at("new")), "new"), (("repair", at("set.rsv")), "")):
                found = json.loads(printed(*words, "--json", status=4)[0])
                if [file["name"].encode() for file in found["failed"]] != [name] or {file["name"] for file in found["restored"]} != {"a", "z"}:
                    wrong(f"{words[0]} of a name of 65,535 bytes in version {version}: {found}")
                if read(at(folder, "a")) != items[0].data or read(at(folder, "z")) != b"" or len(os.listdir(at(folder))) != (2 if folder else 4):
                    wrong(f"{words[0]} of a name of 65,535 bytes in version {version} leaves {os.listdir(at(folder))}")


def many_slashes():
    """A name of 65,535 bytes can have 32,767 folders. If they are not there, `restore` takes little more time than `verify`."""
    if not HAS_PROGRAM:
        return
    with Folder() as at:
        items = sorted_items(*(Item(b"%03d" % number + b"/a" * 32_766, b"") for number in range(60)), Item(b"z", b""))
        write(at("set.rsv"), Made(items, 64, 0).volume())
        start = time.monotonic()
        printed("verify", at("set.rsv"), "-q", status=1)
        middle = time.monotonic()
        found = json.loads(printed("restore", at("set.rsv"), "--to", at("new"), "--json", status=4)[0])
        took = (middle - start, time.monotonic() - middle)
        if took[1] > 5 * took[0] + 1:
            wrong(f"verify and restore of names with 32,766 folders take {took[0]:.1f} and {took[1]:.1f} seconds")
        if [len(found["failed"]), [file["name"] for file in found["restored"]], os.listdir(at("new"))] != [60, ["z"], ["z"]]:
            wrong(f"restore of names with 32,766 folders: {found['status']}, {os.listdir(at('new'))}")


def sets_by_rules():
    """Yields a name, options of `Made` and whether the set keeps all rules of version 2."""
    two = [Item(b"a", bytes(100)), Item(b"b", b"x")]
    for numbers in ({"code": 0}, {"code": 2}, {"digest": 2}, {"b": 0}, {"b": 63}, {"b": 2 ** 40 + 2}, {"k": 1}, {"k": 4}, {"r": 0}, {"r": 1}, {"r": 65536},
                    {"count": 1}, {"count": 3}, {"count": 2 ** 32 - 1}, {"volumes": 0}, {"fields": 1}, {"fields": 2 ** 32 - 1}):
        yield str(numbers), {"items": two, "numbers": numbers}, False
    for fields, is_sound in ((((1, b"x" * 300),), True), (((0, b""), (1, b"x"), (1, b"y"), (2 ** 31 - 1, b"")), True), (((2 ** 31, b""),), False)):
        yield f"fields {fields}", {"items": two, "fields": fields}, is_sound
    for change, is_sound in (({"kind": 0}, 0), ({"kind": 4}, 0), ({"mode": 4095}, 1), ({"mode": 4096}, 0), ({"nanoseconds": 10 ** 9 - 1}, 1), ({"nanoseconds": 10 ** 9}, 0),
                             ({"size": 2 ** 62}, 0), ({"size": 2 ** 64 - 1}, 0), ({"target": b"x"}, 0), ({"seconds": -1}, 1), ({"seconds": -2 ** 63}, 1), ({"seconds": 2 ** 63 - 1}, 1)):
        yield f"a file with {change}", {"items": [Item(b"a", bytes(100)), Item(b"b", **{"data": b"x", **change})]}, bool(is_sound)
    for kind in (LINK, FOLDER):
        target = b"t" if kind == LINK else b""
        for change, is_sound in (({}, 1), ({"size": 1}, 0), ({"digest": bytes(31) + b"1"}, 0), ({"target": b"" if target else b"t"}, 0), ({"target": b"a\0b"}, 0)):
            yield f"kind {kind} with {change}", {"items": [Item(b"a", bytes(100)), Item(b"b", **{"kind": kind, "target": target, **change})]}, bool(is_sound)
    for name in (b"", b"/", b"/a", b"a//b", b"a/", b".", b"..", b"./a", b"a/.", b"a/../b", b"a/..", b"a\0b", b"../a"):
        yield f"the name {name}", {"items": [Item(name, b"x")]}, False
    for name in (b"...", b"a/...", b" ", b"\xff", b"\\", b"a" * 255, b"c:d"):
        yield f"the name {name}", {"items": [Item(name, b"x")]}, True
    for names, is_sound in (((b"b", b"a"), 0), ((b"a", b"a"), 0), ((b"a-b", b"a/b"), 0), ((b"a/b", b"a-b"), 1), ((b"a", b"a/b"), 0), ((b"a", b"a/b/c"), 0), ((b"a", b"a-", b"a/b"), 0),
                            ((b"a", b"ab", b"ac/d"), 1), ((b"a/b", b"a"), 0), ((b"a/b", b"a/b/c", b"a/b/d"), 0), ((b"a\x01", b"a/"), 0)):
        yield f"the names {names}", {"items": [Item(name, b"x") for name in names]}, bool(is_sound)
    yield "a folder with an entry in it", {"items": [Item(b"a", kind=FOLDER), Item(b"a/b", b"x")]}, False
    yield "an entry below a link", {"items": [Item(b"a", kind=LINK, target=b"/tmp"), Item(b"a/b", b"x")]}, False
    for size, block, is_sound in ((1, 4096, 1), (1, 4098, 0), (4097, 8192, 1), (4097, 8194, 0), (4096, 4098, 0), (0, 4096, 1), (0, 4098, 0), (100_000, 102400, 1), (100_000, 102402, 0)):
        yield f"{size} bytes in blocks of {block}", {"items": [Item(b"a", bytes(size))], "block": block}, bool(is_sound)
    yield "a byte after the end", {"items": two, "edited": lambda text: text + b"\0"}, False
    yield "a byte less", {"items": two, "edited": lambda text: text[:-1]}, False
    yield "no entry", {"items": []}, True
    yield "an empty description", {"items": two, "edited": lambda text: text[:0] + b"\1"}, False


def rules():
    """Both readers refuse each description of version 2 that breaks a rule, and read the others."""
    with Folder() as at:
        for name, options, is_sound in sets_by_rules():
            options = {"block_bytes": options.pop("block", 64), "recovery": 2, "is_coded": False, **options}
            volume = Made(**options).volume()
            try:
                found = READER.set_of([volume]) is not None
            except ValueError:
                found = False
            if found != is_sound:
                wrong(f"{name}: the reader in Python {'reads' if found else 'refuses'} it")
            write(at("a.rsv"), volume)
            if HAS_PROGRAM:
                run("info", at("a.rsv"), status=0 if is_sound else 4, seconds=20)
                run("info", at("a.rsv"), "--json", status=0 if is_sound else 4, seconds=20)


def first_rules():
    """Both readers refuse a description of version 1 whose blocks have more than 2^26 bytes, and more bytes than the longest file, rounded up
    to a multiple of 4096. Otherwise a volume of 358 bytes would keep `verify` and `repair` busy for hours."""
    large = 1 << 26
    with Folder() as at:
        for sizes, block, is_sound in (((1,), large, 1), ((1,), large + 2, 0), ((1,), 1 << 40, 0), ((1, 2), 1 << 40, 0), ((large,), large + 2, 0), ((large + 1,), large + 4096, 1),
                                       ((large + 1,), large + 4098, 0), ((1, large + 4096), large + 4096, 1), ((large + 4097, 1), large + 8192, 1),
                                       ((large - 1, large + 4096), large + 4098, 0), ((0, 1 << 40), 1 << 40, 1), (((1 << 40) - 4096,), 1 << 40, 0)):
            items = [Item(b"%d" % number, b"x" if size else b"", size=size) for number, size in enumerate(sizes)]
            volume = Made(items, 64, 1, version=1, numbers={"b": block}, is_coded=False).volume([])
            try:
                found = READER.set_of([volume]) is not None
            except ValueError:
                found = False
            if found != bool(is_sound):
                wrong(f"files of {sizes} bytes in blocks of {block} in version 1: the reader in Python {'reads' if found else 'refuses'} them")
            write(at("a.rsv"), volume)
            if HAS_PROGRAM:
                said = run("info", at("a.rsv"), status=0 if is_sound else 4, seconds=20)
                if not is_sound and "its blocks are larger than its files" not in said:
                    wrong(f"info of files of {sizes} bytes in blocks of {block} in version 1 says {said!r}")
        if not HAS_PROGRAM:
            return
        volume = Made([Item(b"a", b"x")], 64, 1, version=1, numbers={"b": 1 << 40}).volume([])
        if len(volume) != 358:
            wrong(f"a volume of version 1 has {len(volume)} bytes, and not 358")
        write(at("set", "a"), b"x")
        write(at("set", "v.rsv"), volume)
        for words in (("verify", at("set", "v.rsv")), ("repair", at("set", "v.rsv")), ("restore", at("set", "v.rsv"), "--to", at("new"))):
            if "its blocks are larger than its files" not in run(*words, status=4, seconds=20):
                wrong(f"{words[0]} of a volume of version 1 with a block of 2^40 bytes does not say why it is refused")
        if os.path.exists(at("new")) or read(at("set", "a")) != b"x" or read(at("set", "v.rsv")) != volume:
            wrong("a volume of version 1 with a block of 2^40 bytes is refused, but files are changed")


def no_zeros():
    """A block with a byte that is in no file and not zero counts as damaged: no file that has bytes in this block is restored."""
    with Folder() as at:
        items = [Item(b"a", RANDOM.randbytes(100)), Item(b"b", RANDOM.randbytes(100)), Item(b"c", RANDOM.randbytes(10))]
        for place in (None, 100, 127, 228, 249, 255, 266, 299):
            def changed(data, place=place):
                data = bytearray(data + bytes(-len(data) % 50))
                data[place or 0] ^= 1 if place else 0
                return bytes(data)

            # The blocks have 50 bytes, and the files are at 0, 128 and 256. Bytes 100 to 127 are in the block of the first bytes of b.
            made = Made(items, 50, 4, changed=changed)
            refused = {item.name for item, start in zip(items, made.places) if place and start // 50 <= place // 50 <= (start + len(item.data) - 1) // 50}
            for lost in ([], [0, 2]):
                write(at("a.rsv"), made.volume([i for i in range(made.k + made.r) if i not in lost]))
                for name, restored in readers():
                    found = restored(at("new"), [at("a.rsv")])
                    wanted = {key: value for key, value in expected(items).items() if key not in refused}
                    if found != (wanted, not place):
                        wrong(f"{name} restores a set whose byte {place} is not zero: {sorted(found[0])}, {found[1]}")
                    shutil.rmtree(at("new"), ignore_errors=True)


def first_set(recovery=3, block_bytes=64):
    """Returns a set of version 1 whose description has several sectors of 512 bytes."""
    items = [Item(b"d/%02d" % i, RANDOM.randbytes(size)) for i, size in enumerate((0, 1, 63, 64, 65, 200, 500, 700, 900))]
    return Made([*items, Item("e\u00e9".encode(), b"text", mode=0o600)], block_bytes, recovery, version=1)


def changed_at(volume, places):
    """Returns a volume with other bytes at these places."""
    changed = bytearray(volume)
    for place in places:
        changed[place] ^= RANDOM.randrange(1, 256)
    return bytes(changed)


def first_version():
    """Volumes of version 1 are read, also if one of the two copies of the head and the description is damaged, if both are damaged at
    different places, or if both heads or both digests are damaged."""
    with Folder() as at:
        made = first_set(12)
        copy = 64 + len(made.description)
        whole = made.volumes(2)
        one = [("whole", (), ()), ("the first head", (0,), ()), ("the first length", (17,), ()), ("the first digest", (40,), ()), ("the first description", (70, 300), ()),
               ("the second head", (), (-64,)), ("the second digest", (), (-1,)), ("the second description", (), (-70, -copy)), ("the number of records", (24, 31), (-40,)),
               ("all of the first copy", range(copy), ()), ("all of the second copy", (), range(-copy, 0))]
        both = [("both descriptions", (70, 500, 900), (-copy + 120, -100)), ("a head and the other description", (3, 20, 50), (-70 - 200,)), ("both digests", (40,), (-20,)),
                ("both magic numbers", (0,), (-64,)), ("both lengths", (17,), (-47,)), ("both heads", range(64), range(-64, 0))]
        for name, front, back in one + both:
            paths = []
            for number, volume in enumerate(whole):
                paths.append(at(f"{number}.rsv"))
                write(paths[-1], changed_at(volume, [*front, *(len(volume) + place for place in back)]))
            for reader, restored in readers():
                for left in (paths, paths[:1] if made.k <= made.r else paths):
                    found = restored(at("new"), left)
                    if found != (expected(made.items), True):
                        wrong(f"version 1, {name}: {reader} restores {sorted(found[0])}")
                    shutil.rmtree(at("new"))


def first_bits():
    """One bit of a volume of version 1 is changed, wherever it is: at most the recovery block of the record with this bit is lost. The program
    gets all eight bits of each byte of both heads, and one bit of each other byte."""
    with Folder() as at:
        made = Made([Item(b"a", RANDOM.randbytes(6))], 4, 2, version=1)
        volume, copy, cases, some = made.volume(), 64 + len(made.description), [], []
        for bit in range(8 * len(volume)):
            place = bit // 8
            # A record has 4 bytes of the index of its block, 4 bytes that no reader looks at, and the 4 bytes of the block.
            is_in_record = copy <= place < len(volume) - copy and (place - copy) % 12 not in range(4, 8)
            cases.append((f"bit {bit % 8} of byte {place} of a volume of version 1", flipped(volume, bit), 1 if is_in_record else 2))
            if place < 64 or place >= len(volume) - 64 or bit % 8 == place % 8:
                some.append(cases[-1])
        check_left(at, made, cases, some)


def first_lengths():
    """The length of a file is wrong in one copy of a volume of version 1, and another byte of the other copy: no reader believes either of
    them. The reader in Python puts them together, and the program restores the same files or none."""
    with Folder() as at:
        made = first_set(12)
        volume, copy = made.volume(range(made.k + made.r)), 64 + len(made.description)
        # The entry of d/06, which has 500 bytes in 8 blocks, begins 28 + 6 * 26 bytes after the head.
        length = 64 + 28 + 6 * 26
        for first, second in ((length, len(volume) - copy + 300), (300, len(volume) - copy + length - 64), (length, len(volume) - copy + length + 3)):
            write(at("a.rsv"), flipped(flipped(volume, 8 * first), 8 * second))
            for name, restored in readers():
                found = restored(at("new"), [at("a.rsv")])
                if found != (expected(made.items), True) and (name != "the program" or found != ({}, False)):
                    wrong(f"{name} restores files of wrong lengths: { {key: len(value[3]) for key, value in found[0].items()} }")
                shutil.rmtree(at("new"), ignore_errors=True)


def first_repaired():
    """The program verifies and repairs files with a volume of version 1, and `info` shows it."""
    if not HAS_PROGRAM:
        return
    with Folder() as at:
        made = first_set(6)
        volume = made.volume()

        def reset(other):
            shutil.rmtree(at("set"), ignore_errors=True)
            for item in made.items:
                write(at("set", os.fsdecode(item.name)), item.data)
                os.utime(at("set", os.fsdecode(item.name)), ns=(item.seconds * 10 ** 9,) * 2)
                os.chmod(at("set", os.fsdecode(item.name)), item.mode)
            write(at("set", "v.rsv"), other)

        reset(volume)
        run("verify", at("set", "v.rsv"), status=0)
        shown = info(at("set", "v.rsv"))
        if (shown["block_bytes"], shown["original_blocks"], shown["recovery_blocks"], shown["blocks_here"]) != (64, made.k, 6, 6):
            wrong(f"info of version 1: {shown}")
        if [file["name"] for file in shown["files"]] != [item.name.decode() for item in made.items]:
            wrong(f"info of version 1 shows other files: {shown}")
        copy = 64 + len(made.description)
        # In the last case, bytes of the block of the last record are missing.
        last = len(volume) - copy
        for other, lost in ((volume, 0), (bytes(copy) + volume[copy:], 0), (volume[:-copy] + bytes(copy), 0), (volume[:-copy - 1], 1),
                            (changed_at(volume, [copy + 100]), 1), (changed_at(volume, [24, 25]), 0), (volume[:last - 50] + volume[last - 40:], 1)):
            reset(other)
            os.remove(at("set", "d", "05"))
            write(at("set", "d", "04"), made.items[4].data[:64])
            found = json.loads(run("verify", at("set", "v.rsv"), "--json", status=1))
            if (found["lost_blocks"], found["whole_recovery_blocks"]) != (5, 6 - lost):
                wrong(f"verify with version 1: {found}")
            if found["volumes"][0]["state"] != ("whole" if other == volume else "damaged"):
                wrong(f"verify of a volume of version 1 says: {found['volumes']}")
            # A damaged volume of version 1 is not written again.
            run("repair", at("set", "v.rsv"), "-q", status=0 if other == volume else 1)
            after = snapshot(at("set"))
            if {name: after.get(name) for name in expected(made.items)} != expected(made.items):
                wrong(f"repair with version 1 restores other files: {sorted(after)}")


def bases():
    """Returns sets for the mutants: of both versions and rates, with entries of all kinds."""
    chance = random.Random(66)
    few = sorted_items(Item(b"a/b", chance.randbytes(200)), Item(b"c", b"text"), Item(b"e", kind=FOLDER),
                       Item(b"l", kind=LINK, target=b"c"), Item(b"z", chance.randbytes(65)))
    files = [item for item in few if item.kind not in (LINK, FOLDER)]
    return [lambda edited: Made(few, 64, 3, edited=edited), lambda edited: Made(few, 130, 7, edited=edited),
            lambda edited: Made(files, 64, 3, version=1, edited=edited)]


def mutant(chance):
    """Returns a changed volume with all blocks, and None or its set: the description is changed and has its digests, or bytes of the volume
    are changed. Then the set is what may be restored."""
    def some(data, most):
        data = bytearray(data)
        for _ in range(chance.randrange(1, most)):
            place, kind = chance.randrange(len(data)), chance.randrange(8)
            if kind == 0:
                del data[place:place + chance.randrange(1, 9)]
            elif kind == 1:
                data[place:place] = chance.randbytes(chance.randrange(1, 9))
            else:
                data[place] = (data[place] ^ 1 << chance.randrange(8), 0, 255, chance.randrange(256), data[place] + 1 & 255)[chance.randrange(5)]
            data = data or bytearray(1)
        return bytes(data)

    base = chance.choice(bases())
    if chance.random() < 0.6:
        made = base(lambda text: some(text[:-40 * 5], 3) + text[-40 * 5:] if chance.random() < 0.8 else some(text, 3))
        return made.volume(range(made.k + made.r)), None
    made = base(None)
    return some(made.volume(range(made.k + made.r)), chance.choice((2, 5, 60))), made


def timeless(found):
    """Returns a snapshot without the times: the program sets only those from 1970 on."""
    return {key: value[:2] + value[3:] for key, value in found.items()}


def is_text(entry):
    """Says whether the name and the target of an entry of a snapshot are UTF-8. The program restores no others."""
    key, value = entry
    texts = [key, *([value[1]] if value[0] == "link" else [])]
    return all(text.decode(errors="ignore").encode() == text for text in texts)


def fault_of(made, found):
    """Says what is wrong with what the readers have restored, or returns None. `made` is the set of the volume, if its description was not
    changed."""
    right = timeless(expected(made.items)) if made else {}
    for name, (entries, is_all) in found:
        files = {entry for entry in entries.items() if entry[1][0] != "folder"}
        if made and (is_all and entries != right or not files <= {*right.items()}):
            return f"{name} restores wrong entries"
    (most, is_all), (some, is_same) = found[0][1], found[-1][1]
    if made and made.version == 1 or (most, is_all) == (some, is_same):
        return None
    # The program gives up if a restored block does not have its digest. It can also leave an empty folder then.
    files = {key: value for key, value in some.items() if value[0] != "folder"}
    missing = dict(most.items() - some.items())
    is_less = not is_same and files.items() <= most.items()
    return None if is_less and not (is_all and any(map(is_text, missing.items()))) else "the readers restore other entries"


def compared(number):
    """Lets the readers restore a changed volume. Returns a fault, or whether all was restored."""
    with Folder() as at:
        volume, made = mutant(random.Random(f"{os.environ.get('RS_SEED', '')}{number}"))
        write(at("a.rsv"), volume)
        os.makedirs(at("new"))
        found = [(name, restored(at("new", name), [at("a.rsv")])) for name, restored in readers()]
        found = [(name, (timeless(entries), is_all)) for name, (entries, is_all) in found]
        subprocess.run(["chmod", "-R", "u+rwx", at("new")], check=True)
        fault = fault_of(made, found) or ("a file is outside" if {*os.listdir(at())} != {"new", "a.rsv"} else None)
        if not fault:
            return found[0][1][1]
        write(os.path.join("/tmp", f"mutant.{number}.rsv"), volume)
        return f"mutant {number} (/tmp/mutant.{number}.rsv): {fault}: {[(name, is_all, sorted(entries)) for name, (entries, is_all) in found]}"


def mutants():
    """Both readers restore the same from changed volumes, and nothing that was not in the set. A changed volume does not keep a reader
    busy."""
    count = int(os.environ.get("RS_MUTANTS", "300"))
    with concurrent.futures.ThreadPoolExecutor(os.cpu_count()) as runs:
        found = [*runs.map(compared, range(count))]
    faults = [fault for fault in found if isinstance(fault, str)]
    if faults:
        wrong(f"{len(faults)} of {count} changed volumes: " + "; ".join(faults[:20]))
    if not count // 10 < sum(found) < count * 9 // 10:
        wrong(f"{sum(found)} of {count} changed volumes were restored whole: these are no good mutants")


TESTS = (flipped_bits, moved_bytes, damaged_places, whole_copies, joined_volumes, inner_volume, all_entries, longest_name, many_slashes, rules, first_rules, no_zeros, first_version,
         first_bits, first_lengths, first_repaired, mutants)
