"""Tests of files that `rs_files` has not finished when it is killed, of folders that are synced, of two runs at once, of old volumes that are
damaged everywhere, of disks that are full, of memory for descriptions, and of the time of a check."""
import hashlib
import json
import os
import resource
import struct
import signal
import subprocess
import time

from files_common import PROGRAM, RANDOM, Folder, as_nobody, info, preloaded, printed, read, run, spans, tree, write, wrong

WRITING = ": another rs_files is writing this volume, or was killed before it was whole: if none is at work, delete this file and run the command again\n"
REPLACING = ": another rs_files is writing new volumes, or was killed before they were whole. No old one was replaced: if none is at work, delete all files NAME.rs_files.part of them, this one first\n"
RENAMING = ": another rs_files is giving new volumes their names, or was killed then. The new volumes are whole: if none is at work, rename each NAME.rs_files.part to NAME\n"
LEFT = ("an rs_files that was killed left this file, or another one is writing it: if none is at work, delete it. Only unfinished volumes"
        " of split may be needed")
PART = ".rs_files.part"


def killed_twice():
    """`split --force` is killed at each rename, and started again: it refuses to go on and changes nothing. What it says to do gives all old
    volumes or all new ones, also if it was started with another number of volumes."""
    with Folder() as at:
        names = [f"volume000{i}.rsv" for i in (1, 2, 3)]
        split = ("split", at("set"), "-q", "--force", "-n")
        write(at("set", "a"), RANDOM.randbytes(50_000))
        run(*split, "3", "-o", at("v"))
        old = tree(at("v"))
        write(at("set", "a"), RANDOM.randbytes(50_000))
        run(*split, "3", "-o", at("w"))
        new = tree(at("w"))
        for number in range(3):
            killing = preloaded("fail_calls", KILL_RENAME=names[number] + PART)
            if killing is None:
                return
            for name, data in old.items():
                write(at("v", name), data)
            run(*split, "3", "-o", at("v"), status=-9, env=killing)
            left = tree(at("v"))
            for count, env in (("3", None), ("3", killing), ("2", None), ("5", None)):
                error = printed(*split, count, "-o", at("v"), status=4, env=env)[1]
                if error != f"rs_files: {at('v', names[number or 2])}{PART}{RENAMING if number else REPLACING}" or tree(at("v")) != left:
                    wrong(f"split after a kill before the rename of volume {number + 1}: {error}{sorted(tree(at('v')))}")
            for name in sorted(left, reverse=True):
                if name.endswith(PART):
                    # Each state on the way is judged in the same way.
                    if (RENAMING if number else REPLACING) not in printed(*split, "3", "-o", at("v"), status=4)[1]:
                        wrong(f"split while the parts of a killed run are removed or renamed, before {name}")
                    os.rename(at("v", name), at("v", name.removesuffix(PART))) if number else os.remove(at("v", name))
            if tree(at("v")) != (new if number else old):
                wrong(f"the volumes after a kill before the rename of volume {number + 1} are not of one set")


def removed_in_order():
    """If `split` fails, it removes the part of the first volume last, so a kill never leaves parts that look whole."""
    with Folder() as at:
        log = at("log")
        write(at("set", "a"), RANDOM.randbytes(50_000))
        failing = preloaded("fail_calls", FAIL_SYNC="volume0003.rsv" + PART, UNLINK_LOG=log)
        if failing is None:
            return
        run("split", at("set"), "-n", "3", "-o", at("v"), "-q", status=4, env=failing)
        removed = [os.path.basename(path) for path in read(log).decode().splitlines()]
        if removed != [f"volume000{i}.rsv{PART}" for i in (3, 2, 1)] or os.listdir(at("v")):
            wrong(f"split that fails removes {removed}")


def mended_volume():
    """`repair` is killed while it writes a damaged volume again: the part is not taken for a new volume of `split`, and is named by `verify`."""
    with Folder() as at:
        write(at("set", "a"), RANDOM.randbytes(50_000))
        split = ("split", at("set"), "-n", "3", "-o", at("v"), "-q")
        run(*split)
        whole = tree(at("v"))
        volume = whole["volume0003.rsv"]
        damaged = volume[:len(volume) // 2] + bytes(64) + volume[len(volume) // 2 + 64:]
        write(at("v", "volume0003.rsv"), damaged)
        part = at("v", "volume0003.rsv" + PART + "2")
        killing = preloaded("fail_calls", KILL_RENAME=part)
        if killing is None:
            return
        repair = ("repair", *(at("v", name) for name in whole), "--folder", at())
        run(*repair, "-q", status=-9, env=killing)
        if read(part) != volume or f"{part}: warning: {LEFT}\n" not in printed("verify", *repair[1:], status=1)[1]:
            wrong("verify does not name the part of a volume that repair writes again")
        if ": another rs_files is writing this file, or was killed while it wrote it: " not in run(*repair, status=4):
            wrong("repair writes over the part of another run")
        run(*split, "--force")
        if any(read(at("v", name)) != data for name, data in whole.items()) or read(part) != volume:
            wrong("split with the part of a volume that repair writes again")


def leftovers():
    """A file that a killed run has left is named by create, update, verify, repair and restore, and is not protected. A file with another name is, and so
    is one that is named on the command line."""
    with Folder() as at:
        data = RANDOM.randbytes(3000)
        for name in ("a", "b.part", "c.rs_files.parts", "rs_files.part", ".rs_files.part"):
            write(at("d", name), data)
        killing = preloaded("fail_calls", KILL_RENAME="/a" + PART)
        if killing is None:
            return
        run("create", at("d"), "-q", "--block", "512", "-r", "100%")
        os.remove(at("d", "a"))
        run("repair", at("d.rsv"), "-q", status=-9, env=killing)
        run("repair", at("d.rsv"), "-q", status=-9, env=preloaded("fail_calls", KILL_RENAME="/a" + PART + "2"))
        parts = [at("d", "a" + PART), at("d", "a" + PART + "2")]
        warnings = "".join(f"rs_files: {path}: warning: {LEFT}\n" for path in parts)
        if printed("verify", at("d.rsv"), status=1)[1] != warnings or printed("repair", at("d.rsv"), "-q") != ("", warnings):
            wrong(f"verify or repair with the files of killed runs: {sorted(tree(at('d')))}")
        if read(at("d", "a")) != data or not all(os.path.exists(path) for path in parts):
            wrong("repair with the files of killed runs")
        out = printed("create", at("d"), "--force")[0]
        if any(f"{path}: {LEFT}\n" not in out for path in parts):
            wrong(f"create does not name the files of killed runs: {out}")
        names = [file["name"] for file in info(at("d.rsv"))["files"]]
        if names != ["d/.rs_files.part", "d/a", "d/b.part", "d/c.rs_files.parts", "d/rs_files.part"]:
            wrong(f"create with the files of killed runs protects {names}")
        run("create", parts[0], "-o", at("part.rsv"), "-q")
        if [file["name"] for file in info(at("part.rsv"))["files"]] != ["a" + PART]:
            wrong("create does not protect a file that is named")
        for path in parts:
            os.remove(path)
        # A restore into another folder was killed. The next one restores the files beside the unfinished one.
        os.mkdir(at("none"))
        run("create", at("d"), "-o", at("e.rsv"), "-q", "--block", "512", "-r", "100%")
        restore = ("restore", at("e.rsv"), "--folder", at("none"), "--to", at("to"), "--only", "d/a", "-q")
        run(*restore, status=-9, env=killing)
        part = at("to", "d", "a" + PART)
        if printed(*restore, "--force") != ("", f"rs_files: {part}: warning: {LEFT}\n") or read(at("to", "d", "a")) != data or not os.path.exists(part):
            wrong(f"restore into a folder with the file of a killed run: {sorted(tree(at('to')))}")
        write(at("d.rsv" + PART), b"")
        if f"{at('d.rsv')}{PART}: warning: {LEFT}\n" != printed("verify", at("d.rsv"))[1].removeprefix("rs_files: "):
            wrong("verify does not name the part of a volume")
        for words in (("create", at("d"), "--force"), ("update", at("d.rsv"))):
            if printed(*words, status=4)[1] != f"rs_files: {at('d.rsv')}{PART}{WRITING}" or read(at("d.rsv" + PART)) != b"":
                wrong(f"{words[0]} with the part of a volume")


def collided(at, whole):
    """Begins a run that writes the volume `a.rsv`, stops it as soon as the part of the volume is there, and begins another run, which must fail.
    Returns whether the first run was stopped in time. Then it ends with the volume `whole`."""
    first = subprocess.Popen([PROGRAM, "create", at("a"), "-q", "--force"], stderr=subprocess.PIPE)
    while first.poll() is None and not os.path.exists(at("a.rsv") + PART):
        pass
    if first.returncode is None:
        first.send_signal(signal.SIGSTOP)
        os.waitid(os.P_PID, first.pid, os.WEXITED | os.WSTOPPED | os.WNOWAIT)
    is_met = os.path.exists(at("a.rsv") + PART)
    if is_met:
        error = printed("create", at("a"), "-q", "--force", status=4)[1]
        if not error.startswith(f"rs_files: {at('a.rsv')}{PART}: another rs_files is writing this "):
            wrong(f"a run that begins while another one writes the volume: {error}")
        if read(at("a.rsv")) != whole or not os.path.exists(at("a.rsv") + PART):
            wrong("a run that begins while another one writes the volume changes it")
    if first.returncode is None:
        first.send_signal(signal.SIGCONT)
    if first.communicate()[1] or first.returncode or tree(at()) != {"a": read(at("a")), "a.rsv": whole}:
        wrong(f"a run that was stopped does not make the volume: {first.returncode}")
    return is_met


def two_runs():
    """Two runs that write the same volume at once: one of them succeeds, or both do one after the other. The one that fails says why. A run that
    begins while another one is stopped in the middle fails always, and the other one then makes the volume."""
    with Folder() as at:
        write(at("a"), RANDOM.randbytes(2_000_000))
        run("create", at("a"), "-q")
        whole = read(at("a.rsv"))
        for _ in range(6):
            runs = [subprocess.Popen([PROGRAM, "create", at("a"), "-q", "--force"], stderr=subprocess.PIPE) for _ in range(3)]
            ends = [(each.communicate()[1].decode(), each.returncode) for each in runs]
            for error, status in ends:
                if status != 0 and not (status == 4 and error.startswith(f"rs_files: {at('a.rsv')}{PART}: another rs_files is writing this ")):
                    wrong(f"one of several runs at once: {status} {error}")
            if all(status for _, status in ends) or tree(at()) != {"a": read(at("a")), "a.rsv": whole}:
                wrong(f"several runs at once: {ends} {sorted(tree(at()))}")
        collisions = 0
        for _ in range(100):
            collisions += collided(at, whole)
            if collisions == 3:
                break
        else:
            wrong(f"only {collisions} of 100 runs were stopped while they wrote a volume")


def folders_synced():
    """Each folder in which something has got a new name is synced once, after all names, and so is the folder above a new folder."""
    with Folder() as at:
        log = at("log")
        logged = preloaded("log_syncs", SYNC_LOG=log)
        if logged is None:
            return
        files = [*(f"d/{number:03}" for number in range(40)), "d/e/a", "d/e/f/b", "d/x/c"]
        for name in files:
            write(at(name), RANDOM.randbytes(100))
        write(at("b"), b"1")

        def steps(*words):
            write(log, b"")
            run(*words, "-q", env=logged)
            return [line.split("\t") for line in read(log).decode().splitlines()]

        def synced(found):
            return [path for what, path, _ in found if what == "sync" and os.path.isdir(path)]

        found = steps("split", at("d"), "-n", "2", "-o", at("v", "deep"))
        if synced(found)[:3] != [at(), at("v"), at("v", "deep")] or found[-1] != ["sync", at("v", "deep"), ""]:
            wrong(f"split into a new folder syncs {found}")
        steps("create", at("b"), "-o", at("new", "deep", "b.rsv"))
        if set(synced(steps("create", at("b"), "-o", at("new", "other", "b.rsv")))) != {at("new"), at("new", "other")}:
            wrong("create in a new folder")
        found = steps("restore", *(at("v", "deep", f"volume000{i}.rsv") for i in (1, 2)), "--to", at("to"))
        last = max(number for number, step in enumerate(found) if step[0] == "rename")
        folders = [at(), at("to"), at("to", "d"), at("to", "d", "e"), at("to", "d", "e", "f"), at("to", "d", "x")]
        if sorted(synced(found[last:])) != folders or synced(found[:last]):
            wrong(f"restore syncs {synced(found)}")
        if sum(step[0] == "sync" for step in found) != len(files) + len(folders):
            wrong(f"restore of {len(files)} files makes {len(found)} syncs")


def damaged_everywhere():
    """An old volume whose beginning and end are damaged is replaced by `create --force`. A file that only holds a volume is not."""
    with Folder() as at:
        write(at("a"), RANDOM.randbytes(20_000))
        run("create", at("a"), "-q", "--block", "512", "-r", "100%")
        volume = read(at("a.rsv"))
        first, last = spans(volume)[0], spans(volume)[-1]
        damaged = bytes(first[3]) + volume[first[3]:last[2]] + bytes(last[3] - last[2])
        for old, is_volume in ((damaged, True), (b"", True), (bytes(len(volume)), False), (RANDOM.randbytes(len(volume) + 1) + volume, False)):
            write(at("a.rsv"), old)
            text = run("create", at("a"), "-q", "--block", "512", "-r", "100%", "--force", status=0 if is_volume else 4)
            if read(at("a.rsv")) != (volume if is_volume else old) or ("so --force does not replace it" in text) == is_volume:
                wrong(f"create --force over {len(old)} bytes: {text}")


def no_room():
    """On a full disk, `create` and `restore` say how many bytes are missing."""
    with Folder() as at:
        contents = {name: RANDOM.randbytes(size) for name, size in (("a", 5000), ("b", 70_000), ("c", 300))}
        for name, data in contents.items():
            write(at("d", name), data)
        run("create", at("d"), "-q", "--block", "512", "-r", "100%")
        failing = preloaded("fail_calls", FAIL_WRITE="/new.rsv" + PART, FAIL_FROM=30_000)
        if failing is None:
            return
        text = run("create", at("d"), "-o", at("new.rsv"), "--block", "512", "-r", "100%", status=4, env=failing)
        bodies = [(start, end) for kind, _, start, end in spans(read(at("d.rsv"))) if kind == 1]
        size = os.path.getsize(at("d.rsv"))
        missing = size - 512 * sum(start + 64 < 30_000 for start, end in bodies)
        if f"rs_files: the disk has no room for {missing} bytes of the new volumes\n" not in text:
            wrong(f"create on a full disk says {text}, and {missing} bytes are missing")
        for names in (("b",), ("a", "c")):
            for name in contents:
                os.remove(at("d", name))
            failing = preloaded("fail_calls", FAIL_WRITE=f"/{names[0]}" + PART, FAIL_FROM=0)
            text = run("restore", at("d.rsv"), "--to", at("new"), "--force", status=4, env=failing)
            if f"rs_files: the disk has no room for {len(contents[names[0]])} bytes of these files\n" not in text:
                wrong(f"restore on a full disk says {text}")
            for name in contents:
                write(at("d", name), contents[name])


def many_names(at, count):
    """Writes a volume without blocks that describes many empty files, as FORMAT.md says. Returns the number of bytes of its description."""
    empty = hashlib.sha256(b"").digest()
    entries = b"".join(struct.pack("<HHIQqH", 1, 0o644, 0, 0, 0, 9) + b"%09d" % number + struct.pack("<H", 0) + empty for number in range(count))
    description = struct.pack("<IIQIIIII", 1, 1, 4096, 0, 0, count, 1, 0) + entries
    name = hashlib.sha256(description).digest()

    def record(kind, index, body):
        head = bytes.fromhex("89525356320D0A1A") + struct.pack("<IIQ", kind, index, len(body)) + name
        return head + hashlib.sha256(head).digest()[:8] + body

    parts = []
    for index in range(-(-len(description) // 4096)):
        rest = struct.pack("<Q", len(description)) + description[4096 * index:4096 * (index + 1)]
        parts.append(record(2, index, hashlib.sha256(rest).digest() + rest))
    write(at("many.rsv"), b"".join([b"x" * 127 + b"\n", *parts]))
    return len(description)


def peak(*words):
    """Runs the program, and returns what it printed and the largest number of KiB of memory that the system counted as resident."""
    with open(os.devnull, "wb") as nothing, subprocess.Popen([PROGRAM, *words], stdout=subprocess.PIPE, stderr=nothing) as running:
        out = running.stdout.read()
        return out, os.wait4(running.pid, 0)[2].ru_maxrss


def bounded():
    """A description that needs more memory than `--memory` allows is refused, and the message says how much it needs. With as much it is read,
    and `info --json` takes no more. `verify --json` takes little more than `verify`."""
    with Folder() as at:
        count = 100_000
        many_names(at, count)
        for words in (("info", at("many.rsv")), ("verify", at("many.rsv")), ("repair", at("many.rsv")), ("restore", at("many.rsv"), "--to", at("new"))):
            error = printed(*words, "--memory", "40M", status=4)[1]
            if "its description needs about " not in error or " MiB of memory: allow this with --memory " not in error:
                wrong(f"{words[0]} of a description that needs more memory than is allowed: {error}")
        needed = int(error.split("--memory ")[1].split("M")[0])

        def limited():
            resource.setrlimit(resource.RLIMIT_AS, ((needed + 40) << 20, (needed + 40) << 20))

        error = printed("info", at("many.rsv"), "--memory", f"{needed - 1}M", status=4)[1]
        out = printed("info", at("many.rsv"), "--json", "--memory", f"{needed}M", before=limited if "RS_FILES" not in os.environ else None)[0]
        files = json.loads(out)["files"]
        if len(files) != count or files[7] != {"name": "000000007", "kind": "file", "size": 0}:
            wrong("info --json of many files")
        for more in ((), ("--quick",)):
            words = ("verify", at("many.rsv"), "--memory", f"{needed}M", *more)
            (_, plain), (out, kept) = peak(*words), peak(*words, "--json")
            if kept > plain + (30 << 10) and "RS_FILES" not in os.environ:
                wrong(f"verify {more} of many files takes {plain} KiB, and with --json {kept} KiB")
            files = json.loads(out)["files"]
            if len(files) != count or files[7] != {"name": "000000007", "kind": "file", "size": 0, "state": "missing"}:
                wrong(f"verify {more} --json of many files")


def seconds(*words):
    """Runs the program, which must succeed, and returns how long it was at work."""
    with subprocess.Popen([PROGRAM, *words], stdout=subprocess.DEVNULL, stderr=subprocess.DEVNULL) as running:
        status, used = os.wait4(running.pid, 0)[1:]
        running.returncode = os.waitstatus_to_exitcode(status)
    if running.returncode:
        wrong(f"{words[0]} of many files ends with status {running.returncode}")
    return used.ru_utime + used.ru_stime


def linear():
    """A check of four times as many files takes about four times as long, and not sixteen times."""
    took = []
    with Folder() as at:
        for count in (5_000, 20_000):
            for number in range(count):
                write(at(str(count), str(number % 100), str(number)), b"%d" % number)
            run("create", at(str(count)), "-q", "-r", "1")
            took.append(min(seconds("verify", at(f"{count}.rsv")) for _ in range(3)))
    if took[1] > 8 * took[0]:
        wrong(f"verify of 5000 and of 20000 files takes {took[0]:.2f} s and {took[1]:.2f} s")


def known_files():
    """`update` and `create --force` read a file that has not changed twice, and not three times: once to compare it with the old volume, and
    once for its blocks. The new volume is the same as without the old one."""
    with Folder() as at:
        size = 50_000
        for name in ("a", "b"):
            write(at("d", name), RANDOM.randbytes(size))
        run("create", at("d"), "-q", "--block", "4096")
        write(at("d", "c"), RANDOM.randbytes(size))
        made = ("--block", "4096", "-r", "3", "-q")
        run("create", at("d"), "-o", at("new.rsv"), *made)
        old, new = read(at("d.rsv")), read(at("new.rsv"))
        for words in (("update", at("d.rsv"), *made), ("create", at("d"), *made, "--force")):
            for name in ("a", "b", "c"):
                for last, status in ((size + size // 2, 4), (2 * size, 0)):
                    write(at("d.rsv"), old)
                    limited = preloaded("change_reads", READ_NAME=f"/d/{name}", READ_LAST=last)
                    if limited is None:
                        return
                    run(*words, status=status, env=limited)
                    if read(at("d.rsv")) != (old if status else new):
                        wrong(f"{words[0]} that reads {last} bytes of {name} gives another volume")


TESTS = (killed_twice, removed_in_order, mended_volume, leftovers, two_runs, folders_synced, damaged_everywhere, no_room, bounded, linear, known_files)
