"""Tests of `rs_files` on a system that fails: reads, writes, disks, memory and permissions that fail, and programs that are killed."""
import hashlib
import json
import os
import resource
import shutil
import signal
import subprocess
import sys
import tempfile
import time

from files_common import PROGRAM, RANDOM, Folder, ended, as_nobody, bodies, preloaded, printed, read, run, skipped, tree, write, wrong


def reads():
    """Short and interrupted reads change nothing. A block that cannot be read counts as damaged, and the others are still read."""
    if preloaded("change_reads") is None:
        return
    with Folder() as at:
        block = 512
        write(at("set", "a"), RANDOM.randbytes(40 * block))
        write(at("set", "b"), RANDOM.randbytes(700))
        before = tree(at("set"))
        create = ("create", at("set"), "-o", at("set.rsv"), "--block", str(block), "-r", "10", "-q")
        run(*create)
        volume = read(at("set.rsv"))
        for most in (1, 7, 1000):
            run(*create, "--force", env=preloaded("change_reads", READ_NAME="/set/a", READ_MOST=most))
            if read(at("set.rsv")) != volume:
                wrong("short reads of a file give another volume")
            run("verify", at("set.rsv"), status=0, env=preloaded("change_reads", READ_NAME="set.rsv", READ_MOST=most))
        os.remove(at("set", "b"))
        run("repair", at("set.rsv"), "-q", env=preloaded("change_reads", READ_NAME="set.rsv", READ_MOST=3))
        if tree(at("set")) != before:
            wrong("short reads of a volume restore another file")
        # blocks 3, 4 and 5 of a cannot be read
        unreadable = preloaded("change_reads", READ_NAME="/set/a", READ_FROM=3 * block + 100, READ_TO=5 * block + 10)
        found = json.loads(printed("verify", at("set.rsv"), "--json", status=1, env=unreadable)[0])
        if found["lost_blocks"] != 3 or [file["state"] for file in found["files"]] != ["damaged", "whole"]:
            wrong(f"verify of a file that cannot be read everywhere: {found}")
        run("restore", at("set.rsv"), "--to", at("new"), "-q", env=unreadable)
        if tree(at("new")) != {"set/a": before["a"]}:
            wrong("a file that cannot be read everywhere is not restored")
        text = run(*create[:3], at("other.rsv"), *create[4:], status=4, env=unreadable)
        if f"rs_files: {at('set', 'a')}: Input/output error (os error 5)\n" not in text or read(at("set.rsv")) != volume or tree(at("set")) != before:
            wrong(f"create from a file that cannot be read everywhere: {text}")
        unreadable = preloaded("change_reads", READ_NAME="set.rsv", READ_FROM=bodies(volume)[1], READ_TO=bodies(volume)[1] + 1)
        found = json.loads(printed("verify", at("set.rsv"), "--json", status=1, env=unreadable)[0])
        if found["whole_recovery_blocks"] != 9 or found["lost_blocks"] != 0:
            wrong(f"verify of a volume that cannot be read everywhere: {found}")


def lost_later():
    """A block that was found, and cannot be read when it is needed: the program names the file or the volume that holds it, and the block."""
    if preloaded("change_reads") is None:
        return
    with Folder() as at:
        block, files = 512, {"a": RANDOM.randbytes(20 * 512), "b": RANDOM.randbytes(20 * 512)}
        for name, data in files.items():
            write(at("set", name), data)
        run("create", at("set"), "--block", str(block), "-r", "10", "-q")
        os.remove(at("set", "b"))
        write(at("set", "b"), files["b"][:7 * block] + bytes(block) + files["b"][8 * block:])
        before = tree(at())
        repair = ("restore", at("set.rsv"), "--to", at("new"))

        def limited(name, last):
            """Repairs while no more than so many bytes of a file can be read. Returns what is printed if this fails, and otherwise None."""
            status, text = ended(*repair, env=preloaded("change_reads", READ_NAME=name, READ_LAST=last))
            shutil.rmtree(at("new"), ignore_errors=True)
            if tree(at()) != before:
                wrong("repair without a block that was found changed a file")
            return text if status != 0 else None

        # The first pass reads all bytes of a file. The last bytes of the volume that are read are those of its first block.
        low, high = 0, 1 << 20
        while high - low > 1:
            middle = (low + high) // 2
            low, high = (low, middle) if limited("/set.rsv", middle) is None else (middle, high)
        for name, last, number in (("/set/a", 20 * block + 5 * block, 5), ("/set/b", 20 * block, 20), ("/set.rsv", low, 40)):
            text = limited(name, last)
            if text is None or f"rs_files: {at()}{name}: block {number} cannot be read: Input/output error (os error 5)\n" not in text:
                wrong(f"repair without a block that was found in {name}: {text}")


def pieces():
    """Blocks that are coded in many pieces: the volumes are the same, and the files come back."""
    with Folder() as at:
        write(at("set", "a"), RANDOM.randbytes(5000))
        write(at("set", "b"), RANDOM.randbytes(700))
        before = tree(at("set"))
        small = ("--memory", "1")
        run("create", at("set"), "-q", "--block", "1000", "-r", "3")
        volume = read(at("set.rsv"))
        run("create", at("set"), "-q", "--block", "1000", "-r", "3", "--force", *small)
        run("split", at("set"), "-n", "3", "-o", at("v"), "-q", "--block", "1000")
        run("split", at("set"), "-n", "3", "-o", at("w"), "-q", "--block", "1000", *small)
        if read(at("set.rsv")) != volume or tree(at("v")) != tree(at("w")):
            wrong("volumes that are coded in small pieces")
        run("restore", at("w", "volume0001.rsv"), at("w", "volume0003.rsv"), "--to", at("new"), "-q", *small)
        os.remove(at("set", "b"))
        write(at("set", "a"), before["a"][:2000] + bytes(2000) + before["a"][4000:])
        run("restore", at("set.rsv"), "--to", at("other"), "-q", *small)
        if tree(at("new", "set")) != before or tree(at("other", "set")) != before:
            wrong("files that are restored in small pieces")


def unwritten():
    """A block that cannot be written: `create` and `split` name the volume and the block, and `repair` names the file."""
    with Folder() as at:
        write(at("d", "a"), RANDOM.randbytes(10 * 512))
        made = ("--block", "512")
        run("create", at("d"), "-q", *made, "-r", "4")
        run("split", at("d"), "-n", "2", "-o", at("v"), "-q", *made)
        places = {"x.rsv": bodies(read(at("d.rsv")))[2], "volume0002.rsv": bodies(read(at("v", "volume0002.rsv")))[2]}
        for words, name, number in ((("create", at("d"), "-o", at("x.rsv"), "-r", "4"), "x.rsv", 12), (("split", at("d"), "-n", "2", "-o", at()), "volume0002.rsv", 5)):
            # The third record of a volume
            failing = preloaded("fail_calls", FAIL_WRITE=f"/{name}.rs_files.part", FAIL_FROM=places[name])
            if failing is None:
                return
            text = run(*words, *made, status=4, env=failing)
            if f"rs_files: {at(name)}: block {number} cannot be written: No space left on device (os error 28)\n" not in text or os.path.exists(at(name)):
                wrong(f"{words[0]} without room for a block: {text}")
        if sorted(os.listdir(at())) != ["d", "d.rsv", "v"]:
            wrong(f"a block that cannot be written left {os.listdir(at())}")


def changes():
    """A file that changes while it is read: the program says so, and finishes no file."""
    if preloaded("change_reads") is None:
        return
    with Folder() as at:
        data = RANDOM.randbytes(20000)
        write(at("a"), data)
        text = run("create", at("a"), "--block", "512", status=4, env=preloaded("change_reads", READ_NAME="/a", READ_GROWS=1))
        if "changed while it was read" not in text or os.path.exists(at("a.rsv")):
            wrong(f"create from a file that changes: {text}")
        write(at("a"), data)
        run("create", at("a"), "--block", "512", "-q", "--force")
        write(at("a"), data[:-600])
        changing = preloaded("change_reads", READ_NAME="/a", READ_AFTER=len(data))
        text = run("repair", at("a.rsv"), status=4, env=changing)
        if f"{at('a')}: its restored bytes do not have their digest: a file changed while it was read" not in text or read(at("a")) != data[:-600] or os.path.exists(at("a.damaged")):
            wrong(f"repair of a file that changes: {text}")
        run("repair", at("a.rsv"), "-q")
        if read(at("a")) != data:
            wrong("repair after a file changed")


def requests(words, refused=None):
    """Runs the program, of which one request for memory is refused. Returns the status, the error and the number of requests."""
    with tempfile.NamedTemporaryFile() as counted:
        more = {} if refused is None else {"REFUSED": refused}
        env = preloaded("refuse_memory", **more)
        done = subprocess.run([PROGRAM, *words], env=env, stdout=subprocess.DEVNULL, stderr=subprocess.PIPE, timeout=300, pass_fds=(3,),
                              preexec_fn=lambda: os.dup2(counted.fileno(), 3))
        return done.returncode, done.stderr.decode(errors="replace"), int(read(counted.name).split()[0])


def memory_refused():
    """Requests for memory fail, one in each run: the program says so and ends with status 4, and no file is lost or half there."""
    if preloaded("refuse_memory") is None:
        return
    with Folder() as at:
        data = RANDOM.randbytes(3000)
        damaged = data[:1000] + b"?" + data[1001:]

        def put(content):
            # A volume holds the time of the file, so each run must see the same time.
            write(at("a"), content)
            os.utime(at("a"), (1, 1))

        put(data)
        run("create", at("a"), "-q", "--block", "256", "-r", "4")
        volume = read(at("a.rsv"))
        for words in (("create", at("a"), "-q", "--block", "256", "-r", "4", "--force"), ("verify", at("a.rsv")), ("repair", at("a.rsv"), "-q")):
            put(data if words[0] == "create" else damaged)
            count = requests(words)[2]
            expected = 1 if words[0] == "verify" else 0
            for number in sorted({*range(1, 4), *range(4, count + 1, max(1, count // 40)), count}):
                put(data if words[0] == "create" else damaged)
                status, text, _ = requests(words, number)
                if status not in (4, expected) or status == 4 and not text:
                    wrong(f"{words[0]} with request {number} of {count} for memory refused ends with status {status}: {text}")
                files = tree(at())
                kept = files.get("a.damaged", files["a"])
                if read(at("a.rsv")) != volume or kept != (data if words[0] == "create" else damaged):
                    wrong(f"{words[0]} with request {number} for memory refused loses a file")
                if status == 0 and words[0] == "repair" and files["a"] != data:
                    wrong("repair with a request for memory refused restores another file")
                if any(".part" in name for name in files):
                    wrong(f"{words[0]} with request {number} for memory refused leaves {sorted(files)}")
                if "a.damaged" in files:
                    os.remove(at("a.damaged"))


def kill(took, *words):
    """Runs the program and kills it at a random moment of the time that it takes."""
    child = subprocess.Popen([PROGRAM, *words])
    time.sleep(RANDOM.random() * took)
    child.send_signal(signal.SIGKILL)
    child.wait()


def only(folder, *names):
    """Removes everything else from a folder."""
    for name in os.listdir(folder):
        if name not in names:
            path = os.path.join(folder, name)
            shutil.rmtree(path) if os.path.isdir(path) else os.remove(path)


def timed(*words, **options):
    """Runs the program, and returns the seconds that it takes."""
    start = time.time()
    run(*words, **options)
    return time.time() - start


def killed():
    """The program is killed at random moments: inputs stay, no file is half there, and the next run succeeds."""
    with Folder() as at:
        data = RANDOM.randbytes(30_000_000)
        write(at("a"), data)
        took = timed("create", at("a"), "-q")
        whole = read(at("a.rsv"))
        for _ in range(12):
            only(at(), "a")
            kill(took, "create", at("a"), "-q")
            if read(at("a")) != data or os.path.exists(at("a.rsv")) and read(at("a.rsv")) != whole:
                wrong("a kill left a volume that is not whole, or changed the file")
            create = ("create", at("a"), "-q", "--force")
            if os.path.exists(at("a.rsv.rs_files.part")):
                if at("a.rsv.rs_files.part") + ": another rs_files is writing this volume, or was killed" not in run(*create, status=4):
                    wrong("create after a kill does not name the part that is left")
                os.remove(at("a.rsv.rs_files.part"))
            run(*create)
            if read(at("a.rsv")) != whole:
                wrong("a run after a kill does not give the same volume")
        only(at(), "a", "a.rsv")
        damaged = bytearray(data)
        damaged[1_000_000] ^= 1
        for _ in range(8):
            write(at("a"), bytes(damaged))
            kill(took, "repair", at("a.rsv"), "-q")
            now = [read(at(name)) for name in ("a", "a.damaged") if os.path.exists(at(name))]
            if bytes(damaged) not in now or any(file not in (data, bytes(damaged)) for file in now):
                wrong("a kill during repair lost a file")
            run("repair", at("a.rsv"), "-q")
            if read(at("a")) != data:
                wrong("repair after a kill")
            only(at(), "a.rsv")


def killed_spread():
    """`split` and `restore` are killed at random moments: inputs stay, no file is half there, and the next run succeeds."""
    with Folder() as at:
        write(at("set", "a"), RANDOM.randbytes(20_000_000))
        write(at("set", "b"), RANDOM.randbytes(5_000_000))
        files = tree(at("set"))
        split = ("split", at("set"), "-n", "4", "-o", at("v"), "-q")
        took = timed(*split)
        volumes = tree(at("v"))
        for _ in range(10):
            only(at(), "set")
            kill(took, *split)
            found = tree(at("v"))
            if tree(at("set")) != files or any(data != volumes[name] for name, data in found.items() if ".part" not in name):
                wrong("a kill of split left a volume that is not whole, or changed a file")
            if any(".part" in name for name in found):
                text = run(*split, "--force", status=4)
                is_written = "volume0001.rsv.rs_files.part" not in found
                if ("rename each NAME.rs_files.part to NAME" if is_written else "delete all files NAME.rs_files.part of them, this one first") not in text or tree(at("v")) != found:
                    wrong(f"split after a kill does not say what to do with {sorted(found)}: {text}")
                for name in found:
                    if ".part" in name:
                        os.rename(at("v", name), at("v", name.removesuffix(".rs_files.part"))) if is_written else os.remove(at("v", name))
                if is_written and tree(at("v")) != volumes:
                    wrong("parts that split says are whole are not")
            run(*split, "--force")
            if tree(at("v")) != volumes:
                wrong("split after a kill does not give the same volumes")
        only(at("v"), *volumes)
        left = [at("v", name) for name in sorted(volumes)[1:]]
        restore = ("restore", *left, "--to", at("new"), "-q")
        took = timed(*restore)
        for _ in range(10):
            only(at(), "set", "v")
            kill(took, *restore)
            if tree(at("v")) != volumes or any(data != files[os.path.basename(name)] for name, data in tree(at("new")).items() if ".part" not in name):
                wrong("a kill of restore left a file that is not whole, or changed a volume")
            parts = [at("new", name) for name in tree(at("new")) if ".part" in name]
            said = run(*restore, "--force")
            if any(f"{path}: warning: " not in said for path in parts):
                wrong(f"restore after a kill does not name {parts}: {said}")
            if {name: data for name, data in tree(at("new", "set")).items() if ".part" not in name} != files:
                wrong("restore after a kill does not give the same files")


def read_only():
    """Files that their owner must not write are restored, with their permission bits, by a user who is not root."""
    with Folder() as at:
        data = {name: RANDOM.randbytes(5000) for name in ("a", "b", "c")}
        for name, mode in (("a", 0o444), ("b", 0o400), ("c", 0o644)):
            write(at("d", name), data[name])
            os.chmod(at("d", name), mode)
        nobody = as_nobody(at())
        run("create", at("d"), "-q", "--block", "512", "-r", "50", before=nobody)
        run("split", at("d"), "-o", at("v"), "-n", "3", "-q", before=nobody)
        for name in ("a", "b"):
            os.remove(at("d", name))
        write(at("d", "b"), data["b"][:-1] + b"?")
        as_nobody(at("d"))
        run("repair", at("d.rsv"), "-q", before=nobody)
        os.remove(at("v", "volume0002.rsv"))
        run("restore", at("v", "volume0001.rsv"), at("v", "volume0003.rsv"), "--to", at("j"), "-q", before=nobody)
        for folder in (at("d"), at("j", "d")):
            found = {name: (read(os.path.join(folder, name)), os.stat(os.path.join(folder, name)).st_mode & 0o777) for name in data}
            if found != {"a": (data["a"], 0o444), "b": (data["b"], 0o400), "c": (data["c"], 0o644)}:
                wrong(f"files without permission to write, in {folder}")


def unreadable():
    """A volume that cannot be read is reported. A file that must not be read is missing, and a message says why."""
    with Folder() as at:
        write(at("d", "a"), RANDOM.randbytes(5000))
        run("create", at("d"), "-q", "--block", "512", "-r", "20")
        write(at("copy.rsv"), bytes(1000))
        found = json.loads(run("verify", at("d.rsv"), at("copy.rsv"), "--json", status=1).splitlines()[0])
        if [(volume["name"], volume["state"]) for volume in found["volumes"]] != [(at("d.rsv"), "whole"), (at("copy.rsv"), "unreadable")]:
            wrong(f"a volume that cannot be read: {found}")
        os.chmod(at("d", "a"), 0)
        if at("d", "a") + ": Permission denied" not in run("verify", at("d.rsv"), status=1, before=as_nobody(at())):
            wrong("no message for a file that must not be read")


def closed_folder():
    """A folder of the set that must not be read: the program names it, and changes nothing."""
    with Folder() as at:
        write(at("d", "a"), RANDOM.randbytes(5000))
        write(at("d", "closed", "b"), RANDOM.randbytes(700))
        before = tree(at("d"))
        run("create", at("d"), "-q", "--block", "512", "-r", "20")
        volume = read(at("d.rsv"))
        nobody = as_nobody(at())
        os.chmod(at("d", "closed"), 0)
        for words, path in ((("create", at("d"), "-o", at("other.rsv")), at("d", "closed")), (("create", at("d"), "--force"), at("d", "closed")),
                            (("split", at("d"), "-n", "2", "-o", at("v")), at("d", "closed")), (("repair", at("d.rsv")), at("d", "closed", "b"))):
            text = run(*words, status=4, before=nobody)
            if path + ": Permission denied" not in text:
                wrong(f"{words[0]} with a folder that must not be read: {text}")
        if sorted(os.listdir(at())) != ["d", "d.rsv"] or read(at("d.rsv")) != volume:
            wrong("a set with a folder that must not be read left a file")
        out, error = printed("verify", at("d.rsv"), status=1, before=nobody)
        if "missing: d/closed/b\n" not in out or at("d", "closed", "b") + ": Permission denied" not in error:
            wrong(f"verify with a folder that must not be read: {out} {error}")
        os.chmod(at("d", "closed"), 0o700)
        if tree(at("d")) != before:
            wrong("a file of a folder that must not be read was changed")
        run("verify", at("d.rsv"), "-q")


def pipes():
    """A pipe in the place of a file counts as missing."""
    with Folder() as at:
        write(at("d", "a"), RANDOM.randbytes(5000))
        run("create", at("d"), "-q", "--block", "512", "-r", "20")
        os.remove(at("d", "a"))
        os.mkfifo(at("d", "a"))
        run("verify", at("d.rsv"), "-q", status=1)


def syncs():
    """A file is synced before it gets its final name, and its folder after that. The volumes of `split` get their names one after another."""
    with Folder() as at:
        log = at("log")
        logged = preloaded("log_syncs", SYNC_LOG=log)
        if logged is None:
            return
        data = RANDOM.randbytes(5000)
        write(at("a"), data)
        run("create", at("a"), "-q", "--block", "512", "-r", "20", env=logged)
        run("split", at("a"), "-o", at("v"), "-n", "3", "-q", env=logged)
        run("restore", at("v", "volume0001.rsv"), at("v", "volume0002.rsv"), "--to", at("j"), "-q", env=logged)
        write(at("a"), data[:-1] + b"?")
        run("repair", at("a.rsv"), "-q", env=logged)
        steps = [line.split("\t") for line in read(log).decode().splitlines()]
        renamed = [number for number, step in enumerate(steps) if step[0] == "rename"]
        if len(renamed) != 6:
            wrong(f"{len(renamed)} files got their final names, and not 6: {steps}")
        for number in renamed:
            before, after = steps[:number], [step for step in steps[number + 1:] if step[0] != "rename"]
            if ["sync", steps[number][1], ""] not in before or ["sync", os.path.dirname(steps[number][2]), ""] not in after[:2]:
                wrong(f"a file got its final name without syncs: {steps}")


def measured(words):
    """Returns the status of the program, the most KiB that were resident, and the processor time in seconds. A small process of its own
    starts the program, because the system counts the memory of the process that starts a program as the program's."""
    text = (
        "import os, subprocess, sys\n"
        "_, ended, used = os.wait4(subprocess.Popen(sys.argv[1:]).pid, 0)\n"
        "print(os.waitstatus_to_exitcode(ended), used.ru_maxrss, used.ru_utime + used.ru_stime)"
    )
    done = subprocess.run([sys.executable, "-c", text, PROGRAM, *words], stdout=subprocess.PIPE, check=True, text=True)
    ended, used, seconds = done.stdout.split()[-3:]
    return int(ended), int(used), float(seconds)


def memory():
    """A sparse file of 1 GiB, or of 5 GiB if RS_FILES_LARGE is set, is protected and repaired in little memory."""
    size = (5 if os.environ.get("RS_FILES_LARGE") else 1) << 30
    with Folder() as at:
        with open(at("a"), "wb") as out:
            out.truncate(size)
            out.seek(123_456_789)
            out.write(RANDOM.randbytes(1_000_000))
        digest = hashlib.file_digest(open(at("a"), "rb"), "sha256").digest()
        limit = 100 << 20
        for words in (("create", at("a"), "-q", "--memory", "64M"), ("repair", at("a.rsv"), "-q", "--memory", "64M")):
            if words[0] == "repair":
                with open(at("a"), "r+b") as out:
                    out.seek(123_500_000)
                    out.write(bytes(5000))
            ended, used, seconds = measured(words)
            print(f"files: {words[0]} of {size >> 30} GiB: {seconds:.0f} s of processor time, {used // 1024} MiB", flush=True)
            if ended != 0:
                wrong(f"{words} ended with {ended}")
            if used * 1024 > limit:
                wrong(f"{words[0]} used {used} KiB")
        if hashlib.file_digest(open(at("a"), "rb"), "sha256").digest() != digest:
            wrong("the sparse file was not restored")


def full():
    """A full disk: the program fails with a message, and no file has its final name."""
    if os.geteuid() != 0:
        return skipped("not root: a full disk")
    with Folder() as at:
        os.mkdir(at("disk"))
        if subprocess.run(["mount", "-t", "tmpfs", "-o", "size=1m", "none", at("disk")], stderr=subprocess.DEVNULL).returncode:
            return skipped("no tmpfs: a full disk")
        try:
            write(at("a"), RANDOM.randbytes(3_000_000))
            def message(path, *words):
                """Runs a command that fails, and checks that its message names the file for which there is no room."""
                text = run(*words, status=4)
                if path + ": " not in text or "No space left" not in text:
                    wrong(f"the message of {words} on a full disk: {text}")

            message(at("disk", "a.rsv"), "create", at("a"), "-o", at("disk", "a.rsv"), "-r", "100%")
            message(at("disk", "v", "volume0001.rsv"), "split", at("a"), "-o", at("disk", "v"), "-n", "2")
            if tree(at("disk")):
                wrong(f"a full disk has {sorted(tree(at('disk')))}")
            data = RANDOM.randbytes(400_000)
            write(at("disk", "b"), data)
            run("create", at("disk", "b"), "-o", at("b.rsv"), "-q", "--block", "512")
            write(at("disk", "b"), data[:-1] + bytes([data[-1] ^ 1]))
            write(at("disk", "filler"), bytes(500_000))
            before = tree(at("disk"))
            message(at("disk", "b"), "repair", at("b.rsv"), "--folder", at("disk"))
            if tree(at("disk")) != before:
                wrong("repair on a full disk changed a file, or left one")
            os.remove(at("disk", "filler"))
            run("repair", at("b.rsv"), "--folder", at("disk"), "-q")
            if read(at("disk", "b")) != data:
                wrong("repair after a disk was full")
            # A file for which there is no room does not stop the next one.
            write(at("d", "x"), RANDOM.randbytes(2_000_000))
            write(at("d", "y"), data[:50_000])
            run("create", at("d"), "-q", "-r", "100%")
            os.mkdir(at("none"))
            message(at("disk", "new", "d", "x"), "restore", at("d.rsv"), "--folder", at("none"), "--to", at("disk", "new"))
            if tree(at("disk", "new")) != {"d/y": data[:50_000]}:
                wrong("repair of a file beside one for which there is no room")
        finally:
            subprocess.run(["umount", at("disk")])


def limited():
    """No file may be longer than 64 KiB: the program fails with a message, and no file has its final name."""
    def limit():
        signal.signal(signal.SIGXFSZ, signal.SIG_IGN)
        resource.setrlimit(resource.RLIMIT_FSIZE, (65536, 65536))
    with Folder() as at:
        data = RANDOM.randbytes(200000)
        write(at("a"), data)
        if at("a.rsv") + ": " not in run("create", at("a"), "-r", "100%", status=4, before=limit) or os.listdir(at()) != ["a"]:
            wrong("create of a volume that is too long")
        run("create", at("a"), "-q", "-r", "100%", "--force")
        os.remove(at("a"))
        if at("a") + ": File too large" not in run("repair", at("a.rsv"), status=4, before=limit) or os.listdir(at()) != ["a.rsv"]:
            wrong("repair of a file that is too long")
        run("repair", at("a.rsv"), "-q")
        if read(at("a")) != data:
            wrong("repair after a file was too long")
        # The other files are restored.
        write(at("d", "a"), data)
        write(at("d", "b"), data[:50000])
        run("create", at("d"), "-q", "-r", "100%")
        os.remove(at("d", "a"))
        os.remove(at("d", "b"))
        if at("d", "a") + ": File too large" not in run("repair", at("d.rsv"), status=4, before=limit) or tree(at("d")) != {"b": data[:50000]}:
            wrong("repair of a file beside one that is too long")


TESTS = (reads, lost_later, pieces, unwritten, changes, memory_refused, killed, killed_spread, read_only, unreadable, closed_folder, pipes, syncs, memory, full, limited)
