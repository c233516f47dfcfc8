"""A Ceph cluster on the loopback of one machine: one monitor, one manager and some OSDs, without systemd.

All files are in one folder. The daemons are children of this process, are stopped by their process ids, and end if
this process ends.
"""
import ctypes
import json
import os
import signal
import socket
import subprocess
import time
import uuid
from pathlib import Path

import rados

LIBC = ctypes.CDLL(None)
POOL_OF_THE_MANAGER = "1."
NO_OSD = 2147483647

CONFIGURATION = """
[global]
fsid = {fsid}
mon_host = [v2:127.0.0.1:{port}]
auth_cluster_required = none
auth_service_required = none
auth_client_required = none
public_addr = 127.0.0.1
cluster_addr = 127.0.0.1
erasure_code_dir = {plugins}
run_dir = {folder}/run
admin_socket = {folder}/run/$name.asok
log_file = {folder}/log/$name.log
crash_dir = {folder}/crash
osd_erasure_code_plugins = jerasure lrc isa reed_solomon_simd
osd_crush_chooseleaf_type = 0
mon_osd_down_out_interval = 0
mon_osd_min_down_reporters = 1
mon_max_pg_per_osd = 1000
mon_warn_on_pool_no_redundancy = false
osd_pool_default_pg_autoscale_mode = off
rados_osd_op_timeout = 60
rados_mon_op_timeout = 60
[mon]
mon_data = {folder}/mon.$id
mon_initial_members = a
mon_data_avail_crit = 1
mon_data_avail_warn = 2
mon_allow_pool_delete = true
[mgr]
mgr_data = {folder}/mgr.$id
mgr_initial_modules =
mgr_stats_period = 2
[osd]
osd_data = {folder}/osd.$id
osd_objectstore = bluestore
bluestore_block_size = 2147483648
bluestore_block_db_create = false
bluestore_block_wal_create = false
bluestore_cache_autotune = false
bluestore_cache_size = 67108864
bluestore_fsck_on_mount = false
bdev_aio_max_queue_depth = 128
osd_op_num_shards = 2
osd_op_num_threads_per_shard = 1
osd_memory_target = 939524096
osd_heartbeat_interval = 2
osd_heartbeat_grace = 20
osd_max_backfills = 8
osd_recovery_max_active = 8
osd_recovery_sleep_hdd = 0
osd_recovery_sleep_ssd = 0
osd_max_scrubs = 4
osd_scrub_load_threshold = 100
osd_scrub_sleep = 0
osd_failsafe_full_ratio = 0.99
"""


class Failure(Exception):
    """A step of the test has failed."""


class TooSlow(Failure):
    """The machine has not done a step in its time."""


def end_with_parent():
    """Lets the kernel end a child when the thread that started it ends (PR_SET_PDEATHSIG)."""
    LIBC.prctl(1, signal.SIGKILL)


def free_port():
    """Returns a port of the loopback that nobody uses now."""
    with socket.socket() as one:
        one.bind(("127.0.0.1", 0))
        return one.getsockname()[1]


class Cluster:
    """The daemons, and the connection of a client to them."""

    def __init__(self, folder, plugins, osds):
        self.folder, self.plugins, self.number = Path(folder), plugins, osds
        self.begin = time.time()
        self.daemons = {}
        self.dead = set()
        self.client = None
        self.configuration = self.folder / "ceph.conf"
        for name in ("run", "log", "crash"):
            (self.folder / name).mkdir(parents=True)

    def say(self, text):
        """Prints a line with the seconds since the begin."""
        print(f"{time.time() - self.begin:5.0f} s: {text}", flush=True)

    def run(self, *words, limit=60):
        """Runs a program of Ceph, and returns what it prints."""
        done = subprocess.run(words, capture_output=True, text=True, timeout=limit, check=False,
                              env=dict(os.environ, CEPH_CONF=str(self.configuration)), preexec_fn=end_with_parent)
        if done.returncode:
            raise Failure(f"{' '.join(words)}: {done.stderr.strip()[-500:]}")
        return done.stdout

    def dead_end(self, text, starts, *words):
        """Starts a daemon that must end by itself within half a minute, until it has written this text.

        A daemon that ends at its start can end before the thread that writes its messages has written the last one.
        """
        for _ in range(starts):
            done = subprocess.run(words, stdout=subprocess.PIPE, stderr=subprocess.STDOUT, text=True, timeout=30,
                                  check=False, env=dict(os.environ, CEPH_CONF=str(self.configuration)),
                                  preexec_fn=end_with_parent)
            if done.returncode == 0:
                raise Failure(f"{' '.join(words)} ends with code 0: {done.stdout.strip()[-500:]}")
            if text in done.stdout:
                return
        raise Failure(f"{' '.join(words)} ends {starts} times without its reason: {done.stdout.strip()[-500:]}")

    def ask(self, prefix, *, manager=False, **words):
        """Sends a command to the monitor or the manager, and returns its answer and the text beside it."""
        command = json.dumps({"prefix": prefix, "format": "json", **words})
        send = self.client.mgr_command if manager else self.client.mon_command
        try:
            number, answer, text = send(command, b"")
        except rados.Error as error:
            raise Failure(f"{prefix}: {error}") from error
        if number:
            raise Failure(f"{prefix}: {text}")
        return json.loads(answer) if answer.strip() else text

    def wait(self, what, seconds, condition):
        """Waits until a condition is true. Fails after some seconds, or if a daemon has ended."""
        start = time.time()
        while not condition():
            for name, daemon in self.daemons.items():
                if daemon.poll() is not None:
                    raise Failure(f"{name} has ended with code {daemon.returncode}: {self.last_words(name)}")
            if time.time() - start > seconds:
                raise TooSlow(f"not in {seconds} s: {what}")
            time.sleep(0.5)
        self.say(f"{what} (after {time.time() - start:.0f} s)")

    def last_words(self, name):
        """Returns the lines of a daemon that say why it has ended."""
        lines = (self.folder / "log" / f"{name}.out").read_text(errors="replace").splitlines()
        told = [line for line in lines if "FAILED ceph_assert" in line or "reed_solomon_simd:" in line]
        return "; ".join(told[:3]) or "; ".join(lines[-3:])

    def start_daemon(self, name, *words):
        """Starts a daemon. Its output is in the folder `log`."""
        with open(self.folder / "log" / f"{name}.out", "ab") as out:
            self.daemons[name] = subprocess.Popen(
                ["nice", "-n", "10", *words], stdout=out, stderr=out, stdin=subprocess.DEVNULL,
                env=dict(os.environ, CEPH_CONF=str(self.configuration)), preexec_fn=end_with_parent)

    def stop_daemon(self, name, how=signal.SIGTERM):
        """Stops a daemon by its process id."""
        daemon = self.daemons.pop(name)
        if how:
            daemon.send_signal(how)
        try:
            daemon.wait(20)
        except subprocess.TimeoutExpired:
            daemon.kill()
            daemon.wait()

    def start(self):
        """Makes and starts the monitor, the manager and the OSDs."""
        fsid, port = str(uuid.uuid4()), free_port()
        self.configuration.write_text(CONFIGURATION.format(fsid=fsid, port=port, plugins=self.plugins,
                                                           folder=self.folder))
        monitors = str(self.folder / "monmap")
        self.run("monmaptool", "--create", "--fsid", fsid, "--addv", "a", f"[v2:127.0.0.1:{port}]", monitors)
        (self.folder / "mon.a").mkdir()
        (self.folder / "mgr.x").mkdir()
        self.run("ceph-mon", "--mkfs", "-i", "a", "--monmap", monitors)
        self.start_daemon("mon.a", "ceph-mon", "-f", "-i", "a")
        self.client = rados.Rados(conffile=str(self.configuration))
        self.client.connect(timeout=30)
        self.start_daemon("mgr.x", "ceph-mgr", "-f", "-i", "x")
        self.wait("the manager is active", 60, lambda: self.ask("mgr stat")["available"])
        for osd in range(self.number):
            self.make_osd(osd)
        self.wait_for_osds()

    def make_osd(self, osd):
        """Makes and starts an OSD."""
        (self.folder / f"osd.{osd}").mkdir()
        name = str(uuid.uuid4())
        self.ask("osd new", uuid=name, id=osd)
        self.run("ceph-osd", "-i", str(osd), "--mkfs", "--osd-uuid", name)
        self.start_osd(osd)

    def start_osd(self, osd):
        """Starts an OSD."""
        self.dead.discard(osd)
        self.start_daemon(f"osd.{osd}", "ceph-osd", "-f", "-i", str(osd))

    def stop_osds(self, osds, how=signal.SIGKILL):
        """Stops OSDs, and waits until the monitor knows it."""
        for osd in osds:
            self.stop_daemon(f"osd.{osd}", how)
            self.dead.add(osd)
        self.wait_for_osds()

    def wait_for_osds(self):
        """Waits until the OSDs that run are up, and no others."""
        number = self.number - len(self.dead)
        self.wait(f"{number} OSDs are up", 60, lambda: self.ask("osd stat")["num_up_osds"] == number)

    def groups(self):
        """Returns the placement groups of the pools of the test."""
        answer = self.ask("pg dump", manager=True, dumpcontents=["pgs"])
        return [group for group in answer["pg_stats"] if not group["pgid"].startswith(POOL_OF_THE_MANAGER)]

    def clean(self):
        """Returns whether all placement groups are active and clean, on OSDs that run."""
        groups = self.groups()
        gone = self.dead | {NO_OSD}
        return bool(groups) and all(group["state"] == "active+clean" and not gone & set(group["acting"])
                                    and group["up"] == group["acting"] for group in groups)

    def wait_until_clean(self, what="the placement groups are active and clean", seconds=150):
        """Waits until all placement groups are active and clean."""
        self.wait(what, seconds, self.clean)

    def scrub(self, what):
        """Lets all placement groups be scrubbed deeply, and returns those with errors and the number of errors."""
        before = {group["pgid"]: group["last_deep_scrub_stamp"] for group in self.groups()}
        asked = [0.0]

        def scrubbed():
            left = [group["pgid"] for group in self.groups()
                    if group["last_deep_scrub_stamp"] == before.get(group["pgid"])]
            # The manager's orders can get lost while the groups are busy.
            if left and time.time() - asked[0] > 20:
                asked[0] = time.time()
                for group in left:
                    self.ask("pg deep-scrub", manager=True, pgid=group)
            return not left

        self.wait(f"{what}: deep scrub of {len(before)} placement groups", 150, scrubbed)
        errors = {group["pgid"]: group["stat_sum"]["num_scrub_errors"] for group in self.groups()}
        self.say(f"{what}: {sum(errors.values())} scrub errors")
        return {group: number for group, number in errors.items() if number}

    def stop(self):
        """Ends the connection and all daemons."""
        if self.client:
            self.client.shutdown()
        for daemon in self.daemons.values():
            daemon.terminate()
        for name in list(self.daemons):
            self.stop_daemon(name, None)
        self.say("all daemons are stopped")
