"""What the benches with a load of their own share: servers that are started here, and `load.c`, which is compiled and run."""

import functools
import json
import os
import pwd
import socket
import statistics
import subprocess
import sys
import tempfile
import time

HERE = os.path.dirname(os.path.abspath(__file__))
GARNETD = os.path.join(os.path.dirname(os.path.dirname(HERE)), "crates", "garnetd", "out", "garnetd")
TICK = os.sysconf("SC_CLK_TCK")
PROGRAMS = tempfile.TemporaryDirectory(prefix="garnetd-load-")
# The units of load.c that memcached has, by the name of the same unit of the others.
OF_MEMCACHED = {"get": "mcget", "set": "mcset", "incr": "mcincr", "append": "mcappend", "mget10": "mcget10"}
# The servers that were started and not stopped.
running = []


class Server:
    """A server that was started, with its port."""

    def __init__(self, name, process, port, units=None):
        self.name, self.process, self.port, self.units = name, process, port, units
        running.append(self)

    def unit(self, name):
        """What load.c calls this unit for this server, or None where it has no such command."""
        return name if self.units is None else self.units.get(name)

    def cpu(self):
        """The user and system time that the process has used, in seconds."""
        return times_of(f"/proc/{self.process.pid}/stat")

    def resident(self):
        """The resident memory of the process, in bytes."""
        with open(f"/proc/{self.process.pid}/status") as status:
            line = next(line for line in status if line.startswith("VmRSS"))
        return int(line.split()[1]) * 1024

    def threads(self):
        """What each thread has used, by its number: its name, times in seconds and nanoseconds, and how often it was switched."""
        told = {}
        for thread in sorted(os.listdir(f"/proc/{self.process.pid}/task"), key=int):
            try:
                told[thread] = thread_at(f"/proc/{self.process.pid}/task/{thread}")
            except FileNotFoundError:
                pass
        return told

    def stop(self):
        if self in running:
            running.remove(self)
        self.process.terminate()
        self.process.wait()


def read(path):
    with open(path) as file:
        return file.read()


def times_of(stat):
    """The user and system time in a `stat` of /proc, in seconds."""
    fields = read(stat).rpartition(")")[2].split()
    return int(fields[11]) / TICK, int(fields[12]) / TICK


def thread_at(folder):
    user, system = times_of(f"{folder}/stat")
    switches = sum(int(line.split()[1]) for line in read(f"{folder}/status").splitlines() if "ctxt_switches" in line)
    nanoseconds = int(read(f"{folder}/schedstat").split()[0])
    return {"name": read(f"{folder}/comm").strip(), "user": user, "system": system, "ns": nanoseconds, "sw": switches}


def stop_all():
    for server in list(running):
        server.stop()


def begin(words, **how):
    """Starts a program that does not get what is typed, and not its Ctrl-C either: stop_all ends it."""
    quiet = {"stdin": subprocess.DEVNULL, "stdout": subprocess.DEVNULL, "stderr": subprocess.DEVNULL, **how}
    return subprocess.Popen(words, start_new_session=True, **quiet)


def free_port():
    with socket.socket() as probe:
        probe.bind(("127.0.0.1", 0))
        return probe.getsockname()[1]


def stands_in(path):
    """Whether this program is a redis-server in garnetd's place, to try a bench without a built garnetd."""
    return os.path.basename(path) == "redis-server"


def start_garnetd(name, path, *options):
    if stands_in(path):
        return start_redis(name, path)
    process = begin([path, "--port", "0", "--accept", "1000000", *options], stdout=subprocess.PIPE, text=True)
    line = process.stdout.readline()
    if not line.startswith("listening on 127.0.0.1:"):
        sys.exit(f"{path} did not start with {options}: {line}")
    return Server(name, process, int(line.rpartition(":")[2]))


def start_redis(name="redis", path="redis-server"):
    port = free_port()
    return answering(name, port, begin([path, "--port", str(port), "--bind", "127.0.0.1", "--save", "", "--appendonly", "no"], cwd="/tmp"))


def start_memcached(name="memcached"):
    port, user = free_port(), pwd.getpwuid(os.getuid()).pw_name
    words = ["memcached", "-t", "4", "-m", "4096", "-l", "127.0.0.1", "-p", str(port), "-u", user]
    return answering(name, port, begin(words), OF_MEMCACHED)


def answering(name, port, process, units=None):
    """The server of this process, as soon as it accepts connections."""
    for _ in range(200):
        try:
            socket.create_connection(("127.0.0.1", port)).close()
            return Server(name, process, port, units)
        except OSError:
            time.sleep(0.03)
    process.terminate()
    sys.exit(f"{process.args[0]} did not start")


@functools.cache
def program(name):
    """Compiles a C program of this folder, and gives its path."""
    path = os.path.join(PROGRAMS.name, name)
    subprocess.run(["cc", "-O2", "-pthread", "-o", path, os.path.join(HERE, f"{name}.c")], check=True)
    return path


class LoadFailed(Exception):
    """load.c ended without figures."""


def load(server, clients, deep, seconds, unit, keys, size=3, prefix="key:"):
    """One run of load.c: what it tells, with the server's user and system time for a unit in microseconds."""
    words = [program("load"), *map(str, (server.port, clients, deep, seconds, server.unit(unit), keys, size)), prefix]
    before = server.cpu()
    try:
        done = subprocess.run(words, stdin=subprocess.DEVNULL, capture_output=True, text=True, timeout=seconds + 60)
    except subprocess.TimeoutExpired as why:
        raise LoadFailed("no end") from why
    after = server.cpu()
    if done.returncode:
        raise LoadFailed(done.stderr.strip())
    told = json.loads(done.stdout)
    for at, name in enumerate(("user", "system")):
        told[name] = (after[at] - before[at]) / max(1, told["units"]) * 1e6
    return told


def turns(servers, rounds, run):
    """Runs each server once a round, who goes first changing from round to round: the runs that came to an end, by the servers' names."""
    runs = {server.name: [] for server in servers}
    for number in range(rounds):
        for server in servers if number % 2 == 0 else servers[::-1]:
            told = run(server)
            if told:
                runs[server.name].append(told)
    return runs


def median(runs, key):
    return statistics.median(run[key] for run in runs) if runs else float("nan")


def ratios(ours, theirs):
    """Our requests a second to theirs, round by round."""
    return [our["rate"] / max(1, their["rate"]) for our, their in zip(ours, theirs)]
