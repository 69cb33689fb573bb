"""Hosts that do the jobs of a script: how each is reached, what runs there, and where a job that failed is done again.
tools/tournament and tools/verify_all use it.

A list of hosts, `[N/][SSH_COMMAND ]NAME,..`, is written as for GNU parallel. The name `:` is this machine. Others are
reached by ssh, by the command in PARALLEL_SSH, or by their own one.
"""

import contextlib
import os
import re
import shlex
import shutil
import signal
import subprocess
import threading
import time
from collections import Counter, deque
from concurrent.futures import ThreadPoolExecutor
from pathlib import Path

import needed

SIGNALS = (signal.SIGINT, signal.SIGTERM, signal.SIGHUP)
# With these ssh gives a host up after three intervals without an answer, and at the latest at the end of the fourth.
# They follow the options that the user gives, since ssh takes the first value of each.
SSH_OPTIONS = "-o ServerAliveInterval=15 -o ConnectTimeout=15".split()
NOT_REACHED = (126, 127, 255)  # statuses of a host that lacks a program, and of ssh if it fails or the program is killed
READY_SECONDS = 30  # for a host's answer to whether it can do jobs
END_SECONDS = 5  # for what runs on a host to end when it is asked to
# What a host runs to say whether it has these programs, and how many processors.
READY = """lacks=
for program; do command -v "$program" >/dev/null || lacks+=" $program"; done
[ "$lacks" ] && echo "it lacks$lacks" || echo "ready $(nproc)"
"""


# Signals, and what they end


def catch_signals(handler):
    """Gives the signals that end a script a handler, but for those that are ignored."""
    for number in SIGNALS:
        if signal.getsignal(number) != signal.SIG_IGN:
            signal.signal(number, handler)


class Stop:
    """Whether this script is to end: `at` is the moment at which it was first asked to, or None. All that runs on hosts
    is then asked to end, or killed (`kills`)."""

    def __init__(self):
        self.at, self.kills, self.runs = None, False, set()

    def now(self, kills=False):
        """Asks all that runs on hosts to end, or with `kills` kills it. What is started later is ended at once (by
        Run)."""
        self.at, self.kills = self.at or time.monotonic(), self.kills or kills
        for run in list(self.runs):
            self.end(run)

    def end(self, run):
        """Asks a command on a host to end, or kills it."""
        if self.kills:
            run.kill()
        else:
            run.ask_to_end()


STOP = Stop()


class Run:
    """A command that runs on a host, in a session of its own. What it started there ends when its standard input does,
    and thus with this process."""

    def __init__(self, words, output, errors):
        """Starts the command. `output` and `errors` take its standard output and error, as for Popen."""
        pipes = {"stdin": subprocess.PIPE, "stdout": output, "stderr": errors}
        self.process = subprocess.Popen(words, bufsize=0, start_new_session=True, **pipes)
        self.inputs = [self.process.stdin]
        STOP.runs.add(self)
        if STOP.at:
            STOP.end(self)

    def take_input(self):
        """Returns its standard input, to be written and closed; it can then no longer be asked to end."""
        return self.inputs.pop()

    def ask_to_end(self):
        """Asks it to end by closing its standard input, unless that was closed or taken before."""
        # A list gives each entry once, also to threads and a signal's handler.
        with contextlib.suppress(IndexError):
            self.inputs.pop().close()

    def end(self):
        """Asks it to end, and kills it if it doesn't."""
        self.ask_to_end()
        time.sleep(END_SECONDS)
        self.kill()

    def kill(self):
        """Kills its processes on this machine, if it has not ended."""
        with contextlib.suppress(ProcessLookupError):
            if self.process.returncode is None:
                os.killpg(self.process.pid, signal.SIGKILL)

    def wait(self):
        """Returns its status, once it has ended."""
        status = self.process.wait()
        self.ask_to_end()
        STOP.runs.discard(self)
        return status


def captured(words, seconds):
    """Returns what a command on a host writes to standard output and error; it is ended after so many seconds."""
    run = Run(words, subprocess.PIPE, subprocess.PIPE)
    watch = threading.Timer(seconds, run.end)
    watch.start()
    with run.process.stdout, run.process.stderr, ThreadPoolExecutor(1) as reader:
        errors = reader.submit(run.process.stderr.read)
        found = run.process.stdout.read(), errors.result()
    run.wait()
    watch.cancel()
    return tuple(text.decode("latin-1") for text in found)


# Hosts


class Host:
    """A host of a list: how many jobs it does at a time (0 if the list has no number), how it is reached, how many jobs
    it did, which failed there since one didn't, and why it was given up."""

    def __init__(self, label, slots=0):
        """Reads an entry of the list, such as `4/box1`; an entry without a number has so many slots."""
        number, rest = re.fullmatch(r"(?:(\d+)/)?(.*)", label, re.DOTALL).groups()
        *ssh, self.name = shlex.split(rest) or [""]
        self.label, self.slots, self.is_here = label, int(number or 0) or slots, self.name == ":"
        self.ssh = ssh or shlex.split(os.environ.get("PARALLEL_SSH", "")) or ["ssh"]
        if Path(self.ssh[0]).name == "ssh":
            self.ssh += SSH_OPTIONS
        self.done, self.failed, self.fault = 0, set(), None

    def command(self, words, path=""):
        """Returns what runs a command there. Its programs are looked up in this machine's PATH, after a part that is
        written for the host's shell."""
        if self.is_here:
            return words
        path += shlex.quote(os.environ["PATH"])
        return [*self.ssh, self.name, "--", f"exec env PATH={path} {shlex.join(words)}"]

    def trouble(self, programs):
        """Asks the host for programs; returns why it can't do jobs, or None. Sets the number of its slots if none was
        given."""
        if not self.is_here and not shutil.which(self.ssh[0]):
            return f"{self.ssh[0]} is no program that can be run"
        output, errors = captured(self.command(["bash", "-c", READY, "hosts", *programs]), READY_SECONDS)
        ready = re.search(r"(?m)^ready (\d+)$", output)
        if ready:
            self.slots = self.slots or int(ready[1])
            return None
        return " ".join((output + errors).split()) or "no answer"


def read_hosts(text, slots=0):
    """Reads a list of hosts; those without a number have so many slots."""
    try:
        hosts = [Host(part.strip(), slots) for part in text.split(",")]
    except ValueError:
        hosts = []  # A quote is open.
    if not hosts or not all(re.match("[^-]", host.name) for host in hosts):
        needed.stop(f"--hosts '{text}' is no list of hosts")
    return hosts


# Jobs


class Jobs:
    """Jobs that hosts do: each host has a thread for each job that it does at a time. A job that failed is done again,
    on a host where it failed least often. A class for each kind of jobs says by `do` what a host does for one."""

    def __init__(self, hosts):
        """Makes the threads, which begin at `start`. `serving` counts those that have not ended."""
        self.hosts, self.given_up = list(hosts), []
        self.waiting, self.running = deque(), {}  # the jobs that no host does, and those that one does, with the host
        self.tries, self.failures = Counter(), Counter()  # how often a job failed, and how often on a host
        self.changed = threading.Condition()  # its lock is for all of these
        self.threads = [threading.Thread(target=self.serve, args=[host]) for host in hosts for _ in range(host.slots)]
        self.serving = len(self.threads)

    def start(self):
        """Starts the threads."""
        for thread in self.threads:
            thread.start()

    def serve(self, host):
        """What each thread of a host runs. If it fails, the whole script is asked to end."""
        try:
            self.work(host)
        except BaseException:
            STOP.now()
            raise
        finally:
            with self.changed:
                self.serving -= 1
                self.changed.notify_all()

    def work(self, host):
        """Does jobs on a host, one after another."""
        while (job := self.take(host)) is not None:
            self.do(host, job)

    def take(self, host):
        """Waits until there is a job that the host should do, and returns it; returns None if there can be none any
        more, if the host was given up, or if the script is to end."""
        with self.changed:
            while not STOP.at and not host.fault and self.may_come():
                job = next((job for job in self.waiting if self.suits(host, job)), None)
                if job is not None:
                    self.waiting.remove(job)
                    self.running[job] = host
                    self.changed.notify_all()
                    return job
                self.changed.wait()
        return None

    def may_come(self):
        """Says whether there may be a job to do, now or later."""
        return self.waiting or self.running

    def suits(self, host, job):
        """Says whether a host should do a job now: one where it failed least often."""
        return self.failures[job, host] == min(self.failures[job, other] for other in self.hosts)

    def count_failure(self, host, job):
        """Counts that a job failed on a host."""
        self.tries[job] += 1
        self.failures[job, host] += 1

    def give_up(self, host, fault):
        """Gives a host no more jobs."""
        host.fault = fault
        self.hosts.remove(host)
        self.given_up.append(host)
