"""Prints the processor time of each crate's proof, of its tests' proof and of its edits, while CI
runs.

    ci_times.py PID

It looks once a second at the processes below PID, until a signal ends it, or PID ends. Then it
prints a table. It does not see what a process took in its last second, so the table is a little
short of the truth. It reads /proc alone. If that cannot be read, it prints nothing.
"""

import os
import signal
import sys
import time

PARTS = ("proof", "tests", "edits")
WIDTH = 25  # of a crate's name
TICKS = os.sysconf("SC_CLK_TCK")


class Process:
    """What /proc tells of a process; `took` has also the time of children that it waited for."""

    def __init__(self, pid):
        with open(f"/proc/{pid}/stat", encoding="utf-8", errors="replace") as it:
            name, _, rest = it.read().partition("(")[2].rpartition(")")
        words = rest.split()
        self.pid, self.name, self.above, self.began = pid, name, int(words[1]), words[19]
        self.took = sum(map(int, words[11:15])) / TICKS


def processes():
    """All processes, by number."""
    found = {}
    for it in os.listdir("/proc"):
        if it.isdigit():
            try:
                found[int(it)] = Process(int(it))
            except (OSError, IndexError, ValueError):
                pass
    return found


def chain(found, pid):
    """The process and those above it."""
    while pid in found:
        yield found[pid]
        pid = found[pid].above


def task_of(pid):
    """Which crate a process checks, and for what; None where it checks none."""
    with open(f"/proc/{pid}/cmdline", encoding="utf-8", errors="replace") as it:
        words = it.read().split("\0")
    if "--crate-name" not in words[:-1]:
        return None
    crate = words[words.index("--crate-name") + 1]
    if "--only" in words:
        return crate, "edits"
    return crate, "tests" if "--test" in words else "proof"


class Times:
    """What each check below a process took so far."""

    def __init__(self, top):
        self.top, self.tasks, self.seen = top, {}, {}

    def look(self):
        """Looks at all processes once. Answers whether CI still runs."""
        found, now = processes(), {}
        for it in found.values():
            above = list(chain(found, it.pid))
            if not any(one.pid == self.top for one in above[1:]):
                continue
            checks = [one for one in above if one.name == "rattle"]
            if checks:
                key = checks[-1].pid, checks[-1].began
                now[key] = now.get(key, 0.0) + it.took
        for key, took in now.items():
            if key not in self.tasks:
                try:
                    self.tasks[key] = task_of(key[0])
                except (OSError, IndexError):
                    continue
            self.seen[key] = max(took, self.seen.get(key, 0.0))
        return self.top in found

    def table(self):
        """The lines of the table: a crate in each, in the order in which they were seen."""
        sums = {}
        for key, took in self.seen.items():
            if self.tasks.get(key):
                crate, part = self.tasks[key]
                sums.setdefault(crate, dict.fromkeys(PARTS, 0.0))[part] += took
        if not sums:
            return []
        both = {part: sum(it[part] for it in sums.values()) for part in PARTS}
        rows = [line(crate, it) for crate, it in {**sums, "together": both}.items()]
        head = f"{'processor minutes':<{WIDTH}}" + "".join(f"{it:>9}" for it in (*PARTS, "all"))
        return [head, *rows]


def line(crate, times):
    seconds = (*times.values(), sum(times.values()))
    return f"{crate:<{WIDTH}}" + "".join(f"{it / 60:>9.1f}" for it in seconds)


def main(top):
    ends = []
    signal.signal(signal.SIGTERM, lambda *_: ends.append(True))
    times = Times(int(top))
    while not ends and times.look():
        time.sleep(1)
    if times.table():
        print("\n".join(times.table()))


if __name__ == "__main__":
    main(*sys.argv[1:])
