#!/bin/sh
# Runs the gate, or that of the crates named, and prints the processor minutes of each crate: for its
# proof, its tests and its edits, the dearest first. What earlier runs kept is not counted again, so the
# first word `--anew` measures all from nothing. The gate's own lines go to the file $GATE_LOG. An
# interrupt ends the gate, and prints what was seen by then.
set -eu
cd "$(dirname "$0")/.."
exec python3 - "$@" <<'END'
import os, resource, signal, subprocess, sys, time

TICKS = os.sysconf("SC_CLK_TCK")
LOG = os.environ.get("GATE_LOG", "/tmp/gate.log")

def processes():
    """Each process: its parent, its processor seconds, when it began."""
    found = {}
    for name in filter(str.isdigit, os.listdir("/proc")):
        try:
            with open(f"/proc/{name}/stat") as file:
                fields = file.read().rsplit(")", 1)[1].split()
        except OSError:
            continue
        found[int(name)] = (int(fields[1]), (int(fields[11]) + int(fields[12])) / TICKS, fields[19])
    return found

def work_of(pid):
    """The crate that a process works on, and what for; nothing where its words don't say."""
    try:
        with open(f"/proc/{pid}/cmdline") as file:
            words = file.read().split("\0")
    except OSError:
        return None
    if "--crate-name" not in words[:-1]:
        return None
    crate = words[words.index("--crate-name") + 1]
    if any("edits" in word for word in words):
        return crate, "edits"
    return (crate, "tests") if "--test" in words else (crate, "proof")

def look(root, works, seconds):
    """Notes what the gate and all below it have used by now, and what for."""
    found, children = processes(), {}
    for pid, (parent, _, _) in found.items():
        children.setdefault(parent, []).append(pid)
    waiting = [(root, None)]
    while waiting:
        pid, above = waiting.pop()
        if pid in found:
            key = pid, found[pid][2]
            works[key] = work_of(pid) or works.get(key) or above
            seconds[key] = found[pid][1]
            waiting += [(child, works[key]) for child in children.get(pid, [])]

def main():
    works, seconds = {}, {}
    # also where the shell that started this in the background lets interrupts be ignored
    signal.signal(signal.SIGINT, signal.default_int_handler)
    with open(LOG, "w") as log:
        gate = subprocess.Popen(
            ["rt", "ci", *sys.argv[1:]],
            stdin=subprocess.DEVNULL, stdout=log, stderr=subprocess.STDOUT, start_new_session=True,
        )
        try:
            while gate.poll() is None:
                look(gate.pid, works, seconds)
                time.sleep(0.2)
        except KeyboardInterrupt:
            gate.terminate()
            gate.wait()
    table = {}
    for key, used in seconds.items():
        crate, phase = works[key] or ("(the rest)", "proof")
        row = table.setdefault(crate, {"proof": 0, "tests": 0, "edits": 0})
        row[phase] += used
    usage = resource.getrusage(resource.RUSAGE_CHILDREN)
    seen = sum(seconds.values())
    print(f"{'processor minutes':24} {'proof':>8} {'tests':>8} {'edits':>8} {'all':>8}")
    for crate, row in sorted(table.items(), key=lambda item: -sum(item[1].values())):
        times = [*row.values(), sum(row.values())]
        print(f"{crate:24}" + "".join(f" {used / 60:8.2f}" for used in times))
    print(f"seen {seen / 60:.1f} of {(usage.ru_utime + usage.ru_stime) / 60:.1f} minutes in all")
    print(f"status {gate.returncode}: " + open(LOG).read().rstrip().rsplit("\n", 1)[-1])
    return 0 if gate.returncode == 0 else 1

sys.exit(main())
END
