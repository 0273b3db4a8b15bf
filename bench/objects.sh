#!/usr/bin/env bash
# Times one frame of one operation on a pool of objects: a key that is set, a counter that gets one more. Each is
# admitted to a pool with a root and one object, and to one with as much as a pool may hold: 2,000 objects, among them
# 1,000 maps of 10 cells each. The map and the counter are alike in both, so the ratio says what the rest of the pool
# costs; it is wanted at 1.5 at most. Then one map of 2,000 cells, one of 9,000, which is heavier than an object may be,
# so that its sets are applied without being judged, a full pool that refuses one more object, a page of 4 objects, and
# all of a full pool told anew. Then the memory of a full pool. Where valgrind is there, it also counts the instructions,
# which other work on the machine does not change. A number after its name makes the timed runs so much longer or
# shorter. Nothing depends on the figures.
set -eu
cd "$(dirname "$0")/.."
program=crates/bench_objects/out/bench_objects
[ -x "$program" ] || { echo "build it first: cd crates/bench_objects && rt run -- sets 1 10 0 1" >&2; exit 1; }
python3 - "$program" "${1:-1}" <<'PYTHON'
import re, resource, shutil, subprocess, sys, time
program, factor = sys.argv[1], float(sys.argv[2])
valgrind = ["valgrind", "--tool=cachegrind", "--cache-sim=no", "--cachegrind-out-file=/dev/null"]

# for each kind of work: its word; how many maps, cells of each map and counters the pool has; how often it is done
plans = {
    "frames alone": ("frames", 1, 10, 0, 400000),
    "sets, root and one map": ("sets", 1, 10, 0, 400000),
    "sets, a full pool": ("sets", 1000, 10, 999, 400000),
    "incs, root and one counter": ("incs", 0, 0, 1, 400000),
    "incs, a full pool": ("incs", 1000, 10, 999, 400000),
    "sets, one map of 1,600 cells": ("sets", 1, 1600, 0, 400000),
    "sets applied, 10 cells": ("applies", 1, 10, 0, 400000),
    "sets applied, 9,000 cells": ("applies", 1, 9000, 0, 400000),
    "creates, refused": ("creates", 1000, 10, 999, 400000),
    "pages of 4 objects": ("pages", 1000, 10, 999, 20000),
    "2,000 objects told": ("tellings", 1000, 10, 999, 20),
}

def words(work, maps, cells, counters, count):
    return [program, work] + [str(number) for number in (maps, cells, counters, count)]

# the time of the processor, which other work changes less than the time that passes
def timed(*plan):
    before = resource.getrusage(resource.RUSAGE_CHILDREN)
    ended = subprocess.run(words(*plan), stdout=subprocess.PIPE, check=True)
    after = resource.getrusage(resource.RUSAGE_CHILDREN)
    done, refused = (int(number) for number in re.findall(rb"\d+", ended.stdout)[:2])
    assert done == plan[4] and refused == (done if plan[0] == "creates" else 0), (plan, ended.stdout)
    return after.ru_utime + after.ru_stime - before.ru_utime - before.ru_stime

# the best of five runs less the best of five in which it is done no time, of all kinds in turn
def seconds_each():
    some = {name: [] for name in plans}
    none = {name: [] for name in plans}
    for _ in range(5):
        for name, (*plan, count) in plans.items():
            count = max(1, int(count * factor))
            some[name].append(timed(*plan, count) / count)
            none[name].append(timed(*plan, 0) / count)
    return {name: max(1e-12, min(some[name]) - min(none[name])) for name in plans}

def counted(*plan):
    ended = subprocess.run(valgrind + words(*plan), stdout=subprocess.DEVNULL, stderr=subprocess.PIPE, check=True)
    return int(re.search(rb"refs: +([\d,]+)", ended.stderr).group(1).replace(b",", b""))

def instructions_each():
    rounds = {name: min(2000, count) for name, (*_, count) in plans.items()}
    return {name: (counted(*plan, rounds[name]) - counted(*plan, 0)) / rounds[name] for name, (*plan, _) in plans.items()}

# the most memory that a run holds, in bytes, looked at while it goes on
def memory(*plan):
    most, running = 0, subprocess.Popen(words(*plan), stdout=subprocess.DEVNULL)
    while running.poll() is None:
        try:
            found = re.search(r"VmHWM:\s+(\d+)", open(f"/proc/{running.pid}/status").read())
        except OSError:
            break
        most = max(most, 1024 * int(found.group(1)) if found else 0)
        time.sleep(0.01)
    running.wait()
    return most

def print_ratios(each, unit):
    frame = each["frames alone"]
    for name, full, small in (
        ("a set", "sets, a full pool", "sets, root and one map"),
        ("an increment", "incs, a full pool", "incs, root and one counter"),
        ("a set of a map of 1,600 cells", "sets, one map of 1,600 cells", "sets, root and one map"),
        ("a set applied to 9,000 cells", "sets applied, 9,000 cells", "sets applied, 10 cells"),
    ):
        ratio, alone = each[full] / each[small], (each[full] - frame) / max(1e-12, each[small] - frame)
        print(f"{unit}: {name} takes {ratio:.2f} times as many as in the small pool, and without the making of the frame {alone:.2f} times")

seconds = seconds_each()
instructions = instructions_each() if shutil.which("valgrind") else {}
print("what                                a second    ns each  instructions each")
for name, each in seconds.items():
    told = f"{instructions[name]:.0f}" if instructions else "-"
    print(f"{name:31} {1 / each:12.0f} {1e9 * each:10.1f} {told:>18}")
print_ratios(seconds, "nanoseconds")
if instructions:
    print_ratios(instructions, "instructions")
full, none = memory("frames", 1000, 10, 999, 1000000), memory("frames", 0, 0, 0, 1000000)
print(f"memory: a run with a full pool, and with what told it, holds at most {full / 1e6:.1f} MB, one with an empty pool {none / 1e6:.1f} MB")
PYTHON
