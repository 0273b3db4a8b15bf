#!/usr/bin/env bash
# Times puts at an empty window, at a full one and after a million puts; joins, ticks and reads at a full window; and
# looks how much memory one channel takes at its limits. A put is one message of 100 bytes: 70 of data, and an id of 30
# that is its own. A hundred connections put in turn. Where valgrind is there, it also counts the instructions, which
# other work on the machine does not change. A number after its name makes the timed runs so much longer or shorter.
# Nothing depends on the figures.
set -eu
cd "$(dirname "$0")/.."
program=crates/bench_puts/out/bench_puts
[ -x "$program" ] || { echo "build it first: cd crates/bench_puts && rt run -- puts 1 0 1 70 30" >&2; exit 1; }
python3 - "$program" "${1:-1}" <<'P'
import os, re, resource, shutil, subprocess, sys, time
program, factor = sys.argv[1], float(sys.argv[2])
valgrind = ["valgrind", "--tool=cachegrind", "--cache-sim=no", "--cachegrind-out-file=/dev/null"]

# for each kind of work: its word, after how many puts it is done, and for the timed runs to how many channels and
# how often to each: 2,000 in one channel take too short a time, so those at a full window and after a million go on,
# and the first 2,000 are those of many channels
plans = {
    "puts at an empty window": ("puts", 0, 250, 2000),
    "puts at a full window": ("puts", 4096, 1, 500000),
    "puts after a million": ("puts", 1000000, 1, 500000),
    "bodies alone": ("bodies", 0, 1, 500000),
    "joins": ("joins", 4096, 1, 20000000),
    "ticks": ("ticks", 4096, 1, 20000000),
    "reads of 16 entries": ("reads", 4096, 1, 100000),
}

def words(work, channels, before, count, data=70, id=30):
    return [program, work] + [str(number) for number in (channels, before, count, data, id)]

# the time of the processor, which other work changes less than the time that passes, and how much was done
def timed(*plan):
    before = resource.getrusage(resource.RUSAGE_CHILDREN)
    ended = subprocess.run(words(*plan), stdout=subprocess.PIPE, check=True)
    after = resource.getrusage(resource.RUSAGE_CHILDREN)
    took = after.ru_utime + after.ru_stime - before.ru_utime - before.ru_stime
    return took, int(ended.stdout.split()[0])

# the best of five runs less the best of five in which it is done no time, of all kinds in turn; what a channel holds
# is freed at its end, which is within these times
def seconds_each():
    some = {name: [] for name in plans}
    none = {name: [] for name in plans}
    for _ in range(5):
        for name, (work, before, channels, count) in plans.items():
            count = max(1, int(count * factor))
            took, done = timed(work, channels, before, count)
            assert done == channels * count * (16 if work == "reads" else 1), (name, done)
            some[name].append(took / (channels * count))
            none[name].append(timed(work, channels, before, 0)[0] / (channels * count))
    return {name: max(1e-12, min(some[name]) - min(none[name])) for name in plans}

def counted(*plan):
    ended = subprocess.run(valgrind + words(*plan), stdout=subprocess.DEVNULL, stderr=subprocess.PIPE, check=True)
    return int(re.search(rb"refs: +([\d,]+)", ended.stderr).group(1).replace(b",", b""))

# of 2,000 in one channel, less those in which it is done no time
def instructions_each():
    return {name: (counted(work, 1, before, 2000) - counted(work, 1, before, 0)) / 2000
            for name, (work, before, _, _) in plans.items()}

def print_ratios(each, unit):
    empty, body = each["puts at an empty window"], each["bodies alone"]
    for name in ("puts at a full window", "puts after a million"):
        print(f"{unit}: {name} take {each[name] / empty:.2f} times as many as those at an empty one, "
              f"and without the making of the bodies {(each[name] - body) / (empty - body):.2f} times")

# the most memory that is resident while a channel is joined again and again after so many puts
def resident(puts):
    plan = words("joins", 1, puts, 200000000, 1728, 256)
    running = subprocess.Popen(plan, stdout=subprocess.PIPE)
    most = 0
    while running.poll() is None:
        with open(f"/proc/{running.pid}/statm") as sizes:
            most = max(most, int(sizes.read().split()[1]) * os.sysconf("SC_PAGE_SIZE"))
        time.sleep(0.002)
    return most, int(running.stdout.read().split()[2])

seconds = seconds_each()
instructions = instructions_each() if shutil.which("valgrind") else {}
print("what                          a second    ns each   2,000 take  instructions each")
for name, each in seconds.items():
    told = f"{instructions[name]:.0f}" if instructions else "-"
    print(f"{name:25} {1 / each:12.0f} {1e9 * each:10.1f} {2e6 * each:9.3f} ms {told:>18}")
print_ratios(seconds, "nanoseconds")
if instructions:
    print_ratios(instructions, "instructions")

# Entries weigh 64 more than their texts, so 4,096 of these weigh as much as a window may. The ids of the last 8,192
# entries are remembered: after 8,192 puts these are held, and after 16,384 twice as many, which is the most.
none, _ = resident(0)
print(f"a channel with no entry: {none / 1e6:.1f} MB are resident")
for puts in (8192, 16384, 200000):
    most, retained = resident(puts)
    print(f"after {puts} puts of 1,728 bytes of data and an id of 256 bytes: {retained} entries, {most / 1e6:.1f} MB")
P
