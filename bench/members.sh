#!/usr/bin/env bash
# Times puts of one presence item into a channel in which 2 members stand, and into one in which as many stand as may: a
# put that updates a member, and one that lets a client enter or takes it away again. Prints for each how long a put
# takes, with the making of its body and without, and how much longer it takes with many members. Where valgrind is
# there, it also counts the instructions, which other work on the machine does not change. A number after its name
# makes the runs so much longer or shorter. Nothing depends on the figures; a ratio of at most 1.5 is wanted.
set -eu
cd "$(dirname "$0")/.."
program=crates/bench_members/out/bench_members
[ -x "$program" ] || { echo "build it first: cd crates/bench_members && rt run -- enters 2 1" >&2; exit 1; }
python3 - "$program" "${1:-1}" <<'P'
import re, resource, shutil, subprocess, sys
program, factor = sys.argv[1], float(sys.argv[2])
count = max(2, int(300000 * factor) // 2 * 2)
valgrind = ["valgrind", "--tool=cachegrind", "--cache-sim=no", "--cachegrind-out-file=/dev/null"]

# how many members stand before the puts: at most 2,000 may, and one enters
plans = {("bodies", 2): 2, ("updates", 2): 2, ("updates", 2000): 2000, ("enters", 2): 1, ("enters", 2000): 1999}

def words(work, members, puts):
    return [program, work, str(members), str(puts)]

# the time of the processor, which other work changes less than the time that passes
def timed(work, members, puts):
    before = resource.getrusage(resource.RUSAGE_CHILDREN)
    ended = subprocess.run(words(work, members, puts), stdout=subprocess.PIPE, check=True)
    after = resource.getrusage(resource.RUSAGE_CHILDREN)
    done = [int(word) for word in ended.stdout.split()[::2]]
    assert done == [puts, members], (work, members, done)
    return after.ru_utime + after.ru_stime - before.ru_utime - before.ru_stime

# the best of five runs less the best of five with no puts, of all kinds in turn
def seconds_each():
    some = {plan: [] for plan in plans}
    none = {plan: [] for plan in plans}
    for _ in range(5):
        for plan, members in plans.items():
            some[plan].append(timed(plan[0], members, count) / count)
            none[plan].append(timed(plan[0], members, 0) / count)
    return {plan: max(1e-12, min(some[plan]) - min(none[plan])) for plan in plans}

def counted(work, members, puts):
    ended = subprocess.run(valgrind + words(work, members, puts), stdout=subprocess.DEVNULL, stderr=subprocess.PIPE, check=True)
    return int(re.search(rb"refs: +([\d,]+)", ended.stderr).group(1).replace(b",", b""))

# of 2,000 puts, less those of none
def instructions_each():
    return {plan: (counted(plan[0], members, 2000) - counted(plan[0], members, 0)) / 2000 for plan, members in plans.items()}

def print_ratios(each, unit):
    body = each[("bodies", 2)]
    for work in ("updates", "enters"):
        few, many = each[(work, 2)], each[(work, 2000)]
        print(f"{unit}: {work} take {many / few:.2f} times as many at 2,000 members as at 2, "
              f"and without the making of the bodies {(many - body) / (few - body):.2f} times")

seconds = seconds_each()
instructions = instructions_each() if shutil.which("valgrind") else {}
print("what        members   a second    ns each  instructions each")
for plan, each in seconds.items():
    told = f"{instructions[plan]:.0f}" if instructions else "-"
    print(f"{plan[0]:10} {plan[1]:8} {1 / each:10.0f} {1e9 * each:10.1f} {told:>18}")
print_ratios(seconds, "nanoseconds")
if instructions:
    print_ratios(instructions, "instructions")
P
