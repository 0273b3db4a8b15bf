#!/usr/bin/env bash
# Times the two ends of a connection. What a client hears: entries of 1 channel and of 100 channels in turn, and
# acknowledgements where 1 frame waits and where 1,000 do (each with a publish that takes the place of the frame that was
# acknowledged). What a session of the service does, with 1 channel and with 200 in turn: entries put out, and messages taken
# up, put and acknowledged. And a message all the way: published by a client, put by its session, the book and the channel,
# acknowledged and got, in one thread, with frames handed over as they are. Prints how long each takes, with the making of
# its frame and without, and how much longer it takes with many. Where valgrind is there, it also counts the instructions,
# which other work on the machine does not change. A number after its name makes the runs so much longer or shorter. Nothing
# depends on the figures; a ratio of at most 1.5 is wanted, and 50,000 messages a second all the way.
set -eu
cd "$(dirname "$0")/.."
for program in bench_client bench_actor; do
    [ -x "crates/$program/out/$program" ] || { echo "build it first: cd crates/$program && rt run -- entries 1 7" >&2; exit 1; }
done
python3 - "${1:-1}" <<'P'
import re, resource, shutil, subprocess, sys
factor = float(sys.argv[1])
count = max(200, int(200000 * factor) // 200 * 200)
valgrind = ["valgrind", "--tool=cachegrind", "--cache-sim=no", "--cachegrind-out-file=/dev/null"]
client, actor = ("crates/%s/out/%s" % (name, name) for name in ("bench_client", "bench_actor"))
plans = [(client, "made", 1), (client, "entries", 1), (client, "made", 100), (client, "entries", 100),
         (client, "acks", 1), (client, "acks", 1000),
         (actor, "made-entries", 1), (actor, "entries", 1), (actor, "made-entries", 200), (actor, "entries", 200),
         (actor, "made-messages", 1), (actor, "messages", 1), (actor, "made-messages", 200), (actor, "messages", 200),
         (actor, "through", 1)]

def words(program, work, size, times):
    return [program, work, str(size), str(times)]

# the time of the processor, which other work changes less than the time that passes
def timed(program, work, size, times):
    before = resource.getrusage(resource.RUSAGE_CHILDREN)
    ended = subprocess.run(words(program, work, size, times), stdout=subprocess.PIPE, check=True)
    after = resource.getrusage(resource.RUSAGE_CHILDREN)
    assert all(int(done) == times for done in re.findall(rb"(\d+) (?:done|acknowledged|got)", ended.stdout)), (work, size, ended.stdout)
    return after.ru_utime + after.ru_stime - before.ru_utime - before.ru_stime

# the best of five runs less the best of five in which it is done no time, of all kinds in turn
def seconds_each():
    some = {plan: [] for plan in plans}
    none = {plan: [] for plan in plans}
    for _ in range(5):
        for plan in plans:
            some[plan].append(timed(*plan, count) / count)
            none[plan].append(timed(*plan, 0) / count)
    return {plan: max(1e-12, min(some[plan]) - min(none[plan])) for plan in plans}

def counted(program, work, size, times):
    ended = subprocess.run(valgrind + words(program, work, size, times), stdout=subprocess.DEVNULL, stderr=subprocess.PIPE, check=True)
    return int(re.search(rb"refs: +([\d,]+)", ended.stderr).group(1).replace(b",", b""))

# of 2,000 times, less those of none
def instructions_each():
    return {plan: (counted(*plan, 2000) - counted(*plan, 0)) / 2000 for plan in plans}

# with many as with one: the whole, and without the making of the frame
def ratio(each, program, made, work, many):
    few, more = (each[(program, work, size)] - each[(program, made, size)] for size in (1, many))
    return f"{each[(program, work, many)] / each[(program, work, 1)]:.2f} times as many, and without the making of the frame {more / few:.2f} times"

def print_ratios(each, unit):
    print(f"{unit}: with 100 channels as with 1 a client's entry takes {ratio(each, client, 'made', 'entries', 100)}")
    print(f"{unit}: where 1,000 frames wait as where 1 does an acknowledgement and a publish take "
          f"{each[(client, 'acks', 1000)] / each[(client, 'acks', 1)]:.2f} times as many")
    print(f"{unit}: with 200 sessions as with 1 an entry put out takes {ratio(each, actor, 'made-entries', 'entries', 200)}")
    print(f"{unit}: with 200 sessions as with 1 a message taken up takes {ratio(each, actor, 'made-messages', 'messages', 200)}")

seconds = seconds_each()
instructions = instructions_each() if shutil.which("valgrind") else {}
print("what                   size    a second    ns each  instructions each")
for plan, each in seconds.items():
    print(f"{plan[0].split('_')[1].split('/')[0]:6} {plan[1]:13} {plan[2]:6} {1 / each:11,.0f} {each * 1e9:10,.0f}  {instructions.get(plan, 0):12,.0f}")
print_ratios(seconds, "time")
if instructions:
    print_ratios(instructions, "instructions")
P
