#!/usr/bin/env bash
# Times reading and writing a MESSAGE frame with 200 and with 60,000 characters of data, and an OBJECT frame with 2 and
# with 600 operations, and prints for each kind
# of data how many frames and bytes a second there are, and how much longer a byte takes in the long frame than in
# the short one. Nothing depends on the figures.
set -eu
cd "$(dirname "$0")/.."
program=crates/bench_frames/out/bench_frames
[ -x "$program" ] || { echo "build it first: cd crates/bench_frames && rt run -- read letters 1 1" >&2; exit 1; }
python3 - "$program" "${1:-1}" <<'P'
import subprocess, sys, time
program, factor = sys.argv[1], float(sys.argv[2])

def once(way, kind, count, rounds):
    start = time.perf_counter()
    ended = subprocess.run([program, way, kind, str(count), str(rounds)], stdout=subprocess.PIPE, check=True)
    return time.perf_counter() - start, int(ended.stdout.split()[0])

# the time of all rounds less that of none, the best of three
def timed(way, kind, count, rounds):
    runs = [once(way, kind, count, rounds) for _ in range(3)]
    none = min(once(way, kind, count, 0)[0] for _ in range(3))
    return min(took for took, _ in runs) - none, runs[0][1]

print("way    data      characters  frames/s     bytes/s  ns/byte")
for way in ("read", "write"):
    for kind in ("letters", "quotes", "controls", "accents", "operations"):
        each = []
        for count, rounds in ((2, 50000), (600, 250)) if kind == "operations" else ((200, 50000), (60000, 250)):
            rounds = max(1, int(rounds * factor))
            took, read = timed(way, kind, count, rounds)
            each.append(took / read)
            print(f"{way:6} {kind:9} {count:10} {rounds / took:9.0f} {read / took:11.0f} {1e9 * took / read:8.2f}")
        print(f"{way:6} {kind:9} a byte of the long frame takes {each[1] / each[0]:.2f} times as long")
P
