#!/usr/bin/env bash
# Times rlscript on scripts of 10,000 and 100,000 lines and on one of 16 MiB, and prints the seconds, the most
# memory, and the ratio of the first two. Nothing depends on the figures.
set -eu
cd "$(dirname "$0")/.."
program=crates/rlscript/out/rlscript
[ -x "$program" ] || { echo "build it first: make demo" >&2; exit 1; }
room=$(mktemp -d)
trap 'rm -rf "$room"' EXIT

# LINES TEXT-BYTES COMMENT-BYTES: one client, 1,000 published messages, the other lines settles and comments
script() {
  awk -v lines="$1" -v bytes="$2" -v wide="$3" 'BEGIN {
    text = sprintf("%*s", bytes, ""); gsub(/ /, "x", text)
    note = sprintf("%*s", wide, ""); gsub(/ /, "#", note)
    print "client A"; print "open A"; print "attach A room"; print "settle"
    each = int((lines - 4) / 1000)
    for (n = 5; n <= lines; n++) {
      if (published < 1000 && n % each == 0) { print "pub A room " text; published++ }
      else if (n % 2) print "settle"
      else print note
    }
  }'
}

timed() { # NAME FILE
  python3 - "$program" "$2" "$1" <<'P'
import resource, subprocess, sys, time
program, path, name = sys.argv[1:]
best = None
for _ in range(3):
    with open(path, "rb") as script:
        start = time.perf_counter()
        ended = subprocess.run([program], stdin=script, stdout=subprocess.DEVNULL)
        took = time.perf_counter() - start
    assert ended.returncode == 0, ended.returncode
    best = took if best is None else min(best, took)
most = resource.getrusage(resource.RUSAGE_CHILDREN).ru_maxrss // 1024
print(f"{best:.3f} {most}")
P
}

script 10000 200 20 > "$room/small"
script 100000 200 20 > "$room/large"
script 100000 4096 240 | head -c 16777216 > "$room/full"
for name in small large full; do
  read -r seconds megabytes <<< "$(timed "$name" "$room/$name")"
  printf '%s: %d lines, %d bytes: %s s, at most %s MB\n' "$name" "$(wc -l < "$room/$name")" "$(wc -c < "$room/$name")" "$seconds" "$megabytes"
  eval "$name=$seconds"
done
awk -v a="$small" -v b="$large" 'BEGIN { printf "ten times the lines take %.1f times as long\n", b / a }'
