#!/bin/sh
# The time and the instructions of
#   pieces  `pieces_of` of binomial(n,k)^6 at the order 6
#   normal  the same, and `normal_form` of those pieces
# Wanted: under 0.2 ms for `pieces`. The program is bench/pieces.txt.
. "$(dirname "$0")/crates.sh"
copied timed pieces "ring_laws steps poly_generic poly_fraction hypergeometric lin_form proper_term gosper_form" \
    ring_solver ring_laws poly_laws steps poly_generic poly_fraction hypergeometric lin_form term_pieces proper_term gosper_form
built timed pieces normal 1

exec python3 - "$work" <<'PY'
import re, statistics, subprocess, sys, time

program = sys.argv[1] + "/timed/crates/pieces/out/pieces"

def seconds(way, count):
    start = time.perf_counter()
    subprocess.run([program, way, str(count)], check=True)
    return time.perf_counter() - start

def instructions(way, count):
    tool = ["valgrind", "--tool=callgrind", "--callgrind-out-file=/dev/null"]
    run = subprocess.run(tool + [program, way, str(count)], check=True, capture_output=True, text=True)
    return int(re.search(r"Collected : (\d+)", run.stderr).group(1))

for way in ("pieces", "normal"):
    length = statistics.median((seconds(way, 400) - seconds(way, 0)) / 400 for _ in range(9))
    counted = instructions(way, 2) - instructions(way, 1)
    print("%-7s  %6.3f ms  %6.2f million instructions" % (way, length * 1e3, counted / 1e6))
PY
