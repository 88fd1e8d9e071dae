#!/bin/sh
# The time, the instructions, and the number of evaluations and divisions of
#   12       `whole_roots` of n^11*(n - R) with R = 2^90 + 1, about the largest whose differences are in bounds
#   8        `whole_roots` of n^7*(n - R) with R = 2^100 + 1
#   factors  `linear_factors` of a polynomial of degree 8, with five factors of slopes 1 to 4
# Wanted: under 5 ms each. The program is bench/roots.txt.
. "$(dirname "$0")/crates.sh"
copied timed roots "ring_laws poly_generic whole_roots" ring_solver ring_laws poly_laws poly_generic poly_divide whole_roots
built timed roots 12 0

# Calls are counted in a second program, in which these two functions stay functions.
cp -r "$work/timed" "$work/counted" || exit 1
sed -i 's/^pub fn sign_at/#[inline(never)]\n&/' "$work/counted/crates/whole_roots/src/signs.rt"
sed -i 's/^pub fn divide_by_linear/#[inline(never)]\n&/' "$work/counted/crates/poly_divide/src/forms.rt"
built counted roots 12 0

exec python3 - "$work" <<'PY'
import re, statistics, subprocess, sys, time

work = sys.argv[1]

def program(folder):
    return "%s/%s/crates/roots/out/roots" % (work, folder)

def seconds(way, count):
    start = time.perf_counter()
    subprocess.run([program("timed"), way, str(count)], check=True)
    return time.perf_counter() - start

def profiled(folder, way, count):
    tool = ["valgrind", "--tool=callgrind", "--callgrind-out-file=%s/calls" % work]
    return subprocess.run(tool + [program(folder), way, str(count)], check=True, capture_output=True, text=True)

def instructions(way, count):
    return int(re.search(r"Collected : (\d+)", profiled("timed", way, count).stderr).group(1))

# how often each function is called, by a part of its name
def calls(way, wanted):
    profiled("counted", way, 1)
    names, counts, called = {}, {}, None
    for line in open(work + "/calls"):
        name = re.match(r"c?fn=\((\d+)\)(?: (.*))?", line)
        if name and name.group(2):
            names[name.group(1)] = name.group(2)
        if name and line.startswith("cfn"):
            called = name.group(1)
        if line.startswith("calls="):
            counts[called] = counts.get(called, 0) + int(line[6:].split()[0])
    return [sum(count for key, count in counts.items() if word in names[key]) for word in wanted]

for way in ("12", "8", "factors"):
    length = statistics.median((seconds(way, 40) - seconds(way, 0)) / 40 for _ in range(9))
    counted = instructions(way, 2) - instructions(way, 1)
    values, divisions = calls(way, ["signs::sign_at", "forms::divide_by_linear"])
    print("%-7s  %6.2f ms  %6.2f million instructions  %5d evaluations  %3d divisions" % (way, length * 1e3, counted / 1e6, values, divisions))
PY
