#!/bin/sh
# The time and the instructions of `solve` of the key equation of binomial(n,k)^p, p = 1..6, at the least order that is solved: 1, 1, 2, 2, 3, 3.
# The pieces, their normal form and the sides are made once, and aren't counted.
# Wanted: under 15 ms for p = 6, under 2 ms for p = 3. The program is bench/key.txt; the proof that its pieces have a quotient is that of
# the tests of key_equation.
. "$(dirname "$0")/crates.sh"
copied timed key "ring_laws poly_laws steps poly_generic form_rings reducing poly_fraction hypergeometric lin_form pole_laws \
proper_term gosper_form key_sides key_equation either" \
    ring_solver ring_laws poly_laws division_laws kernel_laws key_laws steps poly_generic form_rings poly_divide whole_roots reducing \
    fraction_free key_system poly_fraction hypergeometric lin_form term_pieces pole_laws gosper_theorem proper_term gosper_form \
    key_sides key_equation
proof=proofs/setting_of
mkdir -p "$work/timed/crates/key/$proof" || exit 1
sed 's/Rattle\.key_equation\.proofs\.tests\./Rattle.key.proofs./' "$here/crates/key_equation/proofs/tests/setting_of/Answers.antt" \
    >"$work/timed/crates/key/$proof/Answers.antt" || exit 1
built timed key 1 1

exec python3 - "$work/timed/crates/key/out/key" <<'PY'
import re, statistics, subprocess, sys, time

def command(power, count):
    return [sys.argv[1], str(power), str(count)]

def seconds(power, count):
    start = time.perf_counter()
    subprocess.run(command(power, count), check=True)
    return time.perf_counter() - start

def instructions(power, count):
    tool = ["valgrind", "--tool=callgrind", "--callgrind-out-file=/dev/null"]
    run = subprocess.run(tool + command(power, count), check=True, capture_output=True, text=True)
    return int(re.search(r"Collected : (\d+)", run.stderr).group(1))

for power, times in ((1, 400), (2, 400), (3, 40), (4, 40), (5, 4), (6, 4)):
    length = statistics.median((seconds(power, times) - seconds(power, 0)) / times for _ in range(9))
    counted = instructions(power, 2) - instructions(power, 1)
    print("p = %d  %7.2f ms  %7.2f million instructions" % (power, length * 1e3, counted / 1e6))
PY
