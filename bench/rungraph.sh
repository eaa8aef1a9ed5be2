#!/usr/bin/env bash
# Times the run graph of a run of 10,000,000 entries, with the peak of memory, and tells whether it stays within 3 GB and a minute. Not
# part of the gate. It times the program of `crates/mm_rungraph_examples`, which `rt run` there builds: it reads the case, makes the
# graph and counts its edges.
#
# In "stores" eight threads run one loop that loads and stores a shared variable; each takes eight turns at a time, and its eight pending
# stores are then flushed. In "loads" one thread stores and seven load, so that a step has about three edges: those from the write that
# a load reads and to the write that comes next, and the one in its thread.
set -euo pipefail
here=$(cd "$(dirname "$0")" && pwd)
program=$here/../crates/mm_rungraph_examples/out/mm_rungraph_examples
[ -x "$program" ] || { echo "build the program first, by rt run in crates/mm_rungraph_examples" >&2; exit 1; }
work=$(mktemp -d)
trap 'rm -rf "$work"' EXIT
threads=8
turns=8

# the head of a case: its title and machine, the loop's body, and main
head() {
    printf '# %s\n%s 8 counts\nint x;\n' "$1" "$2"
    printf 'void *turn(void *none) {\n  int k = 0; int s = 0;\n  while (k < 1000000) { %s }\n  return 0;\n}\n' "$3"
    printf 'void *write(void *none) {\n  int k = 0;\n  while (k < 1000000) { x = k; k = k + 1; }\n  return 0;\n}\n'
    printf 'int main(void) {\n  pthread_t t1, t2, t3, t4, t5, t6, t7, t8;\n'
    for ((t = 1; t <= threads; t++)); do printf '  pthread_create(&t%d, 0, %s, 0);\n' $t "$([ "$1" = loads ] && [ $t = 1 ] && echo write || echo turn)"; done
    printf '  assert(0);\n  return 0;\n}\n%%%%\nschedule 1\nsteps 0 %d\n' $threads
}

# a run of eight threads that load and store
stores() {
    head stores "$1" 's = x + k; s = s ^ (s << 3); k = k + 1; x = s;'
    for ((t = 1; t <= threads; t++)); do echo "steps $t 2"; done
    awk -v model="$1" -v threads=$threads -v turns=$turns 'BEGIN {
        for (i = 0; i < 156249; i++) {
            t = i % threads + 1
            print "steps", t, 7 * turns
            for (k = 0; k < turns; k++) print (model == "tso") ? "flush " t : "flush " t " 0"
        }
    }'
    printf 'step 0\nend\n'
}

# a run of one thread that stores and seven that load, with 40 loads in a turn
loads() {
    local sum=x
    for ((k = 1; k < 40; k++)); do sum+=' + x'; done
    head loads "$1" "s = $sum; k = k + 1;"
    echo 'steps 1 1'
    for ((t = 2; t <= threads; t++)); do echo "steps $t 2"; done
    awk -v model="$1" -v threads=$threads 'BEGIN {
        for (i = 0; i < 31900; i++) {
            print "steps 1 4"
            for (t = 2; t <= threads; t++) print "steps", t, 44
            print (model == "tso") ? "flush 1" : "flush 1 0"
        }
    }'
    printf 'step 0\nend\n'
}

for kind in stores loads; do
    for model in tso pso; do
        $kind $model > "$work/case"
        python3 - "$program" "$work/case" "$model" <<'PY'
import os, subprocess, sys, time
begin = time.monotonic()
child = subprocess.Popen([sys.argv[1], sys.argv[2]], stdout=subprocess.PIPE, text=True)
told = child.stdout.read().splitlines()
_, status, used = os.wait4(child.pid, 0)
took = time.monotonic() - begin
fits = status == 0 and took < 60 and used.ru_maxrss < 3 * 1024 * 1024 and told[2:3] == ["failed 1"]
print(f"{sys.argv[3]}, {' '.join(told[:1])[2:]}: {took:.1f} s, {used.ru_maxrss / 1024:.0f} MB, {told[-1]}{'' if fits else ' DOES NOT FIT'}")
PY
    done
done
