#!/usr/bin/env bash
# Times `replay` on a schedule of 10,000,000 entries beside a plain C program of the same machines. Not part of the gate.
#
# Eight threads run one loop that loads and stores a shared variable. Each takes eight turns at a time, and with buffers its eight
# pending stores are then flushed. Both programs read the schedule whole and take its entries; the plain one has the goto program as
# a table and knows neither names nor limits.
set -eu
. "$(dirname "$0")/measure.sh"
here=$(cd "$(dirname "$0")" && pwd)
work=$(mktemp -d)
trap 'rm -rf "$work"' EXIT

threads=8
turns=8

# The program, and a schedule of so many bursts by the model.
input() {
    echo 'int x;'
    echo 'void *turn(void *none) {'
    echo '  int k = 0; int s = 0;'
    echo '  while (k < 1000000) { s = x + k; s = s ^ (s << 3); k = k + 1; x = s; }'
    echo '  return 0;'
    echo '}'
    echo 'int main(void) {'
    echo '  pthread_t t1, t2, t3, t4, t5, t6, t7, t8;'
    for ((t = 1; t <= threads; t++)); do echo "  pthread_create(&t$t, 0, turn, 0);"; done
    printf '  return 0;\n}\n%%%%\nschedule 1\nsteps 0 %d\n' "$threads"
    for ((t = 1; t <= threads; t++)); do echo "steps $t 2"; done
    awk -v model="$1" -v bursts="$2" -v threads="$threads" -v turns="$turns" 'BEGIN {
        for (i = 0; i < bursts; i++) {
            t = i % threads + 1
            print "steps", t, 7 * turns
            for (k = 0; k < turns && model != "sc"; k++) print (model == "tso") ? "flush " t : "flush " t " 0"
        }
    }'
    echo end
}

cc -O2 -o "$work/plain" "$here/plain_replay.c"
for model in sc tso pso; do
    if [ "$model" = sc ]; then words=(replay --mm sc); bursts=178571; else words=(replay --mm "$model" --bound "$turns"); bursts=156249; fi
    input "$model" "$bursts" >"$work/input"
    [ "$("$goto_mm" "${words[@]}" <"$work/input")" = "$("$work/plain" "$model" "$turns" <"$work/input")" ]
    echo "$model goto-mm: $(measured "$work/input" "$goto_mm" "${words[@]}")"
    echo "$model plain C: $(measured "$work/input" "$work/plain" "$model" "$turns")"
done
