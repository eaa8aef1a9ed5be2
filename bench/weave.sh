#!/usr/bin/env bash
# Times `instrument`, with the peak of memory: store buffering with 5,000 fences in a thread, for TSO, and for both models a program of 16
# threads near 1,024 sites and 16,384 instructions, of which each thread has buffered stores.
set -euo pipefail
. "$(dirname "$0")/measure.sh"
work=$(mktemp -d)
trap 'rm -rf "$work"' EXIT
cd "$work"

awk '{ print } /r1 = y;/ { for (i = 0; i < 5000; i++) print "  __sync_synchronize();" }' \
    "$(dirname "$goto_mm")/../../../examples/store_buffering.c" > fences.c
awk '
    function put(text) { printf "%s", text > "limit.c" }
    BEGIN {
        put("int x, y")
        for (i = 1; i <= 15; i++) put(", r" i)
        put(";\n")
        for (i = 1; i <= 15; i++) {
            put("void *p" i "(void *q) {\n  int s = 0;\n")
            for (k = 0; k < 22; k++) put(i % 2 ? "  x = 1; r" i " = y;\n" : "  y = 1; r" i " = x;\n")
            for (k = 0; k < 970; k++) put("  s = s + " k ";\n")
            put("  return 0;\n}\n")
        }
        put("int main(void) {\n")
        for (i = 1; i <= 15; i++) put("  pthread_t t" i ";\n")
        for (i = 1; i <= 15; i++) put("  pthread_create(&t" i ", 0, p" i ", 0);\n")
        for (i = 1; i <= 15; i++) put("  pthread_join(t" i ", 0);\n")
        put("  return 0;\n}\n")
    }'
echo "5,000 fences, tso: $(measured fences.c "$goto_mm" instrument --mm tso --bound 1)"
for model in tso pso; do
    echo "at the limits, $model: $(measured limit.c "$goto_mm" instrument --mm "$model" --bound 8)"
done
