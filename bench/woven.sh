#!/usr/bin/env bash
# Times the reading and flattening of woven texts of 16 MiB, with the peak of memory: a thread of labels and jumps, one of 4,096
# locals, as many as a source may have, and one of atomic sections that call a helper, each before a schedule of one entry.
set -euo pipefail
. "$(dirname "$0")/measure.sh"
work=$(mktemp -d)
trap 'rm -rf "$work"' EXIT
cd "$work"

awk -v size=16777216 '
    function put(name, text) { printf "%s", text > name; return length(text) }
    function begin(name) { return put(name, "/* goto-mm 1 tso 1 */\nint nondet_wm();\nint x = 0;\n") }
    function end(name) { put(name, "  return 0;\n}\n%%\nschedule 1\nstep 0\nend\n") }
    BEGIN {
        n = begin("jumps.c") + put("jumps.c", "int main(void) {\n  int wm_r0;\n")
        for (i = 0; n < size - 200; i++)
            n += put("jumps.c", "  wm_" i ": if (!(wm_r0 == 0)) goto wm_" int(i / 2) ";\n")
        end("jumps.c")
        n = begin("locals.c") + put("locals.c", "int main(void) {\n")
        for (i = 0; i < 4096; i++) n += put("locals.c", "  int wm_r" i ";\n")
        for (i = 0; n < size - 200; i++) n += put("locals.c", "  wm_" i ": wm_r" i % 4096 " = wm_r" i * 7 % 4096 ";\n")
        end("locals.c")
        n = begin("sections.c")
        n += put("sections.c", "void wm_flush(void) {\n  int wm_n;\n  wm_n = nondet_wm();\n  while (wm_n != 0) {\n    x = x + wm_n;\n    wm_n = nondet_wm();\n  }\n}\n")
        n += put("sections.c", "int main(void) {\n")
        for (i = 0; n < size - 400; i++)
            n += put("sections.c", "  wm_" i ": __CPROVER_atomic_begin();\n  wm_flush();\n  x = " i ";\n  __CPROVER_atomic_end();\n")
        end("sections.c")
    }'
for name in jumps locals sections; do
    "$goto_mm" replay --mm sc < $name.c > answer || true
    echo "$name, $(wc -c < $name.c) bytes: $(measured $name.c "$goto_mm" replay --mm sc), $(head -c 60 answer)"
done
