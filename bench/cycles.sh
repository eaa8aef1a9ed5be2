#!/usr/bin/env bash
# Times `cycles` for both models, with the peak of memory, on programs near 1,024 sites: store buffering in 15 threads, one variable
# that every site is of, computed indexes into one array of 240 cells, and copies of pointers.
set -euo pipefail
. "$(dirname "$0")/measure.sh"
work=$(mktemp -d)
trap 'rm -rf "$work"' EXIT
cd "$work"

awk '
    function put(name, text) { printf "%s", text > name }
    function main(name,    i) {
        put(name, "int main(void) {\n")
        for (i = 1; i <= 15; i++) put(name, "  pthread_t t" i ";\n")
        for (i = 1; i <= 15; i++) put(name, "  pthread_create(&t" i ", 0, p" i ", 0);\n")
        for (i = 1; i <= 15; i++) put(name, "  pthread_join(t" i ", 0);\n")
        put(name, "  return 0;\n}\n")
    }
    BEGIN {
        put("buffering.c", "int x, y")
        for (i = 1; i <= 15; i++) put("buffering.c", ", r" i)
        put("buffering.c", ";\n")
        put("variable.c", "int x;\n")
        put("array.c", "int a[240], r;\n")
        put("pointers.c", "int x, y, z, *u, *v, *w;\n")
        for (i = 1; i <= 15; i++) {
            put("buffering.c", "void *p" i "(void *q) {\n")
            for (k = 0; k < 22; k++) put("buffering.c", i % 2 ? "  x = 1; r" i " = y;\n" : "  y = 1; r" i " = x;\n")
            put("buffering.c", "  return 0;\n}\n")
            put("variable.c", "void *p" i "(void *q) {\n  int r;\n")
            for (k = 0; k < 33; k++) put("variable.c", "  x = " k "; r = x;\n")
            put("variable.c", "  return 0;\n}\n")
            put("array.c", "void *p" i "(void *q) {\n  int i = r;\n")
            for (k = 0; k < 32; k++) put("array.c", "  a[i + " k "] = i; i = a[i];\n")
            put("array.c", "  return 0;\n}\n")
            put("pointers.c", "void *p" i "(void *q) {\n  int *s = &x, *t = &y;\n")
            for (k = 0; k < 13; k++) put("pointers.c", "  u = s; t = v; *t = 1; w = t; s = w;\n")
            put("pointers.c", "  return 0;\n}\n")
        }
        main("buffering.c"); main("variable.c"); main("array.c"); main("pointers.c")
    }'
for name in buffering variable array pointers; do
    for model in tso pso; do
        "$goto_mm" cycles --mm $model --bound 1 < $name.c > answer
        count=$(grep -o '"site":' answer | wc -l || true)
        echo "$name, $model, $(grep -o '"sites":[0-9]*' answer), $count buffered: $(measured $name.c "$goto_mm" cycles --mm $model --bound 1)"
    done
done
