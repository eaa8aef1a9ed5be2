#!/usr/bin/env bash
# Times names and types, with the peak of memory, beside gcc with -fsyntax-only on the same text: 16 MiB of declarations, of
# statements over them and of local variables, 5,000 functions of which each calls those around it, and 65,536 cells. The
# programs make sense and pass a limit, so `instrument` looks at their names and refuses them then.
set -euo pipefail
. "$(dirname "$0")/measure.sh"
work=$(mktemp -d)
trap 'rm -rf "$work"' EXIT
cd "$work"

awk -v size=16777216 '
    function put(name, text) { printf "%s", text > name; return length(text) }
    BEGIN {
        for (n = i = 0; n < size - 100; i++) n += put("globals.c", "int x" i ";\n")
        put("globals.c", "int main(void) { return 1; }\n")
        n = put("uses.c", "int x, *p;\nint main(void) {\n")
        while (n < size - 100) n += put("uses.c", "x = x + *p; p = &x; { int y = x, *q = p; q = p; x += y; }\n")
        put("uses.c", "return 1; }\n")
        n = put("locals.c", "int main(void) {\n")
        for (i = 0; n < size - 200; i++)
            n += put("locals.c", i % 100 ? "int x" i % 100 " = 0;\n" : "return 1; }\nvoid f" i / 100 "(void) {\n")
        put("locals.c", "}\n")
        for (i = 0; i < 5000; i++) put("calls.c", "void f" i "(void) { " (i + 1 < 5000 ? "f" i + 1 "(); " : "") (i + 7 < 5000 ? "f" i + 7 "(); " : "") (i + 900 < 5000 ? "f" i + 900 "(); " : "") "}\n")
        put("calls.c", "int main(void) { f0(); return 1; }\n")
        for (i = 0; i < 256; i++) put("cells.c", "int a" i "[256];\n")
        put("cells.c", "int main(void) { return 1; }\n")
    }'
for name in globals uses locals calls cells; do
    echo "goto-mm, $name, $(wc -c < $name.c) bytes: $(measured $name.c "$goto_mm" instrument --mm tso --bound 1)"
    echo "gcc -fsyntax-only, $name: $(measured $name.c gcc -w -fsyntax-only -x c -)"
done
