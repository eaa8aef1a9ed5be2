#!/usr/bin/env bash
# Times the reading of 16 MiB of program text, of comments and of one-character tokens, and of a program at the limit of
# instructions, with the peak of memory; and gcc and clang with -fsyntax-only on the two programs. The texts have
# no main or too many sites, so `instrument` reads them whole, to the tree, and refuses them then.
set -euo pipefail
. "$(dirname "$0")/measure.sh"
work=$(mktemp -d)
trap 'rm -rf "$work"' EXIT
cd "$work"

awk -v size=16777216 '
    function put(name, text) { printf "%s", text > name; return length(text) }
    BEGIN {
        comment = "/* a comment that goes on for\n   two lines */ // and one more\n"
        for (n = 0; n < size - 100;) n += put("comments.c", comment)
        for (n = 0; n < size - 10;) n += put("marks.c", "(;){,}[+]-")
        put("limit.c", "int x, y;\nint main(void) {\n")
        for (i = 0; i < 8191; i++) put("limit.c", "  x = y;\n")
        put("limit.c", "  return 0;\n}\n")
        n = put("program.c", "int x, y;\n")
        for (i = 0; n < size - 300; i++)
            n += put("program.c", "void *p" i "(void *arg) {\n  x = 1;\n  int r = y;\n  if (r == 0 && x != 0x7f) { y = (r << 2) + 31; }\n  /* then */ y = r >= 0; // last\n  return 0;\n}\n")
    }'
for name in limit program comments marks; do
    echo "goto-mm, $name, $(wc -c < $name.c) bytes: $(measured $name.c "$goto_mm" instrument --mm tso --bound 1)"
done
for compiler in gcc clang; do
    for name in limit program; do
        echo "$compiler -fsyntax-only, $name: $(measured $name.c "$compiler" -fsyntax-only -x c -)"
    done
done
