#!/usr/bin/env bash
# Finds how much of the stack the whole tool takes, flattening included: for each form of statement, of which 198 stand one within
# another, for expressions of 500 parentheses and of 790 signs, and for 64 calls that nest, each within so many blocks of the function
# before; as LLVM builds the program and, where the gate has built it so, as Rattle's own compiler does. It tells the least stack with
# which the tool ends, and its exit status: 9 where the tool itself says that the stack is used up.
set -euo pipefail
. "$(dirname "$0")/measure.sh"
work=$(mktemp -d)
trap 'rm -rf "$work"' EXIT
cd "$work"

python3 - "$goto_mm" <<'PY'
import os, resource, subprocess, sys

END = "%%\nschedule 1\nend\n"

def nested(front, back, times=198):
    return "int x; int main(void) { " + front * times + ";" + back * times + " return 0; }\n" + END

def calls(blocks):
    text = "int x;\n"
    for i in range(63, -1, -1):
        inner = f"f{i + 1}();" if i < 63 else "x = 1;"
        text += f"void f{i}(void) {{ " + "{ " * blocks + inner + " }" * blocks + " }\n"
    return text + "int main(void) { f0(); return 0; }\n" + END

TEXTS = {
    "block": nested("{ ", " }", 190),
    "while": nested("while (x) ", ""),
    "do": nested("do ", " while (x);").replace("; while (x);", "; while (x);", 1),
    "for": nested("for (; x; ) ", ""),
    "then": nested("if (x) ", ""),
    "else": nested("if (x) ; else ", ""),
    "parenthesis": "int x; int main(void) { x = " + "(" * 500 + "x" + ")" * 500 + "; return 0; }\n" + END,
    "sign": "int x; int main(void) { x = " + "- " * 790 + "x; return 0; }\n" + END,
    "64 calls": calls(0),
    "64 calls within 20 blocks": calls(20),
    "64 calls within 190 blocks": calls(190),
}

def status(program, text, kilobytes):
    def limit():
        resource.setrlimit(resource.RLIMIT_STACK, (kilobytes * 1024, kilobytes * 1024))
    child = subprocess.run([program, "replay", "--mm", "sc"], input=text.encode(), capture_output=True, preexec_fn=limit)
    return child.returncode

for program in [sys.argv[1], sys.argv[1] + ".by-rattle"]:
    if not os.path.exists(program):
        continue
    for name, text in TEXTS.items():
        wanted = status(program, text, 8192)
        low, high = 16, 8192
        while low + 4 < high:
            mid = (low + high) // 2
            if status(program, text, mid) == wanted:
                high = mid
            else:
                low = mid
        print(f"{os.path.basename(program)}, {name}: {high} KiB, status {wanted}")
PY
