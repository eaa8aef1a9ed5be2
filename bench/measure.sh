# For the other scripts to source: the built program, and how a command is measured.

goto_mm=$(cd "$(dirname "${BASH_SOURCE[0]}")/.." && pwd)/crates/mm_tool/out/mm_tool
[ -x "$goto_mm" ] || { echo "build the program first, by a command of ./goto-mm" >&2; exit 1; }

# measured INPUT COMMAND..: the best time of three in milliseconds, and the peak of memory in megabytes, of the command on the
# input; its output is dropped
measured() {
    python3 - "$@" <<'PY'
import os, subprocess, sys, time
best, peak = None, 0
for _ in range(3):
    with open(sys.argv[1]) as text:
        begin = time.monotonic()
        child = subprocess.Popen(sys.argv[2:], stdin=text, stdout=subprocess.DEVNULL, stderr=subprocess.DEVNULL)
        _, _, used = os.wait4(child.pid, 0)
        took = time.monotonic() - begin
    best = took if best is None else min(best, took)
    peak = max(peak, used.ru_maxrss)
print(f"{best * 1000:.0f} ms, {peak / 1024:.0f} MB")
PY
}
