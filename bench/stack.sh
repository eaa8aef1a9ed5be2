#!/usr/bin/env bash
# Finds how much of the stack a tree takes: for each form of statement, of which 198 stand one within another, and for
# expressions of 500 parentheses and of 790 signs, the least stack in which reading it, looking at its names and types, copying,
# comparing and dropping it ends, as LLVM builds the program and as Rattle's own compiler does.
# It works on a copy of the crates, with a small program that reads its input; what the gate has proved is not proved again.
set -euo pipefail
. "$(dirname "$0")/copy.sh"
copy_crates stack "mm_lexer mm_parse mm_tree mm_names" \
    mm_goto mm_lexer mm_tree mm_reading mm_parse_expr mm_grammar mm_parse mm_scope mm_names <<'MAIN'
#![tactic(auto)]

use mm_lexer::lex;
use mm_names::check;
use mm_parse::parse;
use mm_tree::Side;
use std::io;

fn main(rt: HostRuntime) -> io::Result<()> {
    let alloc = rt.alloc();
    let text = io::read_to_string(alloc, rt.stdin())?;
    if text.len() > 16_777_216 {
        return Ok(());
    }
    let Ok(tokens) = lex(alloc, text.as_str()) else {
        return println!(rt; "no tokens");
    };
    let Ok(tree) = parse(alloc, text.as_str(), &tokens, Side::Output) else {
        return println!(rt; "no tree");
    };
    let is_accepted = check(alloc, &tree, Side::Output).is_ok();
    let is_same = match tree.copy(alloc) {
        Ok(copy) => tree.same(&copy),
        Err(_) => false,
    };
    println!(rt; "{is_accepted} {is_same}")
}
MAIN
printf 'int main(void) { ; }\n' > stdin
echo 'true true' > stdout

# within main so many times the opening, what is inside, and as many times the closing
nested() {
    printf 'int x; int main(void) {\n'
    for _ in $(seq "$1"); do printf '%s' "$2"; done
    printf '%s' "$3"
    for _ in $(seq "$1"); do printf '%s' "$4"; done
    printf '%s}\n' "$5"
}
nested 198 '{' 'x = 1;' '}' '' > block
nested 198 'do ' 'x = 1;' ' while (x);' '' > do
nested 198 'while (x) ' 'x = 1;' '' '' > while
nested 198 'for (x = 1; x; x = 2) ' 'x = 1;' '' '' > for
nested 198 'if (x) ' 'x = 1;' '' '' > then
nested 198 'if (x) ; else ' 'x = 1;' '' '' > else
{ printf 'int x; int main(void) {\n'; for k in $(seq 198); do printf 'l%d: ' "$k"; done; printf 'x = 1; }\n'; } > label
{ printf 'int x; int main(void) { x = '; nested 500 '(' 1 ')' ';' | sed 1d; } > parenthesis
{ printf 'int x; int main(void) { x = '; nested 790 '- ' 1 '' ';' | sed 1d; } > sign

ends() { [ "$( (ulimit -s "$2" && "$1" < "$3") 2> /dev/null)" = "true true" ]; }
(cd ../.. && rt ci) > build.log 2>&1 || { tail -20 build.log; exit 1; }
for program in out/stack out/stack.by-rattle; do
    for form in block do while for then else label parenthesis sign; do
        ends $program 262144 $form || { echo "$form is not read"; exit 1; }
        low=8 high=262144
        while [ $((high - low)) -gt $((low / 64 + 1)) ]; do
            middle=$(((low + high) / 2))
            if ends $program $middle $form; then high=$middle; else low=$middle; fi
        done
        echo "$(basename $program), $form: $high KiB"
    done
done
