# For the other scripts to source: makes a copy of some crates in a folder of its own, which goes away with the script, and
# leaves it as the current folder.

# copy_crates NAME "DEP .." CRATE..: the crates, and beside them a program NAME that stands on the DEPs; its main is read
# from standard input.
copy_crates() {
    local name=$1 deps=$2 root crate part
    shift 2
    root=$(cd "$(dirname "${BASH_SOURCE[0]}")/.." && pwd)
    copy=$(mktemp -d)
    trap 'rm -rf "$copy"' EXIT
    mkdir -p "$copy/crates/$name/src"
    git -C "$copy" init -q
    cp "$root/HANDLES" "$copy/"
    for crate in "$@"; do
        mkdir "$copy/crates/$crate"
        for part in src specs proofs; do
            cp -r "$root/crates/$crate/$part" "$copy/crates/$crate/"
        done
        grep "^$crate:" "$root/crates.txt" >> "$copy/crates.txt"
    done
    echo "$name: $deps" >> "$copy/crates.txt"
    cat > "$copy/crates/$name/src/main.rt"
    cd "$copy/crates/$name"
}
