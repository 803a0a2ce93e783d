# Read by ./run and by the commands here: the port's program lies at $program, and `build` proves and builds it where it is not there or is older than its
# sources. What rt keeps in the crates' out/ is no source.
program=$root/crates/replay/out/replay
is_current() {
    [ -x "$program" ] && [ -z "$(cd "$root" && find crates crates.txt -path 'crates/*/out' -prune -o -newer "$program" -type f \( -name '*.rt' -o -name '*.antt' -o -name crates.txt \) -print -quit)" ]
}
build() {
    is_current && return
    command -v rt >/dev/null || { echo "The program is not built, or is older than its sources, and rt, the Rattle toolchain that proves and builds it, is not here." >&2; return 1; }
    echo "Proving and building the program first, which takes some minutes." >&2
    local begun said
    begun=$(mktemp)
    # `rt run` also runs it, here on a script of no lines
    said=$(cd "$root/crates/replay" && rt run </dev/null 2>&1) || { echo "$said" >&2; rm -f "$begun"; return 1; }
    touch -r "$begun" "$program" # one that came out the same is not written again
    rm -f "$begun"
}
