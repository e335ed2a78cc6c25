# Read by tests/run and by the scripts of bench/ that run the program. `top`, the top of the repository, is set before.

program=$top/crates/edicheck/out/edicheck

# need_program: builds the program if there is none, or if a file of the crates is newer. What the build prints goes to a
# file and is shown only if there is no program then; so lines say first what is done. Returns 1 if there is no program.
need_program() {
    if [ -x "$program" ]; then
        newer=$(find "$top/crates" "$top/crates.txt" -name out -prune -o -type f -newer "$program" -print)
        [ -n "$newer" ] || return 0
        rm -f "$program"
    fi
    log=$top/tests/build.log
    echo "building edicheck with every proof: 15 to 40 minutes on four processors the first time," >&2
    echo "later only what has changed; what the build prints goes to $log" >&2
    (cd "$top/crates/edicheck" && rt run </dev/null >/dev/null 2>"$log")
    [ -x "$program" ] || cat "$log" >&2
    rm -f "$log"
    [ -x "$program" ]
}
