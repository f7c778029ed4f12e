# Read by ./ehtsig and ./ehtcompare, and by conformance/program, which set `here`, the top of the repository: builds a program
# where it is missing or older than its source, and says so on standard error. `rt` leaves a program, for x86-64 Linux with
# glibc 2.34 or newer, in its crate's folder out/.

# Sets program, the program's file.
ready() { # NAME
    program=$here/crates/$1/out/$1
    [ ! -x "$program" ] ||
        [ -n "$(find "$here/crates" "$here/crates.txt" \( -name out -o -name must-fail \) -prune -o -type f -newer "$program" -print |
            head -n 1)" ] || return 0
    command -v rt >/dev/null 2>&1 || { echo "$1: there is no rt" >&2; exit 2; }
    echo "$1: building: every crate below the program is proved first, which takes some time" >&2
    mkdir -p "$here/target"
    begun=$here/target/$1.begun
    : >"$begun"
    # it proves, builds, and then runs the program, here on nothing
    (cd "$here/crates/$1" && rt run) </dev/null >"$here/target/$1.log" 2>&1 ||
        { tail -n 20 "$here/target/$1.log" >&2; echo "$1: not built" >&2; exit 2; }
    touch -r "$begun" "$program" # so that a source that changed meanwhile is newer
}
