# Read by the scripts here and in bench/: the compilers, and the files that go together.

is_here() { # COMMAND, or a file by its path
    command -v "$1" >/dev/null 2>&1 || [ -f "$1" ]
}

# Sees that a command or a file is there; installs the packages that bring it where that is possible.
need() { # COMMAND PACKAGE..
    wanted=$1
    shift
    is_here "$wanted" && return
    if [ "$(id -u)" = 0 ] && command -v apt-get >/dev/null 2>&1; then
        echo "there is no $wanted: installing $*"
        apt-get install -y -q --no-install-recommends "$@" >/dev/null 2>&1 ||
            { apt-get update -q >/dev/null && apt-get install -y -q --no-install-recommends "$@" >/dev/null; } || true
    fi
    is_here "$wanted" || { echo "there is no $wanted: install the packages $*"; exit 2; }
}

# The library is for x86-64, and so is all that links with it.
for_x86_64() {
    [ "$(uname -m)" = x86_64 ] || { echo "the library is for x86-64, and this machine is $(uname -m)"; exit 2; }
    need cc gcc libc6-dev
}

flags='-std=c99 -Wall -Wextra -Werror -O2'
reference_files=$(ls conformance/reference/*.c | grep -v -e /main.c -e /selftest.c)
driver_files='conformance/driver.c conformance/wides.c conformance/triggers.c conformance/compares.c conformance/streams.c'
case_files=$(ls conformance/cases/*.c | grep -v -e /main.c -e /bits.c)
