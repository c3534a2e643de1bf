# shellcheck shell=bash
# What files.sh, hostile.sh, crash.sh and cluster/run.sh begin with: each sources it with its own words. It finds the program, makes an empty folder in which the script then runs and which goes
# away with it, and counts what is tried. The script ends with `told`.
set -u
script=$(basename "$0" .sh)
here=$(cd "$(dirname "${BASH_SOURCE[0]}")" && pwd)
program=${1:-$here/../crates/wblock/out/wblock}
if [ ! -f "$program" ] || [ ! -x "$program" ]; then
    echo "$script: there is no program $program" >&2
    exit 2
fi
program=$(cd "$(dirname "$program")" && pwd)/$(basename "$program")
work=$(mktemp -d)
trap 'rm -rf "$work"' EXIT
cd "$work" || exit 1
passed=0
failed=0

# Counts what was tried: $1 its name, then a command whose status says whether it is so.
is() {
    local name=$1
    shift
    if "$@"; then
        passed=$((passed + 1))
    else
        failed=$((failed + 1))
        echo "$script: $name: not so: $*"
    fi
}

# The commands of `is`: a file has all bytes of the other, or there is none.
whole() { cmp -s "$1" "$2"; }
absent() { [ ! -e "$1" ] && [ ! -L "$1" ]; }

# Whether no temporary file is left in a folder: $1 the folder.
tidy() { [ -z "$(find "$1" -name '*.part-*' -print -quit)" ]; }

# What cannot be made ready ends the script: $1 what, and what it was said of.
give_up() {
    echo "$script: $1: $(cat out err)"
    exit 1
}

# Says how many passed; the status is 0 where all did.
told() {
    echo "$script: $passed passed, $failed failed"
    [ "$failed" = 0 ]
}
