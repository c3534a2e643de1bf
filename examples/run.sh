#!/usr/bin/env bash
# Runs the session of each example with the built program, and the way of docs/GUIDE.md from an empty folder to a validated block, and compares what is printed and each
# status; then reads by other programs what is shown of each module, world and block that the sessions left (shown.py); then runs two nodes through pipes (node/try.py), and
# the program over files that fail, and over files that are there before they are written (files.sh).
#
#   examples/run.sh [PROGRAM]     PROGRAM: crates/wblock/out/wblock of this repository if it is not given
#
# A session is the file session.txt of an example's folder. A line `$ wblock WORD...` is a command. Below it stands what it prints on
# standard output, and last `status N` where the status is not 0. `...` as the last line stands for any lines, with status 0. A line
# `said TEXT` is no part of that: TEXT has to stand on standard error. Empty lines and lines that begin with `#` are for readers. Commands
# run in a copy of the folder. The status is 0 where all passed, 1 where one failed, 2 where there is no program.
set -u
here=$(cd "$(dirname "${BASH_SOURCE[0]}")" && pwd)
program=${1:-$here/../crates/wblock/out/wblock}
if [ ! -f "$program" ] || [ ! -x "$program" ]; then
    echo "examples: there is no program $program" >&2
    exit 2
fi
program=$(cd "$(dirname "$program")" && pwd)/$(basename "$program")
work=$(mktemp -d)
trap 'rm -rf "$work"' EXIT
passed=0
failed=0

# Runs the command of a session and compares: $1 the example's name, $2 the command, $3 what it is to print, $4 what it is to say.
compare() {
    local words status printed wanted
    read -r -a words <<<"$2"
    if [ "${words[0]}" != wblock ]; then
        echo "$1: '$2' is no command of wblock"
        failed=$((failed + 1))
        return
    fi
    printed=$(cd "$work/$1" && "$program" "${words[@]:1}" 2>"$work/said")
    status=$?
    if [ "$status" != 0 ]; then
        printed=${printed:+$printed$'\n'}"status $status"
    fi
    wanted=$3
    if [ "$status" = 0 ] && [ "${wanted##*$'\n'}" = "..." ]; then
        # what stands before `...` has to come first
        wanted=${wanted%...}
        case "$printed" in
            "$wanted"*) printed=$wanted ;;
        esac
    fi
    if [ "$printed" = "$wanted" ] && { [ -z "$4" ] || grep -qF -- "$4" "$work/said"; }; then
        passed=$((passed + 1))
        return
    fi
    failed=$((failed + 1))
    echo "$1: $2"
    diff <(echo "$wanted") <(echo "$printed") | sed 's/^/    /'
    sed 's/^/    said: /' "$work/said"
    [ -n "$4" ] && echo "    to be said: $4"
    return 0
}

# Runs a session: $1 the example's name.
run_session() {
    local line command="" wanted="" says="" has=0
    while IFS= read -r line || [ -n "$line" ]; do
        case "$line" in
            '$ '*)
                [ "$has" = 1 ] && compare "$1" "$command" "$wanted" "$says"
                command=${line#\$ }
                wanted=""
                says=""
                has=1
                ;;
            '' | '#'*) ;;
            'said '*) says=${line#said } ;;
            *) wanted=${wanted:+$wanted$'\n'}$line ;;
        esac
    done <"$work/$1/session.txt"
    [ "$has" = 1 ] && compare "$1" "$command" "$wanted" "$says"
}

# Makes a session of the guide's ten minutes, and of its call alone, in the folder $1: a block of code behind the words "into `NAME`" is that file, and one that begins
# with `$ ` is a part of the session.
guide_into() {
    awk -v folder="$1" '
        /^## / { within = $0 == "## Ten minutes" || $0 == "## Fuel" }
        !within { next }
        /^```/ { inside = !inside; begins = inside; next }
        begins { begins = 0; file = folder "/" (/^\$ / ? "session.txt" : name) }
        inside { print >file; next }
        match($0, /into `[^`]*`/) { name = substr($0, RSTART + 6, RLENGTH - 7) }
    ' "$here/../docs/GUIDE.md"
}

for session in "$here"/*/session.txt; do
    name=$(basename "$(dirname "$session")")
    cp -r "$here/$name" "$work/$name"
    run_session "$name"
done
mkdir "$work/guide"
guide_into "$work/guide"
run_session guide
if "$here/shown.py" "$program" "$work"; then passed=$((passed + 1)); else failed=$((failed + 1)); fi
if "$here/node/try.py" "$program"; then passed=$((passed + 1)); else failed=$((failed + 1)); fi
if "$here/files.sh" "$program"; then passed=$((passed + 1)); else failed=$((failed + 1)); fi
echo "$passed passed, $failed failed"
[ "$failed" = 0 ] && [ "$passed" != 0 ]
