#!/usr/bin/env bash
# Kills the program some hundred times at random moments while it writes a world in the place of the one that it reads, by `mine` and by `validate --next`;
# fills a small file system under it; and lets several commands write one file at once. Each time the world is whole, and the one before or the one after;
# where it is the one after, its block is there; and what a killed run left beside is read by nobody, and is gone when the next run wrote that file.
#
#   examples/crash.sh [PROGRAM [KILLS [SEED]]]     PROGRAM: crates/wblock/out/wblock of this repository if it is not given
#
# It needs the shell, coreutils, and unshare of util-linux. A file system is filled where one may be mounted. It kills for some 30 seconds, and for at
# most 120 on a machine with other work; with KILLS until so many runs were killed. A kill is no fall of the power: that a file is written down to the disk
# before it takes its place is tested in tests_program. The status is 0 where all passed, 1 where one failed, 2 where there is no program.
# shellcheck source=SCRIPTDIR/checks.sh
. "$(dirname "${BASH_SOURCE[0]}")/checks.sh" "$@"
export program
most=${2:-0}
seed=${3:-60}
if ! [[ $# -le 3 && $most =~ ^[0-9]{1,6}$ && $seed =~ ^[0-9]{1,9}$ ]]; then
    echo "usage: examples/crash.sh [PROGRAM [KILLS [SEED]]]" >&2
    exit 2
fi
RANDOM=$seed
kills=0
were_before=0
were_after=0
were_left=0

# Runs the program, which prints nothing here.
runs() { "$program" "$@" >out 2>err; }

# Whether a file has all bytes of one of the others.
one_of() {
    local other
    for other in "${@:2}"; do
        if cmp -s "$1" "$other"; then return 0; fi
    done
    return 1
}

# Whether what a run that writes `world` and `block` was killed over is whole: the world, and the block, which is there where the world is the one after.
all_whole() {
    if cmp -s world world.before; then
        were_before=$((were_before + 1))
        one_of block old block.whole
    else
        were_after=$((were_after + 1))
        whole world world.after && whole block block.whole
    fi
}

# Looks at what a killed run left: $1 which it was. Where KILLS is given, the first that is not whole ends the script, and its files stay.
looks_whole() {
    is "$1" all_whole
    if ((most > 0 && failed > 0)); then
        trap - EXIT
        echo "$script: seed $seed: the files stay in $work"
        exit 1
    fi
}

# Makes the files ready for a run that is killed.
make_ready() {
    cp world.before world
    cp "$1" block
}

# Counts a kill, and what it left.
count_kill() {
    kills=$((kills + 1))
    tidy . || were_left=$((were_left + 1))
}

# Runs the program, and kills it when so many microseconds went by, if it runs still: $1 the microseconds, and the words.
killed_after() {
    { timeout -s KILL "$(printf '%d.%06d' $(($1 / 1000000)) $(($1 % 1000000)))" "$program" "${@:2}" >out 2>err; } 2>/dev/null
    if [ $? = 137 ]; then count_kill; fi
}

# Runs the program, and kills it so many turns of the shell after it began to write the world: $1 the turns, and the words.
killed_in_a_write() {
    local turns=$1 run
    find . -name 'world.part-*' -delete
    "$program" "${@:2}" >out 2>err &
    run=$!
    until [ -e world.part-0 ] || ! kill -0 $run 2>/dev/null; do :; done
    while ((turns > 0)); do turns=$((turns - 1)); done
    kill -KILL $run 2>/dev/null
    { wait $run; } 2>/dev/null
    if [ $? = 137 ]; then count_kill; fi
}

# The microseconds that the program takes: the words.
microseconds_of() {
    local begun=${EPOCHREALTIME/./}
    runs "$@"
    echo $((${EPOCHREALTIME/./} - begun))
}

# Whether several commands that are run at once all end with status 0: each is an argument, its words apart by spaces.
all_end() {
    local run runs=() status=0
    for run in "$@"; do
        # shellcheck disable=SC2086 # the words of a command
        "$program" $run >/dev/null 2>&1 &
        runs+=($!)
    done
    for run in "${runs[@]}"; do wait "$run" || status=1; done
    return $status
}

# Whether a world that runs replace again and again is whole whenever it is copied: $1 how many runs, and two worlds by turns.
whole_at_each_look() {
    local writer looks=0
    cp world.before shared
    {
        for run in $(seq "$1"); do
            "$program" mine world.before "calls.$((run % 2))" shared.block shared "${mine[@]}" >/dev/null 2>&1
        done
    } &
    writer=$!
    while kill -0 $writer 2>/dev/null; do
        cp shared looked
        one_of looked world.before world.after world.other || return 1
        looks=$((looks + 1))
    done
    wait $writer
    [ $looks -gt 3 ]
}

# Whether a small file system is filled so that a world in it stays whole, whichever room it has: $1 the command that writes it, whose files are small/world
# and small/block. It says for each room how the command ended, with status 3 or with 0, what is there, and which file failed.
filled() {
    # shellcheck disable=SC2016 # the words are of the inner shell
    unshare --user --map-root-user --mount bash -c '
        for pages in $(seq 4 4 40); do
            mount -t tmpfs -o "size=$((4 * pages))k" none small 2>/dev/null || exit 77
            cp few.before small/world
            timeout 60 "$program" $1 >out 2>err
            status=$?
            left=$(find small -name "*.part-*" | wc -l)
            world=other
            cmp -s small/world few.before && world=before
            cmp -s small/world few.after && world=after
            block=other
            [ -e small/block ] || block=none
            cmp -s small/block few.block && block=whole
            failed=$(sed -n "s/^file small.//p" err)
            echo "$status $world $block $left ${failed:-none}"
            umount small
        done' bash "$1" 2>mounting
}

mine=(--fuel 10000000 --workers 1)
# a module whose data make each world 1.8 megabytes long
{
    echo '(module (import "boost" "add" (func $add (param i64) (param i64))) (import "boost" "put" (func $put (param i64) (param i64)))'
    echo '(func (export "bump") (param i64) (param i64) (call $add (local.get 0) (local.get 1)))'
    echo '(func (export "set") (param i64) (param i64) (call $put (local.get 0) (local.get 1)))'
    echo '(memory 16) (data 0 (offset (i32.const 0)) "'
    head -c 900000 /dev/zero | tr '\0' a
    echo '"))'
} | tr -d '\n' >text
for number in $(seq 40); do echo "0 1000 bump i64:$number i64:1"; done >calls.0
for number in $(seq 40); do echo "0 1000 bump i64:$number i64:2"; done >calls.1
for number in $(seq 1000); do echo "0 1000 set i64:$number i64:1"; done >few.calls
cp "$here/numbers/cell.wat" few.text
echo before >old
mkdir small
runs asm text module || give_up "no module is made"
runs deploy world.before module module || give_up "no world is made"
runs mine world.before calls.0 block.whole world.after "${mine[@]}" || give_up "no block is made"
runs mine world.before calls.1 other.whole world.other "${mine[@]}" || give_up "no second block is made"
runs asm few.text few.module || give_up "no second module is made"
runs deploy few.before few.module || give_up "no small world is made"
runs mine few.before few.calls few.block few.after "${mine[@]}" || give_up "no block of it is made"

# kills at any moment of a run, and while it writes the world. Each run begins with the world from before, and meets what the one before it left beside
mined=(mine world calls.0 block world "${mine[@]}")
validated=(validate world calls.0 block --next world --fuel 10000000 --workers 1)
make_ready old
miner=$(microseconds_of "${mined[@]}")
make_ready block.whole
validator=$(microseconds_of "${validated[@]}")
begun=$SECONDS
for ((try = 1; most > 0 ? kills < most : try <= 75; try++)); do
    # (on a machine with other work it goes on until some were killed)
    spent=$((SECONDS - begun))
    if ((most == 0 && (spent >= 30 && kills >= 24 || spent >= 120))); then break; fi
    make_ready old
    moment=$(((RANDOM * 32768 + RANDOM) % (miner + miner / 8)))
    killed_after $moment "${mined[@]}"
    looks_whole "kill $try of mine, after $moment microseconds"
    make_ready old
    turns=$((RANDOM % 400))
    killed_in_a_write $turns "${mined[@]}"
    looks_whole "kill $try of mine, in a write, after $turns turns"
    make_ready block.whole
    moment=$(((RANDOM * 32768 + RANDOM) % (validator + validator / 8)))
    killed_after $moment "${validated[@]}"
    looks_whole "kill $try of validate, after $moment microseconds"
    make_ready block.whole
    turns=$((RANDOM % 400))
    killed_in_a_write $turns "${validated[@]}"
    looks_whole "kill $try of validate, in a write, after $turns turns"
done
is "runs were killed" [ $kills -ge $((most > 0 ? most : 24)) ]
is "some left a temporary file" [ $were_left -gt 2 ]
is "some left the world before" [ $were_before -gt 2 ]

# what a killed run left: nobody reads it, and who writes the file takes it away
for try in $(seq 20); do
    make_ready old
    killed_in_a_write $((RANDOM % 200)) "${mined[@]}"
    if [ -e world.part-0 ]; then break; fi
done
is "a run that was killed left a temporary file" [ -e world.part-0 ]
cp world.before world
is "the world is read beside it" runs validate world calls.0 block.whole --fuel 10000000 --quiet
is "who reads lets it be" [ -e world.part-0 ]
is "the world is written beside it" runs "${mined[@]}"
is "it is the one after" whole world world.after
is "the block is there" whole block block.whole
is "nothing is left" tidy .
# (as where a miner was killed between its two files)
cp world.before world
is "the block makes the next world" runs validate world calls.0 block --next world --fuel 10000000 --workers 1
is "it is the miner's" whole world world.after

# commands that write one file at once: it is one of theirs, whole
for try in $(seq 6); do
    rm -f next b0 b1
    is "two miners at once, $try" all_end "mine world.before calls.0 b0 next ${mine[*]}" "mine world.before calls.1 b1 next ${mine[*]}"
    is "the next world of two, $try" one_of next world.after world.other
    is "the block of the first, $try" whole b0 block.whole
    is "the block of the second, $try" whole b1 other.whole
    is "nothing is left by two, $try" tidy .
done
for try in $(seq 3); do
    rm -f next b
    is "a validator and two miners at once, $try" all_end "mine world.before calls.0 b next ${mine[*]}" "mine world.before calls.1 b next ${mine[*]}" \
        "validate world.before calls.1 other.whole --next next --fuel 10000000"
    is "the next world of three, $try" one_of next world.after world.other
    is "the block of two, $try" one_of b block.whole other.whole
    is "nothing is left by three, $try" tidy .
done
for try in $(seq 6); do
    rm -f next b0 b1
    "$program" mine world.before calls.0 b0 next "${mine[@]}" >/dev/null 2>&1 &
    other=$!
    killed_after $((RANDOM * 4 % (miner + 1))) mine world.before calls.1 b1 next "${mine[@]}"
    is "a miner beside one that is killed, $try" wait $other
    is "the next world beside one that is killed, $try" one_of next world.after world.other
done
is "one more run" runs mine world.before calls.0 b1 next "${mine[@]}"
is "nothing is left beside the next world" tidy .
is "a world that is replaced is whole at each look" whole_at_each_look 10
is "nothing is left beside it" tidy .

# a small file system that is filled: the world stays whole, and the block comes with it alone
words=(mine small/world few.calls small/block small/world "${mine[*]}")
filled "${words[*]}" >mined
if [ $? = 77 ]; then
    echo "crash: no file system can be mounted here, so that none was filled"
else
    words=(validate small/world few.calls few.block --next small/world --fuel 10000000)
    filled "${words[*]}" >validated
    is "each room was tried" [ "$(cat mined validated | wc -l)" = 20 ]
    while read -r room; do
        is "mine in a small file system: $room" grep -qx -e '3 before none 0 block' -e '3 before none 0 world' -e '0 after whole 0 none' <<<"$room"
    done <mined
    while read -r room; do
        is "validate in a small file system: $room" grep -qx -e '3 before none 0 world' -e '0 after none 0 none' <<<"$room"
    done <validated
    is "some room is too little for the block" grep -qx '3 before none 0 block' mined
    is "some room is too little for the world" grep -qx '3 before none 0 world' mined
    is "some room suffices" grep -qx '0 after whole 0 none' mined
    is "some room is too little for the world of a validator" grep -qx '3 before none 0 world' validated
    is "some room suffices for a validator" grep -qx '0 after none 0 none' validated
fi

echo "crash: seed $seed: $kills kills, of which $were_left left a temporary file; $were_before times the world was the one before, $were_after times the one after"
told
