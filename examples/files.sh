#!/usr/bin/env bash
# Runs the program over files and streams that fail: absent, folders, without permission, on what can only be read, a full device, a limit on the size of a
# file, a device with little room, closed streams, and a file that goes away while another one is read. The status is 3 each time, standard error names the
# file and says why, and every file that was not written whole is as it was. Then over files that are there before they are written: links, pipes, what a
# killed run left beside them, and a world; and over words and calls that are refused for their characters.
#
#   examples/files.sh [PROGRAM]     PROGRAM: crates/wblock/out/wblock of this repository if it is not given
#
# It needs the shell, coreutils, and unshare and flock of util-linux. What takes a file system of its own, or a user who may not do all, is tried where
# unshare may make one. The status is 0 where all passed, 1 where one failed, 2 where there is no program.
# shellcheck source=SCRIPTDIR/checks.sh
. "$(dirname "${BASH_SOURCE[0]}")/checks.sh" "$@"
export program

# What stands on standard error where a file fails: $1 the file, $2 why.
fault() { printf 'file %s\n%s' "$1" "$2"; }

# What stands there where a world would take a file's place: $1 the file.
taken() { echo "usage: WORLD \`$1\` is there already: --force writes the new world in its place"; }

# Runs the program, and compares its status and what it says: $1 the name, $2 the status, $3 what stands on standard error, and the words. It prints nothing.
ends() {
    local name=$1 wanted=$2 said=$3 status
    shift 3
    timeout 60 "$program" "$@" >out 2>err
    status=$?
    is "$name: status $status of $*" [ "$status" = "$wanted" ]
    is "$name: standard output" [ ! -s out ]
    is "$name: said $(head -c 200 err)" [ "$(cat err)" = "$said" ]
}

# The same where a file fails: $1 the name, $2 the file, $3 why, and the words.
fails() { ends "$1" 3 "$(fault "$2" "$3")" "${@:4}"; }

# Whether the program prints this, and its status is 0: $1 what it prints, and the words.
prints() { [ "$(timeout 60 "$program" "${@:2}" 2>err)" = "$1" ] && [ ! -s err ]; }

# Whether the program refuses something: $1 the line, $2 the sentence, and the words.
refuses() {
    timeout 60 "$program" "${@:3}" >out 2>err
    [ $? = 1 ] && [ "$(cat out)" = "$1" ] && [ "$(cat err)" = "$2" ]
}

# Whether the words ask for nothing: $1 the first line on standard error, and the words.
misuses() {
    timeout 60 "$program" "${@:2}" >out 2>err
    [ $? = 2 ] && [ ! -s out ] && [ "$(head -n 1 err)" = "$1" ]
}

# Mines the calls of a list with one worker: WORLD CALLS BLOCK NEXT.
mines() { "$program" mine "$@" "${mine[@]}" >out 2>err; }

# Whether the program fails so where a file may have 1,024 bytes: $1 the file, and the words.
in_a_kilobyte() (
    trap '' XFSZ
    ulimit -f 1
    timeout 60 "$program" "${@:2}" >out 2>err
    [ $? = 3 ] && [ ! -s out ] && [ "$(cat err)" = "$(fault "$1" "$room")" ]
)

# Whether the program fails so where the world that it reads is a pipe, from which it gets its bytes when the file $1 is gone: then the words.
while_one_goes() {
    local feeder status
    mkfifo pipe
    # (opening the pipe waits until the program reads)
    {
        exec 9>pipe
        rm "$1"
        cat world >&9
    } &
    feeder=$!
    timeout 60 "$program" "${@:2}" >out 2>err
    status=$?
    kill $feeder 2>/dev/null
    wait $feeder 2>/dev/null
    rm pipe
    [ $status = 3 ] && [ ! -s out ] && [ "$(cat err)" = "$(fault "$1" "$none")" ] && [ ! -e "$1" ]
}

# Runs shell commands where the folder `small` is a file system of its own: $1 its options, $2 the commands. Status 77: none can be mounted.
mounted() {
    # shellcheck disable=SC2016 # the words are of the inner shell
    unshare --user --map-root-user --mount bash -c 'mount -t tmpfs -o "$1" none small 2>/dev/null || exit 77; eval "$2"' bash "$@" 2>mounting
}

# Whether the program fails so on a small file system: $1 its options, $2 what stands there before, $3 why, and the words, which write small/b. What stands
# there is as it was, and nothing else is there.
on_a_small_device() {
    export before=$2
    local status
    # shellcheck disable=SC2016 # the words are of the inner shell
    mounted "$1" '[ -z "$before" ] || echo "$before" >small/b; timeout 60 "$program" '"${*:4}"' >out 2>err; echo $? >status; ls -A small >there; cat small/* >kept 2>/dev/null'
    status=$(cat status)
    [ "$status" = 3 ] && [ ! -s out ] && [ "$(cat err)" = "$(fault small/b "$3")" ] && [ "$(cat kept)" = "$before" ] && [ "$(cat there)" = "${before:+b}" ]
}

# Runs the program as a user who may do to a file what its mode allows.
as_a_user() { if [ "$(id -u)" = 0 ]; then unshare --user "$program" "$@"; else "$program" "$@"; fi; }

# Whether it then fails so: $1 the file, and the words.
is_denied() {
    as_a_user "${@:2}" >out 2>err
    [ $? = 3 ] && [ ! -s out ] && [ "$(cat err)" = "$(fault "$1" "permission is denied")" ]
}

# Whether the files are written, and it is said, where standard output is the file $1, or closed where that is `-`.
stdout_fails() {
    if [ "$1" = - ]; then
        "$program" mine world calls b n "${mine[@]}" >&- 2>err
    else
        "$program" mine world calls b n "${mine[@]}" >"$1" 2>err
    fi
    [ $? = 3 ] && [ "$(cat err)" = "$(fault stdout "the files of this command were written; only the output failed")" ] && whole b block && whole n next && rm b n
}

# Whether it is said that standard output failed, where it is the file $1, or closed where that is `-`, and there is no file to be written.
stdout_fails_alone() {
    if [ "$1" = - ]; then
        "$program" check module >&- 2>err
    else
        "$program" check module >"$1" 2>err
    fi
    [ $? = 3 ] && [ "$(cat err)" = "file stdout" ]
}

# Whether a refusal has its status and its line where standard error is the file $1, or closed where that is `-`.
stderr_fails() {
    if [ "$1" = - ]; then
        "$program" check text >out 2>&-
    else
        "$program" check text >out 2>"$1"
    fi
    [ $? = 1 ] && [ "$(cat out)" = "refused load 1 0" ]
}

# Whether `asm` writes the module to a file: $1 the file.
assembles() { prints "$assembled" asm text "$1"; }

# Whether the module goes through a pipe that is named as a file.
goes_through_a_pipe() {
    mkfifo pipe
    timeout 60 cat pipe >got &
    assembles pipe
    local status=$?
    wait $!
    [ $status = 0 ] && whole got module && [ -p pipe ] && rm pipe
}

# Whether a block and a next world go through two pipes, of which the first is read to its end before the second is opened.
go_through_pipes() {
    mkfifo first second
    { timeout 60 cat first && timeout 60 cat second; } >got &
    timeout 60 "$program" mine world calls first second "${mine[@]}" >out 2>err
    local status=$?
    wait $!
    [ $status = 0 ] && cat block next | cmp -s - got && rm first second
}

# Whether the module goes to a stream of the shell, which stays the file that it was.
goes_to_a_stream() {
    echo "before, which is longer than nothing" >got
    local before
    before=$(stat -c %i got)
    assembles /dev/fd/7 7<>got && whole got module && [ "$(stat -c %i got)" = "$before" ]
}

# Whether the module goes to standard output, and what is printed behind it.
goes_to_stdout() {
    timeout 60 "$program" asm text /dev/stdout 2>err | cat >got
    { cat module; echo "$assembled"; } | cmp -s - got
}

none="there is no such file or folder"
room="no space is left"
declare -A whys=([none]=$none [folder]="it is a folder" [text/file]="a part of its path is no folder" [/dev/full]=$room [none/file]=$none)
mine=(--fuel 1000000 --workers 1)
for number in $(seq 200); do echo "0 1000 set i64:$number i64:1"; done >calls
cp "$here/numbers/cell.wat" text
if ! "$program" asm text module >out 2>err || ! "$program" deploy world module >out 2>err || ! mines world calls block next; then
    give_up "no world and no block are made"
fi
assembled="assembled $(stat -c %s module) bytes"
mkdir folder small

# each input in turn is not there, is a folder, or lies in a file
for name in none folder text/file; do
    why=${whys[$name]}
    fails "a text" $name "$why" asm $name m
    fails "a module" $name "$why" check $name
    fails "a module to be written as text" $name "$why" text $name m
    fails "a module to deploy" $name "$why" deploy w $name
    fails "a second module" $name "$why" deploy w module $name
    fails "a world" $name "$why" mine $name calls b n "${mine[@]}"
    fails "calls" $name "$why" mine world $name b n "${mine[@]}"
    fails "a world of a block" $name "$why" validate $name calls block --fuel 1000000
    fails "calls of a block" $name "$why" validate world $name block --fuel 1000000
    fails "a block" $name "$why" validate world calls $name --fuel 1000000
    fails "a world to debug" $name "$why" debug $name calls 0 place
    fails "calls to debug" $name "$why" debug world $name 0 place
    fails "a block to debug" $name "$why" debug world calls 0 place --block $name
    fails "a file to show" $name "$why" show $name
    for output in m w b n; do is "nothing is written where $name is read" absent $output; done
done

# each output in turn is a folder, a full device, in no folder, or in a file
echo before >old
for name in folder /dev/full none/file text/file; do
    why=${whys[$name]}
    fails "a module written" $name "$why" asm text $name
    fails "a text written" $name "$why" text module $name
    fails "a world written" $name "$why" deploy $name module --force
    fails "a block written" $name "$why" mine world calls $name n "${mine[@]}"
    is "no next world where the block is $name" absent n
    cp old n
    fails "a block written, and a next world from before" $name "$why" mine world calls $name n "${mine[@]}"
    is "the next world stays where the block is $name" whole n old
    rm n
    cp world own
    fails "a block written, and the next world in the place of the world" $name "$why" mine own calls $name own "${mine[@]}"
    is "the world stays where the block is $name" whole own world
    fails "a next world written" $name "$why" mine world calls b $name "${mine[@]}"
    is "no block where the next world is $name" absent b
    fails "a world after a block written" $name "$why" validate world calls block --fuel 1000000 --next $name
    fails "a picture written" $name "$why" show block --svg $name
done
is "nothing is left where writing fails" tidy .

# an output has too many bytes: it is as it was
is "a block with too many bytes fails" in_a_kilobyte b mine world calls b n "${mine[@]}"
is "it is not there" absent b
is "no next world where the block has too many bytes" absent n
cp old b
is "a block from before, with too many bytes, fails" in_a_kilobyte b mine world calls b n "${mine[@]}"
is "it is as it was" whole b old
rm b
head -n 3 calls >few
mines next few few.block few.next || give_up "no second block is made"
is "a next world with too many bytes fails" in_a_kilobyte n mine next few b n "${mine[@]}"
is "no block where the next world has too many bytes" absent b
is "no next world with too many bytes" absent n
cp next own
is "a next world with too many bytes in the place of the world fails" in_a_kilobyte own mine own few b own "${mine[@]}"
is "the world is as it was where the next one has too many bytes" whole own next
is "a world after a block, with too many bytes in the place of the world, fails" in_a_kilobyte own validate own few few.block --fuel 1000000 --next own
is "the world is as it was where the one after the block has too many bytes" whole own next
mapfile -t many < <(yes module | head -n 20)
is "a world deployed with too many bytes fails" in_a_kilobyte own deploy own "${many[@]}" --force
is "the world is as it was where one is deployed with too many bytes" whole own next
is "nothing is left where an output has too many bytes" tidy .
rm own

# a device with little room, with room for no file more, and one that can only be read
mounted size=4k true
if [ $? = 77 ]; then
    echo "files: no file system can be mounted here, so that no device with little room was tried"
else
    words=(mine world calls small/b n "${mine[@]}")
    is "a device with little room" on_a_small_device size=4k "" "$room" "${words[@]}"
    is "a device with little room, and a block from before" on_a_small_device size=8k before "$room" "${words[@]}"
    is "a device with room for no file more" on_a_small_device size=64k,nr_inodes=2 before "$room" "${words[@]}"
    is "a device that can only be read" on_a_small_device ro "" "it is on a file system that can only be read" "${words[@]}"
    is "no next world where the device of the block has little room" absent n
fi

# what may not be read or written
if [ "$(id -u)" = 0 ] && ! unshare --user true 2>/dev/null; then
    echo "files: there is no user here who may not do all, so that no permission was tried"
else
    cp text closed
    chmod 0 closed
    is "a text that may not be read" is_denied closed asm closed m
    cp old fixed
    chmod 444 fixed
    is "a file that may not be written" is_denied fixed asm text fixed
    is "it is as it was" whole fixed old
    mkdir shut
    cp old shut/file
    chmod 555 shut
    is "a folder that may not be written" is_denied shut/new asm text shut/new
    is "a file in a folder that may not be written" is_denied shut/file asm text shut/file
    is "it is as it was there" whole shut/file old
    chmod 755 shut
    chmod 311 shut
    is "a folder that may be written and not read" [ "$(as_a_user asm text shut/new 2>err)" = "$assembled" ]
    chmod 755 shut
    is "the module is there" whole shut/new module
    is "nothing is left in that folder" tidy shut
fi

# a file that goes away while another one is read
for gone in calls block; do
    cp $gone kept
    is "$gone that go while the world is read" while_one_goes $gone validate pipe calls block --fuel 1000000
    mv kept $gone
done

# standard output is full, or closed: the files are written, and it is said
is "standard output is full" stdout_fails /dev/full
is "standard output is closed" stdout_fails -
is "standard output is full, and no file is written" stdout_fails_alone /dev/full
is "standard output is closed, and no file is written" stdout_fails_alone -

# standard error is full, or closed: the status and what is printed stay
is "standard error is full" stderr_fails /dev/full
is "standard error is closed" stderr_fails -

# a file that is replaced: its mode stays, a link to it stays one, and another name of the old file keeps the old bytes
cp old m
chmod 640 m
ln m second
ln -s m link
is "a file is written by a link to it" assembles link
is "the link stays" [ "$(readlink link)" = m ]
is "the file that it leads to is written" whole m module
is "its mode stays" [ "$(stat -c %a m)" = 640 ]
is "its other name keeps the bytes from before" whole second old
rm m second link
ln -s nowhere link
fails "a link that leads nowhere" link "$none" asm text link
is "it stays" [ "$(readlink link)" = nowhere ]
is "nothing is written where it leads" absent nowhere
rm link
(umask 027 && assembles m)
is "a new file has the mode that the shell asks for" [ "$(stat -c %a m)" = 640 ]

# what is no regular file is written as it is
is "a pipe is written" goes_through_a_pipe
is "two pipes are written, one behind the other" go_through_pipes
is "a stream is written" goes_to_a_stream
is "standard output is written as a file" goes_to_stdout
is "a device is written" assembles /dev/null
is "it stays a device" [ -c /dev/null ]

# what stands in the place of a temporary file: what a killed run left goes away, and all else stays
echo left >m.part-0
echo left >m.part-1
is "a file is written where two runs were killed" assembles m
is "it is whole" whole m module
is "what they left is gone" tidy .
echo left >m.part-0
flock m.part-0 true
exec 8<m.part-0
flock -n 8
is "a file is written while another run writes it" assembles m
is "the temporary file of the other run stays" [ "$(cat m.part-0)" = left ]
is "and no other" absent m.part-1
exec 8<&-
is "a file is written when that run was killed" assembles m
is "what it left is gone" tidy .
mkdir m.part-0
mkfifo m.part-1
ln -s old m.part-2
is "a file is written where its temporary names are a folder, a pipe and a link" assembles m
is "the folder stays" [ -d m.part-0 ]
is "the pipe stays" [ -p m.part-1 ]
is "the link stays" [ "$(readlink m.part-2)" = old ]
is "what it leads to is as it was" [ "$(cat old)" = before ]
is "nothing more is left" absent m.part-3
rm -r m m.part-0 m.part-1 m.part-2

# a world that is there is written over where that is asked for
cp next own
ends "a world that is there" 2 "$(taken own)" deploy own module
ends "a world that is there, and a module that is not" 2 "$(taken own)" deploy own none
ends "a folder in the place of the world" 2 "$(taken folder)" deploy folder module
is "it is as it was" whole own next
is "a module that is refused" refuses "refused load 1 0 module 0" "module 0: byte 0: the bytes are no module: the item that begins here is cut off, or is \
not what the binary format has here; a module in text is assembled first, by \`asm\`" deploy own text --force
is "the world is as it was" whole own next
is "the world is written over" prints "deployed 1 contracts" deploy own module --force
is "it is the new one" whole own world
rm own
is "a world that is not there" prints "deployed 1 contracts" deploy --force own module
is "it is there" whole own world
is "a world that is gone on from is written over" prints "deployed 1 contracts onto 1" deploy own module --onto own
is "it has another contract" prints "deployed 1 contracts onto 2" deploy more module --onto own
rm own more
is "a value of --force" misuses "error: unexpected value 'yes' for '--force' found; no more were expected" deploy own module --force=yes
is "--force twice" misuses "error: the argument '--force' cannot be used multiple times" deploy own module --force --force
is "no world is there" absent own

# a word that is not UTF-8
ends "the first word" 2 "usage: word 1 is not UTF-8" $'\xff'
ends "a file's name" 2 "usage: word 2 is not UTF-8" check $'a\xc3'
ends "the second that could be it" 2 "usage: word 3 is not UTF-8" deploy w $'\xed\xa0\x80' $'\xff'

# a control character in a line of calls
for shown in '\r' '\t' '\0' '\x01' '\x1f' '\x7f'; do
    printf '%b' "0 1 go$shown\n" >line
    case $shown in
        '\r') why="a carriage return stands here; end each line with a newline alone (LF, not CRLF)" ;;
        '\t') why="a tab stands here; write one space between words" ;;
        *) why="a control character stands here, a byte below 32 or 127; take it out" ;;
    esac
    is "$shown behind an entry" refuses "refused calls 1 1" "calls, line 1, column 7: $why" mine world line b n "${mine[@]}"
    printf '%b' "0 1 g${shown}o i64:1\n" >line
    is "$shown in an entry" refuses "refused calls 1 1" "calls, line 1, column 6: $why" mine world line b n "${mine[@]}"
done
printf '0 1 go\r\n0 1 go\r\n' >line
is "lines that end with CRLF" refuses "refused calls 1 1" "calls, line 1, column 7: a carriage return stands here; end each line with a newline alone (LF, not CRLF)" mine world line b n "${mine[@]}"
for output in b n; do is "nothing is written where calls are refused" absent $output; done

# the fuel with which a block is judged before a call of it is debugged
is "a call in its block" prints "0 at 2 0" debug world calls 199 place --block block
is "with the least fuel" prints "0 at 2 0" debug world calls 199 place --block block --fuel 200000
is "with more" prints "0 at 2 0" debug world calls 199 --fuel=1000000 place --block block
is "with one unit too few" refuses "reject 5" "block: the limits of the ordered calls exceed the block's fuel; give the \`--fuel\` with which it was mined" \
    debug world calls 199 place --block block --fuel 199999
ends "fuel without a block" 2 "usage: \`--fuel\` bounds the calls of a block: name the block by \`--block\`, or leave \`--fuel\` out" debug world calls 199 place --fuel 1
is "fuel that is no number" misuses "error: invalid value 'x' for '--fuel <N>': invalid digit found in string" debug world calls 199 place --block block --fuel x
ends "fuel with a needless zero" 2 "usage: \`07\` of \`--fuel\` is no number: decimal without sign and needless zeros" debug world calls 199 place --block block --fuel 07

told
