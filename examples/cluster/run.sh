#!/usr/bin/env bash
# A ledger on three machines a, b and c, which are all this one: each has a member of etcd and a node. Two proposers put 30 blocks into the log at once; c is killed
# with its etcd and comes back; a liar puts forged blocks into the log; and a node begins with the first world when all is done. The worlds are the same bytes then.
#
#   examples/cluster/run.sh [PROGRAM]     PROGRAM: crates/wblock/out/wblock of this repository if it is not given
#
# It needs the shell, coreutils, python3, and etcd (Debian: etcd-server); where there is no etcd it says so, and tries nothing. It takes some 20 seconds on 4
# processors. What it waits for has a limit of time. The status is 0 where all passed, 1 where one failed, 2 where there is no program.
# shellcheck source=SCRIPTDIR/../checks.sh
. "$(dirname "${BASH_SOURCE[0]}")/../checks.sh" "$@"
script=cluster
if ! command -v etcd >/dev/null; then
    echo "cluster: left out, since there is no etcd here (Debian: etcd-server)"
    exit 0
fi
declare -A client peer etcd=() node=()
trap 'kill -KILL "${etcd[@]}" "${node[@]}" 2>/dev/null; wait 2>/dev/null; rm -rf "$work"' EXIT

# Starts etcd on a machine: $1 its name.
start_etcd() {
    etcd --name "$1" --data-dir "$1.etcd" --listen-client-urls "${client[$1]}" --advertise-client-urls "${client[$1]}" --listen-peer-urls "${peer[$1]}" \
        --initial-advertise-peer-urls "${peer[$1]}" --initial-cluster "a=${peer[a]},b=${peer[b]},c=${peer[c]}" --heartbeat-interval 300 --election-timeout 3000 \
        --logger zap --log-level error >>"$1.etcd.log" 2>&1 &
    etcd[$1]=$!
}

# Starts a node: $1 its name and its folder, $2 the machine whose etcd it asks, and more words.
start_node() {
    "$here/cluster/member.py" "$1" "$1" --fuel 5000 --program "$program" --etcd "${client[$2]}" "${@:3}" >"$1.said" 2>&1 &
    node[$1]=$!
}

# Runs a proposer: $1 `propose` or `lie`, $2 its name and its folder, $3 the machine whose etcd it asks, and more words.
runs() { timeout --foreground 120 "$here/cluster/$1.py" "$2" "$2" --fuel 5000 --program "$program" --etcd "${client[$3]}" "${@:4}" 2>&1; }

# Whether a command is so within 30 seconds.
soon() {
    local until=$((SECONDS + 30))
    until "$@" 2>/dev/null; do
        if ((SECONDS > until)); then return 1; fi
        sleep 0.1
    done
}

# Ends here where something failed, since what follows counts on it.
all_so_far() { [ "$failed" = 0 ] || { told; exit 1; }; }

# Whether SIGKILL ends what runs: $1 its number.
killed() {
    kill -KILL "$1"
    { wait "$1"; } 2>/dev/null
    [ $? = 137 ]
}

# Whether a node ends by itself: $1 its name, $2 its status, $3 what it says last.
gone() { ! kill -0 "$1"; }
ends() {
    soon gone "${node[$1]}" && wait "${node[$1]}"
    [ $? = "$2" ] && [[ $(tail -n 1 "$1.said") == *"$3"* ]] && return 0
    sed 's/^/    said: /' "$1.said"
    return 1
}

between() { [ "$1" -lt "$2" ] && [ "$2" -lt "$3" ]; }

# Whether no process runs in a folder of these.
alone() { ! readlink /proc/[0-9]*/cwd | grep -q "^$work/"; }

# Whether nodes came to a position: $1 the position, and their names.
reached() {
    local name
    for name in "${@:2}"; do grep -q "^position $1," "$name.said" || return 1; done
}

# Whether the nodes tell this of a position: $1 the position, $2 a pattern.
stands() { "$here/cluster/log.py" --etcd "${client[a]}" >table && told_of "$@"; }
told_of() { grep -qE "^$1 $2\$" table; }

# Whether all nodes refuse a position, and stay on the world of position 31: $1 the position, $2 the verdict, a colon, and why.
refused() { told_of "$1" "final $(grep '^31 ' table | cut -d ' ' -f 3) ${2%%:*} by a,b,c" && echo "cluster: a, b and c refuse position $1, $2"; }

# Writes the calls of a block, which issues 1,000 units: $1 to whom, $2 the number of the block.
calls_of() {
    printf '0 200 %s\n' "issue i64:100 i64:$1 i64:1000" "transfer i64:$1 i64:$(($2 + 10)) i64:$(($2 * 7))" "transfer i64:$1 i64:1 i64:9999999" "balance i64:$1" \
        "transfer i64:$1 i64:$1$2 i64:1"
}

# Whether two proposers put five blocks each into the log at once, while a command is run: $1 the number of their first block, and the command.
both_propose() {
    local number first second
    for number in $(seq "$1" $(($1 + 4))); do calls_of 7 "$number" >&3; calls_of 8 "$number" >&4; echo >&3; echo >&4; done 3>p.calls 4>q.calls
    runs propose p a <p.calls >p.said &
    first=$!
    runs propose q b <q.calls >q.said &
    second=$!
    soon grep -q final p.said && "${@:2}"
    wait $first && wait $second && cat p.said q.said >>final && return 0
    sed 's/^/    said: /' p.said q.said
    return 1
}

machines=(a b c)
# (ports that are free, below those that outgoing connections take)
read -r -a free < <(python3 -c 'import random, socket
held = {}
while len(held) < 7:
    port = random.randrange(20000, 32768)
    try:
        held[port] = socket.create_server(("127.0.0.1", port))
    except OSError:
        pass
print(*held)')
for number in 0 1 2; do
    client[${machines[number]}]=http://127.0.0.1:${free[number]}
    peer[${machines[number]}]=http://127.0.0.1:${free[number + 3]}
done
client[nowhere]=http://127.0.0.1:${free[6]}
for machine in "${machines[@]}"; do start_etcd "$machine"; done
if ! "$program" asm "$here/token/contract.wat" token >out 2>err || ! "$program" deploy first token >out 2>err || ! "$program" deploy other token token >out 2>err; then
    give_up "no worlds are made"
fi
mkdir a b c p q liar later late lost stranger damaged empty
for name in a b c p q liar later late lost; do cp first "$name/0.world"; done
cp other stranger/0.world
head -c 20 first >damaged/0.world
"$here/cluster/log.py" --etcd "${client[a]}" >out 2>err || give_up "etcd does not start: $(tail -n 1 a.etcd.log)"
for machine in "${machines[@]}"; do start_node "$machine" "$machine"; done

# 30 blocks behind the first one: with three machines, with two, and with three again
echo "0 200 open i64:100" | runs propose p a >final
is "a block is final" grep -q '^position 1 is final' final
is "ten blocks with three machines" both_propose 1 true
is "all came to the last" soon reached 11 a b c
is "it is final" stands 11 'final [0-9a-f]{64} accept by a,b,c'
falls() { is "a node is killed" killed "${node[c]}"; is "its etcd is killed" killed "${etcd[c]}"; }
is "ten blocks while a machine falls" both_propose 6 falls
is "two came to the last" soon reached 21 a b
is "it is final by two" stands 21 'final [0-9a-f]{64} accept by a,b'
rises() { start_etcd c; start_node c c; }
is "ten blocks while it rises" both_propose 11 rises
is "it catches up" soon reached 31 a b c
is "the last is final" stands 31 'final [0-9a-f]{64} accept by a,b,c'
from=$(sed 's/^position //; s/,.*//; q' c.said)
is "it goes on from where it fell, at position $from" between 11 "$from" 22
is "each block was final" [ "$(grep -c ' is final' final)" = 31 ]
echo "cluster: 31 blocks are final; $(grep -vc 'by try 1:' final) of them were mined again, since another was first; c fell, and went on from position $from"
all_so_far

# lies, each of which all nodes refuse and nobody goes on by
calls_of 9 1 | runs lie liar a >lies || sed 's/^/    said: /' lies
is "the liar ends with a right block" grep -q '^position 45 is right, and final$' lies
is "the nodes come to it" soon reached 45 a b c
is "it is final by all" stands 45 'final [0-9a-f]{64} accept by a,b,c'
is "there were lies" [ "$(grep -c ' is refused, ' lies)" = 13 ]
while IFS=' ,' read -r _ position _ _ verdict; do
    is "all refuse position $position" refused "$position" "$verdict"
done < <(grep ' is refused, ' lies)
all_so_far

# who comes later begins with the first world, also where the log was written over; and what is bad has an answer
start_node later b
start_node lost b
start_node stranger b
is "a node of another ledger" ends stranger 1 "at position 1 most nodes came to the world "
start_node empty b
is "a node without a world" ends empty 3 "in the folder empty: there is no world: "
start_node damaged b
is "a node whose world is cut short" ends damaged 3 "in the folder damaged: 0.world; refused world "
start_node q nowhere --patience 1
is "a node without etcd" ends q 3 "etcd at ${client[nowhere]} does not answer: "
start_node late b --program nothing
is "a node without the program" ends late 2 "there is no program nothing"
is "a node that comes later" soon test -e later/45.world
is "another one" soon test -e lost/45.world
is "a second process in one folder" grep -qx 'later: in the folder later: another process works here' <(runs member later b)
rm -r lost a/45.world
is "a late proposer" eval 'calls_of 9 2 | runs propose late b >late.said'
is "it met an entry that had gone" grep -q '^position 46 is final, by try 2: ' late.said
is "a node whose folder vanishes" ends lost 3 "in the folder lost: [Errno 2] No such file or directory"
is "calls that are none" grep -q '^late: refused calls 1 1; ' <(echo "0 much open" | runs propose late b)

# the end: all worlds are the same bytes, in which each of the 33 blocks was done once
for name in a b c later; do
    is "$name comes to the last" soon test -e "$name/46.world"
    is "the world of $name" whole "$name/46.world" late/46.world
done
is "each block was done once" grep -qx 'returned i64:32000 fuel [0-9]*' <("$program" call late/46.world 0 200 supply)
is "no temporary file is left" tidy .
for name in b c; do is "$name is there to the end" killed "${node[$name]}"; done
is "a block that one node of three came to" grep -q '^late: position 47 is not final: .*: a$' <(calls_of 9 3 | runs propose late b --patience 5)
is "it is open" stands 47 'open [0-9a-f]{64} accept by a'
start_node q b --patience 8
is "a proposer's world is a node's" soon test -e q/47.world
for machine in "${machines[@]}"; do is "the etcd of $machine falls" killed "${etcd[$machine]}"; done
is "a node whose etcd falls" ends q 3 "does not answer: "
for name in a later; do is "$name is there to the end" killed "${node[$name]}"; done
is "no process is left" soon alone
told
