#!/usr/bin/env bash
# Tests of the library for C, by its users: c/, rust/ and python/, and the functions in C++ and Go of docs/GUIDE.md.
#
#   embed/test.sh [PROGRAM]     PROGRAM: crates/wblock/out/wblock of this repository if it is not given
#
# It makes and installs the library into a folder of its own. Then each user does the commands of the examples' sessions beside the program: modules that are assembled, checked
# and deployed, blocks that are produced and verified, calls alone. What they print, their statuses and their files have to be the program's, byte for byte. Blocks that were
# forged, and worlds, calls, modules and texts that are none, have to be refused by the same line and the same sentence. c/borders.c tries what is promised of the caller's
# memory. C is compiled with -fsanitize=address,undefined. A language whose tools are not there is left out, which is said and is no failure. The status is 0 where all passed,
# 1 where one failed, 2 where there is no program or no library.
# shellcheck source=SCRIPTDIR/../examples/checks.sh
. "$(dirname "${BASH_SOURCE[0]}")/../examples/checks.sh" "$@"
script=embed
examples=$here
embed=$(cd "$here/../embed" && pwd)
if [ ! -f "$embed/../crates/foshqarel_c/out/libfoshqarel_c.a" ] && [ ! -d "$embed/../crates/embed/out/rlib/embed.rlib" ]; then
    echo "embed: there is no library crates/embed/out/rlib/embed.rlib; 'rt ci' makes it" >&2
    exit 2
fi

# Whether a command is done; what it says is shown where it is not.
done_well() { "$@" >out 2>&1 || { sed 's/^/    /' out | head -20; return 1; }; }

# ---- the library, and the users ----

prefix=$work/prefix
is "make install" done_well make -s -C "$embed" install PREFIX="$prefix"
for file in include/foshqarel.h lib/libfoshqarel.a lib/libfoshqarel.so lib/pkgconfig/foshqarel.pc; do
    is "$file is there" [ -s "$prefix/$file" ]
done
flags=(-I "$prefix/include" -L "$prefix/lib" -l:libfoshqarel.a)
if command -v pkg-config >/dev/null; then
    read -r -a flags <<<"$(PKG_CONFIG_PATH=$prefix/lib/pkgconfig pkg-config --cflags --libs foshqarel)"
fi
users=()
if command -v gcc >/dev/null; then
    checked=(gcc -std=gnu11 -O1 -g -Wall -Wextra -Werror "-fsanitize=address,undefined" -fno-sanitize-recover=all)
    is "c: compiled" done_well "${checked[@]}" -o user-c "$embed/c/user.c" "${flags[@]}" -static-libasan
    is "c: the borders compiled" done_well "${checked[@]}" -pthread -o borders "$embed/c/borders.c" "${flags[@]}" "-Wl,--wrap=malloc,--wrap=realloc"
    [ -x user-c ] && users+=(c)
else
    echo "embed: there is no gcc, so the user in C is left out"
fi
if command -v rustc >/dev/null; then
    rust() { done_well rustc --edition 2024 -O -D warnings --out-dir rust -L rust "$@"; }
    is "rust: foshqarel_sys compiled" rust --crate-type rlib "$embed/rust/foshqarel_sys.rs"
    is "rust: foshqarel compiled" rust --crate-type rlib --extern foshqarel_sys=rust/libfoshqarel_sys.rlib "$embed/rust/foshqarel.rs"
    is "rust: compiled" rust --extern foshqarel=rust/libfoshqarel.rlib -L "$prefix/lib" -C link-arg="$prefix/lib/libfoshqarel.a" "$embed/rust/user.rs"
    if [ -x rust/user ]; then
        mv rust/user user-rust
        users+=(rust)
    fi
else
    echo "embed: there is no rustc, so the user in Rust is left out"
fi
if command -v python3 >/dev/null; then
    printf '#!/bin/sh\nFOSHQAREL_SO=%s PYTHONDONTWRITEBYTECODE=1 exec python3 %s "$@"\n' "$prefix/lib/libfoshqarel.so" "$embed/python/user.py" >user-python
    chmod +x user-python
    users+=(python)
else
    echo "embed: there is no python3, so the user in Python is left out"
fi

# The code in GUIDE that begins with this line.
code_of_guide() { awk -v first="$1" '$0 == first { on = 1 } /^```/ { on = 0 } on' "$embed/../docs/GUIDE.md"; }
verifiers=()
if command -v g++ >/dev/null; then
    code_of_guide "#include <foshqarel.h>" >guide.h
    is "c++: compiled" done_well g++ -std=c++17 -O1 -Wall -Wextra -Werror -I . -o user-cpp "$embed/cpp/user.cc" "${flags[@]}"
    [ -x user-cpp ] && verifiers+=(cpp)
else
    echo "embed: there is no g++, so the user in C++ is left out"
fi
if command -v go >/dev/null && command -v pkg-config >/dev/null; then
    mkdir go && cp "$embed/go/user.go" go && (echo "package main" && echo && code_of_guide "// #cgo pkg-config: foshqarel") >go/guide.go
    printf 'module user\n\ngo 1.19\n' >go/go.mod
    is "go: compiled" done_well env -C go PKG_CONFIG_PATH="$prefix/lib/pkgconfig" GOCACHE="$work/go/cache" GOFLAGS=-mod=mod GOPROXY=off go build -o ../user-go .
    [ -x user-go ] && verifiers+=(go)
else
    echo "embed: there is no go, so the user in Go is left out"
fi

# ---- what users do beside the program ----

# Whether a user does a command as the program did: $1 the user, $2 the example, and the words. The program's lines are in wanted, its sentence in said, its status in status.
# `deploy` says behind a refusal which module it is of.
does() {
    local user=$1 found
    (cd "$work/$1/$2" && "$work/user-$1" "${@:3}") >printed 2>why
    found=$?
    if [ "$3" = deploy ]; then sed -i 's/ module [0-9]*$//' wanted; fi
    if [ $found != "$status" ] || ! cmp -s printed wanted; then
        echo "    $user printed, with status $found:"
        sed 's/^/    /' printed why
        echo "    the program, with status $status:"
        sed 's/^/    /' wanted
        return 1
    fi
    # what is refused is refused by the same sentence
    if [ "$status" = 1 ] && [ "$3" != deploy ]; then cmp -s why said; fi
}

# Whether each user refuses or takes what the program does: $1 what it is, $2 the example, and the words.
alike() {
    local user
    (cd "program/$2" && "$program" "${@:3}") >wanted 2>said
    status=$?
    for user in "${users[@]}"; do is "$user: $2: $1" does "$user" "$2" "${@:3}"; done
}

# Gives each user a file of the program's folder: $1 the example, $2 its name.
spread() {
    local user
    for user in "${users[@]}"; do cp "program/$1/$2" "$user/$1/$2"; done
}

# Changes one bit of a file: $1 the file, $2 the byte, counted from the end where it is below 0.
turn_bit() {
    local at=$2 byte
    [ "$at" -ge 0 ] || at=$(($(stat -c %s "$1") + at))
    byte=$(od -An -tu1 -j"$at" -N1 "$1")
    printf '%b' "\\x$(printf %02x $((byte ^ 1)))" | dd of="$1" bs=1 seek="$at" conv=notrunc status=none
}

# Tries what was forged of a block: $1 the example, $2 the world, $3 the calls, $4 the block, $5 the world after it, $6 the fuel.
forge() {
    local at
    for at in 0 4 8 40 72 76 80 84 -1 -33 -40; do
        cp "program/$1/$4" "program/$1/forged.block"
        turn_bit "program/$1/forged.block" $at
        spread "$1" forged.block
        alike "a block with another byte $at" "$1" validate "$2" "$3" forged.block --fuel "$6"
    done
    head -c -1 "program/$1/$4" >"program/$1/forged.block"
    spread "$1" forged.block
    alike "a block that is cut" "$1" validate "$2" "$3" forged.block --fuel "$6"
    alike "a block with little fuel" "$1" validate "$2" "$3" "$4" --fuel 1
    alike "a block over the world after it" "$1" validate "$5" "$3" "$4" --fuel "$6"
    head -c -1 "program/$1/$2" >"program/$1/cut.world"
    spread "$1" cut.world
    alike "a world that is cut" "$1" validate cut.world "$3" "$4" --fuel "$6"
    (cat "program/$1/$3" && printf '0 1\tf\n') >"program/$1/bad.calls"
    spread "$1" bad.calls
    alike "calls that are none" "$1" validate "$2" bad.calls "$4" --fuel "$6"
    [ -x borders ] && is "c: $1: the borders with $4" done_well ./borders "program/$1/$2" "program/$1/$3" "program/$1/$4" "$6"
}

# Whether a user of GUIDE's function accepts a block: $1 the user, $2 the example, $3 the world, $4 the calls, $5 the block, $6 the fuel. What it prints is in printed.
verifies() { (cd "program/$2" && "$work/user-$1" "${@:3}") >printed; }

# Whether it rejects it.
rejects() {
    verifies "$@"
    [ $? = 1 ]
}

# Tries a block that was mined, and of each example one that is forged: as for `forge`.
tried=" "
try_block() {
    local user
    # whoever writes over what was read has nothing to validate by
    [ "$(printf '%s\n' "$2" "$3" "$4" "$5" | sort -u | wc -l)" = 4 ] || return 0
    for user in "${users[@]}"; do
        is "$user: $1: the world after $4" done_well env -C "$user/$1" "$work/user-$user" validate "$2" "$3" "$4" after.world --fuel "$6"
        is "$user: $1: it is $5" cmp "$user/$1/after.world" "program/$1/$5"
        rm -f "$user/$1/after.world"
        "$program" show "program/$1/$5" | grep -E '^(map|counter) ' | sort >wanted
        "$work/user-$user" cells "program/$1/$5" | sort >printed
        is "$user: $1: the cells of $5" cmp printed wanted
    done
    for user in "${verifiers[@]}"; do
        is "$user: $1: the world after $4" verifies "$user" "$1" "$2" "$3" "$4" "$6"
        is "$user: $1: it is $5" cmp printed "program/$1/$5"
        is "$user: $1: another fuel" rejects "$user" "$1" "$2" "$3" "$4" 1
    done
    case "$tried" in *" $1 "*) return 0 ;; esac
    tried="$tried$1 "
    forge "$@"
}

# ---- the sessions ----

# Whether a user knows the command with these words: it has no options but the fuel, the workers and an older world.
is_known() {
    local word
    case "$1" in asm | check | text | deploy | mine | validate | call) ;; *) return 1 ;; esac
    for word in "$@"; do
        case "$word" in --fuel | --workers | --onto) ;; --*) return 1 ;; esac
    done
}

# Does a session by the program and by each user: $1 the example.
session() {
    local line words user ended
    for user in program "${users[@]}"; do mkdir -p "$user" && cp -r "$examples/$1" "$user/$1"; done
    while IFS= read -r line; do
        read -r -a words <<<"${line#\$ wblock }"
        (cd "program/$1" && "$program" "${words[@]}") >wanted 2>said
        status=$?
        ended=$status
        for user in "${users[@]}"; do
            if [ "$ended" -lt 2 ] && is_known "${words[@]}"; then
                is "$user: $1: ${words[*]}" does "$user" "$1" "${words[@]}"
                is "$user: $1: the files of ${words[*]}" diff -r "program/$1" "$user/$1"
            else
                cp -r "program/$1/." "$user/$1"
            fi
        done
        if [ "$ended" = 0 ] && [ "${words[0]}" = mine ] && [ "${words[5]:-}" = --fuel ] && is_known "${words[@]}"; then
            try_block "$1" "${words[1]}" "${words[2]}" "${words[3]}" "${words[4]}" "${words[6]}"
        fi
    done < <(grep '^\$ wblock ' "$examples/$1/session.txt")
}
for name in "$examples"/*/session.txt; do session "$(basename "$(dirname "$name")")"; done

# ---- modules and texts that are none ----

# Sets a module and a text before each.
mkdir -p program/none
for user in "${users[@]}"; do mkdir -p "$user/none"; done
bad() { printf '%b' "$2" >"program/none/$1" && spread none "$1"; }
bad nothing.wasm ''
bad cut.wasm '\0asm\01\0\0\0\01'
bad later.wasm '\0asm\02\0\0\0'
bad nothing.wat ''
bad open.wat '(module'
# shellcheck disable=SC2016 # a name of the text begins so
bad name.wat '(module (func $f (call $g)))'
bad number.wat '(module (func (drop (i32.const 4294967296))))'
bad bytes.wat '(module "\xff")'
bad type.wat '(module (func (result i32)))'
bad host.wat '(module (import "boost" "none" (func)))'
for name in nothing cut later; do
    alike "$name.wasm checked" none check $name.wasm
    alike "$name.wasm as a text" none text $name.wasm $name.text
    alike "$name.wasm deployed" none deploy $name.world $name.wasm
done
for name in nothing open name number bytes type host; do alike "$name.wat assembled" none asm $name.wat $name.made; done
for name in type host; do
    alike "$name.wat checked" none check $name.made
    alike "$name.wat deployed" none deploy $name.world $name.made
done
told
