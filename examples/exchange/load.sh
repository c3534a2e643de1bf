#!/usr/bin/env bash
# A load for the exchange: 10,000 calls by chance, the same ones for the same seed, mined, validated, drawn, and judged by judge.py.
#
#   examples/exchange/load.sh PROGRAM FOLDER [SEED]      FOLDER has coin.wasm and exchange.wasm, and gets all that is written
#
# 0.world has the contracts, 1.world the coins and the market after begin.calls, 2.world what load.calls made of them. load.svg draws the first 2,000
# positions of load.block, first.svg all of a block of the first 50 calls. It prints what the calls came to, and how far they could run at once. The
# status is 0 where one worker and four make the same block, it is valid, and the judge finds no fault.
set -euo pipefail
[ $# = 2 ] || [ $# = 3 ] || { sed -n 's/^#   /usage: /p' "$0" >&2; exit 2; }
program=$(command -v "$1") || { echo "load: there is no program $1" >&2; exit 2; }
program=$(realpath "$program")
here=$(cd "$(dirname "${BASH_SOURCE[0]}")" && pwd)
cd "$2"
"$here/load.py" "${3:-1}" 500 10000 .
head -n 50 load.calls >first.calls

# What a block of calls prints is many lines: shown where the command fails. (Standard error tells which calls trapped: none do.)
quietly() { "$@" >out 2>err || { tail -n 5 out err >&2; return 1; }; }

quietly "$program" deploy 0.world coin.wasm coin.wasm exchange.wasm --force
quietly "$program" mine 0.world begin.calls begin.block 1.world --fuel 3000000 --workers 1
quietly "$program" mine 1.world first.calls first.block first.world --fuel 100000 --workers 1
quietly "$program" mine 1.world load.calls one.block one.world --fuel 20000000 --workers 1
quietly "$program" mine 1.world load.calls load.block 2.world --fuel 20000000 --workers 4
cmp one.block load.block
cmp one.world 2.world
quietly "$program" validate 1.world load.calls load.block --fuel 20000000
"$here/judge.py" "$program" 2.world begin.calls begin.block load.calls load.block
"$program" show load.block | sed -n '/^waves/,$p'
for block in load first; do "$program" show $block.block --svg $block.svg; done
