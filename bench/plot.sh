#!/usr/bin/env bash
# Draws the speed-ups in the tables of bench/mine.sh and bench/validate.sh as three pictures, and prints the name of each: against the number of workers
# (workers.svg), against how many calls use one cell (conflicts.svg), and against the calls' length (length.svg). It takes the newest table of each bench, which it
# knows by its head, from docs/BENCHMARKS.md: that under the latest date, or the first of several; or from FILE, which may be what the two scripts print, one after the
# other. It writes into docs/pictures, or into FOLDER.
# It measures and builds nothing, and writes the same bytes for the same tables. It fails, and leaves the pictures as they were, where a table or a row
# is not found, a cell is no number, or a speed-up in the table is not that of its calls a second. Run it anywhere in the repository:
#
#   bench/plot.sh [FILE [FOLDER]]
words=("$@")
for number in "${!words[@]}"; do
  # the repository's top is not where the script was called
  if [[ ${words[number]} != /* ]]; then words[number]=$PWD/${words[number]}; fi
done
source "$(dirname "${BASH_SOURCE[0]}")/common.sh" bench python3

if ((${#words[@]} > 2)) || [[ ${1:-} == -* ]]; then
  usage "[FILE [FOLDER]]"
fi
file=${words[0]:-docs/BENCHMARKS.md}
folder=${words[1]:-docs/pictures}

python3 bench/plot.py "$file" "$work" || fail "no picture was written"
mkdir -p "$folder"
for picture in workers conflicts length; do
  cp "$work/$picture.svg" "$folder/$picture.svg"
  echo "$folder/$picture.svg"
done
