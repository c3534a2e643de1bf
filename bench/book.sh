#!/usr/bin/env bash
# Prints how long one operation of a book takes, in nanoseconds, over 1,000 and over 100,000 keys: a million operations, gets
# and adds, of 1,000 calls, of which 8 are live at once. The time counts the begins and the commits too, and not the opening.
# Run it anywhere in the repository:
#
#   bench/book.sh [KEYS..]
#
# With words it measures each of these numbers of keys instead.
source "$(dirname "${BASH_SOURCE[0]}")/common.sh" bench

if (($# == 0)); then
  set -- 1000 100000
fi
for keys in "$@"; do
  if ! [[ $keys =~ ^[1-9][0-9]{0,7}$ ]]; then
    usage "[KEYS..]"
  fi
done

build
for keys in "$@"; do
  "$program" operate "$keys"
done
