# The loads that `mine.sh` and `validate.sh` measure, each a row of their tables: a script sources it behind common.sh.

# How often each column is measured, and whether the rows are few: `--quick` is the only word that both take.
runs=5
quick=
case $* in
  "") ;;
  --quick) runs=1 quick=1 ;;
  *) usage "[--quick]" ;;
esac

# The rows: what stands in the table's first two columns, and the words by which loads.py writes the calls. With `quick` few, of fewer calls.
load_rows() {
  local length shared count
  if [[ -n ${quick:-} ]]; then
    cat <<'ROWS'
7 instructions|0 of 100|calls 7 0 2000
1,000 instructions|15 of 100|calls 1000 15 500
two groups|all|groups 2001
chains of 10,000|each tenth|chains 10000 200
ROWS
    return
  fi
  # so many that the start of the threads weighs little
  for length in 7 100 1000 10000; do
    case $length in
      1000) count=60000 ;;
      10000) count=10000 ;;
      *) count=20000 ;;
    esac
    for shared in 0 15 100; do
      echo "$(grouped $length) instructions|$shared of 100|calls $length $shared $count"
    done
  done
  cat <<'ROWS'
32,767 readers, then 32,768 adders|all, a counter|groups 65535
100 instructions, a chain|each tenth|chains 100 20000
10,000 instructions, a chain|each tenth|chains 10000 10000
ROWS
}

# A number with commas.
grouped() {
  sed ':a;s/\B[0-9]\{3\}\>/,&/;ta' <<<"$1"
}

# Makes the world of the loads' contract in the file `world`.
load_world() {
  python3 bench/loads.py contract >"$work/loads.wat"
  "$wblock" asm "$work/loads.wat" "$work/loads.wasm" >"$work/log" || fail "asm: $(cat "$work/log")"
  "$wblock" deploy "$work/world" "$work/loads.wasm" >"$work/log" || fail "deploy: $(cat "$work/log")"
}
