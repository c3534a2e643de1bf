;; The ballot of "Adding Concurrency to Smart Contracts" (Dickerson, Gazzillo, Herlihy, Koskinen, PODC 2017).
;;
;; Cells: where the original has a mapping, a record stands at the key that `slot` makes of the table's number and
;; the key in it, and its fields stand at the keys from there on.
;;   map 0                         the chair
;;   map slot(1, VOTER)            the weight of a voter's vote; absent: is no voter
;;   map slot(1, VOTER) + 1        is there once the voter has voted
;;   map slot(1, VOTER) + 2        for which proposal
;;   counter slot(2, PROPOSAL)     the votes for a proposal
(module
 (import "boost" "get" (func $get (param i64) (result i64)))
 (import "boost" "has" (func $has (param i64) (result i32)))
 (import "boost" "put" (func $put (param i64) (param i64)))
 (import "boost" "add" (func $add (param i64) (param i64)))

 (func $require (param $ok i32)
  (if (i32.eqz (local.get $ok)) (then unreachable)))

 ;; 24 rounds of mixing, in place of the hash that makes a key of storage there, whose permutation has
 ;; 24 rounds, too. Each round can be undone, so no two records meet.
 (func $slot (param $table i64) (param $key i64) (result i64)
  (local $mixed i64) (local $rounds i32)
  (local.set $mixed
   (i64.add (local.get $key) (i64.mul (local.get $table) (i64.const 0x9e37_79b9_7f4a_7c15))))
  (local.set $rounds (i32.const 24))
  (loop $round
   (local.set $mixed
    (i64.mul
     (i64.xor (local.get $mixed) (i64.shr_u (local.get $mixed) (i64.const 29)))
     (i64.const 0xbf58_476d_1ce4_e5b9)))
   (br_if $round (local.tee $rounds (i32.sub (local.get $rounds) (i32.const 1)))))
  (local.get $mixed))

 (func (export "open") (param $chair i64)
  (call $require (i32.eqz (call $has (i64.const 0))))
  (call $put (i64.const 0) (local.get $chair)))

 ;; The chair gives so many voters, from a first one on, the right to vote.
 (func (export "admit") (param $actor i64) (param $first i64) (param $count i64)
  (local $voter i64)
  (call $require (i64.eq (local.get $actor) (call $get (i64.const 0))))
  (local.set $voter (local.get $first))
  (loop $next
   (call $put (call $slot (i64.const 1) (local.get $voter)) (i64.const 1))
   (local.set $voter (i64.add (local.get $voter) (i64.const 1)))
   (br_if $next
    (i64.lt_u (local.get $voter) (i64.add (local.get $first) (local.get $count))))))

 ;; A second vote of one voter uses the cells of the first, and traps.
 (func (export "vote") (param $voter i64) (param $proposal i64)
  (local $record i64)
  (local.set $record (call $slot (i64.const 1) (local.get $voter)))
  (call $require (i64.ne (call $get (local.get $record)) (i64.const 0)))
  (call $require (i32.eqz (call $has (i64.add (local.get $record) (i64.const 1)))))
  (call $put (i64.add (local.get $record) (i64.const 1)) (i64.const 1))
  (call $put (i64.add (local.get $record) (i64.const 2)) (local.get $proposal))
  (call $add
   (call $slot (i64.const 2) (local.get $proposal))
   (call $get (local.get $record)))))
