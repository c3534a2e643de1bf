;; A ballot: a chair admits voters, each of whom votes once for one of the choices.
;;
;; Cells
;;   map 0                the chair; absent before `open`
;;   map 1                how many choices there are, 1 to 100
;;   map 2                is there once the ballot is closed
;;   map TAG + VOTER      1: may vote; 2: has voted; absent: is no voter
;;   counter CHOICE       the votes for a choice, from 0
;;
;; A contract has one map. Two tables live in it here, told apart by the top byte of
;; the key: 0 for what there is once, 1 for voters.
(module
 (import "boost" "get" (func $get (param i64) (result i64)))
 (import "boost" "has" (func $has (param i64) (result i32)))
 (import "boost" "put" (func $put (param i64) (param i64)))
 (import "boost" "add" (func $add (param i64) (param i64)))
 (import "boost" "total" (func $total (param i64) (result i64)))

 (func $require (param $ok i32)
  (if (i32.eqz (local.get $ok)) (then unreachable)))

 (func $require_chair (param $actor i64)
  (call $require (call $has (i64.const 0)))
  (call $require (i64.eq (local.get $actor) (call $get (i64.const 0)))))

 (func $require_not_closed
  (call $require (i32.eqz (call $has (i64.const 2)))))

 ;; The key of a voter, a number of 56 bits.
 (func $voter_key (param $voter i64) (result i64)
  (call $require (i64.eqz (i64.shr_u (local.get $voter) (i64.const 56))))
  (i64.or (local.get $voter) (i64.const 0x0100_0000_0000_0000)))

 (func (export "open") (param $chair i64) (param $choices i64)
  (call $require (i32.eqz (call $has (i64.const 0))))
  (call $require (i64.ge_u (local.get $choices) (i64.const 1)))
  (call $require (i64.le_u (local.get $choices) (i64.const 100)))
  (call $put (i64.const 0) (local.get $chair))
  (call $put (i64.const 1) (local.get $choices)))

 ;; The chair admits a voter. One who has voted is not admitted again.
 (func (export "admit") (param $actor i64) (param $voter i64)
  (local $key i64)
  (call $require_chair (local.get $actor))
  (call $require_not_closed)
  (local.set $key (call $voter_key (local.get $voter)))
  (call $require (i32.eqz (call $has (local.get $key))))
  (call $put (local.get $key) (i64.const 1)))

 ;; Reads of what there is once go together, each voter has a cell of its own, and
 ;; additions to one counter go together. So all votes can run at once, also those for the
 ;; same choice.
 (func (export "vote") (param $voter i64) (param $choice i64)
  (local $key i64)
  (call $require_not_closed)
  (call $require (i64.lt_u (local.get $choice) (call $get (i64.const 1))))
  (local.set $key (call $voter_key (local.get $voter)))
  (call $require (i64.eq (call $get (local.get $key)) (i64.const 1)))
  (call $put (local.get $key) (i64.const 2))
  (call $add (local.get $choice) (i64.const 1)))

 ;; Writes the cell that each vote reads, so it runs before or after all votes.
 (func (export "close") (param $actor i64)
  (call $require_chair (local.get $actor))
  (call $require_not_closed)
  (call $put (i64.const 2) (i64.const 1)))

 (func (export "votes") (param $choice i64) (result i64)
  (call $require (i64.lt_u (local.get $choice) (call $get (i64.const 1))))
  (call $total (local.get $choice)))

 ;; The first choice with the most votes, once the ballot is closed.
 (func (export "winner") (result i64)
  (local $choice i64) (local $best i64) (local $votes i64) (local $most i64)
  (call $require (call $has (i64.const 2)))
  (loop $next
   (local.set $votes (call $total (local.get $choice)))
   (if (i64.gt_u (local.get $votes) (local.get $most))
    (then
     (local.set $most (local.get $votes))
     (local.set $best (local.get $choice))))
   (local.set $choice (i64.add (local.get $choice) (i64.const 1)))
   (br_if $next (i64.lt_u (local.get $choice) (call $get (i64.const 1)))))
  (local.get $best)))
