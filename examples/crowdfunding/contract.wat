;; Crowdfunding: the owner has the pledges if they reach the goal, else the backers
;; take them back.
;;
;; The program moves no money: `pledge` says that an amount was paid in, and what
;; `claim` and `refund` return is to be paid out by whoever runs the ledger.
;;
;; Cells
;;   map 0             the owner; absent before `open`
;;   map 1             the goal
;;   map 2             once it has ended: 1 reached, 2 missed, 3 reached and claimed
;;   map TAG + BACKER  what a backer pledged; absent is nothing
;;   counter 0         all that was pledged and not taken back
(module
 (import "boost" "get" (func $get (param i64) (result i64)))
 (import "boost" "has" (func $has (param i64) (result i32)))
 (import "boost" "put" (func $put (param i64) (param i64)))
 (import "boost" "del" (func $del (param i64) (result i32)))
 (import "boost" "add" (func $add (param i64) (param i64)))
 (import "boost" "total" (func $total (param i64) (result i64)))

 (func $require (param $ok i32)
  (if (i32.eqz (local.get $ok)) (then unreachable)))

 (func $require_owner (param $actor i64)
  (call $require (call $has (i64.const 0)))
  (call $require (i64.eq (local.get $actor) (call $get (i64.const 0)))))

 ;; The key of a backer, a number of 56 bits.
 (func $backer_key (param $backer i64) (result i64)
  (call $require (i64.eqz (i64.shr_u (local.get $backer) (i64.const 56))))
  (i64.or (local.get $backer) (i64.const 0x0100_0000_0000_0000)))

 (func (export "open") (param $owner i64) (param $goal i64)
  (call $require (i32.eqz (call $has (i64.const 0))))
  (call $require (i64.gt_s (local.get $goal) (i64.const 0)))
  (call $put (i64.const 0) (local.get $owner))
  (call $put (i64.const 1) (local.get $goal)))

 ;; The sum is only added to and each backer has a cell of its own, so pledges of
 ;; different backers can run at once. A pledge is from 1 to 2^32, so 2^31 pledges are
 ;; needed before a sum passes 2^63.
 (func (export "pledge") (param $backer i64) (param $amount i64)
  (local $key i64)
  (call $require (call $has (i64.const 0)))
  (call $require (i32.eqz (call $has (i64.const 2))))
  (call $require (i64.gt_s (local.get $amount) (i64.const 0)))
  (call $require (i64.le_s (local.get $amount) (i64.const 0x1_0000_0000)))
  (local.set $key (call $backer_key (local.get $backer)))
  (call $put (local.get $key)
   (i64.add (call $get (local.get $key)) (local.get $amount)))
  (call $add (i64.const 0) (local.get $amount)))

 ;; The owner ends it. Reading the sum does not go together with adding to it, so this
 ;; runs before or after each pledge. Gives 1 where the goal is reached, else 2.
 (func (export "end") (param $actor i64) (result i64)
  (local $state i64)
  (call $require_owner (local.get $actor))
  (call $require (i32.eqz (call $has (i64.const 2))))
  (local.set $state
   (select (i64.const 1) (i64.const 2)
    (i64.ge_s (call $total (i64.const 0)) (call $get (i64.const 1)))))
  (call $put (i64.const 2) (local.get $state))
  (local.get $state))

 ;; The owner has all pledges, once.
 (func (export "claim") (param $actor i64) (result i64)
  (call $require_owner (local.get $actor))
  (call $require (i64.eq (call $get (i64.const 2)) (i64.const 1)))
  (call $put (i64.const 2) (i64.const 3))
  (call $total (i64.const 0)))

 ;; A backer takes back what was pledged, once, where the goal was missed. Refunds of
 ;; different backers can run at once.
 (func (export "refund") (param $backer i64) (result i64)
  (local $key i64) (local $amount i64)
  (call $require (i64.eq (call $get (i64.const 2)) (i64.const 2)))
  (local.set $key (call $backer_key (local.get $backer)))
  (local.set $amount (call $get (local.get $key)))
  (call $require (call $del (local.get $key)))
  (call $add (i64.const 0) (i64.sub (i64.const 0) (local.get $amount)))
  (local.get $amount))

 (func (export "pledged") (result i64)
  (call $total (i64.const 0))))
