;; The simple auction of "Adding Concurrency to Smart Contracts" (Dickerson, Gazzillo, Herlihy, Koskinen, PODC 2017).
;;
;; Cells: where the original has a mapping, a record stands at the key that `slot` makes of the table's number and
;; the key in it.
;;   map 0                     the highest bid; absent before the first one
;;   map 1                     the highest bidder
;;   map slot(1, BIDDER)       what a bidder may take back
(module
 (import "boost" "get" (func $get (param i64) (result i64)))
 (import "boost" "has" (func $has (param i64) (result i32)))
 (import "boost" "put" (func $put (param i64) (param i64)))

 ;; 24 rounds of mixing, in place of the hash that makes a key of storage there, whose permutation has
 ;; 24 rounds, too. Each round can be undone, so no two records meet.
 (func $slot (param $table i64) (param $key i64) (result i64)
  (local $mixed i64) (local $rounds i32)
  (local.set $mixed
   (i64.add (local.get $key) (i64.mul (local.get $table) (i64.const 0x9e37_79b9_7f4a_7c15))))
  (local.set $rounds (i32.const 24))
  (loop $round
   (local.set $mixed
    (i64.mul
     (i64.xor (local.get $mixed) (i64.shr_u (local.get $mixed) (i64.const 29)))
     (i64.const 0xbf58_476d_1ce4_e5b9)))
   (br_if $round (local.tee $rounds (i32.sub (local.get $rounds) (i32.const 1)))))
  (local.get $mixed))

 ;; Reads the highest bid, and bids one more. Who led may take the former bid back. All bids use the two cells
 ;; of the highest one.
 (func $bid_plus_one (export "bid_plus_one") (param $bidder i64)
  (local $refund i64)
  (if (call $has (i64.const 0))
   (then
    (local.set $refund (call $slot (i64.const 1) (call $get (i64.const 1))))
    (call $put (local.get $refund)
     (i64.add (call $get (local.get $refund)) (call $get (i64.const 0))))))
  (call $put (i64.const 0) (i64.add (call $get (i64.const 0)) (i64.const 1)))
  (call $put (i64.const 1) (local.get $bidder)))

 ;; Bids of so many bidders, from a first one on.
 (func (export "enter") (param $first i64) (param $count i64)
  (local $bidder i64)
  (local.set $bidder (local.get $first))
  (loop $next
   (call $bid_plus_one (local.get $bidder))
   (local.set $bidder (i64.add (local.get $bidder) (i64.const 1)))
   (br_if $next
    (i64.lt_u (local.get $bidder) (i64.add (local.get $first) (local.get $count))))))

 ;; Gives what the bidder may take back, once.
 (func (export "withdraw") (param $bidder i64) (result i64)
  (local $amount i64)
  (local.set $amount (call $get (call $slot (i64.const 1) (local.get $bidder))))
  (if (i64.gt_u (local.get $amount) (i64.const 0))
   (then (call $put (call $slot (i64.const 1) (local.get $bidder)) (i64.const 0))))
  (local.get $amount)))
