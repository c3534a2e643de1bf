;; An auction with rising bids. Who is outbid may take the bid back.
;;
;; The program moves no money: `bid` says that an amount was paid in, and what
;; `withdraw` and `close` return is to be paid out by whoever runs the ledger.
;;
;; Cells
;;   map 0             the seller; absent before `open`
;;   map 1             the highest bid, or before the first one the least that is taken, less 1
;;   map 2             the highest bidder; absent before the first bid
;;   map 3             is there once the auction is closed
;;   map TAG + BIDDER  what the bidder may withdraw; absent is nothing
(module
 (import "boost" "get" (func $get (param i64) (result i64)))
 (import "boost" "has" (func $has (param i64) (result i32)))
 (import "boost" "put" (func $put (param i64) (param i64)))
 (import "boost" "del" (func $del (param i64) (result i32)))

 (func $require (param $ok i32)
  (if (i32.eqz (local.get $ok)) (then unreachable)))

 (func $require_running
  (call $require (call $has (i64.const 0)))
  (call $require (i32.eqz (call $has (i64.const 3)))))

 ;; The key of what a bidder, a number of 56 bits, may withdraw.
 (func $refund_key (param $bidder i64) (result i64)
  (call $require (i64.eqz (i64.shr_u (local.get $bidder) (i64.const 56))))
  (i64.or (local.get $bidder) (i64.const 0x0100_0000_0000_0000)))

 (func (export "open") (param $seller i64) (param $least i64)
  (call $require (i32.eqz (call $has (i64.const 0))))
  (call $require (i64.ge_s (local.get $least) (i64.const 1)))
  (call $put (i64.const 0) (local.get $seller))
  (call $put (i64.const 1) (i64.sub (local.get $least) (i64.const 1))))

 ;; Each bid reads and writes the highest one, so bids run one after another. That lies
 ;; in what an auction is: which of two bids comes first decides what the other has to
 ;; be. An amount is at most 2^40, so that no refund overflows.
 (func (export "bid") (param $bidder i64) (param $amount i64)
  (local $refund i64)
  (call $require_running)
  (call $require (i64.gt_s (local.get $amount) (call $get (i64.const 1))))
  (call $require (i64.le_s (local.get $amount) (i64.const 0x100_0000_0000)))
  (drop (call $refund_key (local.get $bidder)))
  ;; The one who led may have the former bid back, beside what was there.
  (if (call $has (i64.const 2))
   (then
    (local.set $refund (call $refund_key (call $get (i64.const 2))))
    (call $put (local.get $refund)
     (i64.add (call $get (local.get $refund)) (call $get (i64.const 1))))))
  (call $put (i64.const 1) (local.get $amount))
  (call $put (i64.const 2) (local.get $bidder)))

 ;; Gives what may be withdrawn, once: the cell is removed. Withdrawals of different
 ;; bidders can run at once.
 (func (export "withdraw") (param $bidder i64) (result i64)
  (local $key i64) (local $amount i64)
  (local.set $key (call $refund_key (local.get $bidder)))
  (local.set $amount (call $get (local.get $key)))
  (call $require (call $del (local.get $key)))
  (local.get $amount))

 ;; The seller ends the auction and has the highest bid. Without a bid there is none.
 (func (export "close") (param $actor i64) (result i64)
  (call $require_running)
  (call $require (i64.eq (local.get $actor) (call $get (i64.const 0))))
  (call $put (i64.const 3) (i64.const 1))
  (if (result i64) (call $has (i64.const 2))
   (then (call $get (i64.const 1)))
   (else (i64.const 0))))

 ;; Who leads, or has won.
 (func (export "leader") (result i64)
  (call $require (call $has (i64.const 2)))
  (call $get (i64.const 2))))
