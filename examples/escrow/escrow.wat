;; An escrow: the buyer's money is kept until the buyer releases it to the seller, or
;; the seller gives it back. Contract 1 of its world; it asks contract 0, the purse, in
;; which it has account 65535.
;;
;; Cells
;;   map DEAL       an open deal, by its number: buyer, seller and amount, as the
;;                  purse's orders have them
;;   counter 0      the deals that were refused, since the buyer had not enough
(module
 (import "boost" "get" (func $get (param i64) (result i64)))
 (import "boost" "has" (func $has (param i64) (result i32)))
 (import "boost" "put" (func $put (param i64) (param i64)))
 (import "boost" "del" (func $del (param i64) (result i32)))
 (import "boost" "add" (func $add (param i64) (param i64)))
 (import "boost" "ask"
  (func $ask (param i32) (param i32) (param i64) (result i32)))
 (import "boost" "answer" (func $answer (result i64)))

 (func $require (param $ok i32)
  (if (i32.eqz (local.get $ok)) (then unreachable)))

 ;; Asks export 0 of contract 0. Gives 0 where the money was moved, and the number of
 ;; the trap, 1, where it was not.
 (func $pay (param $from i64) (param $to i64) (param $amount i64) (result i32)
  (call $ask (i32.const 0) (i32.const 0)
   (i64.or (i64.shl (local.get $from) (i64.const 48))
    (i64.or (i64.shl (local.get $to) (i64.const 32)) (local.get $amount)))))

 (func $buyer (param $deal i64) (result i64)
  (i64.shr_u (call $get (local.get $deal)) (i64.const 48)))

 (func $seller (param $deal i64) (result i64)
  (i64.and (i64.shr_u (call $get (local.get $deal)) (i64.const 32)) (i64.const 0xffff)))

 (func $amount (param $deal i64) (result i64)
  (i64.and (call $get (local.get $deal)) (i64.const 0xffff_ffff)))

 ;; Opens a deal, and gives what the buyer has left. Where the buyer has not enough,
 ;; the purse traps; this call goes on, strikes the deal, counts it, and gives -1. Where
 ;; nobody was asked (status 10 or 11: contract 0 is no purse, say), nothing was decided,
 ;; and the call traps. The deal stands before the purse is asked, so that it is there
 ;; whoever comes back.
 (func (export "open")
  (param $deal i64) (param $buyer i64) (param $seller i64) (param $amount i64)
  (result i64) (local $status i32)
  (call $require (i32.eqz (call $has (local.get $deal))))
  (call $put (local.get $deal)
   (i64.or (i64.shl (local.get $buyer) (i64.const 48))
    (i64.or (i64.shl (local.get $seller) (i64.const 32)) (local.get $amount))))
  (local.set $status
   (call $pay (local.get $buyer) (i64.const 65535) (local.get $amount)))
  (call $require (i32.lt_u (local.get $status) (i32.const 10)))
  (if (result i64) (local.get $status)
   (then
    (drop (call $del (local.get $deal)))
    (call $add (i64.const 0) (i64.const 1))
    (i64.const -1))
   (else (call $answer))))

 ;; Closes a deal, and pays what is kept to an account. It is closed before the purse is
 ;; asked. Where the purse did not pay, the call traps, and nothing of it stands.
 (func $close (param $deal i64) (param $to i64)
  (local $amount i64)
  (local.set $amount (call $amount (local.get $deal)))
  (drop (call $del (local.get $deal)))
  (call $require
   (i32.eqz (call $pay (i64.const 65535) (local.get $to) (local.get $amount)))))

 ;; The buyer lets the seller have the money.
 (func (export "release") (param $actor i64) (param $deal i64)
  (call $require (i64.eq (local.get $actor) (call $buyer (local.get $deal))))
  (call $close (local.get $deal) (call $seller (local.get $deal))))

 ;; The seller gives the money back.
 (func (export "refund") (param $actor i64) (param $deal i64)
  (call $require (i64.eq (local.get $actor) (call $seller (local.get $deal))))
  (call $close (local.get $deal) (call $buyer (local.get $deal)))))
