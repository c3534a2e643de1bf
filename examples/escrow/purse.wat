;; A purse of accounts, which other contracts may ask to move money.
;;
;; The program knows no senders and no signatures, and a contract is not told who asks
;; it: whoever takes calls in has to have checked who acts.
;;
;; Cells
;;   map ACCOUNT    the balance of an account, a number from 1 to 65535; absent is 0
;;
;; All balances together stay below 2^32, if no more is issued.
(module
 (import "boost" "get" (func $get (param i64) (result i64)))
 (import "boost" "put" (func $put (param i64) (param i64)))

 ;; Refuses the call, or where another contract asked, the level, where `ok` is 0.
 (func $require (param $ok i32)
  (if (i32.eqz (local.get $ok)) (then unreachable)))

 (func $credit (param $account i64) (param $amount i64)
  (call $put (local.get $account)
   (i64.add (call $get (local.get $account)) (local.get $amount))))

 ;; Takes an amount from an account, which must hold as much.
 (func $debit (param $account i64) (param $amount i64)
  (local $balance i64)
  (local.set $balance (call $get (local.get $account)))
  (call $require (i64.ge_u (local.get $balance) (local.get $amount)))
  (call $put (local.get $account) (i64.sub (local.get $balance) (local.get $amount))))

 ;; Export 0, which takes one number and gives one, as whoever is to be asked has to.
 ;; The upper 16 bits of the order are the payer, the next 16 the payee, the lower 32
 ;; the amount. The payee is credited first: where the payer has not as much, the trap
 ;; undoes that, too. Gives what the payer has left.
 (func (export "move") (param $order i64) (result i64)
  (local $from i64)
  (local $amount i64)
  (local.set $from (i64.shr_u (local.get $order) (i64.const 48)))
  (local.set $amount (i64.and (local.get $order) (i64.const 0xffff_ffff)))
  (call $credit
   (i64.and (i64.shr_u (local.get $order) (i64.const 32)) (i64.const 0xffff))
   (local.get $amount))
  (call $debit (local.get $from) (local.get $amount))
  (call $get (local.get $from)))

 (func (export "issue") (param $account i64) (param $amount i64)
  (call $credit (local.get $account) (local.get $amount)))

 (func (export "balance") (param $account i64) (result i64)
  (call $get (local.get $account))))
