;; A token with one issuer.
;;
;; The program knows no senders and no signatures: who acts is an argument of the
;; call, and whoever takes calls in has to have checked it before.
;;
;; Cells
;;   map 0          the issuer's account; absent before `open`
;;   map ACCOUNT    the balance of an account, a number from 1 up; absent is 0
;;   counter 0      the supply: all that was issued and not burned
;;
;; An amount is from 1 to 2^63 - 1. `issue` keeps the supply below 2^63. All balances
;; together are the supply, so no sum below can overflow.
(module
 (import "boost" "get" (func $get (param i64) (result i64)))
 (import "boost" "has" (func $has (param i64) (result i32)))
 (import "boost" "put" (func $put (param i64) (param i64)))
 (import "boost" "add" (func $add (param i64) (param i64)))
 (import "boost" "total" (func $total (param i64) (result i64)))

 ;; Refuses the call where `ok` is 0: what the call did is undone, and its receipt
 ;; is `trapped 1`.
 (func $require (param $ok i32)
  (if (i32.eqz (local.get $ok)) (then unreachable)))

 ;; An account or an amount is a positive number.
 (func $require_positive (param $number i64)
  (call $require (i64.gt_s (local.get $number) (i64.const 0))))

 ;; Only the issuer may go on.
 (func $require_issuer (param $actor i64)
  (call $require (call $has (i64.const 0)))
  (call $require (i64.eq (local.get $actor) (call $get (i64.const 0)))))

 ;; Takes an amount from an account, which must hold as much.
 (func $debit (param $account i64) (param $amount i64)
  (local $balance i64)
  (local.set $balance (call $get (local.get $account)))
  (call $require (i64.ge_s (local.get $balance) (local.get $amount)))
  (call $put (local.get $account) (i64.sub (local.get $balance) (local.get $amount))))

 (func $credit (param $account i64) (param $amount i64)
  (call $put (local.get $account)
   (i64.add (call $get (local.get $account)) (local.get $amount))))

 ;; Names the issuer, once.
 (func (export "open") (param $issuer i64)
  (call $require_positive (local.get $issuer))
  (call $require (i32.eqz (call $has (i64.const 0))))
  (call $put (i64.const 0) (local.get $issuer)))

 ;; The issuer makes new units. This reads the supply and adds to it, so two of these
 ;; calls never go together.
 (func (export "issue") (param $actor i64) (param $to i64) (param $amount i64)
  (call $require_issuer (local.get $actor))
  (call $require_positive (local.get $to))
  (call $require_positive (local.get $amount))
  (call $require
   (i64.le_s (local.get $amount)
    (i64.sub (i64.const 0x7fff_ffff_ffff_ffff) (call $total (i64.const 0)))))
  (call $add (i64.const 0) (local.get $amount))
  (call $credit (local.get $to) (local.get $amount)))

 ;; Moves units. This touches the two balances alone, so transfers between different
 ;; accounts can run at once. The payer is debited first, so that a transfer to oneself
 ;; changes nothing.
 (func (export "transfer") (param $from i64) (param $to i64) (param $amount i64)
  (call $require_positive (local.get $from))
  (call $require_positive (local.get $to))
  (call $require_positive (local.get $amount))
  (call $debit (local.get $from) (local.get $amount))
  (call $credit (local.get $to) (local.get $amount)))

 ;; Destroys units. The supply is only added to, so burns of different accounts can run
 ;; at once.
 (func (export "burn") (param $account i64) (param $amount i64)
  (call $require_positive (local.get $account))
  (call $require_positive (local.get $amount))
  (call $debit (local.get $account) (local.get $amount))
  (call $add (i64.const 0) (i64.sub (i64.const 0) (local.get $amount))))

 (func (export "balance") (param $account i64) (result i64)
  (call $require_positive (local.get $account))
  (call $get (local.get $account)))

 (func (export "supply") (result i64)
  (call $total (i64.const 0))))
