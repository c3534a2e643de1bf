;; a balance is read and 1 is added to it
(module
  (import "boost" "get" (func $get (param i64) (result i64)))
  (import "boost" "put" (func $put (param i64) (param i64)))
  (func (export "grow") (param $account i64)
    (call $put (local.get $account) (i64.add (call $get (local.get $account)) (i32.const 1)))))
