(module
 (import "boost" "get" (func $get (param i64) (result i64)))
 (import "boost" "put" (func $put (param i64) (param i64)))
 (func (export "set") (param i64) (param i64)
  (call $put (local.get 0) (local.get 1)))
 (func (export "peek") (param i64)
  (drop (call $get (local.get 0))) unreachable)
 (func (export "get") (param i64) (result i64)
  (call $get (local.get 0))))
