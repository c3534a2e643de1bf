;; a condition that is an i64
(module
  (import "boost" "get" (func $get (param i64) (result i64)))
  (func (export "ask") (param $key i64) (result i64)
    (local $found i64)
    (local.set $found (call $get (local.get $key)))
    (if (local.get $found) (then (unreachable)))
    (local.get $found)))
