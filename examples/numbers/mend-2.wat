;; the key of a call is forgotten
(module
  (import "boost" "add" (func $add (param i64) (param i64)))
  (func (export "count") (param $amount i64)
    (call $add (local.get $amount))))
