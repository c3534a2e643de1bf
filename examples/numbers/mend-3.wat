;; what `del` gives is never dropped
(module
  (import "boost" "del" (func $del (param i64) (result i32)))
  (func (export "clear") (param $key i64)
    (if (i64.eq (local.get $key) (i64.const 0)) (then (unreachable)))
    (call $del (local.get $key))))
