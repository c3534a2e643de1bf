;; one arm of an if gives a number, the other forgets it
(module
  (func (export "least") (param $a i64) (param $b i64) (result i64)
    (if (result i64) (i64.lt_u (local.get $a) (local.get $b))
      (then (local.get $a))
      (else (drop (local.get $b))))))
