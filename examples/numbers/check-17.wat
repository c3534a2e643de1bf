(module (func (drop (i64.add (i64.const 1) (i32.const 2)))))
