(module (func (drop (if (result i32) (i32.const 1) (then (i32.const 2))))))
