(module (func (result i64) (i32.const 1)))
