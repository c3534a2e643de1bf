(module (import "boost" "get" (func (param i32) (result i64))))
