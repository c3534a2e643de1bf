(module (import "env" "get" (func (param i64) (result i64))))
