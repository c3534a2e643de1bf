(module (type (func (result i32) (result i32))))
