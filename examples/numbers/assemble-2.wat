(module (func (param i64 i64)))
