(module (func (drop (local.get $amount))))
