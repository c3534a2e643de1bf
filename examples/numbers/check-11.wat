(module (func (drop (local.get 0))))
