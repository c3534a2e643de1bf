(module (func (nop, nop)))
