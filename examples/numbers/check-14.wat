(module (func (br 1)))
