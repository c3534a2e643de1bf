(module (memory 1025))
