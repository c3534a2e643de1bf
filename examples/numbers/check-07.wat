(module (export "a" (func 0)))
