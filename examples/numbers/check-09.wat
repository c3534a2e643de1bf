(module (func $f) (elem 0 (offset (i32.const 0)) $f))
