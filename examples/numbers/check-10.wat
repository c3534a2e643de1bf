(module (data 0 (offset (i32.const 0)) "a"))
