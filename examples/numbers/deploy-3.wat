(module (memory 1) (data 0 (offset (i32.const 65535)) "ab"))
