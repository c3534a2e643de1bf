(module
  (type (func (param i64) (result i32))) ;; type 0
  (type (func (param i64) (result i64))) ;; type 1
  (type (func (param i32) (param i32) (param i64) (result i32))) ;; type 2
  (type (func (result i64))) ;; type 3
  (type (func (param i64) (param i64))) ;; type 4
  (type (func (param i64) (param i32) (param i32) (result i64))) ;; type 5
  (type (func (param i64) (param i64) (param i64) (result i64))) ;; type 6
  (import "boost" "has" (func $boost.has (type 0))) ;; function 0
  (import "boost" "get" (func $boost.get (type 1))) ;; function 1
  (import "boost" "ask" (func $boost.ask (type 2))) ;; function 2
  (import "boost" "answer" (func $boost.answer (type 3))) ;; function 3
  (import "boost" "put" (func $boost.put (type 4))) ;; function 4
  (import "boost" "total" (func $boost.total (type 1))) ;; function 5
  (import "boost" "add" (func $boost.add (type 4))) ;; function 6
  (func $move (type 1) ;; function 7
    (param i64) ;; local 0
    (result i64)
    (local i64) ;; local 1
    (local i64) ;; local 2
    (local i64) ;; local 3
    (local i64) ;; local 4
    (local i64) ;; local 5
    (local i64) ;; local 6
    block ;; 0
      i64.const 1 ;; 1
      call $boost.has ;; 2
      i32.eqz ;; 3
      br_if 0 ;; 4
      i64.const 1 ;; 5
      call $boost.get ;; 6
      local.tee 1 ;; 7
      i32.wrap_i64 ;; 8
      local.get 1 ;; 9
      i64.const 32 ;; 10
      i64.shr_u ;; 11
      i32.wrap_i64 ;; 12
      local.get 0 ;; 13
      call $boost.ask ;; 14
      br_if 0 ;; 15
      call $boost.answer ;; 16
      i64.const 1 ;; 17
      i64.ne ;; 18
      br_if 0 ;; 19
      i64.const 0 ;; 20
      local.set 1 ;; 21
      block ;; 22
        i64.const 0 ;; 23
        local.get 0 ;; 24
        i64.const 40 ;; 25
        i64.shr_u ;; 26
        i64.const 8388607 ;; 27
        i64.and ;; 28
        local.tee 2 ;; 29
        local.get 0 ;; 30
        i64.const 0 ;; 31
        i64.lt_s ;; 32
        select ;; 33
        local.tee 3 ;; 34
        i64.const 72057594037927936 ;; 35
        i64.or ;; 36
        local.tee 4 ;; 37
        call $boost.get ;; 38
        local.tee 5 ;; 39
        local.get 0 ;; 40
        i64.const 1099511627775 ;; 41
        i64.and ;; 42
        local.tee 6 ;; 43
        i64.lt_u ;; 44
        br_if 0 ;; 45
        local.get 4 ;; 46
        local.get 5 ;; 47
        local.get 6 ;; 48
        i64.sub ;; 49
        call $boost.put ;; 50
        local.get 2 ;; 51
        local.get 3 ;; 52
        i64.sub ;; 53
        local.tee 1 ;; 54
        i64.const 72057594037927936 ;; 55
        i64.ge_u ;; 56
        br_if 1 ;; 57
        local.get 1 ;; 58
        i64.const 72057594037927936 ;; 59
        i64.or ;; 60
        local.tee 2 ;; 61
        call $boost.get ;; 62
        local.tee 1 ;; 63
        local.get 6 ;; 64
        i64.add ;; 65
        local.tee 6 ;; 66
        local.get 1 ;; 67
        i64.lt_u ;; 68
        br_if 1 ;; 69
        local.get 2 ;; 70
        local.get 6 ;; 71
        call $boost.put ;; 72
        local.get 0 ;; 73
        local.set 1 ;; 74
      end
      local.get 1 ;; 75
      return ;; 76
    end
    unreachable ;; 77
    unreachable ;; 78
  )
  (func $open (type 5) ;; function 8
    (param i64) ;; local 0
    (param i32) ;; local 1
    (param i32) ;; local 2
    (result i64)
    (local i64) ;; local 3
    i64.const -1 ;; 0
    local.set 3 ;; 1
    block ;; 2
      local.get 0 ;; 3
      i64.const -8388608 ;; 4
      i64.add ;; 5
      i64.const -8388607 ;; 6
      i64.lt_u ;; 7
      br_if 0 ;; 8
      i64.const -4 ;; 9
      local.set 3 ;; 10
      i64.const 0 ;; 11
      call $boost.has ;; 12
      br_if 0 ;; 13
      i64.const 0 ;; 14
      local.get 0 ;; 15
      call $boost.put ;; 16
      i64.const 1 ;; 17
      local.get 2 ;; 18
      i64.extend_i32_u ;; 19
      i64.const 32 ;; 20
      i64.shl ;; 21
      local.get 1 ;; 22
      i64.extend_i32_u ;; 23
      i64.or ;; 24
      call $boost.put ;; 25
      i64.const 0 ;; 26
      local.set 3 ;; 27
    end
    local.get 3 ;; 28
  )
  (func $issue (type 6) ;; function 9
    (param i64) ;; local 0
    (param i64) ;; local 1
    (param i64) ;; local 2
    (result i64)
    (local i64) ;; local 3
    i64.const -1 ;; 0
    local.set 3 ;; 1
    block ;; 2
      block ;; 3
        local.get 0 ;; 4
        i64.const -8388608 ;; 5
        i64.add ;; 6
        i64.const -8388607 ;; 7
        i64.lt_u ;; 8
        br_if 0 ;; 9
        local.get 1 ;; 10
        i64.const -8388608 ;; 11
        i64.add ;; 12
        i64.const -8388607 ;; 13
        i64.lt_u ;; 14
        br_if 0 ;; 15
        i64.const -2 ;; 16
        local.set 3 ;; 17
        local.get 2 ;; 18
        i64.const -1099511627776 ;; 19
        i64.add ;; 20
        i64.const -1099511627775 ;; 21
        i64.lt_u ;; 22
        br_if 0 ;; 23
        i64.const -5 ;; 24
        local.set 3 ;; 25
        i64.const 0 ;; 26
        call $boost.get ;; 27
        local.get 0 ;; 28
        i64.ne ;; 29
        br_if 0 ;; 30
        i64.const -6 ;; 31
        local.set 3 ;; 32
        i64.const 1099511627776 ;; 33
        i64.const 0 ;; 34
        call $boost.total ;; 35
        i64.sub ;; 36
        local.get 2 ;; 37
        i64.le_u ;; 38
        br_if 0 ;; 39
        i64.const 0 ;; 40
        local.get 2 ;; 41
        call $boost.add ;; 42
        local.get 1 ;; 43
        i64.const 72057594037927936 ;; 44
        i64.or ;; 45
        local.tee 0 ;; 46
        call $boost.get ;; 47
        local.tee 3 ;; 48
        local.get 2 ;; 49
        i64.add ;; 50
        local.tee 1 ;; 51
        local.get 3 ;; 52
        i64.lt_u ;; 53
        br_if 1 ;; 54
        local.get 0 ;; 55
        local.get 1 ;; 56
        call $boost.put ;; 57
        local.get 2 ;; 58
        local.set 3 ;; 59
      end
      local.get 3 ;; 60
      return ;; 61
    end
    unreachable ;; 62
    unreachable ;; 63
  )
  (func $transfer (type 6) ;; function 10
    (param i64) ;; local 0
    (param i64) ;; local 1
    (param i64) ;; local 2
    (result i64)
    (local i64) ;; local 3
    (local i64) ;; local 4
    i64.const -1 ;; 0
    local.set 3 ;; 1
    block ;; 2
      block ;; 3
        local.get 0 ;; 4
        i64.const -8388608 ;; 5
        i64.add ;; 6
        i64.const -8388607 ;; 7
        i64.lt_u ;; 8
        br_if 0 ;; 9
        local.get 1 ;; 10
        i64.const -8388608 ;; 11
        i64.add ;; 12
        i64.const -8388607 ;; 13
        i64.lt_u ;; 14
        br_if 0 ;; 15
        i64.const -2 ;; 16
        local.set 3 ;; 17
        local.get 2 ;; 18
        i64.const -1099511627776 ;; 19
        i64.add ;; 20
        i64.const -1099511627775 ;; 21
        i64.lt_u ;; 22
        br_if 0 ;; 23
        i64.const -7 ;; 24
        local.set 3 ;; 25
        local.get 0 ;; 26
        i64.const 72057594037927936 ;; 27
        i64.or ;; 28
        local.tee 0 ;; 29
        call $boost.get ;; 30
        local.tee 4 ;; 31
        local.get 2 ;; 32
        i64.lt_u ;; 33
        br_if 0 ;; 34
        local.get 0 ;; 35
        local.get 4 ;; 36
        local.get 2 ;; 37
        i64.sub ;; 38
        call $boost.put ;; 39
        local.get 1 ;; 40
        i64.const 72057594037927936 ;; 41
        i64.or ;; 42
        local.tee 0 ;; 43
        call $boost.get ;; 44
        local.tee 3 ;; 45
        local.get 2 ;; 46
        i64.add ;; 47
        local.tee 1 ;; 48
        local.get 3 ;; 49
        i64.lt_u ;; 50
        br_if 1 ;; 51
        local.get 0 ;; 52
        local.get 1 ;; 53
        call $boost.put ;; 54
        local.get 2 ;; 55
        local.set 3 ;; 56
      end
      local.get 3 ;; 57
      return ;; 58
    end
    unreachable ;; 59
    unreachable ;; 60
  )
  (func $balance (type 1) ;; function 11
    (param i64) ;; local 0
    (result i64)
    (local i64) ;; local 1
    i64.const -1 ;; 0
    local.set 1 ;; 1
    block ;; 2
      local.get 0 ;; 3
      i64.const 8388607 ;; 4
      i64.gt_u ;; 5
      br_if 0 ;; 6
      local.get 0 ;; 7
      i64.const 72057594037927936 ;; 8
      i64.or ;; 9
      call $boost.get ;; 10
      local.set 1 ;; 11
    end
    local.get 1 ;; 12
  )
  (table 1 1 funcref)
  (memory 1 1)
  (global (mut i32) (i32.const 4096)) ;; global 0
  (export "move" (func $move))
  (export "open" (func $open))
  (export "issue" (func $issue))
  (export "transfer" (func $transfer))
  (export "balance" (func $balance))
)
