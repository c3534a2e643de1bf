(module
  (type (func (param i64) (result i64))) ;; type 0
  (type (func (param i64) (param i64))) ;; type 1
  (type (func (param i32) (param i32) (param i64) (result i32))) ;; type 2
  (type (func (result i64))) ;; type 3
  (type (func (param i64) (result i32))) ;; type 4
  (type (func (param i64) (param i32) (param i64) (param i64) (result i64))) ;; type 5
  (type (func (param i64) (param i64) (param i64) (result i64))) ;; type 6
  (type (func (param i64) (param i64) (param i64) (param i64) (result i64))) ;; type 7
  (type (func (param i32) (param i32) (param i64) (param i64) (result i32))) ;; type 8
  (type (func (param i32) (param i64) (result i64))) ;; type 9
  (import "boost" "get" (func $boost.get (type 0))) ;; function 0
  (import "boost" "put" (func $boost.put (type 1))) ;; function 1
  (import "boost" "ask" (func $boost.ask (type 2))) ;; function 2
  (import "boost" "answer" (func $boost.answer (type 3))) ;; function 3
  (import "boost" "del" (func $boost.del (type 4))) ;; function 4
  (func $wants_0 (type 0) ;; function 5
    (param i64) ;; local 0
    (result i64)
    block ;; 0
      local.get 0 ;; 1
      i64.eqz ;; 2
      i32.eqz ;; 3
      br_if 0 ;; 4
      i64.const 0 ;; 5
      return ;; 6
    end
    i64.const 3 ;; 7
    call $boost.get ;; 8
    local.get 0 ;; 9
    i64.eq ;; 10
    i64.extend_i32_u ;; 11
  )
  (func $wants_1 (type 0) ;; function 6
    (param i64) ;; local 0
    (result i64)
    block ;; 0
      local.get 0 ;; 1
      i64.eqz ;; 2
      i32.eqz ;; 3
      br_if 0 ;; 4
      i64.const 0 ;; 5
      return ;; 6
    end
    i64.const 4 ;; 7
    call $boost.get ;; 8
    local.get 0 ;; 9
    i64.eq ;; 10
    i64.extend_i32_u ;; 11
  )
  (func $sell (type 5) ;; function 7
    (param i64) ;; local 0
    (param i32) ;; local 1
    (param i64) ;; local 2
    (param i64) ;; local 3
    (result i64)
    (local i64) ;; local 4
    (local i64) ;; local 5
    (local i64) ;; local 6
    i64.const -1 ;; 0
    local.set 4 ;; 1
    block ;; 2
      local.get 0 ;; 3
      i64.const -8388608 ;; 4
      i64.add ;; 5
      i64.const -8388607 ;; 6
      i64.lt_u ;; 7
      br_if 0 ;; 8
      i64.const -3 ;; 9
      local.set 4 ;; 10
      local.get 1 ;; 11
      i32.const 1 ;; 12
      i32.gt_u ;; 13
      br_if 0 ;; 14
      i64.const -2 ;; 15
      local.set 4 ;; 16
      local.get 2 ;; 17
      i64.const -1099511627776 ;; 18
      i64.add ;; 19
      i64.const -1099511627775 ;; 20
      i64.lt_u ;; 21
      br_if 0 ;; 22
      local.get 1 ;; 23
      i64.extend_i32_u ;; 24
      call $boost.get ;; 25
      local.set 4 ;; 26
      i32.const 1 ;; 27
      local.get 1 ;; 28
      i32.sub ;; 29
      i64.extend_i32_u ;; 30
      call $boost.get ;; 31
      local.set 5 ;; 32
      block ;; 33
        local.get 4 ;; 34
        i64.eqz ;; 35
        i32.eqz ;; 36
        br_if 0 ;; 37
        i64.const -8 ;; 38
        return ;; 39
      end
      block ;; 40
        local.get 2 ;; 41
        i64.const 997 ;; 42
        i64.mul ;; 43
        local.tee 6 ;; 44
        local.get 5 ;; 45
        local.get 6 ;; 46
        local.get 4 ;; 47
        i64.const 1000 ;; 48
        i64.mul ;; 49
        i64.add ;; 50
        call 8 ;; 51
        local.tee 5 ;; 52
        i64.eqz ;; 53
        i32.eqz ;; 54
        br_if 0 ;; 55
        i64.const -10 ;; 56
        return ;; 57
      end
      i64.const -12 ;; 58
      local.set 4 ;; 59
      local.get 5 ;; 60
      local.get 3 ;; 61
      i64.lt_u ;; 62
      br_if 0 ;; 63
      local.get 0 ;; 64
      local.get 1 ;; 65
      local.get 2 ;; 66
      local.get 5 ;; 67
      call 9 ;; 68
      local.tee 4 ;; 69
      local.get 5 ;; 70
      local.get 4 ;; 71
      i64.const 0 ;; 72
      i64.lt_s ;; 73
      select ;; 74
      local.set 4 ;; 75
    end
    local.get 4 ;; 76
  )
  (func (type 6) ;; function 8
    (param i64) ;; local 0
    (param i64) ;; local 1
    (param i64) ;; local 2
    (result i64)
    (local i64) ;; local 3
    (local i64) ;; local 4
    (local i64) ;; local 5
    (local i64) ;; local 6
    (local i64) ;; local 7
    (local i64) ;; local 8
    i64.const 1099511627776 ;; 0
    local.set 3 ;; 1
    block ;; 2
      local.get 1 ;; 3
      i64.const 4294967295 ;; 4
      i64.and ;; 5
      local.tee 4 ;; 6
      local.get 0 ;; 7
      i64.const 4294967295 ;; 8
      i64.and ;; 9
      local.tee 5 ;; 10
      i64.mul ;; 11
      i64.const 32 ;; 12
      i64.shr_u ;; 13
      local.get 4 ;; 14
      local.get 0 ;; 15
      i64.const 32 ;; 16
      i64.shr_u ;; 17
      local.tee 6 ;; 18
      i64.mul ;; 19
      i64.add ;; 20
      local.tee 4 ;; 21
      i64.const 32 ;; 22
      i64.shr_u ;; 23
      local.get 1 ;; 24
      i64.const 32 ;; 25
      i64.shr_u ;; 26
      local.tee 7 ;; 27
      local.get 6 ;; 28
      i64.mul ;; 29
      i64.add ;; 30
      local.get 4 ;; 31
      i64.const 4294967295 ;; 32
      i64.and ;; 33
      local.get 7 ;; 34
      local.get 5 ;; 35
      i64.mul ;; 36
      i64.add ;; 37
      i64.const 32 ;; 38
      i64.shr_u ;; 39
      i64.add ;; 40
      local.tee 4 ;; 41
      local.get 2 ;; 42
      i64.ge_u ;; 43
      br_if 0 ;; 44
      local.get 1 ;; 45
      local.get 0 ;; 46
      i64.mul ;; 47
      local.set 5 ;; 48
      block ;; 49
        block ;; 50
          local.get 4 ;; 51
          i64.const 0 ;; 52
          i64.ne ;; 53
          br_if 0 ;; 54
          local.get 5 ;; 55
          local.get 2 ;; 56
          i64.div_u ;; 57
          local.set 1 ;; 58
          br 1 ;; 59
        end
        local.get 4 ;; 60
        local.get 2 ;; 61
        i64.clz ;; 62
        local.tee 6 ;; 63
        i64.shl ;; 64
        local.get 5 ;; 65
        i64.const 1 ;; 66
        i64.shr_u ;; 67
        local.get 6 ;; 68
        i64.const 63 ;; 69
        i64.xor ;; 70
        i64.shr_u ;; 71
        i64.or ;; 72
        local.tee 7 ;; 73
        local.get 7 ;; 74
        local.get 2 ;; 75
        local.get 6 ;; 76
        i64.shl ;; 77
        local.tee 8 ;; 78
        i64.const 32 ;; 79
        i64.shr_u ;; 80
        local.tee 3 ;; 81
        i64.div_u ;; 82
        local.tee 1 ;; 83
        local.get 3 ;; 84
        i64.mul ;; 85
        i64.sub ;; 86
        local.set 0 ;; 87
        local.get 8 ;; 88
        i64.const 4294967295 ;; 89
        i64.and ;; 90
        local.set 4 ;; 91
        local.get 5 ;; 92
        local.get 6 ;; 93
        i64.shl ;; 94
        local.tee 5 ;; 95
        i64.const 32 ;; 96
        i64.shr_u ;; 97
        local.set 2 ;; 98
        block ;; 99
          loop ;; 100
            block ;; 101
              local.get 1 ;; 102
              i64.const 4294967295 ;; 103
              i64.gt_u ;; 104
              br_if 0 ;; 105
              local.get 1 ;; 106
              local.get 4 ;; 107
              i64.mul ;; 108
              local.get 0 ;; 109
              i64.const 32 ;; 110
              i64.shl ;; 111
              local.get 2 ;; 112
              i64.or ;; 113
              i64.le_u ;; 114
              br_if 2 ;; 115
            end
            local.get 1 ;; 116
            i64.const -1 ;; 117
            i64.add ;; 118
            local.set 1 ;; 119
            local.get 0 ;; 120
            local.get 3 ;; 121
            i64.add ;; 122
            local.tee 0 ;; 123
            i64.const 4294967296 ;; 124
            i64.lt_u ;; 125
            br_if 0 ;; 126
          end
        end
        local.get 7 ;; 127
        i64.const 32 ;; 128
        i64.shl ;; 129
        local.get 2 ;; 130
        i64.or ;; 131
        local.get 1 ;; 132
        local.get 8 ;; 133
        i64.mul ;; 134
        i64.sub ;; 135
        local.tee 0 ;; 136
        local.get 0 ;; 137
        local.get 3 ;; 138
        i64.div_u ;; 139
        local.tee 0 ;; 140
        local.get 3 ;; 141
        i64.mul ;; 142
        i64.sub ;; 143
        local.set 2 ;; 144
        local.get 5 ;; 145
        i64.const 4294967295 ;; 146
        i64.and ;; 147
        local.set 5 ;; 148
        local.get 1 ;; 149
        i64.const 32 ;; 150
        i64.shl ;; 151
        local.set 1 ;; 152
        block ;; 153
          loop ;; 154
            block ;; 155
              local.get 0 ;; 156
              i64.const 4294967295 ;; 157
              i64.gt_u ;; 158
              br_if 0 ;; 159
              local.get 0 ;; 160
              local.get 4 ;; 161
              i64.mul ;; 162
              local.get 2 ;; 163
              i64.const 32 ;; 164
              i64.shl ;; 165
              local.get 5 ;; 166
              i64.or ;; 167
              i64.le_u ;; 168
              br_if 2 ;; 169
            end
            local.get 0 ;; 170
            i64.const -1 ;; 171
            i64.add ;; 172
            local.set 0 ;; 173
            local.get 2 ;; 174
            local.get 3 ;; 175
            i64.add ;; 176
            local.tee 2 ;; 177
            i64.const 4294967296 ;; 178
            i64.lt_u ;; 179
            br_if 0 ;; 180
          end
        end
        local.get 0 ;; 181
        local.get 1 ;; 182
        i64.or ;; 183
        local.set 1 ;; 184
      end
      local.get 1 ;; 185
      i64.const 1099511627776 ;; 186
      local.get 1 ;; 187
      i64.const 1099511627776 ;; 188
      i64.lt_u ;; 189
      select ;; 190
      local.set 3 ;; 191
    end
    local.get 3 ;; 192
  )
  (func (type 5) ;; function 9
    (param i64) ;; local 0
    (param i32) ;; local 1
    (param i64) ;; local 2
    (param i64) ;; local 3
    (result i64)
    (local i64) ;; local 4
    (local i64) ;; local 5
    (local i32) ;; local 6
    (local i64) ;; local 7
    (local i64) ;; local 8
    (local i64) ;; local 9
    (local i64) ;; local 10
    (local i32) ;; local 11
    local.get 1 ;; 0
    i64.extend_i32_u ;; 1
    local.tee 4 ;; 2
    call $boost.get ;; 3
    local.set 5 ;; 4
    i32.const 1 ;; 5
    local.get 1 ;; 6
    i32.sub ;; 7
    local.tee 6 ;; 8
    i64.extend_i32_u ;; 9
    local.tee 7 ;; 10
    call $boost.get ;; 11
    local.set 8 ;; 12
    local.get 4 ;; 13
    local.get 5 ;; 14
    local.get 2 ;; 15
    i64.add ;; 16
    call $boost.put ;; 17
    local.get 7 ;; 18
    local.get 8 ;; 19
    local.get 3 ;; 20
    i64.sub ;; 21
    call $boost.put ;; 22
    local.get 1 ;; 23
    i32.const 3 ;; 24
    i32.add ;; 25
    i64.extend_i32_u ;; 26
    local.tee 9 ;; 27
    local.get 0 ;; 28
    i64.const 40 ;; 29
    i64.shl ;; 30
    local.tee 0 ;; 31
    local.get 2 ;; 32
    i64.or ;; 33
    local.tee 2 ;; 34
    call $boost.put ;; 35
    block ;; 36
      local.get 1 ;; 37
      i32.const 0 ;; 38
      local.get 2 ;; 39
      call $boost.ask ;; 40
      br_if 0 ;; 41
      block ;; 42
        call $boost.answer ;; 43
        local.tee 10 ;; 44
        local.get 2 ;; 45
        i64.eq ;; 46
        local.tee 11 ;; 47
        br_if 0 ;; 48
        local.get 10 ;; 49
        i64.eqz ;; 50
        i32.eqz ;; 51
        br_if 1 ;; 52
      end
      local.get 9 ;; 53
      call $boost.del ;; 54
      drop ;; 55
      block ;; 56
        local.get 11 ;; 57
        br_if 0 ;; 58
        local.get 4 ;; 59
        local.get 5 ;; 60
        call $boost.put ;; 61
        local.get 7 ;; 62
        local.get 8 ;; 63
        call $boost.put ;; 64
        i64.const -14 ;; 65
        i64.const -13 ;; 66
        local.get 1 ;; 67
        select ;; 68
        return ;; 69
      end
      i32.const 4 ;; 70
      local.get 1 ;; 71
      i32.sub ;; 72
      i64.extend_i32_u ;; 73
      local.tee 4 ;; 74
      local.get 0 ;; 75
      local.get 3 ;; 76
      i64.or ;; 77
      i64.const -9223372036854775808 ;; 78
      i64.or ;; 79
      local.tee 2 ;; 80
      call $boost.put ;; 81
      local.get 6 ;; 82
      i32.const 0 ;; 83
      local.get 2 ;; 84
      call $boost.ask ;; 85
      br_if 0 ;; 86
      block ;; 87
        call $boost.answer ;; 88
        local.tee 3 ;; 89
        local.get 2 ;; 90
        i64.eq ;; 91
        local.tee 1 ;; 92
        br_if 0 ;; 93
        local.get 3 ;; 94
        i64.eqz ;; 95
        i32.eqz ;; 96
        br_if 1 ;; 97
      end
      local.get 4 ;; 98
      call $boost.del ;; 99
      drop ;; 100
      local.get 1 ;; 101
      i32.eqz ;; 102
      br_if 0 ;; 103
      i64.const 0 ;; 104
      return ;; 105
    end
    unreachable ;; 106
    unreachable ;; 107
  )
  (func $buy (type 5) ;; function 10
    (param i64) ;; local 0
    (param i32) ;; local 1
    (param i64) ;; local 2
    (param i64) ;; local 3
    (result i64)
    (local i64) ;; local 4
    (local i64) ;; local 5
    (local i64) ;; local 6
    i64.const -1 ;; 0
    local.set 4 ;; 1
    block ;; 2
      local.get 0 ;; 3
      i64.const -8388608 ;; 4
      i64.add ;; 5
      i64.const -8388607 ;; 6
      i64.lt_u ;; 7
      br_if 0 ;; 8
      i64.const -3 ;; 9
      local.set 4 ;; 10
      local.get 1 ;; 11
      i32.const 1 ;; 12
      i32.gt_u ;; 13
      br_if 0 ;; 14
      i64.const -2 ;; 15
      local.set 4 ;; 16
      local.get 2 ;; 17
      i64.const -1099511627776 ;; 18
      i64.add ;; 19
      i64.const -1099511627775 ;; 20
      i64.lt_u ;; 21
      br_if 0 ;; 22
      local.get 1 ;; 23
      i64.extend_i32_u ;; 24
      call $boost.get ;; 25
      local.set 5 ;; 26
      i32.const 1 ;; 27
      local.get 1 ;; 28
      i32.sub ;; 29
      i64.extend_i32_u ;; 30
      call $boost.get ;; 31
      local.set 6 ;; 32
      block ;; 33
        local.get 5 ;; 34
        i64.eqz ;; 35
        i32.eqz ;; 36
        br_if 0 ;; 37
        i64.const -8 ;; 38
        return ;; 39
      end
      i64.const -11 ;; 40
      local.set 4 ;; 41
      local.get 6 ;; 42
      local.get 2 ;; 43
      i64.le_u ;; 44
      br_if 0 ;; 45
      i64.const -12 ;; 46
      local.set 4 ;; 47
      local.get 5 ;; 48
      i64.const 1000 ;; 49
      i64.mul ;; 50
      local.get 2 ;; 51
      local.get 6 ;; 52
      local.get 2 ;; 53
      i64.sub ;; 54
      i64.const 997 ;; 55
      i64.mul ;; 56
      call 8 ;; 57
      i64.const 1 ;; 58
      i64.add ;; 59
      local.tee 5 ;; 60
      local.get 3 ;; 61
      i64.gt_u ;; 62
      br_if 0 ;; 63
      local.get 5 ;; 64
      i64.const 1099511627775 ;; 65
      i64.gt_u ;; 66
      br_if 0 ;; 67
      local.get 0 ;; 68
      local.get 1 ;; 69
      local.get 5 ;; 70
      local.get 2 ;; 71
      call 9 ;; 72
      local.tee 4 ;; 73
      local.get 5 ;; 74
      local.get 4 ;; 75
      i64.const 0 ;; 76
      i64.lt_s ;; 77
      select ;; 78
      local.set 4 ;; 79
    end
    local.get 4 ;; 80
  )
  (func $add_shares (type 7) ;; function 11
    (param i64) ;; local 0
    (param i64) ;; local 1
    (param i64) ;; local 2
    (param i64) ;; local 3
    (result i64)
    (local i64) ;; local 4
    (local i64) ;; local 5
    (local i64) ;; local 6
    (local i64) ;; local 7
    (local i64) ;; local 8
    (local i64) ;; local 9
    (local i64) ;; local 10
    (local i64) ;; local 11
    (local i64) ;; local 12
    (local i64) ;; local 13
    (local i64) ;; local 14
    (local i64) ;; local 15
    (local i64) ;; local 16
    (local i32) ;; local 17
    i64.const -1 ;; 0
    local.set 4 ;; 1
    block ;; 2
      local.get 0 ;; 3
      i64.const -8388608 ;; 4
      i64.add ;; 5
      i64.const -8388607 ;; 6
      i64.lt_u ;; 7
      br_if 0 ;; 8
      i64.const -2 ;; 9
      local.set 4 ;; 10
      local.get 1 ;; 11
      i64.const -1099511627776 ;; 12
      i64.add ;; 13
      i64.const -1099511627775 ;; 14
      i64.lt_u ;; 15
      br_if 0 ;; 16
      local.get 2 ;; 17
      i64.const -1099511627776 ;; 18
      i64.add ;; 19
      i64.const -1099511627775 ;; 20
      i64.lt_u ;; 21
      br_if 0 ;; 22
      i64.const 0 ;; 23
      local.set 5 ;; 24
      i64.const 0 ;; 25
      call $boost.get ;; 26
      local.set 6 ;; 27
      i64.const 1 ;; 28
      call $boost.get ;; 29
      local.set 7 ;; 30
      i64.const 2 ;; 31
      call $boost.get ;; 32
      local.set 8 ;; 33
      local.get 0 ;; 34
      i64.const 72057594037927936 ;; 35
      i64.or ;; 36
      local.tee 9 ;; 37
      call $boost.get ;; 38
      local.set 10 ;; 39
      block ;; 40
        block ;; 41
          local.get 8 ;; 42
          i64.const 0 ;; 43
          i64.ne ;; 44
          br_if 0 ;; 45
          local.get 2 ;; 46
          i64.const 4294967295 ;; 47
          i64.and ;; 48
          local.tee 4 ;; 49
          local.get 1 ;; 50
          i64.const 4294967295 ;; 51
          i64.and ;; 52
          local.tee 11 ;; 53
          i64.mul ;; 54
          i64.const 32 ;; 55
          i64.shr_u ;; 56
          local.get 4 ;; 57
          local.get 1 ;; 58
          i64.const 32 ;; 59
          i64.shr_u ;; 60
          local.tee 12 ;; 61
          i64.mul ;; 62
          i64.add ;; 63
          local.tee 4 ;; 64
          i64.const 32 ;; 65
          i64.shr_u ;; 66
          local.get 2 ;; 67
          i64.const 32 ;; 68
          i64.shr_u ;; 69
          local.tee 13 ;; 70
          local.get 12 ;; 71
          i64.mul ;; 72
          i64.add ;; 73
          local.get 4 ;; 74
          i64.const 4294967295 ;; 75
          i64.and ;; 76
          local.get 13 ;; 77
          local.get 11 ;; 78
          i64.mul ;; 79
          i64.add ;; 80
          i64.const 32 ;; 81
          i64.shr_u ;; 82
          i64.add ;; 83
          local.set 14 ;; 84
          local.get 2 ;; 85
          local.get 1 ;; 86
          i64.mul ;; 87
          local.set 15 ;; 88
          i64.const 549755813888 ;; 89
          local.set 4 ;; 90
          loop ;; 91
            block ;; 92
              block ;; 93
                local.get 4 ;; 94
                local.tee 11 ;; 95
                local.get 5 ;; 96
                i64.or ;; 97
                local.tee 4 ;; 98
                i64.const 4294967295 ;; 99
                i64.and ;; 100
                local.tee 12 ;; 101
                local.get 12 ;; 102
                i64.mul ;; 103
                i64.const 32 ;; 104
                i64.shr_u ;; 105
                local.get 12 ;; 106
                local.get 4 ;; 107
                i64.const 32 ;; 108
                i64.shr_u ;; 109
                local.tee 13 ;; 110
                i64.mul ;; 111
                local.tee 12 ;; 112
                i64.add ;; 113
                local.tee 16 ;; 114
                i64.const 32 ;; 115
                i64.shr_u ;; 116
                local.get 13 ;; 117
                local.get 13 ;; 118
                i64.mul ;; 119
                i64.add ;; 120
                local.get 16 ;; 121
                i64.const 4294967295 ;; 122
                i64.and ;; 123
                local.get 12 ;; 124
                i64.add ;; 125
                i64.const 32 ;; 126
                i64.shr_u ;; 127
                i64.add ;; 128
                local.tee 12 ;; 129
                local.get 14 ;; 130
                i64.lt_u ;; 131
                br_if 0 ;; 132
                local.get 4 ;; 133
                local.get 4 ;; 134
                i64.mul ;; 135
                local.get 15 ;; 136
                i64.gt_u ;; 137
                br_if 1 ;; 138
                local.get 12 ;; 139
                local.get 14 ;; 140
                i64.ne ;; 141
                br_if 1 ;; 142
              end
              local.get 4 ;; 143
              local.set 5 ;; 144
            end
            local.get 11 ;; 145
            i64.const 1 ;; 146
            i64.shr_u ;; 147
            local.set 4 ;; 148
            local.get 11 ;; 149
            i64.const 1 ;; 150
            i64.gt_u ;; 151
            br_if 0 ;; 152
          end
          i64.const -9 ;; 153
          local.set 4 ;; 154
          local.get 5 ;; 155
          i64.const 1001 ;; 156
          i64.lt_u ;; 157
          br_if 2 ;; 158
          local.get 5 ;; 159
          i64.const -1000 ;; 160
          i64.add ;; 161
          local.set 12 ;; 162
          i64.const 1000 ;; 163
          local.set 16 ;; 164
          local.get 2 ;; 165
          local.set 11 ;; 166
          br 1 ;; 167
        end
        block ;; 168
          local.get 1 ;; 169
          local.get 7 ;; 170
          local.get 6 ;; 171
          call 8 ;; 172
          local.tee 11 ;; 173
          local.get 2 ;; 174
          i64.le_u ;; 175
          br_if 0 ;; 176
          local.get 2 ;; 177
          local.get 6 ;; 178
          local.get 7 ;; 179
          call 8 ;; 180
          local.set 1 ;; 181
          local.get 2 ;; 182
          local.set 11 ;; 183
        end
        local.get 1 ;; 184
        local.get 8 ;; 185
        local.get 6 ;; 186
        call 8 ;; 187
        local.set 12 ;; 188
        local.get 11 ;; 189
        local.get 8 ;; 190
        local.get 7 ;; 191
        call 8 ;; 192
        local.set 13 ;; 193
        i64.const -10 ;; 194
        local.set 4 ;; 195
        local.get 1 ;; 196
        i64.eqz ;; 197
        br_if 1 ;; 198
        local.get 11 ;; 199
        i64.eqz ;; 200
        br_if 1 ;; 201
        i64.const 0 ;; 202
        local.set 16 ;; 203
        local.get 12 ;; 204
        local.get 13 ;; 205
        local.get 12 ;; 206
        local.get 13 ;; 207
        i64.lt_u ;; 208
        select ;; 209
        local.tee 12 ;; 210
        i64.eqz ;; 211
        br_if 1 ;; 212
      end
      i64.const -12 ;; 213
      local.set 4 ;; 214
      local.get 12 ;; 215
      local.get 3 ;; 216
      i64.lt_u ;; 217
      br_if 0 ;; 218
      i64.const 0 ;; 219
      local.get 1 ;; 220
      local.get 6 ;; 221
      i64.add ;; 222
      call $boost.put ;; 223
      i64.const 1 ;; 224
      local.get 11 ;; 225
      local.get 7 ;; 226
      i64.add ;; 227
      call $boost.put ;; 228
      local.get 9 ;; 229
      local.get 12 ;; 230
      local.get 10 ;; 231
      i64.add ;; 232
      call $boost.put ;; 233
      i64.const 2 ;; 234
      local.get 12 ;; 235
      local.get 8 ;; 236
      i64.add ;; 237
      local.get 16 ;; 238
      i64.add ;; 239
      call $boost.put ;; 240
      i64.const 3 ;; 241
      local.get 1 ;; 242
      local.get 0 ;; 243
      i64.const 40 ;; 244
      i64.shl ;; 245
      local.tee 14 ;; 246
      i64.or ;; 247
      local.tee 4 ;; 248
      call $boost.put ;; 249
      block ;; 250
        block ;; 251
          block ;; 252
            block ;; 253
              i32.const 0 ;; 254
              i32.const 0 ;; 255
              local.get 4 ;; 256
              call $boost.ask ;; 257
              br_if 0 ;; 258
              block ;; 259
                call $boost.answer ;; 260
                local.tee 13 ;; 261
                local.get 4 ;; 262
                i64.eq ;; 263
                br_if 0 ;; 264
                local.get 13 ;; 265
                i64.eqz ;; 266
                i32.eqz ;; 267
                br_if 1 ;; 268
              end
              i64.const 3 ;; 269
              call $boost.del ;; 270
              drop ;; 271
              i64.const -13 ;; 272
              local.set 5 ;; 273
              local.get 13 ;; 274
              local.get 4 ;; 275
              i64.ne ;; 276
              br_if 2 ;; 277
              i64.const 4 ;; 278
              local.get 11 ;; 279
              local.get 14 ;; 280
              i64.or ;; 281
              local.tee 4 ;; 282
              call $boost.put ;; 283
              i32.const 1 ;; 284
              i32.const 0 ;; 285
              local.get 4 ;; 286
              call $boost.ask ;; 287
              br_if 0 ;; 288
              block ;; 289
                call $boost.answer ;; 290
                local.tee 11 ;; 291
                local.get 4 ;; 292
                i64.eq ;; 293
                local.tee 17 ;; 294
                br_if 0 ;; 295
                local.get 11 ;; 296
                i64.eqz ;; 297
                i32.eqz ;; 298
                br_if 1 ;; 299
              end
              i64.const 4 ;; 300
              call $boost.del ;; 301
              drop ;; 302
              local.get 17 ;; 303
              br_if 1 ;; 304
              i64.const -14 ;; 305
              local.set 5 ;; 306
              i32.const 0 ;; 307
              i32.const 1 ;; 308
              local.get 0 ;; 309
              local.get 1 ;; 310
              call 12 ;; 311
              br_if 2 ;; 312
            end
            unreachable ;; 313
            unreachable ;; 314
          end
          local.get 12 ;; 315
          i64.const -1 ;; 316
          i64.gt_s ;; 317
          br_if 1 ;; 318
          local.get 12 ;; 319
          local.set 5 ;; 320
        end
        i64.const 0 ;; 321
        local.get 6 ;; 322
        call $boost.put ;; 323
        i64.const 1 ;; 324
        local.get 7 ;; 325
        call $boost.put ;; 326
        local.get 9 ;; 327
        local.get 10 ;; 328
        call $boost.put ;; 329
        i64.const 2 ;; 330
        local.get 8 ;; 331
        call $boost.put ;; 332
        local.get 5 ;; 333
        return ;; 334
      end
      block ;; 335
        local.get 8 ;; 336
        i64.const 0 ;; 337
        i64.ne ;; 338
        br_if 0 ;; 339
        i64.const 72057594037927936 ;; 340
        local.get 16 ;; 341
        call $boost.put ;; 342
      end
      local.get 12 ;; 343
      local.set 4 ;; 344
    end
    local.get 4 ;; 345
  )
  (func (type 8) ;; function 12
    (param i32) ;; local 0
    (param i32) ;; local 1
    (param i64) ;; local 2
    (param i64) ;; local 3
    (result i32)
    (local i64) ;; local 4
    local.get 0 ;; 0
    i32.const 3 ;; 1
    i32.add ;; 2
    i64.extend_i32_u ;; 3
    local.tee 4 ;; 4
    local.get 1 ;; 5
    i64.extend_i32_u ;; 6
    i64.const 63 ;; 7
    i64.shl ;; 8
    local.get 2 ;; 9
    i64.const 40 ;; 10
    i64.shl ;; 11
    i64.or ;; 12
    local.get 3 ;; 13
    i64.or ;; 14
    local.tee 3 ;; 15
    call $boost.put ;; 16
    block ;; 17
      local.get 0 ;; 18
      i32.const 0 ;; 19
      local.get 3 ;; 20
      call $boost.ask ;; 21
      br_if 0 ;; 22
      block ;; 23
        call $boost.answer ;; 24
        local.tee 2 ;; 25
        local.get 3 ;; 26
        i64.eq ;; 27
        local.tee 0 ;; 28
        br_if 0 ;; 29
        local.get 2 ;; 30
        i64.eqz ;; 31
        i32.eqz ;; 32
        br_if 1 ;; 33
      end
      local.get 4 ;; 34
      call $boost.del ;; 35
      drop ;; 36
      local.get 0 ;; 37
      return ;; 38
    end
    unreachable ;; 39
    unreachable ;; 40
  )
  (func $remove_shares (type 7) ;; function 13
    (param i64) ;; local 0
    (param i64) ;; local 1
    (param i64) ;; local 2
    (param i64) ;; local 3
    (result i64)
    (local i64) ;; local 4
    (local i64) ;; local 5
    (local i64) ;; local 6
    (local i64) ;; local 7
    (local i64) ;; local 8
    (local i64) ;; local 9
    (local i64) ;; local 10
    (local i64) ;; local 11
    (local i32) ;; local 12
    i64.const -1 ;; 0
    local.set 4 ;; 1
    block ;; 2
      block ;; 3
        local.get 0 ;; 4
        i64.const -8388608 ;; 5
        i64.add ;; 6
        i64.const -8388607 ;; 7
        i64.lt_u ;; 8
        br_if 0 ;; 9
        i64.const -2 ;; 10
        local.set 4 ;; 11
        local.get 1 ;; 12
        i64.const -1099511627776 ;; 13
        i64.add ;; 14
        i64.const -1099511627775 ;; 15
        i64.lt_u ;; 16
        br_if 0 ;; 17
        i64.const -15 ;; 18
        local.set 4 ;; 19
        local.get 0 ;; 20
        i64.const 72057594037927936 ;; 21
        i64.or ;; 22
        local.tee 5 ;; 23
        call $boost.get ;; 24
        local.tee 6 ;; 25
        local.get 1 ;; 26
        i64.lt_u ;; 27
        br_if 0 ;; 28
        i64.const 0 ;; 29
        call $boost.get ;; 30
        local.set 7 ;; 31
        i64.const 1 ;; 32
        call $boost.get ;; 33
        local.set 8 ;; 34
        local.get 1 ;; 35
        local.get 7 ;; 36
        i64.const 2 ;; 37
        call $boost.get ;; 38
        local.tee 9 ;; 39
        call 8 ;; 40
        local.set 10 ;; 41
        i64.const -10 ;; 42
        local.set 4 ;; 43
        local.get 1 ;; 44
        local.get 8 ;; 45
        local.get 9 ;; 46
        call 8 ;; 47
        local.set 11 ;; 48
        local.get 10 ;; 49
        i64.eqz ;; 50
        br_if 0 ;; 51
        local.get 11 ;; 52
        i64.eqz ;; 53
        br_if 0 ;; 54
        i64.const -12 ;; 55
        local.set 4 ;; 56
        local.get 10 ;; 57
        local.get 2 ;; 58
        i64.lt_u ;; 59
        br_if 0 ;; 60
        local.get 11 ;; 61
        local.get 3 ;; 62
        i64.lt_u ;; 63
        br_if 0 ;; 64
        i64.const 0 ;; 65
        local.get 7 ;; 66
        local.get 10 ;; 67
        i64.sub ;; 68
        call $boost.put ;; 69
        i64.const 1 ;; 70
        local.get 8 ;; 71
        local.get 11 ;; 72
        i64.sub ;; 73
        call $boost.put ;; 74
        local.get 5 ;; 75
        local.get 6 ;; 76
        local.get 1 ;; 77
        i64.sub ;; 78
        call $boost.put ;; 79
        i64.const 2 ;; 80
        local.get 9 ;; 81
        local.get 1 ;; 82
        i64.sub ;; 83
        call $boost.put ;; 84
        i64.const 3 ;; 85
        local.get 10 ;; 86
        local.get 0 ;; 87
        i64.const 40 ;; 88
        i64.shl ;; 89
        i64.const -9223372036854775808 ;; 90
        i64.or ;; 91
        local.tee 0 ;; 92
        i64.or ;; 93
        local.tee 4 ;; 94
        call $boost.put ;; 95
        i32.const 0 ;; 96
        i32.const 0 ;; 97
        local.get 4 ;; 98
        call $boost.ask ;; 99
        br_if 1 ;; 100
        block ;; 101
          call $boost.answer ;; 102
          local.tee 1 ;; 103
          local.get 4 ;; 104
          i64.eq ;; 105
          local.tee 12 ;; 106
          br_if 0 ;; 107
          local.get 1 ;; 108
          i64.eqz ;; 109
          i32.eqz ;; 110
          br_if 2 ;; 111
        end
        i64.const 3 ;; 112
        call $boost.del ;; 113
        drop ;; 114
        local.get 12 ;; 115
        i32.eqz ;; 116
        br_if 1 ;; 117
        i64.const 4 ;; 118
        local.get 11 ;; 119
        local.get 0 ;; 120
        i64.or ;; 121
        local.tee 4 ;; 122
        call $boost.put ;; 123
        i32.const 1 ;; 124
        i32.const 0 ;; 125
        local.get 4 ;; 126
        call $boost.ask ;; 127
        br_if 1 ;; 128
        block ;; 129
          call $boost.answer ;; 130
          local.tee 0 ;; 131
          local.get 4 ;; 132
          i64.eq ;; 133
          local.tee 12 ;; 134
          br_if 0 ;; 135
          local.get 0 ;; 136
          i64.eqz ;; 137
          i32.eqz ;; 138
          br_if 2 ;; 139
        end
        i64.const 4 ;; 140
        call $boost.del ;; 141
        drop ;; 142
        local.get 10 ;; 143
        local.set 4 ;; 144
        local.get 12 ;; 145
        i32.eqz ;; 146
        br_if 1 ;; 147
      end
      local.get 4 ;; 148
      return ;; 149
    end
    unreachable ;; 150
    unreachable ;; 151
  )
  (func $quote (type 9) ;; function 14
    (param i32) ;; local 0
    (param i64) ;; local 1
    (result i64)
    (local i64) ;; local 2
    i64.const -3 ;; 0
    local.set 2 ;; 1
    block ;; 2
      local.get 0 ;; 3
      i32.const 1 ;; 4
      i32.gt_u ;; 5
      br_if 0 ;; 6
      i64.const -2 ;; 7
      local.set 2 ;; 8
      local.get 1 ;; 9
      i64.const -1099511627776 ;; 10
      i64.add ;; 11
      i64.const -1099511627775 ;; 12
      i64.lt_u ;; 13
      br_if 0 ;; 14
      block ;; 15
        local.get 0 ;; 16
        i64.extend_i32_u ;; 17
        call $boost.get ;; 18
        local.tee 2 ;; 19
        i64.eqz ;; 20
        i32.eqz ;; 21
        br_if 0 ;; 22
        i64.const -8 ;; 23
        return ;; 24
      end
      local.get 1 ;; 25
      i64.const 997 ;; 26
      i64.mul ;; 27
      local.tee 1 ;; 28
      i32.const 1 ;; 29
      local.get 0 ;; 30
      i32.sub ;; 31
      i64.extend_i32_u ;; 32
      call $boost.get ;; 33
      local.get 1 ;; 34
      local.get 2 ;; 35
      i64.const 1000 ;; 36
      i64.mul ;; 37
      i64.add ;; 38
      call 8 ;; 39
      local.set 2 ;; 40
    end
    local.get 2 ;; 41
  )
  (func $shares (type 0) ;; function 15
    (param i64) ;; local 0
    (result i64)
    (local i64) ;; local 1
    i64.const -1 ;; 0
    local.set 1 ;; 1
    block ;; 2
      local.get 0 ;; 3
      i64.const 8388607 ;; 4
      i64.gt_u ;; 5
      br_if 0 ;; 6
      local.get 0 ;; 7
      i64.const 72057594037927936 ;; 8
      i64.or ;; 9
      call $boost.get ;; 10
      local.set 1 ;; 11
    end
    local.get 1 ;; 12
  )
  (table 1 1 funcref)
  (memory 1 1)
  (global (mut i32) (i32.const 4096)) ;; global 0
  (export "wants_0" (func $wants_0))
  (export "wants_1" (func $wants_1))
  (export "sell" (func $sell))
  (export "buy" (func $buy))
  (export "add_shares" (func $add_shares))
  (export "remove_shares" (func $remove_shares))
  (export "quote" (func $quote))
  (export "shares" (func $shares))
)
