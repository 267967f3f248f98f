;; The turn of the benchmark's first routine in WebAssembly: a store, a load and two adds, 100,000 times.
;; Without --run-all-exports wasm-interp only loads it, which gives the time of the start alone.
(module
  (memory 1)
  (func (export "turns") (call $turns (i32.const 100000)))
  (func $turns (param $r3 i32) (local $r1 i32) (local $r4 i32) (local $r5 i32)
    (loop $turn
      (i32.store (i32.shl (i32.or (i32.and (local.get $r1) (i32.const 511)) (i32.const 256)) (i32.const 2)) (local.get $r1))
      (local.set $r4 (i32.load (i32.shl (i32.or (i32.and (local.get $r1) (i32.const 511)) (i32.const 256)) (i32.const 2))))
      (local.set $r5 (i32.add (local.get $r5) (local.get $r4)))
      (local.set $r1 (i32.add (local.get $r1) (i32.const 1)))
      (br_if $turn (i32.lt_u (local.get $r1) (local.get $r3))))))
