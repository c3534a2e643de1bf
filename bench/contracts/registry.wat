;; The registry of documents (EtherDoc) of "Adding Concurrency to Smart Contracts" (Dickerson, Gazzillo, Herlihy,
;; Koskinen, PODC 2017).
;;
;; Cells: where the original has a mapping, a record stands at the key that `slot` makes of the table's number and
;; the key in it, and its fields stand at the keys from there on.
;;   map slot(1, DOCUMENT)          the owner of a document; absent: is not registered
;;   map slot(1, DOCUMENT) + 1      who registered it
;;   map slot(2, OWNER)             how many documents the owner was handed
;;   map slot(2, OWNER) + 1 + I     the I-th of them
(module
 (import "boost" "get" (func $get (param i64) (result i64)))
 (import "boost" "has" (func $has (param i64) (result i32)))
 (import "boost" "put" (func $put (param i64) (param i64)))

 (func $require (param $ok i32)
  (if (i32.eqz (local.get $ok)) (then unreachable)))

 ;; 24 rounds of mixing, in place of the hash that makes a key of storage there, whose permutation has
 ;; 24 rounds, too. Each round can be undone, so no two records meet.
 (func $slot (param $table i64) (param $key i64) (result i64)
  (local $mixed i64) (local $rounds i32)
  (local.set $mixed
   (i64.add (local.get $key) (i64.mul (local.get $table) (i64.const 0x9e37_79b9_7f4a_7c15))))
  (local.set $rounds (i32.const 24))
  (loop $round
   (local.set $mixed
    (i64.mul
     (i64.xor (local.get $mixed) (i64.shr_u (local.get $mixed) (i64.const 29)))
     (i64.const 0xbf58_476d_1ce4_e5b9)))
   (br_if $round (local.tee $rounds (i32.sub (local.get $rounds) (i32.const 1)))))
  (local.get $mixed))

 ;; Puts a document at the end of the list of those that an owner was handed.
 (func $hand (param $document i64) (param $to i64)
  (local $list i64) (local $length i64)
  (local.set $list (call $slot (i64.const 2) (local.get $to)))
  (local.set $length (call $get (local.get $list)))
  (call $put
   (i64.add (local.get $list) (i64.add (local.get $length) (i64.const 1)))
   (local.get $document))
  (call $put (local.get $list) (i64.add (local.get $length) (i64.const 1))))

 ;; Registers so many documents, from a first one on, each for an owner of its own number.
 (func (export "register") (param $first i64) (param $count i64)
  (local $document i64) (local $record i64)
  (local.set $document (local.get $first))
  (loop $next
   (local.set $record (call $slot (i64.const 1) (local.get $document)))
   (call $require (i32.eqz (call $has (local.get $record))))
   (call $put (local.get $record) (local.get $document))
   (call $put (i64.add (local.get $record) (i64.const 1)) (local.get $document))
   (local.set $document (i64.add (local.get $document) (i64.const 1)))
   (br_if $next
    (i64.lt_u (local.get $document) (i64.add (local.get $first) (local.get $count))))))

 ;; The owner of a document, or a trap where it is not registered.
 (func (export "look_up") (param $document i64) (result i64)
  (local $record i64)
  (local.set $record (call $slot (i64.const 1) (local.get $document)))
  (call $require (call $has (local.get $record)))
  (call $get (local.get $record)))

 ;; Hands a document to another owner. All transfers to one owner use the length of the owner's list.
 (func (export "transfer") (param $actor i64) (param $document i64) (param $to i64)
  (local $record i64)
  (local.set $record (call $slot (i64.const 1) (local.get $document)))
  (call $require (call $has (local.get $record)))
  (call $require (i64.eq (local.get $actor) (call $get (local.get $record))))
  (call $put (call $slot (i64.const 1) (local.get $document)) (local.get $to))
  (call $hand (local.get $document) (local.get $to))))
