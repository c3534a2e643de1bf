;; A registry of documents: who registered which, and whether a document is the one.
;;
;; A document is known by the first 15 bytes of a digest of it, for example of its
;; SHA-256: 7 bytes make its name, a number of 56 bits, and the next 8 bytes are kept
;; beside it. A contract sees numbers alone: the digest is made outside.
;;
;; Cells
;;   map 1 x 2^56 + NAME   the owner of a document; absent where it is not registered
;;   map 2 x 2^56 + NAME   the other 8 bytes of its digest
;;   counter 0             how many documents are registered
(module
 (import "boost" "get" (func $get (param i64) (result i64)))
 (import "boost" "has" (func $has (param i64) (result i32)))
 (import "boost" "put" (func $put (param i64) (param i64)))
 (import "boost" "del" (func $del (param i64) (result i32)))
 (import "boost" "add" (func $add (param i64) (param i64)))
 (import "boost" "total" (func $total (param i64) (result i64)))

 ;; The two tables of the map.
 (global $owners i64 (i64.const 0x0100_0000_0000_0000))
 (global $digests i64 (i64.const 0x0200_0000_0000_0000))

 (func $require (param $ok i32)
  (if (i32.eqz (local.get $ok)) (then unreachable)))

 ;; The key of a name in a table.
 (func $key (param $table i64) (param $name i64) (result i64)
  (call $require (i64.eqz (i64.shr_u (local.get $name) (i64.const 56))))
  (i64.or (local.get $table) (local.get $name)))

 ;; Only the owner of a registered document may go on.
 (func $require_owner (param $actor i64) (param $name i64)
  (local $key i64)
  (local.set $key (call $key (global.get $owners) (local.get $name)))
  (call $require (call $has (local.get $key)))
  (call $require (i64.eq (local.get $actor) (call $get (local.get $key)))))

 ;; A document is registered once. Of two calls for one document, the one that comes
 ;; first in the block has it. Calls for different documents can run at once.
 (func (export "register") (param $owner i64) (param $name i64) (param $rest i64)
  (local $key i64)
  (local.set $key (call $key (global.get $owners) (local.get $name)))
  (call $require (i32.eqz (call $has (local.get $key))))
  (call $put (local.get $key) (local.get $owner))
  (call $put (call $key (global.get $digests) (local.get $name)) (local.get $rest))
  (call $add (i64.const 0) (i64.const 1)))

 ;; Hands a document to another owner.
 (func (export "hand_over") (param $actor i64) (param $name i64) (param $to i64)
  (call $require_owner (local.get $actor) (local.get $name))
  (call $put (call $key (global.get $owners) (local.get $name)) (local.get $to)))

 ;; Takes a document out of the registry.
 (func (export "revoke") (param $actor i64) (param $name i64)
  (call $require_owner (local.get $actor) (local.get $name))
  (drop (call $del (call $key (global.get $owners) (local.get $name))))
  (drop (call $del (call $key (global.get $digests) (local.get $name))))
  (call $add (i64.const 0) (i64.const -1)))

 ;; 1 where a document with this digest is registered, else 0.
 (func (export "verify") (param $name i64) (param $rest i64) (result i32)
  (local $key i64)
  (local.set $key (call $key (global.get $digests) (local.get $name)))
  (i32.and
   (call $has (local.get $key))
   (i64.eq (call $get (local.get $key)) (local.get $rest))))

 (func (export "owner") (param $name i64) (result i64)
  (local $key i64)
  (local.set $key (call $key (global.get $owners) (local.get $name)))
  (call $require (call $has (local.get $key)))
  (call $get (local.get $key)))

 (func (export "count") (result i64)
  (call $total (i64.const 0))))
