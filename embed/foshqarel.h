/* Foshqarel as a library: blocks of contract calls, checked and produced in your own process.
 *
 * Link libfoshqarel.a (pkg-config foshqarel). What each function does is proved, and is what the program `wblock` does with files of the same bytes:
 * docs/REFERENCE.md has the formats, the numbers of the refusals and their sentences. (Another header of this name, kit/c/foshqarel.h, is for contracts in C.)
 *
 * THERE ARE NO HANDLES AND NO STATE. Each function is a function of the bytes that it is passed. A world, a list of calls, a block and a module are the bytes of
 * their files, and the library keeps nothing from one call to the next. So any number of threads may call it at once.
 *
 * MEMORY IS THE CALLER'S. What a function gives goes into a buffer of the caller, a pointer and how much it holds. Where that is too small, nothing is written, the
 * answer is FOSHQAREL_SHORT, and `told->size` is the size that is needed. A buffer of 0 bytes asks the size; that takes the time of the whole call. While a call
 * runs it takes memory by malloc and gives it back. Where malloc refuses, the answer is FOSHQAREL_NO_MEMORY.
 *
 * THE CALLER OWES, and nothing checks it:
 *   - A pointer with a length points to so many bytes, or items. It is not NULL, even where the length is 0.
 *   - Each other pointer points to a value of its type.
 *   - What is written to overlaps nothing else that is passed. Nothing that is passed is changed while the call runs.
 *   - A thread has a stack of 1 MiB at least for a call. No call comes from a signal handler, or from a forked child of a process with threads.
 */
#ifndef FOSHQAREL_H
#define FOSHQAREL_H

#include <stddef.h>
#include <stdint.h>

#ifdef __cplusplus
extern "C" {
#endif

/* ---- What a call answers ---- */

/* What was asked is done. What is given stands at the front of the buffer; the rest of the buffer is as it was. `told->subject` is 0. */
#define FOSHQAREL_DONE 0
/* What was passed is refused. The buffer, where the function has one for bytes, begins with a sentence of `told->size` bytes of UTF-8 that says what is wrong, where,
 * and what to do. It has no newline and no zero at its end. Of `told`, `subject` and `number` say which refusal it is, and `place` and `function` where. */
#define FOSHQAREL_REFUSED 1
/* The buffer is too small, and nothing is written to it. `told->size` says what is needed. Where `told->subject` is not 0, a sentence waits, and the refusal is told. */
#define FOSHQAREL_SHORT 2
/* Memory was refused, and nothing is said of what was passed. Buffers are as they were. */
#define FOSHQAREL_NO_MEMORY 3

/* What is refused: the second word of the program's line, `refused load 1 8`. A block that is refused is one of which the program says `reject N P`. */
#define FOSHQAREL_LOAD 1     /* bytes that spell no module: number 1 to 3, place a byte from 0, or the number of the limit */
#define FOSHQAREL_CHECK 2    /* a module that is not valid: number that of the rule, place an instruction or an item of the list at fault */
#define FOSHQAREL_DEPLOY 3   /* a module that cannot be linked: number 1 to 5, place an import or a segment; or too many contracts: number 6, place how many */
#define FOSHQAREL_ASSEMBLE 4 /* a text that names no module: number 1 to 6, place a character from 0, or the number of the limit */
#define FOSHQAREL_TEXT 5     /* a module without a text: number 1 or 2 */
#define FOSHQAREL_WORLD 6    /* bytes that spell no world: number 1 or 2, place a byte from 0 */
#define FOSHQAREL_CALLS 7    /* a text that spells no calls: number 1 or 2, place a line from 1; or that lacks the call asked for: number 3, place how many there are */
#define FOSHQAREL_BLOCK 8    /* a block that is rejected: number 1 to 9, the first reason that holds, place a position or a call */

/* No place: of `place` and `function`. */
#define FOSHQAREL_NOWHERE UINT64_MAX

/* What is told of a call. It is written by each function that takes one, whatever it answers. */
struct foshqarel_told {
    uint64_t size;      /* how many bytes or items there are to be given, or how many bytes the sentence has */
    uint64_t next_size; /* foshqarel_mine: how many bytes the world after the block has; else 0 */
    uint64_t place;     /* where; FOSHQAREL_NOWHERE where there is no refusal, or where it has no place */
    uint64_t function;  /* FOSHQAREL_CHECK: the number of the function, imports counted first; else, and outside bodies, FOSHQAREL_NOWHERE */
    uint32_t subject;   /* what is refused; 0 where there is no refusal */
    uint32_t number;    /* which refusal; 0 where there is none */
};

/* ---- Modules ---- */

/* Whether the bytes spell a valid module. `told->size` is then how many functions it defines. Else FOSHQAREL_LOAD or FOSHQAREL_CHECK. `sentence` takes the sentence. */
uint32_t foshqarel_check(const uint8_t *module, size_t module_size, uint8_t *sentence, size_t sentence_room, struct foshqarel_told *told);

/* The module that a text names, in its shortest spelling. Else FOSHQAREL_ASSEMBLE. */
uint32_t foshqarel_assemble(const uint8_t *text, size_t text_size, uint8_t *module, size_t module_room, struct foshqarel_told *told);

/* A text that names the module, which has to be valid. Else FOSHQAREL_LOAD, FOSHQAREL_CHECK or FOSHQAREL_TEXT. */
uint32_t foshqarel_text(const uint8_t *module, size_t module_size, uint8_t *text, size_t text_room, struct foshqarel_told *told);

/* ---- Worlds ---- */

/* The world of no contracts and no cells. Nothing is refused. */
uint32_t foshqarel_world_new(uint8_t *world, size_t world_room, struct foshqarel_told *told);

/* The world with the contract that a module is behind its own: their numbers and all cells stay, and the new one has the next number. From the world of nothing,
 * module by module, it gives the bytes of `wblock deploy`. Else FOSHQAREL_WORLD, FOSHQAREL_LOAD, FOSHQAREL_CHECK or FOSHQAREL_DEPLOY. */
uint32_t foshqarel_world_extend(const uint8_t *world, size_t world_size, const uint8_t *module, size_t module_size, uint8_t *next, size_t next_room,
                                struct foshqarel_told *told);

/* Whether the bytes spell a world, and SHA-256 of them: 32 bytes, by which blocks name a world. Else FOSHQAREL_WORLD. The sentence is put where the digest would be. */
uint32_t foshqarel_world_digest(const uint8_t *world, size_t world_size, uint8_t *digest, size_t digest_room, struct foshqarel_told *told);

/* A cell of a contract's storage. */
#define FOSHQAREL_MAP 0
#define FOSHQAREL_COUNTER 1
struct foshqarel_cell {
    uint64_t key;
    uint64_t number;   /* what it holds */
    uint32_t contract; /* the number of the contract */
    uint32_t kind;     /* FOSHQAREL_MAP or FOSHQAREL_COUNTER */
};

/* Looks up the cell of `cell->contract`, `cell->kind` and `cell->key`: puts what it holds into `cell->number`, and `told->size` is 1; or leaves `cell` as it was, and
 * `told->size` is 0, where it is absent. A kind other than the two has no cells. Else FOSHQAREL_WORLD. */
uint32_t foshqarel_world_cell(const uint8_t *world, size_t world_size, struct foshqarel_cell *cell, uint8_t *sentence, size_t sentence_room,
                              struct foshqarel_told *told);

/* Goes over the cells: by contract, maps before counters, then by key. Puts those from this place on, counted from 0, as many as `cells` holds; the others of `cells`
 * stay as they were. `told->size` is how many cells the world has. It is never short. Else FOSHQAREL_WORLD. */
uint32_t foshqarel_world_cells(const uint8_t *world, size_t world_size, uint64_t from, struct foshqarel_cell *cells, size_t cells_room, uint8_t *sentence,
                               size_t sentence_room, struct foshqarel_told *told);

/* ---- Calls and blocks ---- */

/* Whether a text spells calls, a line `CONTRACT FUEL ENTRY ARG...` each. `told->size` is how many. Else FOSHQAREL_CALLS. */
uint32_t foshqarel_calls(const uint8_t *calls, size_t calls_size, uint8_t *sentence, size_t sentence_room, struct foshqarel_told *told);

/* Produces the block of the calls of a text over a world, in the list's order, with this fuel for the block; and the world after it. The bytes are those of `wblock mine`
 * with any number of workers. Both buffers have to be large enough: `told->size` is the size of the block and `told->next_size` that of the world. Else FOSHQAREL_WORLD
 * or FOSHQAREL_CALLS; the sentence is put into `block`. */
uint32_t foshqarel_mine(const uint8_t *world, size_t world_size, const uint8_t *calls, size_t calls_size, uint64_t fuel, uint8_t *block, size_t block_room,
                        uint8_t *next, size_t next_room, struct foshqarel_told *told);

/* Verifies a block of the calls of a text over a world, with this fuel for the block, as `wblock validate` does. Accepted are exactly the blocks of serial executions;
 * the world after the block is then given. Else FOSHQAREL_WORLD, FOSHQAREL_CALLS or FOSHQAREL_BLOCK. */
uint32_t foshqarel_verify(const uint8_t *world, size_t world_size, const uint8_t *calls, size_t calls_size, uint64_t fuel, const uint8_t *block, size_t block_size,
                          uint8_t *next, size_t next_room, struct foshqarel_told *told);

/* What a call came to. */
#define FOSHQAREL_RETURNED 0     /* it returned no value */
#define FOSHQAREL_RETURNED_I32 1 /* it returned `value`, from -2^31 to 2^31 - 1 */
#define FOSHQAREL_RETURNED_I64 2 /* it returned `value` */
#define FOSHQAREL_TRAPPED 3      /* it trapped, for the cause `code` */
#define FOSHQAREL_OUT_OF_FUEL 4  /* it used its limit up */
#define FOSHQAREL_REJECTED 5     /* it did not start, for the cause `code` */
struct foshqarel_receipt {
    uint64_t fuel;    /* the fuel that it used */
    int64_t value;    /* what it returned; else 0 */
    uint32_t call;    /* its number in the list */
    uint32_t asks;    /* how many levels it entered */
    uint32_t outcome; /* how it ended */
    uint32_t code;    /* the cause; else 0 */
};

/* The receipts of a block, in its order. Puts those from this position on, counted from 0, as many as `receipts` holds; the others stay as they were. `told->size` is how
 * many positions the block has. It is never short. It does not verify the block. Else FOSHQAREL_BLOCK with number 1. */
uint32_t foshqarel_receipts(const uint8_t *block, size_t block_size, uint64_t from, struct foshqarel_receipt *receipts, size_t receipts_room, uint8_t *sentence,
                            size_t sentence_room, struct foshqarel_told *told);

/* A cell that a call asked for. */
#define FOSHQAREL_READ 0
#define FOSHQAREL_ADD 1
#define FOSHQAREL_EXCL 2
struct foshqarel_change {
    uint64_t key;
    uint64_t before;    /* what the cell held; 0 where it was absent */
    uint64_t later;     /* what it holds then; 0 where it is absent */
    uint32_t contract;  /* the number of the contract */
    uint32_t kind;      /* FOSHQAREL_MAP or FOSHQAREL_COUNTER */
    uint32_t mode;      /* FOSHQAREL_READ, FOSHQAREL_ADD or FOSHQAREL_EXCL: how the call held its lock */
    uint32_t presence;  /* 1 where the cell was there, and 2 where it is there then, added */
};

/* Runs the call of this number of a text, from 0, alone over a world, by the rules of blocks that are produced, and changes nothing: what it comes to, and each cell that
 * it asked for, in the order of locks. The calls before it do not run. Puts as many changes as `changes` holds; the others stay as they were. `told->size` is how many
 * there are. It is never short. Else FOSHQAREL_WORLD or FOSHQAREL_CALLS, of which number 3 says that there is no such call, and place how many there are. */
uint32_t foshqarel_call(const uint8_t *world, size_t world_size, const uint8_t *calls, size_t calls_size, uint32_t number, struct foshqarel_receipt *receipt,
                        struct foshqarel_change *changes, size_t changes_room, uint8_t *sentence, size_t sentence_room, struct foshqarel_told *told);

#ifdef __cplusplus
}
#endif

#endif
