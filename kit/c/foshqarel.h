/* foshqarel.h: contracts for Foshqarel in C.
 *
 *   #include "foshqarel.h"
 *
 *   EXPORT(void, deposit, u64 account, u64 amount) {
 *       fq_put(account, add64(fq_get(account), amount));
 *   }
 *
 * Compile with compile, or as its first lines say. The header needs nothing but clang: no C library.
 *
 * The rules of this subset:
 *  - Parameters and results of EXPORT are u32, i32, u64, i64, or a void result; nothing smaller: what a call gives for a `bool` or a `u8`
 *    is an i32 of any value, and the compiler takes it to be small. No structs, no pointers, no __int128.
 *  - No float or double. No variable that is meant to last: globals begin anew with each call, and with each level of an ask.
 *  - `require(x)` refuses the call where x is 0. `fq_trap()` refuses it always.
 *  - Sums that may pass 2^64 by add64, sub64, mul64, which refuse the call then.
 *  - A division needs a divisor that was compared with 0: in C a division by zero is no defined trap.
 *
 * Without __wasm32__ the host calls are those of foshqarel_test.h, for tests on the author's own machine.
 */
#ifndef FOSHQAREL_H
#define FOSHQAREL_H

typedef signed int i32;
typedef unsigned int u32;
typedef signed long long i64;
typedef unsigned long long u64;
_Static_assert(sizeof(u32) == 4 && sizeof(u64) == 8, "u32 has 32 bits and u64 has 64");

#ifdef __cplusplus
#error "this header is for C"
#endif

#ifdef __wasm32__

#define FQ_HOST(name) __attribute__((import_module("boost"), import_name(#name)))
FQ_HOST(get) u64 fq_get(u64 key);               /* the number in the map cell, 0 where there is none */
FQ_HOST(has) i32 fq_has(u64 key);               /* 1 where the map cell is there, else 0 */
FQ_HOST(put) void fq_put(u64 key, u64 number);  /* sets the map cell */
FQ_HOST(del) i32 fq_del(u64 key);               /* removes the map cell; 1 if it was there */
FQ_HOST(add) void fq_add(u64 key, u64 number);  /* adds to the counter, modulo 2^64 */
FQ_HOST(total) u64 fq_total(u64 key);           /* the counter, 0 where there is none */
FQ_HOST(ask) u32 fq_ask(u32 contract, u32 place, u64 argument); /* 0: returned; 1 to 8: its trap; 10, 11: nothing ran */
FQ_HOST(answer) u64 fq_answer(void);            /* what the last ask returned, where its status was 0 */
#undef FQ_HOST

/* EXPORT(result, name, parameters) { body }; no parameters: EXPORT(u64, name, void). EXPORT_AS where the export's name is none of C's:
 * EXPORT_AS(void, register_, "register", u64 owner) */
/* (The custom section `foshqarel` names the exports in the order of the source, which is that of their places for `ask`: tools/abi puts them so.) */
#define EXPORT_AS(type, name, text, ...) \
    __asm__(".section .custom_section.foshqarel,\"\",@\n.ascii \"" text ",\"\n"); \
    __attribute__((export_name(text))) type name(__VA_ARGS__); \
    type name(__VA_ARGS__)
#define EXPORT(type, name, ...) EXPORT_AS(type, name, #name, __VA_ARGS__)

#define fq_trap() __builtin_trap()

#else

u64 fq_get(u64 key);
i32 fq_has(u64 key);
void fq_put(u64 key, u64 number);
i32 fq_del(u64 key);
void fq_add(u64 key, u64 number);
u64 fq_total(u64 key);
u32 fq_ask(u32 contract, u32 place, u64 argument);
u64 fq_answer(void);
__attribute__((noreturn)) void fq_trap(void);

/* static, so that an export by the name of a function of the C library (open, close) does not take its place */
#define EXPORT_AS(type, name, text, ...) static __attribute__((unused)) type name(__VA_ARGS__)
#define EXPORT(type, name, ...) EXPORT_AS(type, name, #name, __VA_ARGS__)

#endif

#define FQ_INLINE static inline __attribute__((always_inline, unused))

#define require(ok) \
    do { \
        if (!(ok)) fq_trap(); \
    } while (0)

/* ---- numbers ---- */

FQ_INLINE u64 add64(u64 a, u64 b) {
    require(a + b >= a);
    return a + b;
}

FQ_INLINE u64 sub64(u64 a, u64 b) {
    require(a >= b);
    return a - b;
}

/* What is divided by nothing refuses the call. */
FQ_INLINE u64 div64(u64 a, u64 b) {
    require(b != 0);
    return a / b;
}

/* The upper half of the product; the lower one is a * b. (clang would call __multi3 for unsigned __int128.) */
FQ_INLINE u64 mulhi64(u64 a, u64 b) {
    u64 al = a & 0xffffffff, ah = a >> 32, bl = b & 0xffffffff, bh = b >> 32;
    u64 low = al * bl, one = ah * bl + (low >> 32), two = al * bh + (one & 0xffffffff);
    return ah * bh + (one >> 32) + (two >> 32);
}

/* (By the upper half: clang makes an `a == 0 || b <= ~0ULL / a`, and __builtin_mul_overflow, into a call of __multi3.) */
FQ_INLINE u64 mul64(u64 a, u64 b) {
    require(mulhi64(a, b) == 0);
    return a * b;
}

/* The digit of 32 bits of `high << 32 | digit` by c, where the upper bit of c is set and high < c (Knuth's algorithm D). */
FQ_INLINE u64 fq_digit(u64 high, u64 digit, u64 c) {
    u64 upper = c >> 32, quotient = high / upper, rest = high - quotient * upper;
    while (quotient >> 32 != 0 || quotient * (c & 0xffffffff) > (rest << 32 | digit)) {
        quotient--;
        rest += upper;
        if (rest >> 32 != 0) break;
    }
    return quotient;
}

/* a * b / c, rounded down, with the product of 128 bits between; refuses where c is 0 or the quotient has more than 64 bits. */
static __attribute__((unused)) u64 muldiv64(u64 a, u64 b, u64 c) {
    u64 high = mulhi64(a, b), low = a * b;
    require(high < c);
    if (high == 0) return low / c;
    u32 shift = (u32)__builtin_clzll(c);
    c <<= shift;
    high = high << shift | low >> 1 >> (63 - shift);
    low <<= shift;
    u64 one = fq_digit(high, low >> 32, c), rest = (high << 32 | low >> 32) - one * c;
    return one << 32 | fq_digit(rest, low & 0xffffffff, c);
}

/* ---- keys ---- */

/* The cell of a name of 56 bits in one of the tables 0 to 255 of the contract's map (or of its counters). */
FQ_INLINE u64 fq_key(u32 table, u64 name) {
    require(name >> 56 == 0);
    return (u64)table << 56 | name;
}

/* Up to 7 characters as a name of 56 bits: FQ_NAME("gold"). For one that is written in the source. */
#define FQ_NAME(text) \
    (sizeof(struct { _Static_assert(sizeof(text) <= 8, "a name has 7 characters at most"); int x; }) ? fq_name(text, sizeof(text) - 1) : 0)
FQ_INLINE u64 fq_name(const char *text, u32 length) {
    u64 name = 0;
    for (u32 at = 0; at < length; at++) name = name << 8 | (unsigned char)text[at];
    return name;
}

/* Mixes 64 bits (the finalizer of splitmix64): no digest, who wants to can find two with one result. */
FQ_INLINE u64 fq_mix(u64 x) {
    x = (x ^ x >> 30) * 0xbf58476d1ce4e5b9ULL;
    x = (x ^ x >> 27) * 0x94d049bb133111ebULL;
    return x ^ x >> 31;
}

/* A name of 128 bits in a table: the name of 56 bits under which it is kept. Takes two tables, `table` and `table + 1`, for the halves of
 * the name itself, which are compared, so that two names never share a place whatever their mixed bits are. Looks at FQ_PROBES places, and
 * refuses the call where all are others'. The place of a name that is not there is the first free one, and is taken by `fq_claim`.
 * A name is never taken out again: mark what it stands for as gone instead. */
#ifndef FQ_PROBES
#define FQ_PROBES 8
#endif
static __attribute__((unused)) u64 fq_place(u32 table, u64 high, u64 low) {
    u64 place = fq_mix(high ^ fq_mix(low));
    for (u32 at = 0; at < FQ_PROBES; at++, place++) {
        u64 name = place & 0xffffffffffffffULL;
        u64 one = fq_key(table, name), two = fq_key(table + 1, name);
        if (!fq_has(one)) return name;
        if (fq_get(one) == high && fq_get(two) == low) return name;
    }
    fq_trap();
}

FQ_INLINE u64 fq_claim(u32 table, u64 high, u64 low) {
    u64 name = fq_place(table, high, low);
    if (!fq_has(fq_key(table, name))) {
        fq_put(fq_key(table, name), high);
        fq_put(fq_key(table + 1, name), low);
    }
    return name;
}

/* ---- asking ---- */

/* The status of an ask: 0 where it returned, 1 to 8 where it trapped. Where there is no such export (10: other contracts stand in this world, or
 * their exports have other places), or four levels run already (11), the other one has decided nothing, and the whole call is refused. */
FQ_INLINE u32 fq_try(u32 contract, u32 place, u64 argument) {
    u32 status = fq_ask(contract, place, argument);
    require(status < 10);
    return status;
}

/* Asks, and refuses the whole call where the other one refused. */
FQ_INLINE u64 fq_need(u32 contract, u32 place, u64 argument) {
    require(fq_ask(contract, place, argument) == 0);
    return fq_answer();
}

/* ---- what clang calls by itself, for structs, arrays and products of 128 bits: what is not called is left out of the module ---- */

#if defined(__wasm32__) && !defined(FQ_NO_RUNTIME)
__int128 __multi3(__int128 a, __int128 b);
__int128 __multi3(__int128 a, __int128 b) {
    u64 al = (u64)a, bl = (u64)b, high = mulhi64(al, bl) + al * (u64)(b >> 64) + (u64)(a >> 64) * bl;
    return (__int128)((unsigned __int128)high << 64 | al * bl);
}
void *memset(void *to, int byte, unsigned long count);
void *memcpy(void *restrict to, const void *restrict from, unsigned long count);
void *memmove(void *to, const void *from, unsigned long count);
int memcmp(const void *one, const void *two, unsigned long count);
__attribute__((no_builtin)) void *memset(void *to, int byte, unsigned long count) {
    for (unsigned long at = 0; at < count; at++) ((unsigned char *)to)[at] = (unsigned char)byte;
    return to;
}
__attribute__((no_builtin)) void *memcpy(void *restrict to, const void *restrict from, unsigned long count) {
    for (unsigned long at = 0; at < count; at++) ((unsigned char *)to)[at] = ((const unsigned char *)from)[at];
    return to;
}
__attribute__((no_builtin)) void *memmove(void *to, const void *from, unsigned long count) {
    if (to <= from) return memcpy(to, from, count);
    while (count-- > 0) ((unsigned char *)to)[count] = ((const unsigned char *)from)[count];
    return to;
}
__attribute__((no_builtin)) int memcmp(const void *one, const void *two, unsigned long count) {
    for (unsigned long at = 0; at < count; at++) {
        int left = ((const unsigned char *)one)[at], right = ((const unsigned char *)two)[at];
        if (left != right) return left - right;
    }
    return 0;
}
#endif

#endif
