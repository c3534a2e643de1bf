/* An escrow that asks the purse, contract 0: examples/escrow in C. */
#include "foshqarel.h"

/* the place of `move` in the list of exports of purse.wasm: `tools/abi --places C purse.wasm` says it */
#ifndef MOVE
#define MOVE 0
#endif
enum { PURSE = 0, KEPT = 65535, REFUSED = 0 };

FQ_INLINE u64 order(u64 from, u64 to, u64 amount) { return from << 48 | to << 32 | amount; }
FQ_INLINE u64 buyer(u64 deal) { return fq_get(deal) >> 48; }
FQ_INLINE u64 seller(u64 deal) { return fq_get(deal) >> 32 & 0xffff; }
FQ_INLINE u64 amount_of(u64 deal) { return fq_get(deal) & 0xffffffff; }

EXPORT(i64, open, u64 deal, u64 from, u64 to, u64 amount) {
    require(!fq_has(deal));
    fq_put(deal, order(from, to, amount));
    if (fq_try(PURSE, MOVE, order(from, KEPT, amount)) != 0) {
        fq_del(deal);
        fq_add(REFUSED, 1);
        return -1;
    }
    return (i64)fq_answer();
}

FQ_INLINE void close_deal(u64 deal, u64 to) {
    u64 amount = amount_of(deal);
    fq_del(deal);
    fq_need(PURSE, MOVE, order(KEPT, to, amount));
}

EXPORT(void, release, u64 actor, u64 deal) {
    require(actor == buyer(deal));
    close_deal(deal, seller(deal));
}

EXPORT(void, refund, u64 actor, u64 deal) {
    require(actor == seller(deal));
    close_deal(deal, buyer(deal));
}
