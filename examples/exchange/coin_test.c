/* Tests of coin.c on the author's machine, with a market that the test plays. */
#include "foshqarel_test.h"
#include "coin.c"

static u64 wanted;

/* The answer of a market, contract 2, by its export at place 1. */
static u32 market(u32 contract, u32 place, u64 order, u64 *answer) {
    if (contract != 2 || place != 1) return 10;
    *answer = order == wanted;
    return 0;
}

static i64 got;
#define GIVES(what, value) \
    do { \
        CALL(got = (i64)(what)); \
        EXPECT(got == (value)); \
    } while (0)

int main(void) {
    fq_asked = market;
    REFUSED(move(order_of(INTO_MARKET, 1, 5)));
    GIVES(issue(100, 1, 5), NOT_ISSUER);
    GIVES(open(0, 2, 1), NO_ACCOUNT);
    GIVES(open(100, 2, 1), 0);
    GIVES(open(101, 2, 1), IS_OPEN);
    GIVES(issue(101, 1, 5), NOT_ISSUER);
    GIVES(issue(100, ACCOUNTS, 5), NO_ACCOUNT);
    GIVES(issue(100, 1, AMOUNTS), NO_AMOUNT);
    GIVES(issue(100, 1, 1000), 1000);
    GIVES(issue(100, 2, AMOUNTS - 1000), PAST_SUPPLY);
    GIVES(issue(100, 2, AMOUNTS - 1001), (i64)AMOUNTS - 1001);
    GIVES(transfer(1, 2, 1001), SHORT);
    GIVES(transfer(1, 0, 1), NO_ACCOUNT);
    GIVES(transfer(1, 2, 0), NO_AMOUNT);
    GIVES(transfer(1, 2, 300), 300);
    GIVES(transfer(1, 1, 700), 700);
    GIVES(balance(1), 700);
    GIVES(balance(ACCOUNTS), NO_ACCOUNT);
    /* what the market wants, and nothing else */
    wanted = order_of(INTO_MARKET, 1, 600);
    REFUSED(move(order_of(INTO_MARKET, 1, 601)));
    REFUSED(move(order_of(OUT_OF_MARKET, 1, 600)));
    GIVES(move(wanted), (i64)wanted);
    GIVES(move(wanted), 0);
    EXPECT(balance_of(0) == 600 && balance_of(1) == 100);
    wanted = order_of(OUT_OF_MARKET, 3, 600);
    GIVES(move(wanted), (i64)wanted);
    GIVES(move(wanted), 0);
    EXPECT(balance_of(0) == 0 && balance_of(3) == 600 && fq_total(SUPPLY) == AMOUNTS - 1);
    return fq_tested();
}
