/* Tests of exchange.c on the author's machine, with coins that the test plays. */
#include "foshqarel_test.h"
#include "exchange.c"

enum { PEOPLE = 6 };
static u64 balance[2][PEOPLE];

/* `move` of a coin: asks back as coin.c does. */
static u32 coins(u32 contract, u32 place, u64 order, u64 *answer) {
    u64 account = order_account(order), amount = order_amount(order);
    if (contract > 1 || place != MOVE) return 10;
    if ((contract == 0 ? wants_0(order) : wants_1(order)) != 1) return 1;
    u64 from = order_direction(order) == INTO_MARKET ? account : 0, to = from == 0 ? account : 0;
    *answer = balance[contract][from] >= amount ? order : 0;
    if (*answer == 0) return 0;
    balance[contract][from] -= amount;
    balance[contract][to] += amount;
    return 0;
}

/* A contract that answers 1 to all, as `wants_0` does to an order that stands. */
static u32 another(u32 contract, u32 place, u64 order, u64 *answer) {
    (void)contract, (void)place, (void)order;
    *answer = 1;
    return 0;
}

static i64 got;
/* A call that has to return this, and one that has to return it and change nothing. */
#define GIVES(what, wanted) \
    do { \
        CALL(got = (what)); \
        EXPECT(got == (wanted)); \
    } while (0)
#define REFUSES(what, status) \
    do { \
        struct fq_cells cells = fq_now; \
        u64 balances[2][PEOPLE]; \
        memcpy(balances, balance, sizeof balance); \
        GIVES(what, status); \
        EXPECT(memcmp(balances, balance, sizeof balance) == 0); \
        for (int at = 0; at < cells.count; at++) EXPECT(fq_get(cells.cell[at].key) == cells.cell[at].number); \
    } while (0)

static u64 random_state = 1;
static u64 below(u64 most) {
    random_state += 0x9e3779b97f4a7c15ULL;
    return fq_mix(random_state) % most;
}
/* An amount of any length up to 40 bits, 0 among them. */
static u64 some_amount(void) { return below(1ULL << below(41)); }

typedef unsigned __int128 u128;

static void each_refusal(void) {
    balance[0][1] = balance[1][1] = 10000000;
    balance[0][2] = balance[1][2] = 5000;
    REFUSES(sell(1, 0, 100, 0), EMPTY);
    REFUSES(buy(1, 0, 100, 1000), EMPTY);
    REFUSES(quote(0, 100), EMPTY);
    REFUSES(remove_shares(1, 1, 0, 0), FEW_SHARES);
    REFUSES(add_shares(1, 1000, 1000, 0), TOO_SMALL);
    REFUSES(add_shares(2, 5001, 4000, 0), SHORT_0);
    REFUSES(add_shares(2, 4000, 5001, 0), SHORT_1);
    REFUSES(add_shares(1, 1000000, 4000000, 1999001), WORSE);
    GIVES(add_shares(1, 1000000, 4000000, 1999000), 1999000);
    EXPECT(all_shares() == 2000000 && shares_of(0) == LOCKED);
    REFUSES(sell(0, 0, 1, 0), NO_ACCOUNT);
    REFUSES(sell(ACCOUNTS, 0, 1, 0), NO_ACCOUNT);
    REFUSES(sell(1, 2, 1, 0), NO_SIDE);
    REFUSES(buy(1, 2, 1, 0), NO_SIDE);
    REFUSES(quote(2, 1), NO_SIDE);
    REFUSES(sell(1, 0, 0, 0), NO_AMOUNT);
    REFUSES(sell(1, 0, AMOUNTS, 0), NO_AMOUNT);
    REFUSES(add_shares(1, 0, 1, 0), NO_AMOUNT);
    REFUSES(remove_shares(1, AMOUNTS, 0, 0), NO_AMOUNT);
    REFUSES(sell(1, 1, 1, 0), NOTHING);
    REFUSES(add_shares(1, 1, 3, 0), NOTHING);
    REFUSES(buy(1, 0, 4000000, 9000000), BEYOND);
    GIVES(quote(0, 1000), 3984);
    REFUSES(sell(1, 0, 1000, 3985), WORSE);
    REFUSES(buy(1, 0, 3984, 999), WORSE);
    REFUSES(buy(1, 0, 3999999, AMOUNTS), WORSE);
    REFUSES(sell(2, 0, 5001, 0), SHORT_0);
    REFUSES(sell(2, 1, 5001, 0), SHORT_1);
    GIVES(sell(2, 0, 1000, 3984), 3984);
    GIVES(buy(2, 1, 1000, 5000), 4009);
    REFUSES(remove_shares(1, 1000, 501, 0), WORSE);
    REFUSES(remove_shares(2, 1, 0, 0), FEW_SHARES);
    REFUSES(remove_shares(1, 1, 0, 0), NOTHING);
    /* with no coins in the places 0 and 1 the whole call is refused */
    fq_asked = 0;
    REFUSED(sell(1, 0, 1000, 0));
    EXPECT(!fq_has(fq_key(MARKET, WANTED)));
    fq_asked = another;
    REFUSED(sell(1, 0, 1000, 0));
    fq_asked = coins;
    EXPECT(wants_0(0) == 0 && wants_1(order_of(INTO_MARKET, 1, 1)) == 0);
}

/* Quotients of more than 64 bits, and all that there is of the coins. */
static void borders(void) {
    u64 half = AMOUNTS / 2;
    fq_reset();
    balance[0][0] = balance[1][0] = 0;
    balance[0][1] = balance[1][1] = AMOUNTS - 1;
    GIVES(add_shares(1, half, half, 0), (i64)half - LOCKED);
    REFUSES(buy(1, 0, half - 1, AMOUNTS - 1), WORSE);
    REFUSES(buy(1, 0, half, AMOUNTS - 1), BEYOND);
    GIVES(sell(1, 0, half - 1, 0), (i64)((u128)(half - 1) * 997 * half / ((u128)half * 1000 + (half - 1) * 997)));
    EXPECT(balance[0][1] == 0 && held(0) == AMOUNTS - 1);
    REFUSES(sell(1, 0, AMOUNTS - 1, 0), SHORT_0);
    fq_reset();
    balance[0][0] = balance[1][0] = 0;
    balance[0][1] = balance[1][1] = AMOUNTS - 1;
    GIVES(add_shares(1, 1, AMOUNTS - 2, 0), 1048575 - LOCKED);
    REFUSES(add_shares(1, AMOUNTS - 2, 1, 0), NOTHING);
    REFUSES(buy(1, 0, AMOUNTS - 3, AMOUNTS - 1), WORSE);
    REFUSES(buy(1, 1, 1, AMOUNTS - 1), BEYOND);
    GIVES(sell(1, 0, AMOUNTS - 2, 0), (i64)((u128)(AMOUNTS - 2) * 997 * (AMOUNTS - 2) / (1000 + (u128)(AMOUNTS - 2) * 997)));
}

/* Whatever is called, coins and shares are kept, x * y / shares^2 does not fall, and every amount is the formula's. */
static void random_calls(int calls) {
    u64 sum[2] = {0, 0};
    int done = 0;
    fq_reset();
    for (int coin = 0; coin < 2; coin++) {
        balance[coin][0] = 0;
        for (int one = 1; one < PEOPLE; one++) sum[coin] += balance[coin][one] = (AMOUNTS - 1) / (PEOPLE - 1) >> below(20);
    }
    CALL(add_shares(1, balance[0][1], balance[1][1], 0));
    for (int call = 0; call < calls; call++) {
        u64 account = below(PEOPLE + 1), x = held(0), y = held(1), all = all_shares(), amount = some_amount(), other = some_amount();
        u32 side = (u32)below(2), kind = (u32)below(4);
        u128 in = side == 0 ? x : y, out = side == 0 ? y : x, wanted = 0;
        if (account == PEOPLE) account = ACCOUNTS;
        switch (kind) {
        case 0:
            CALL(got = sell(account, side, amount, below(4) ? 0 : other));
            wanted = amount * (u128)997 * out / (in * 1000 + amount * (u128)997);
            break;
        case 1:
            CALL(got = buy(account, side, amount, below(4) ? AMOUNTS : other));
            wanted = amount < out ? in * amount * 1000 / ((out - amount) * 997) + 1 : 0;
            break;
        case 2:
            CALL(got = add_shares(account, amount, other, 0));
            wanted = (u64)got;
            break;
        default:
            CALL(got = remove_shares(account, amount, 0, 0));
            wanted = amount * (u128)x / all;
        }
        if (got >= 0) {
            done++;
            EXPECT((u128)got == wanted);
        }
        EXPECT(held(0) == balance[0][0] && held(1) == balance[1][0]);
        u64 shares_now = 0, sum_now[2] = {0, 0};
        for (u64 one = 0; one < PEOPLE; one++) {
            shares_now += shares_of(one);
            for (int coin = 0; coin < 2; coin++) sum_now[coin] += balance[coin][one];
        }
        EXPECT(shares_now == all_shares() && sum_now[0] == sum[0] && sum_now[1] == sum[1]);
        /* in a trade x * y; else x / shares and y / shares */
        u64 new_x = held(0), new_y = held(1), new_all = all_shares();
        if (kind < 2) EXPECT(new_all == all && (u128)new_x * new_y >= (u128)x * y);
        else EXPECT((u128)new_x * all >= (u128)x * new_all && (u128)new_y * all >= (u128)y * new_all);
    }
    EXPECT(done > calls / 10);
}

int main(void) {
    fq_asked = coins;
    each_refusal();
    borders();
    for (int round = 0; round < 20; round++) random_calls(1000);
    return fq_tested();
}
