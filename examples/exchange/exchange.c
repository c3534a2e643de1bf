/* An exchange of two coins, contracts 0 and 1, at a constant product, with a fee of 0.3 % that stays in the market. It is contract 2.
 *   map, table 0   0 and 1 what the market holds of coin 0 and of coin 1; 2 all shares; 3 and 4 the order that coin 0 and coin 1 is just asked
 *                  to do, absent between calls
 *   map, table 1   the shares of an account; those of account 0 are nobody's
 *
 * Where x and y are what it holds, x * y falls by no sale and no purchase, and x * y / shares^2 by no call: all that is divided is rounded
 * against the caller. The formulas are those of Uniswap's second version.
 */
#include "market.h"

enum { MARKET = 0, SHARES = 1, ALL_SHARES = 2, WANTED = 3 };
/* so many shares stay in the market for ever, so that nobody can make one share too dear to buy */
enum { LOCKED = 1000 };
/* the place of `move` among the exports of a coin (tools/abi --places) */
enum { MOVE = 0 };

FQ_INLINE u64 held(u32 side) { return fq_get(fq_key(MARKET, side)); }
FQ_INLINE u64 all_shares(void) { return fq_get(fq_key(MARKET, ALL_SHARES)); }
FQ_INLINE u64 shares_of(u64 account) { return fq_get(fq_key(SHARES, account)); }

FQ_INLINE void hold(u64 zero, u64 one) {
    fq_put(fq_key(MARKET, 0), zero);
    fq_put(fq_key(MARKET, 1), one);
}

FQ_INLINE void set_shares(u64 account, u64 shares, u64 all) {
    fq_put(fq_key(SHARES, account), shares);
    fq_put(fq_key(MARKET, ALL_SHARES), all);
}

/* a * b / c, rounded down; AMOUNTS where that is more. c is above 0. */
static __attribute__((noinline)) u64 part(u64 a, u64 b, u64 c) {
    if (mulhi64(a, b) >= c) return AMOUNTS;
    u64 quotient = muldiv64(a, b, c);
    return quotient < AMOUNTS ? quotient : AMOUNTS;
}

/* What comes out for an amount that goes in, and what has to go in for an amount that comes out. */
FQ_INLINE u64 proceeds(u64 amount, u64 in, u64 out) { return part(amount * 997, out, in * 1000 + amount * 997); }
FQ_INLINE u64 cost(u64 amount, u64 in, u64 out) { return part(in * 1000, amount, (out - amount) * 997) + 1; }

/* The root of a * b, rounded down, of two amounts. */
static u64 root_of_product(u64 a, u64 b) {
    u64 root = 0, high = mulhi64(a, b), low = a * b;
    for (u64 bit = AMOUNTS >> 1; bit != 0; bit >>= 1) {
        u64 next = root | bit, above = mulhi64(next, next);
        if (above < high || (above == high && next * next <= low)) root = next;
    }
    return root;
}

/* Has a coin do an order: whether the account had as much. An answer that no coin gives comes from another contract in its place, and refuses the call. */
static int moved(u32 coin, u32 direction, u64 account, u64 amount) {
    u64 order = order_of(direction, account, amount);
    fq_put(fq_key(MARKET, WANTED + coin), order);
    u64 answer = fq_need(coin, MOVE, order);
    require(answer == order || answer == 0);
    fq_del(fq_key(MARKET, WANTED + coin));
    return answer == order;
}

/* Takes an amount of one coin from an account and gives it one of the other; its own cells are in order before it asks. */
static i64 trade(u64 account, u32 side, u64 paid, u64 given) {
    u64 in = held(side), out = held(1 - side);
    fq_put(fq_key(MARKET, side), in + paid);
    fq_put(fq_key(MARKET, 1 - side), out - given);
    if (!moved(side, INTO_MARKET, account, paid)) {
        fq_put(fq_key(MARKET, side), in);
        fq_put(fq_key(MARKET, 1 - side), out);
        return side == 0 ? SHORT_0 : SHORT_1;
    }
    require(moved(1 - side, OUT_OF_MARKET, account, given));
    return 0;
}

/* Places 0 and 1, for coin 0 and coin 1: 1 where this is the order that the coin is just asked to do. */
EXPORT(u64, wants_0, u64 order) { return order != 0 && fq_get(fq_key(MARKET, WANTED)) == order; }
EXPORT(u64, wants_1, u64 order) { return order != 0 && fq_get(fq_key(MARKET, WANTED + 1)) == order; }

/* Sells an amount of coin `side` for at least so much of the other; returns for how much. */
EXPORT(i64, sell, u64 account, u32 side, u64 amount, u64 least) {
    if (!is_account(account)) return NO_ACCOUNT;
    if (side > 1) return NO_SIDE;
    if (!is_amount(amount)) return NO_AMOUNT;
    u64 in = held(side), out = held(1 - side);
    if (in == 0) return EMPTY;
    u64 given = proceeds(amount, in, out);
    if (given == 0) return NOTHING;
    if (given < least) return WORSE;
    i64 status = trade(account, side, amount, given);
    return status < 0 ? status : (i64)given;
}

/* Buys an amount of the other coin for at most so much of coin `side`; returns for how much. */
EXPORT(i64, buy, u64 account, u32 side, u64 amount, u64 most) {
    if (!is_account(account)) return NO_ACCOUNT;
    if (side > 1) return NO_SIDE;
    if (!is_amount(amount)) return NO_AMOUNT;
    u64 in = held(side), out = held(1 - side);
    if (in == 0) return EMPTY;
    if (amount >= out) return BEYOND;
    u64 paid = cost(amount, in, out);
    if (paid > most || paid >= AMOUNTS) return WORSE;
    i64 status = trade(account, side, paid, amount);
    return status < 0 ? status : (i64)paid;
}

/* Puts in at most these amounts, at the market's price, for at least so many shares; returns how many. Who begins sets the price. */
EXPORT(i64, add_shares, u64 account, u64 most_0, u64 most_1, u64 least) {
    if (!is_account(account)) return NO_ACCOUNT;
    if (!is_amount(most_0) || !is_amount(most_1)) return NO_AMOUNT;
    u64 zero = held(0), one = held(1), all = all_shares(), mine = shares_of(account);
    u64 paid_0 = most_0, paid_1 = most_1, made, locked = 0;
    if (all == 0) {
        made = root_of_product(most_0, most_1);
        if (made <= LOCKED) return TOO_SMALL;
        locked = LOCKED;
        made -= locked;
    } else {
        paid_1 = part(most_0, one, zero);
        if (paid_1 > most_1) {
            paid_1 = most_1;
            paid_0 = part(most_1, zero, one);
        }
        u64 by_0 = part(paid_0, all, zero), by_1 = part(paid_1, all, one);
        made = by_0 < by_1 ? by_0 : by_1;
        if (paid_0 == 0 || paid_1 == 0 || made == 0) return NOTHING;
    }
    if (made < least) return WORSE;
    hold(zero + paid_0, one + paid_1);
    set_shares(account, mine + made, all + made + locked);
    i64 status = (i64)made;
    if (!moved(0, INTO_MARKET, account, paid_0)) {
        status = SHORT_0;
    } else if (!moved(1, INTO_MARKET, account, paid_1)) {
        require(moved(0, OUT_OF_MARKET, account, paid_0));
        status = SHORT_1;
    }
    if (status < 0) {
        hold(zero, one);
        set_shares(account, mine, all);
    } else if (locked != 0) {
        fq_put(fq_key(SHARES, 0), locked);
    }
    return status;
}

/* Takes out what so many shares are worth, at least these amounts; returns how much of coin 0. */
EXPORT(i64, remove_shares, u64 account, u64 shares, u64 least_0, u64 least_1) {
    if (!is_account(account)) return NO_ACCOUNT;
    if (!is_amount(shares)) return NO_AMOUNT;
    u64 mine = shares_of(account);
    if (mine < shares) return FEW_SHARES;
    u64 zero = held(0), one = held(1), all = all_shares();
    u64 given_0 = part(shares, zero, all), given_1 = part(shares, one, all);
    if (given_0 == 0 || given_1 == 0) return NOTHING;
    if (given_0 < least_0 || given_1 < least_1) return WORSE;
    hold(zero - given_0, one - given_1);
    set_shares(account, mine - shares, all - shares);
    require(moved(0, OUT_OF_MARKET, account, given_0));
    require(moved(1, OUT_OF_MARKET, account, given_1));
    return (i64)given_0;
}

/* What `sell` would give now. */
EXPORT(i64, quote, u32 side, u64 amount) {
    if (side > 1) return NO_SIDE;
    if (!is_amount(amount)) return NO_AMOUNT;
    u64 in = held(side);
    return in == 0 ? EMPTY : (i64)proceeds(amount, in, held(1 - side));
}

EXPORT(i64, shares, u64 account) { return account < ACCOUNTS ? (i64)shares_of(account) : NO_ACCOUNT; }
