/* A token with one issuer and one market. It is deployed twice, as contracts 0 and 1.
 *   map, table 0   0 the issuer's account; 1 the market: its contract, and in the upper half the place of what it answers by
 *   map, table 1   the balance of an account; that of account 0 is what the market holds
 *   counter 0      the supply
 *
 * Nobody tells a contract who asks it. So `move` asks the market whether it wants this very order; who else asks or calls it is refused.
 */
#include "market.h"

enum { SETTINGS = 0, BALANCES = 1, ISSUER = 0, MARKET = 1, SUPPLY = 0 };

FQ_INLINE u64 balance_of(u64 account) { return fq_get(fq_key(BALANCES, account)); }

/* Whether there was as much. */
FQ_INLINE int pay(u64 from, u64 to, u64 amount) {
    u64 left = balance_of(from);
    if (left < amount) return 0;
    fq_put(fq_key(BALANCES, from), left - amount);
    fq_put(fq_key(BALANCES, to), add64(balance_of(to), amount));
    return 1;
}

/* Place 0, for the market: the order again where it is done, 0 where the account has too little. */
EXPORT(u64, move, u64 order) {
    require(fq_has(fq_key(SETTINGS, MARKET)));
    u64 market = fq_get(fq_key(SETTINGS, MARKET)), account = order_account(order);
    require(fq_need((u32)market, (u32)(market >> 32), order) == 1);
    u64 from = order_direction(order) == INTO_MARKET ? account : 0;
    return pay(from, account - from, order_amount(order)) ? order : 0;
}

EXPORT(i64, open, u64 issuer, u32 market, u32 place) {
    if (!is_account(issuer)) return NO_ACCOUNT;
    if (fq_has(fq_key(SETTINGS, ISSUER))) return IS_OPEN;
    fq_put(fq_key(SETTINGS, ISSUER), issuer);
    fq_put(fq_key(SETTINGS, MARKET), (u64)place << 32 | market);
    return 0;
}

EXPORT(i64, issue, u64 actor, u64 to, u64 amount) {
    if (!is_account(actor) || !is_account(to)) return NO_ACCOUNT;
    if (!is_amount(amount)) return NO_AMOUNT;
    if (fq_get(fq_key(SETTINGS, ISSUER)) != actor) return NOT_ISSUER;
    if (amount >= AMOUNTS - fq_total(SUPPLY)) return PAST_SUPPLY;
    fq_add(SUPPLY, amount);
    fq_put(fq_key(BALANCES, to), add64(balance_of(to), amount));
    return (i64)amount;
}

EXPORT(i64, transfer, u64 from, u64 to, u64 amount) {
    if (!is_account(from) || !is_account(to)) return NO_ACCOUNT;
    if (!is_amount(amount)) return NO_AMOUNT;
    return pay(from, to, amount) ? (i64)amount : SHORT;
}

EXPORT(i64, balance, u64 account) { return account < ACCOUNTS ? (i64)balance_of(account) : NO_ACCOUNT; }
