/* market.h: what the coins and the exchange agree on. */
#ifndef MARKET_H
#define MARKET_H
#include "foshqarel.h"

/* Accounts are numbers from 1 up and below this; 0 is the market's own. */
#define ACCOUNTS (1ULL << 23)
/* Amounts of a coin, its whole supply, and numbers of shares lie below this. So a product of two has 80 bits at most. */
#define AMOUNTS (1ULL << 40)

/* What an entry returns in place of an amount where it refuses. It has then changed nothing. */
enum {
    NO_ACCOUNT = -1,  /* an account is 0, or 2^23 or more */
    NO_AMOUNT = -2,   /* an amount or a number of shares is 0, or 2^40 or more */
    NO_SIDE = -3,     /* the side is neither 0 nor 1 */
    IS_OPEN = -4,     /* the coin was opened before */
    NOT_ISSUER = -5,  /* who acts is not the issuer, or the coin is not open */
    PAST_SUPPLY = -6, /* the supply would reach 2^40 */
    SHORT = -7,       /* who transfers has less */
    EMPTY = -8,       /* nobody has put anything into the market yet */
    TOO_SMALL = -9,   /* who begins the market has to put in more */
    NOTHING = -10,    /* rounded down, one of the amounts is 0 */
    BEYOND = -11,     /* the market has no more than is asked for */
    WORSE = -12,      /* the market's price is worse than the caller takes */
    SHORT_0 = -13,    /* the account has less of coin 0 than is to be paid */
    SHORT_1 = -14,    /* the account has less of coin 1 */
    FEW_SHARES = -15, /* the account has fewer shares */
};

FQ_INLINE int is_account(u64 account) { return account != 0 && account < ACCOUNTS; }
FQ_INLINE int is_amount(u64 amount) { return amount != 0 && amount < AMOUNTS; }

/* An order to a coin, one number: the amount in 40 bits, the account in 23, and above them 1 where the market pays. */
enum { INTO_MARKET = 0, OUT_OF_MARKET = 1 };
FQ_INLINE u64 order_of(u32 direction, u64 account, u64 amount) { return (u64)direction << 63 | account << 40 | amount; }
FQ_INLINE u32 order_direction(u64 order) { return (u32)(order >> 63); }
FQ_INLINE u64 order_account(u64 order) { return order >> 40 & (ACCOUNTS - 1); }
FQ_INLINE u64 order_amount(u64 order) { return order & (AMOUNTS - 1); }

#endif
