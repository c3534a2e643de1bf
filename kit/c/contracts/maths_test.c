/* muldiv64 beside a product of 128 bits: random numbers of all lengths, and all of some borders. */
#include "foshqarel_test.h"

static u64 state = 1, got;
static u64 some(void) {
    state += 0x9e3779b97f4a7c15ULL;
    u64 bits = fq_mix(state);
    state += 0x9e3779b97f4a7c15ULL;
    return fq_mix(state) >> (bits & 63) ^ (bits & 64 ? ~0ULL >> (bits >> 8 & 63) : 0);
}

static void is_right(u64 a, u64 b, u64 c) {
    unsigned __int128 product = (unsigned __int128)a * b;
    if (c == 0 || product / c >> 64 != 0) {
        REFUSED(muldiv64(a, b, c));
    } else {
        CALL(got = muldiv64(a, b, c));
        EXPECT(got == (u64)(product / c));
    }
}

int main(void) {
    static const u64 border[] = {0, 1, 2, 3, 0x7fffffff, 0x80000000, 0xffffffff, 0x100000000, 0x100000001, 0x1ffffffff, 0x7fffffffffffffff,
        0x8000000000000000, 0x8000000000000001, 0x80000000ffffffff, 0xffffffff00000000, 0xffffffff00000001, 0xfffffffffffffffe, 0xffffffffffffffff};
    enum { BORDERS = sizeof border / sizeof *border };
    for (int a = 0; a < BORDERS; a++)
        for (int b = 0; b < BORDERS; b++)
            for (int c = 0; c < BORDERS; c++) is_right(border[a], border[b], border[c]);
    for (int at = 0; at < 100000; at++) is_right(some(), some(), some());
    return fq_tested();
}
