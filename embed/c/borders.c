/* What the library promises of the caller's memory, tried on one block: BORDERS WORLD CALLS BLOCK FUEL.
 *
 *   - a buffer that is a byte too short is as it was, and the size is told;
 *   - behind what is given the buffer is as it was;
 *   - where the N-th request for memory is refused, for each N, it alone or with all behind it, the answer is FOSHQAREL_NO_MEMORY and the buffers are as they were; or all
 *     is as if none were refused, since a list that is sorted does without the room that it asked for;
 *   - eight threads that verify and produce at once each get the same bytes.
 *
 * It is linked with -Wl,--wrap=malloc,--wrap=realloc. The status is 0 where all is so, else the line says what is not. */
#include <foshqarel.h>

#include <pthread.h>
#include <stdio.h>
#include <stdlib.h>
#include <string.h>

#define MANY 8

static __thread long refused_at = -1; /* which request is refused, counted down; none below 0 */
static __thread int refuses_all;      /* whether those behind it are, too */
static __thread long refusals;        /* how many were */

void *__real_malloc(size_t size);
void *__real_realloc(void *at, size_t size);

static int is_refused(void) {
    int is_first = refused_at >= 0 && refused_at-- == 0;
    int is_next = refuses_all && refusals > 0;
    refusals += is_first || is_next;
    return is_first || is_next;
}

void *__wrap_malloc(size_t size) { return is_refused() ? NULL : __real_malloc(size); }
void *__wrap_realloc(void *at, size_t size) { return is_refused() ? NULL : __real_realloc(at, size); }

struct bytes {
    uint8_t *at;
    size_t size;
};

static struct bytes world, calls, block, next;
static uint64_t fuel;

static void fail(const char *why) {
    printf("borders: %s\n", why);
    exit(1);
}

static struct bytes read_file(const char *name) {
    FILE *file = fopen(name, "rb");
    if (!file || fseek(file, 0, SEEK_END)) fail(name);
    struct bytes bytes = {__real_malloc(1 << 24), 0};
    rewind(file);
    bytes.size = fread(bytes.at, 1, 1 << 24, file);
    fclose(file);
    return bytes;
}

/* Whether so many bytes from a place on have this value. */
static int are(const uint8_t *at, size_t count, uint8_t value) {
    for (size_t i = 0; i < count; i++)
        if (at[i] != value) return 0;
    return 1;
}

static uint32_t verify(uint8_t *out, size_t room, struct foshqarel_told *told) {
    return foshqarel_verify(world.at, world.size, calls.at, calls.size, fuel, block.at, block.size, out, room, told);
}

static uint32_t mine(uint8_t *out, size_t room, uint8_t *after, size_t after_room, struct foshqarel_told *told) {
    return foshqarel_mine(world.at, world.size, calls.at, calls.size, fuel, out, room, after, after_room, told);
}

static void *in_a_thread(void *nothing) {
    struct foshqarel_told told;
    uint8_t *out = __real_malloc(block.size + next.size + 2), *after = out + block.size + 1;
    for (int i = 0; i < 20; i++) {
        if (mine(out, block.size, after, next.size, &told) != FOSHQAREL_DONE || memcmp(out, block.at, block.size) || memcmp(after, next.at, next.size)) return out;
        if (verify(after, next.size, &told) != FOSHQAREL_DONE || memcmp(after, next.at, next.size)) return out;
    }
    free(out);
    return nothing;
}

int main(int count, char **words) {
    if (count != 5) return 2;
    world = read_file(words[1]);
    calls = read_file(words[2]);
    block = read_file(words[3]);
    fuel = strtoull(words[4], NULL, 10);
    struct foshqarel_told told;
    uint8_t nothing = 7;
    if (verify(&nothing, 0, &told) != FOSHQAREL_SHORT || nothing != 7) fail("no buffer is not short");
    next = (struct bytes){__real_malloc(told.size + 100), told.size};

    memset(next.at, 7, next.size + 100);
    if (verify(next.at, next.size - 1, &told) != FOSHQAREL_SHORT || told.size != next.size || told.subject) fail("a byte too few is not short");
    if (!are(next.at, next.size + 100, 7)) fail("a short buffer was written to");
    if (verify(next.at, next.size + 100, &told) != FOSHQAREL_DONE || told.size != next.size) fail("a large buffer is not taken");
    if (!are(next.at + next.size, 100, 7)) fail("what stands behind was written to");

    uint8_t *out = __real_malloc(block.size + 100), *after = __real_malloc(next.size + 100);
    memset(out, 7, block.size + 100);
    memset(after, 7, next.size + 100);
    if (mine(out, block.size, after, next.size - 1, &told) != FOSHQAREL_SHORT || told.next_size != next.size) fail("one short buffer of two is not short");
    if (!are(out, block.size, 7) || !are(after, next.size, 7)) fail("one buffer of two was written to");
    if (mine(out, block.size + 100, after, next.size + 100, &told) != FOSHQAREL_DONE || told.size != block.size) fail("a block is not produced");
    if (memcmp(out, block.at, block.size) || memcmp(after, next.at, next.size)) fail("another block is produced");
    if (!are(out + block.size, 100, 7) || !are(after + next.size, 100, 7)) fail("what stands behind two outputs was written to");

    long requests = 0, without = 0;
    for (int all = 0; all < 2; all++) {
        for (requests = 0;; requests++) {
            memset(out, 7, block.size + 100);
            memset(after, 7, next.size + 100);
            refused_at = requests;
            refuses_all = all;
            refusals = 0;
            uint32_t status = mine(out, block.size, after, next.size, &told);
            refused_at = -1;
            refuses_all = 0;
            if (status == FOSHQAREL_DONE) {
                if (memcmp(out, block.at, block.size) || memcmp(after, next.at, next.size)) fail("something else is given where memory was refused");
                if (!refusals) break;
                without++;
                continue;
            }
            if (!refusals) fail("refused without a cause");
            if (status != FOSHQAREL_NO_MEMORY) fail("a lack of memory is not told");
            if (!are(out, block.size, 7) || !are(after, next.size, 7) || told.size || told.subject) fail("something is given without memory");
        }
    }
    if (without > requests / 4) fail("most requests for memory are of no use");

    pthread_t threads[MANY];
    for (int i = 0; i < MANY; i++)
        if (pthread_create(&threads[i], NULL, in_a_thread, NULL)) fail("a thread is not started");
    for (int i = 0; i < MANY; i++) {
        void *wrong;
        pthread_join(threads[i], &wrong);
        if (wrong) fail("a thread got other bytes");
    }
    free(out);
    free(after);
    printf("borders: all so, with %ld requests for memory refused, of which %ld were done without\n", requests, without);
    return 0;
}
