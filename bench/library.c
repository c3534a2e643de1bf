/* What library.sh measures of the library for C.
 *
 *   library verify WORLD CALLS BLOCK FUEL    verifies a block once
 *   library calls COUNT                      calls the library so often with a text of no calls, and prints how many nanoseconds each took
 */
#include <foshqarel.h>

#include <inttypes.h>
#include <stdio.h>
#include <stdlib.h>
#include <string.h>
#include <time.h>

struct bytes {
    uint8_t *at;
    size_t size;
};

static struct bytes read_file(const char *name) {
    FILE *file = fopen(name, "rb");
    if (!file || fseek(file, 0, SEEK_END)) exit(3);
    struct bytes bytes = {NULL, (size_t)ftell(file)};
    rewind(file);
    bytes.at = malloc(bytes.size + 1);
    if (!bytes.at || fread(bytes.at, 1, bytes.size, file) != bytes.size) exit(3);
    fclose(file);
    return bytes;
}

static int verify(char **words) {
    struct bytes world = read_file(words[0]), calls = read_file(words[1]), block = read_file(words[2]);
    size_t room = 1 << 24;
    uint8_t *next = malloc(room);
    struct foshqarel_told told;
    if (!next) return 4;
    uint32_t status = foshqarel_verify(world.at, world.size, calls.at, calls.size, strtoull(words[3], NULL, 10), block.at, block.size, next, room, &told);
    if (status == FOSHQAREL_DONE) puts("accept");
    return (int)status;
}

static int64_t now(void) {
    struct timespec time;
    clock_gettime(CLOCK_MONOTONIC, &time);
    return (int64_t)time.tv_sec * 1000000000 + time.tv_nsec;
}

static int call(long count) {
    uint8_t nothing = 0;
    struct foshqarel_told told;
    int64_t begun = now();
    for (long i = 0; i < count; i++)
        if (foshqarel_calls(&nothing, 0, &nothing, 0, &told) != FOSHQAREL_DONE || told.size) return 1;
    printf("%.1f\n", (double)(now() - begun) / (double)count);
    return 0;
}

int main(int count, char **words) {
    if (count == 6 && !strcmp(words[1], "verify")) return verify(words + 2);
    if (count == 3 && !strcmp(words[1], "calls")) return call(atol(words[2]));
    return 2;
}
