/* A user of the library in C: the commands asm, check, text, deploy, mine, validate and call of the program, by the library alone. They take the program's words and
 * print its lines, so that embed/test.sh compares the two. The status is 0 where a command is done, 1 where something is refused, 2 for words that it does not know, 3 for
 * a file, 4 for memory. */
#include <foshqarel.h>

#include <inttypes.h>
#include <stdbool.h>
#include <stdio.h>
#include <stdlib.h>
#include <string.h>

struct bytes {
    uint8_t *at;
    size_t size;
};

/* All memory of this program, which it keeps to its end. So what is lost when it ends, the library lost. */
static void **kept;
static size_t many_kept;

static void *room_for(size_t size) {
    void *at = calloc(size + 1, 1);
    kept = realloc(kept, (many_kept + 1) * sizeof *kept);
    if (!at || !kept) exit(4);
    return kept[many_kept++] = at;
}

static struct bytes read_file(const char *name) {
    FILE *file = fopen(name, "rb");
    if (!file || fseek(file, 0, SEEK_END)) exit(3);
    long size = ftell(file);
    if (size < 0 || fseek(file, 0, SEEK_SET)) exit(3);
    struct bytes bytes = {room_for((size_t)size), (size_t)size};
    if (fread(bytes.at, 1, bytes.size, file) != bytes.size) exit(3);
    fclose(file);
    return bytes;
}

static void write_file(const char *name, struct bytes bytes) {
    FILE *file = fopen(name, "wb");
    if (!file || fwrite(bytes.at, 1, bytes.size, file) != bytes.size || fclose(file)) exit(3);
}

/* ---- what is refused ---- */

static const char *const subjects[] = {"", "load", "check", "deploy", "assemble", "text", "world", "calls", "block"};

/* Prints the program's line of a refusal, and its sentence, and ends. */
static void refuse(struct foshqarel_told told, const uint8_t *sentence) {
    bool has_place = told.place != FOSHQAREL_NOWHERE;
    if (told.subject == FOSHQAREL_BLOCK) {
        printf("reject %" PRIu32, told.number);
    } else {
        printf("refused %s %" PRIu32, subjects[told.subject], told.number);
    }
    if (told.subject == FOSHQAREL_CHECK) {
        if (told.function == FOSHQAREL_NOWHERE) printf(" -");
        else printf(" %" PRIu64, told.function);
    }
    if (has_place) printf(" %" PRIu64, told.place);
    else if (told.subject == FOSHQAREL_DEPLOY || told.subject == FOSHQAREL_WORLD) printf(" -");
    printf("\n");
    fprintf(stderr, "%.*s\n", (int)told.size, (const char *)sentence);
    exit(1);
}

/* ---- the library's functions, with a buffer that grows once the size is told ---- */

/* One of them: what it is passed lies in the task. */
struct task {
    struct bytes first, second, third;
    uint64_t fuel;
    struct bytes next;      /* foshqarel_mine: the second output */
};
typedef uint32_t call_fn(struct task *task, struct bytes out, struct foshqarel_told *told);

static struct bytes ask(call_fn *call, struct task *task) {
    struct foshqarel_told told;
    struct bytes out = {room_for(0), 0};
    for (;;) {
        uint32_t status = call(task, out, &told);
        if (status == FOSHQAREL_NO_MEMORY) exit(4);
        if (status == FOSHQAREL_REFUSED) refuse(told, out.at);
        if (status == FOSHQAREL_DONE) {
            out.size = told.size;
            return out;
        }
        out = (struct bytes){room_for(told.size), told.size};
        task->next = (struct bytes){room_for(told.next_size), told.next_size};
    }
}

static uint32_t assemble(struct task *t, struct bytes out, struct foshqarel_told *told) { return foshqarel_assemble(t->first.at, t->first.size, out.at, out.size, told); }
static uint32_t text(struct task *t, struct bytes out, struct foshqarel_told *told) { return foshqarel_text(t->first.at, t->first.size, out.at, out.size, told); }
static uint32_t world_new(struct task *t, struct bytes out, struct foshqarel_told *told) { (void)t; return foshqarel_world_new(out.at, out.size, told); }
static uint32_t extend(struct task *t, struct bytes out, struct foshqarel_told *told) {
    return foshqarel_world_extend(t->first.at, t->first.size, t->second.at, t->second.size, out.at, out.size, told);
}
static uint32_t digest(struct task *t, struct bytes out, struct foshqarel_told *told) { return foshqarel_world_digest(t->first.at, t->first.size, out.at, out.size, told); }
static uint32_t mine(struct task *t, struct bytes out, struct foshqarel_told *told) {
    return foshqarel_mine(t->first.at, t->first.size, t->second.at, t->second.size, t->fuel, out.at, out.size, t->next.at, t->next.size, told);
}
static uint32_t verify(struct task *t, struct bytes out, struct foshqarel_told *told) {
    return foshqarel_verify(t->first.at, t->first.size, t->second.at, t->second.size, t->fuel, t->third.at, t->third.size, out.at, out.size, told);
}

/* Those that count have no output but a sentence, of 64 KiB at most here. */
static uint8_t sentence[1 << 16];

static uint64_t counted(uint32_t status, struct foshqarel_told told) {
    if (status == FOSHQAREL_NO_MEMORY || status == FOSHQAREL_SHORT) exit(4);
    if (status == FOSHQAREL_REFUSED) refuse(told, sentence);
    return told.size;
}

static uint64_t count_calls(struct bytes calls) {
    struct foshqarel_told told;
    uint32_t status = foshqarel_calls(calls.at, calls.size, sentence, sizeof sentence, &told);
    return counted(status, told);
}

/* ---- lines ---- */

static void print_receipt(struct foshqarel_receipt r) {
    switch (r.outcome) {
    case FOSHQAREL_RETURNED: printf("returned"); break;
    case FOSHQAREL_RETURNED_I32: printf("returned i32:%" PRId64, r.value); break;
    case FOSHQAREL_RETURNED_I64: printf("returned i64:%" PRId64, r.value); break;
    case FOSHQAREL_TRAPPED: printf("trapped %" PRIu32, r.code); break;
    case FOSHQAREL_OUT_OF_FUEL: printf("out-of-fuel"); break;
    default: printf("rejected %" PRIu32, r.code);
    }
    printf(" fuel %" PRIu64, r.fuel);
    if (r.asks) printf(" asks %" PRIu32, r.asks);
    printf("\n");
}

static void print_digest(const char *word, struct bytes world) {
    struct bytes found = ask(digest, &(struct task){.first = world});
    printf("%s ", word);
    for (size_t i = 0; i < found.size; i++) printf("%02x", found.at[i]);
    printf("\n");
}

static void print_lock(struct foshqarel_change c) {
    printf("%s %" PRIu32 ":%" PRIu64, c.kind == FOSHQAREL_MAP ? "map" : "counter", c.contract, c.key);
}

/* ---- commands ---- */

static struct bytes extended(struct bytes world, const char *module) {
    struct task task = {.first = world, .second = read_file(module)};
    return ask(extend, &task);
}

static int deploy(int count, char **words) {
    const char *onto = NULL;
    if (count > 2 && !strcmp(words[count - 2], "--onto")) {
        onto = words[count - 1];
        count -= 2;
    }
    struct bytes world = onto ? read_file(onto) : ask(world_new, &(struct task){0});
    /* The number of contracts stands behind the magic and the version. A world that is none is refused by the first `extend`. */
    uint32_t contracts = world.size < 12 ? 0 : world.at[8] | (uint32_t)world.at[9] << 8;
    for (int i = 1; i < count; i++) world = extended(world, words[i]);
    write_file(words[0], world);
    printf("deployed %d contracts", count - 1);
    if (onto) printf(" onto %" PRIu32, contracts);
    printf("\n");
    return 0;
}

static int mine_block(char **words, uint64_t fuel) {
    struct task task = {.first = read_file(words[0]), .second = read_file(words[1]), .fuel = fuel, .next = {room_for(0), 0}};
    struct bytes block = ask(mine, &task);
    write_file(words[2], block);
    write_file(words[3], task.next);
    struct foshqarel_told told;
    struct foshqarel_receipt receipt;
    uint64_t calls = count_calls(task.second), used = 0;
    bool *listed = room_for(calls * sizeof *listed);
    /* one by one: a list of one receipt */
    for (uint64_t position = 0;; position++) {
        uint32_t status = foshqarel_receipts(block.at, block.size, position, &receipt, 1, sentence, sizeof sentence, &told);
        if (position >= counted(status, told)) break;
        printf("%" PRIu64 " call %" PRIu32 " ", position, receipt.call);
        print_receipt(receipt);
        listed[receipt.call] = true;
        used += receipt.fuel;
    }
    for (uint64_t call = 0; call < calls; call++)
        if (!listed[call]) printf("left %" PRIu64 "\n", call);
    printf("fuel %" PRIu64 "\n", used);
    print_digest("before", task.first);
    print_digest("after", task.next);
    return 0;
}

static int validate(int count, char **words, uint64_t fuel) {
    struct task task = {.first = read_file(words[0]), .second = read_file(words[1]), .third = read_file(words[2]), .fuel = fuel};
    struct bytes next = ask(verify, &task);
    if (count == 4) write_file(words[3], next);
    printf("accept\n");
    print_digest("after", next);
    return 0;
}

static int call_alone(int count, char **words) {
    char line[1 << 16] = "";
    for (int i = 1; i < count; i++) {
        strncat(line, words[i], sizeof line - strlen(line) - 2);
        strcat(line, i + 1 < count ? " " : "\n");
    }
    static const char *const modes[] = {"read", "add", "excl"};
    static struct foshqarel_change changes[1 << 10];
    struct bytes world = read_file(words[0]);
    struct foshqarel_told told;
    struct foshqarel_receipt receipt;
    uint32_t status = foshqarel_call(world.at, world.size, (const uint8_t *)line, strlen(line), 0, &receipt, changes, 1 << 10, sentence, sizeof sentence, &told);
    uint64_t many = counted(status, told);
    if (many > 1 << 10) return 4;
    print_receipt(receipt);
    for (uint64_t i = 0; i < many; i++) {
        printf("lock ");
        print_lock(changes[i]);
        printf(" %s\n", modes[changes[i].mode]);
    }
    for (uint64_t i = 0; i < many; i++) {
        struct foshqarel_change c = changes[i];
        if (c.before == c.later && (c.presence == 0 || c.presence == 3)) continue;
        print_lock(c);
        if (c.presence & 1) printf(" %" PRIu64, c.before);
        else printf(" -");
        if (c.presence & 2) printf(" -> %" PRIu64 "\n", c.later);
        else printf(" -> -\n");
    }
    return 0;
}

/* The cells, sixteen at a time, each looked up once more. */
static int cells(const char *name) {
    struct bytes world = read_file(name);
    struct foshqarel_told told;
    struct foshqarel_cell found[16];
    uint64_t many = 1;
    for (uint64_t from = 0; from < many; from += 16) {
        uint32_t status = foshqarel_world_cells(world.at, world.size, from, found, 16, sentence, sizeof sentence, &told);
        many = counted(status, told);
        for (uint64_t i = 0; i < 16 && from + i < many; i++) {
            struct foshqarel_cell cell = found[i];
            cell.number = 0;
            status = foshqarel_world_cell(world.at, world.size, &cell, sentence, sizeof sentence, &told);
            if (counted(status, told) != 1 || cell.number != found[i].number) return 5;
            printf("%s %" PRIu32 ":%" PRIu64 " %" PRIu64 "\n", cell.kind == FOSHQAREL_MAP ? "map" : "counter", cell.contract, cell.key, cell.number);
        }
    }
    return 0;
}

/* Writes what a function gives of one file, and says how many bytes it has. */
static int turn(call_fn *call, const char *word, char **words) {
    struct bytes out = ask(call, &(struct task){.first = read_file(words[0])});
    write_file(words[1], out);
    printf("%s %zu bytes\n", word, out.size);
    return 0;
}

int main(int count, char **words) {
    if (count < 3) return 2;
    const char *command = words[1];
    uint64_t fuel = 0;
    /* `--fuel N` and what stands behind it, as `--workers N`, which a library without threads does not need */
    for (int i = 2; i + 1 < count; i++) {
        if (strcmp(words[i], "--fuel")) continue;
        fuel = strtoull(words[i + 1], NULL, 10);
        count = i;
    }
    count -= 2;
    words += 2;
    if (!strcmp(command, "asm") && count == 2) return turn(assemble, "assembled", words);
    if (!strcmp(command, "text") && count == 2) return turn(text, "text", words);
    if (!strcmp(command, "check") && count == 1) {
        struct bytes module = read_file(words[0]);
        struct foshqarel_told told;
        uint32_t status = foshqarel_check(module.at, module.size, sentence, sizeof sentence, &told);
        printf("valid %" PRIu64 " functions\n", counted(status, told));
        return 0;
    }
    if (!strcmp(command, "deploy") && count >= 2) return deploy(count, words);
    if (!strcmp(command, "mine") && count == 4) return mine_block(words, fuel);
    if (!strcmp(command, "validate") && (count == 3 || count == 4)) return validate(count, words, fuel);
    if (!strcmp(command, "call") && count >= 4) return call_alone(count, words);
    if (!strcmp(command, "cells") && count == 1) return cells(words[0]);
    return 2;
}
