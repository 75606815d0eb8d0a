/*
 * Calls of libdexkit at its edges. Linked with --wrap for malloc, calloc, realloc and free, so that chosen ones fail.
 *
 *     calls usage FILE OTHER    NULL, no bytes, wrong caps and flags, functions that fail; OTHER conflicts with FILE
 *     calls prefixes FILE..     each prefix of each file, and each file with a byte changed, before a page that nobody
 *                               may read
 *     calls threads FILE..      16 threads at once over the same bytes, on stacks of DEXKIT_STACK bytes
 *     calls memory FILE..       each allocation of each call fails in turn
 *     calls stack FILE..        the most stack that each call used
 *
 * Each prints a line of counts. What is wrong is printed with the number of its line, and ends the program.
 */
#define _GNU_SOURCE
#include "dexkit.h"

#include <pthread.h>
#include <stdatomic.h>
#include <stdio.h>
#include <stdlib.h>
#include <string.h>
#include <sys/mman.h>
#include <unistd.h>

#define EXPECT(fact, ...)                                       \
    do {                                                        \
        if (!(fact)) {                                          \
            fprintf(stderr, "calls.c:%d: %s: ", __LINE__, #fact); \
            fprintf(stderr, __VA_ARGS__);                       \
            fputc('\n', stderr);                                \
            exit(1);                                            \
        }                                                       \
    } while (0)

enum { THREADS = 16, ROUNDS = 20, PAINT = 0xa5 };

/* ---- allocations */

static atomic_int is_counted;
static long fail_at, growths, blocks;

void *__real_malloc(size_t size);
void *__real_calloc(size_t count, size_t size);
void *__real_realloc(void *block, size_t size);
void __real_free(void *block);

static int fails(void) { return is_counted && ++growths == fail_at; }

static void *counted(void *block) {
    if (is_counted && block) blocks++;
    return block;
}

void *__wrap_malloc(size_t size) { return fails() ? NULL : counted(__real_malloc(size)); }

void *__wrap_calloc(size_t count, size_t size) { return fails() ? NULL : counted(__real_calloc(count, size)); }

void *__wrap_realloc(void *block, size_t size) {
    if (fails()) return NULL;
    return block ? __real_realloc(block, size) : counted(__real_realloc(block, size));
}

void __wrap_free(void *block) {
    if (is_counted && block) blocks--;
    __real_free(block);
}

/* ---- calls, and what comes of them */

static dexkit_bytes *files;
static size_t file_count;

static dexkit_bytes load(const char *name) {
    FILE *stream = fopen(name, "rb");
    EXPECT(stream, "%s cannot be read", name);
    fseek(stream, 0, SEEK_END);
    size_t len = (size_t)ftell(stream);
    uint8_t *bytes = malloc(len); /* no byte more, so that a sanitizer sees a read after the last one */
    rewind(stream);
    EXPECT(bytes && fread(bytes, 1, len, stream) == len, "%s cannot be read", name);
    fclose(stream);
    return (dexkit_bytes){bytes, len};
}

/* What a call gave: its status, and the sum of all bytes that it handed out. */
typedef struct outcome {
    int status;
    uint64_t sum;
} outcome;

static uint64_t added(uint64_t sum, const void *bytes, size_t len) {
    const uint8_t *at = bytes;
    for (size_t i = 0; i < len; i++) sum = (sum ^ at[i]) * 0x100000001b3u;
    return sum;
}

static int add_digest(void *context, const uint8_t sha1[20], const char *name, size_t name_len) {
    uint64_t *sum = context;
    EXPECT(strlen(name) == name_len, "%s", name);
    *sum = added(added(*sum, sha1, 20), name, name_len);
    return 0;
}

static int add_bytes(void *context, const uint8_t *bytes, size_t len) {
    uint64_t *sum = context;
    *sum = added(*sum, bytes, len);
    return 0;
}

/* The sum with a fault, which is freed. */
static uint64_t fault_added(uint64_t sum, int status, dexkit_fault *fault) {
    EXPECT((fault->kind != DEXKIT_FAULT_NONE) == (status == DEXKIT_REFUSED), "status %d", status);
    sum = added(sum, fault, offsetof(dexkit_fault, text));
    dexkit_fault_free(fault);
    EXPECT(!fault->text, "a text after it was freed");
    return sum;
}

enum call { CHECK, NORMALISE, REPAIR, DUMP, DIGESTS, MERGE, STRIP, FAN, WRITE, CAP, COUNT, CALLS };

static const char *const names[CALLS] = {"check", "normalise", "repair", "dump",  "digests", "merge",
                                         "strip", "fan",       "write",  "a cap", "count"};

static int make(enum call call, const dexkit_bytes *of, size_t count, dexkit_buffer *out, dexkit_fault *fault) {
    static const dexkit_caps small = {1, 65535, 65536, 65536, 65536, 1u << 30};
    switch (call) {
    case NORMALISE:
        return dexkit_normalise(of->bytes, of->len, out, fault);
    case REPAIR:
        return dexkit_repair(of->bytes, of->len, out, fault);
    case DUMP:
        return dexkit_dump(of->bytes, of->len, out, fault);
    case MERGE:
        return dexkit_merge(of, count, NULL, 0, 0, out, fault);
    case STRIP:
        return dexkit_merge(of, count, NULL, 0, DEXKIT_STRIP, out, fault);
    case FAN:
        return dexkit_merge(of, count, NULL, 2, 0, out, fault);
    default:
        return dexkit_merge(of, count, &small, 0, 0, out, fault);
    }
}

/* A call over files; those of one file take the first one. */
static outcome run(enum call call, const dexkit_bytes *of, size_t count) {
    dexkit_buffer out = {NULL, 0};
    dexkit_fault fault = {0};
    dexkit_counts counts = {0};
    size_t classes = 0;
    outcome found = {0, 0xcbf29ce484222325u};
    if (call == CHECK) {
        found.status = dexkit_check(of->bytes, of->len, &classes, &fault);
        found.sum = added(found.sum, &classes, sizeof classes);
    } else if (call == DIGESTS) {
        found.status = dexkit_digests(of->bytes, of->len, add_digest, &found.sum, &fault);
    } else if (call == COUNT) {
        found.status = dexkit_count(of, count, &counts, &fault);
        found.sum = added(found.sum, &counts, sizeof counts);
    } else if (call == WRITE) {
        found.status = dexkit_merge_to(of, count, NULL, 0, 0, add_bytes, &found.sum, &fault);
    } else {
        found.status = make(call, of, count, &out, &fault);
        EXPECT(!out.bytes == !out.len, "%zu bytes at %p", out.len, (void *)out.bytes);
        EXPECT(found.status == DEXKIT_OK || !out.len, "status %d with %zu bytes", found.status, out.len);
        found.sum = added(found.sum, out.bytes, out.len);
        dexkit_buffer_free(&out);
        EXPECT(!out.bytes && !out.len, "a buffer after it was freed");
    }
    found.sum = fault_added(found.sum, found.status, &fault);
    return found;
}

static int are_equal(outcome left, outcome right) { return left.status == right.status && left.sum == right.sum; }

/* ---- usage */

static int refuse_bytes(void *context, const uint8_t *bytes, size_t len) {
    (void)bytes, (void)len;
    ++*(int *)context;
    return 1;
}

static int refuse_class(void *context, const uint8_t sha1[20], const char *name, size_t name_len) {
    (void)sha1, (void)name, (void)name_len;
    ++*(int *)context;
    return -1;
}

static struct written {
    dexkit_buffer out;
    dexkit_fault fault;
    dexkit_counts counts;
    size_t classes;
} written, painted;

static int usages;

/* A call that must be a usage error, and must write nothing. */
#define EXPECT_USAGE(call)                                                             \
    do {                                                                               \
        memcpy(&written, &painted, sizeof written);                                    \
        int status = (call);                                                           \
        EXPECT(status == DEXKIT_USAGE, "status %d of %s", status, #call);              \
        EXPECT(!memcmp(&written, &painted, sizeof written), "%s wrote something", #call); \
        usages++;                                                                      \
    } while (0)

static void usage_of_files(void) {
    const dexkit_bytes hole[2] = {files[0], {NULL, 5}};
    dexkit_caps caps[6];
    int called = 0;
    EXPECT_USAGE(dexkit_check(NULL, 1, &written.classes, &written.fault));
    EXPECT_USAGE(dexkit_normalise(NULL, 1, &written.out, &written.fault));
    EXPECT_USAGE(dexkit_normalise(files->bytes, files->len, NULL, &written.fault));
    EXPECT_USAGE(dexkit_repair(NULL, 1, &written.out, &written.fault));
    EXPECT_USAGE(dexkit_repair(files->bytes, files->len, NULL, &written.fault));
    EXPECT_USAGE(dexkit_dump(NULL, 1, &written.out, &written.fault));
    EXPECT_USAGE(dexkit_dump(files->bytes, files->len, NULL, &written.fault));
    EXPECT_USAGE(dexkit_digests(NULL, 1, add_digest, NULL, &written.fault));
    EXPECT_USAGE(dexkit_digests(files->bytes, files->len, NULL, NULL, &written.fault));
    EXPECT_USAGE(dexkit_count(NULL, 1, &written.counts, &written.fault));
    EXPECT_USAGE(dexkit_count(hole, 2, &written.counts, &written.fault));
    EXPECT_USAGE(dexkit_merge(NULL, 0, NULL, 0, 0, &written.out, &written.fault));
    EXPECT_USAGE(dexkit_merge(NULL, 2, NULL, 0, 0, &written.out, &written.fault));
    EXPECT_USAGE(dexkit_merge(hole, 2, NULL, 0, 0, &written.out, &written.fault));
    EXPECT_USAGE(dexkit_merge(files, 1, NULL, 0, 0, NULL, &written.fault));
    EXPECT_USAGE(dexkit_merge(files, 1, NULL, 1, 0, &written.out, &written.fault));
    EXPECT_USAGE(dexkit_merge(files, 1, NULL, 0, 2, &written.out, &written.fault));
    EXPECT_USAGE(dexkit_merge(files, 1, NULL, 0, 0x80000001u, &written.out, &written.fault));
    EXPECT_USAGE(dexkit_merge_to(files, 1, NULL, 0, 0, NULL, NULL, &written.fault));
    EXPECT_USAGE(dexkit_merge_to(files, 1, NULL, 1, 0, refuse_bytes, &called, &written.fault));
    for (int i = 0; i < 6; i++) {
        caps[i] = (dexkit_caps)DEXKIT_CAPS_GREATEST;
        ++((uint32_t *)&caps[i])[i];
        EXPECT_USAGE(dexkit_merge(files, 1, &caps[i], 0, 0, &written.out, &written.fault));
        ((uint32_t *)&caps[i])[i] = UINT32_MAX;
        EXPECT_USAGE(dexkit_merge(files, 1, &caps[i], 2, 1, &written.out, &written.fault));
    }
    EXPECT(!called, "a function was called");
}

static void allowed_nulls(void) {
    static const dexkit_bytes nothing[2] = {{NULL, 0}, {NULL, 0}};
    const dexkit_bytes last[2] = {files[0], {NULL, 0}};
    dexkit_buffer out;
    dexkit_fault fault;
    dexkit_counts counts;
    EXPECT(dexkit_check(NULL, 0, NULL, NULL) == DEXKIT_REFUSED, "no bytes");
    EXPECT(dexkit_check(NULL, 0, NULL, &fault) == DEXKIT_REFUSED, "no bytes");
    EXPECT(fault.kind == DEXKIT_FAULT_INPUT && fault.number == 1 && fault.place == 0 && !fault.text, "%u", fault.number);
    EXPECT(dexkit_check(files->bytes, 0, NULL, NULL) == DEXKIT_REFUSED, "no bytes");
    EXPECT(dexkit_check(files->bytes, files->len, NULL, NULL) == DEXKIT_OK, "a good file");
    EXPECT(dexkit_normalise(NULL, 0, &out, NULL) == DEXKIT_REFUSED && !out.bytes, "no bytes");
    EXPECT(dexkit_repair(NULL, 0, &out, NULL) == DEXKIT_REFUSED && !out.bytes, "no bytes");
    EXPECT(dexkit_dump(NULL, 0, &out, NULL) == DEXKIT_REFUSED && !out.bytes, "no bytes");
    EXPECT(dexkit_digests(NULL, 0, add_digest, NULL, NULL) == DEXKIT_REFUSED, "no bytes");
    EXPECT(dexkit_count(NULL, 0, NULL, NULL) == DEXKIT_OK, "no files");
    EXPECT(dexkit_count(NULL, 0, &counts, NULL) == DEXKIT_OK && !counts.classes && !counts.types, "no files");
    EXPECT(dexkit_count(nothing, 2, NULL, &fault) == DEXKIT_REFUSED && fault.input == 0, "two files without bytes");
    EXPECT(dexkit_merge(nothing, 2, NULL, 0, 0, &out, NULL) == DEXKIT_REFUSED && !out.bytes, "files without bytes");
    EXPECT(dexkit_merge(last, 2, NULL, 0, 0, &out, &fault) == DEXKIT_REFUSED && !out.bytes, "a file without bytes");
    EXPECT(fault.kind == DEXKIT_FAULT_INPUT && fault.input == 1 && fault.number == 1, "file %zu", fault.input);
    dexkit_buffer_free(NULL);
    dexkit_fault_free(NULL);
}

static void texts(void) {
    dexkit_caps few = DEXKIT_CAPS_GREATEST;
    dexkit_buffer out;
    dexkit_fault fault;
    few.types = 1;
    EXPECT(dexkit_merge(files, 2, NULL, 0, 0, &out, &fault) == DEXKIT_REFUSED, "a conflict");
    EXPECT(fault.kind == DEXKIT_FAULT_CONFLICT && !strncmp(fault.text, "conflict L", 10), "%s", fault.text);
    dexkit_fault_free(&fault);
    dexkit_fault_free(&fault);
    EXPECT(fault.kind == DEXKIT_FAULT_CONFLICT, "the numbers stay");
    EXPECT(dexkit_merge(files, 2, NULL, 0, 0, &out, NULL) == DEXKIT_REFUSED, "a conflict, and nobody asks why");
    EXPECT(dexkit_count(files, 2, NULL, &fault) == DEXKIT_REFUSED && fault.kind == DEXKIT_FAULT_CONFLICT, "a conflict");
    dexkit_fault_free(&fault);
    EXPECT(dexkit_merge(files, 1, &few, 0, 0, &out, &fault) == DEXKIT_REFUSED, "a cap");
    EXPECT(fault.kind == DEXKIT_FAULT_CAP && fault.number == 1 && !strcmp(fault.text, "cap types"), "%s", fault.text);
    dexkit_fault_free(&fault);
    EXPECT(dexkit_merge(files, 1, NULL, 0, 0, &out, &fault) == DEXKIT_OK && out.len, "a good file");
    EXPECT(fault.kind == DEXKIT_FAULT_NONE && !fault.text, "kind %u", fault.kind);
    dexkit_buffer_free(&out);
    dexkit_buffer_free(&out);
    for (uint32_t number = 1; number <= 23; number++) EXPECT(*dexkit_condition(number).text, "condition %u", number);
    EXPECT(!strcmp(dexkit_condition(7).text, "Checksum") && !strcmp(dexkit_condition(23).text, "Weight"), "a name");
    EXPECT(!*dexkit_condition(0).text && !*dexkit_condition(24).text && !*dexkit_condition(256 + 7).text, "no condition");
    EXPECT(dexkit_abi() == DEXKIT_ABI && strchr(dexkit_version(), '.'), "version %s", dexkit_version());
}

static void functions_that_fail(void) {
    int called = 0;
    dexkit_fault fault;
    EXPECT(dexkit_merge_to(files, 1, NULL, 0, 0, refuse_bytes, &called, &fault) == DEXKIT_DEVICE, "a writer");
    EXPECT(called == 1 && fault.kind == DEXKIT_FAULT_NONE, "%d calls", called);
    EXPECT(dexkit_merge_to(files, 2, NULL, 0, 0, refuse_bytes, &called, NULL) == DEXKIT_REFUSED, "a conflict");
    EXPECT(called == 1, "a function was called for what is refused");
    EXPECT(dexkit_digests(files->bytes, files->len, refuse_class, &called, &fault) == DEXKIT_DEVICE, "a function");
    EXPECT(called == 2 && fault.kind == DEXKIT_FAULT_NONE, "%d calls", called);
}

static void usage(void) {
    EXPECT(file_count == 2, "two files are to be given");
    memset(&painted, PAINT, sizeof painted);
    usage_of_files();
    allowed_nulls();
    texts();
    functions_that_fail();
    printf("usage: %d usage errors, and nothing written\n", usages);
}

/* ---- prefixes */

/* Runs all calls of one file over bytes that end where nobody may read. */
static long run_before(uint8_t *end, const uint8_t *bytes, size_t len) {
    dexkit_bytes file = {end - len, len};
    memcpy(end - len, bytes, len);
    for (enum call call = CHECK; call < CALLS; call++) run(call, &file, 1);
    return CALLS;
}

static void prefixes(void) {
    size_t page = (size_t)sysconf(_SC_PAGESIZE), most = 0;
    long calls = 0, cuts = 0, changes = 0;
    for (size_t i = 0; i < file_count; i++) most = files[i].len > most ? files[i].len : most;
    size_t room = (most + page - 1) / page * page;
    uint8_t *start = mmap(NULL, room + page, PROT_READ | PROT_WRITE, MAP_PRIVATE | MAP_ANONYMOUS, -1, 0);
    EXPECT(start != MAP_FAILED && !mprotect(start + room, page, PROT_NONE), "no memory");
    for (size_t i = 0; i < file_count; i++) {
        for (size_t len = 0; len <= files[i].len; len++, cuts++) calls += run_before(start + room, files[i].bytes, len);
        uint8_t *changed = malloc(files[i].len);
        for (size_t at = 32; at < files[i].len; at += 7, changes++) {
            dexkit_buffer whole;
            memcpy(changed, files[i].bytes, files[i].len);
            changed[at] ^= (uint8_t)(1 + (at * 37 + i) % 255);
            calls += run_before(start + room, changed, files[i].len);
            if (dexkit_repair(changed, files[i].len, &whole, NULL)) continue;
            calls += run_before(start + room, whole.bytes, whole.len);
            dexkit_buffer_free(&whole);
        }
        free(changed);
    }
    munmap(start, room + page);
    printf("prefixes: %ld prefixes, %ld changed files, %ld calls before an unreadable page\n", cuts, changes, calls);
}

/* ---- threads */

static outcome wanted[CALLS];
static atomic_long wrong;

static void *run_all(void *unused) {
    for (int round = 0; round < ROUNDS; round++)
        for (enum call call = CHECK; call < CALLS; call++)
            if (!are_equal(run(call, files, file_count), wanted[call])) wrong++;
    return unused;
}

static void threads(void) {
    pthread_t all[THREADS];
    pthread_attr_t attributes;
    for (enum call call = CHECK; call < CALLS; call++) wanted[call] = run(call, files, file_count);
    pthread_attr_init(&attributes);
    EXPECT(!pthread_attr_setstacksize(&attributes, DEXKIT_STACK), "a stack");
    for (int i = 0; i < THREADS; i++) EXPECT(!pthread_create(&all[i], &attributes, run_all, NULL), "a thread");
    for (int i = 0; i < THREADS; i++) pthread_join(all[i], NULL);
    printf("threads: %d threads on %d bytes of stack, %d calls, %ld wrong\n", THREADS, DEXKIT_STACK,
           THREADS * ROUNDS * CALLS, (long)wrong);
    EXPECT(!wrong, "%ld results differ", (long)wrong);
}

/* ---- memory */

static outcome run_with_failing(enum call call, long number) {
    fail_at = number;
    growths = blocks = 0;
    is_counted = 1;
    outcome found = run(call, files, file_count);
    is_counted = 0;
    EXPECT(!blocks, "%s, allocation %ld: %ld blocks left", names[call], number, blocks);
    return found;
}

static void memory(void) {
    long all = 0, unharmed = 0;
    for (enum call call = CHECK; call < CALLS; call++) {
        outcome right = run_with_failing(call, 0);
        long count = growths;
        for (long number = 1; number <= count; number++) {
            outcome found = run_with_failing(call, number);
            EXPECT(found.status == DEXKIT_NO_MEMORY || are_equal(found, right), "%s, allocation %ld: status %d",
                   names[call], number, found.status);
            unharmed += found.status != DEXKIT_NO_MEMORY;
        }
        all += count;
    }
    printf("memory: %ld failing allocations, %ld of them done without, 0 blocks left\n", all, unharmed);
}

/* ---- stack */

static enum call chosen;

static void *run_chosen(void *unused) {
    for (size_t i = 0; i < file_count; i++) run(chosen, files + i, chosen < MERGE ? 1 : file_count - i);
    return unused;
}

static void *run_nothing(void *unused) { return unused; }

/* The most stack that a thread used. */
static size_t stack_of(void *(*work)(void *)) {
    const size_t room = 8u << 20;
    uint8_t *stack = mmap(NULL, room, PROT_READ | PROT_WRITE, MAP_PRIVATE | MAP_ANONYMOUS, -1, 0);
    pthread_t thread;
    pthread_attr_t attributes;
    size_t unused = 0;
    EXPECT(stack != MAP_FAILED, "no memory");
    memset(stack, PAINT, room);
    pthread_attr_init(&attributes);
    pthread_attr_setstack(&attributes, stack, room);
    EXPECT(!pthread_create(&thread, &attributes, work, NULL), "a thread");
    pthread_join(thread, NULL);
    while (unused < room && stack[unused] == PAINT) unused++;
    munmap(stack, room);
    return room - unused;
}

static void stack(void) {
    size_t most = 0, least = stack_of(run_nothing);
    for (chosen = CHECK; chosen < CALLS; chosen++) {
        size_t used = stack_of(run_chosen);
        printf("%s %zu, ", names[chosen], used);
        if (used > most) most = used;
    }
    printf("nothing %zu\nstack: %zu bytes at most, of %d\n", least, most, DEXKIT_STACK);
    EXPECT(most <= DEXKIT_STACK / 2, "%zu bytes", most);
}

int main(int argc, char **argv) {
    static const struct {
        const char *name;
        void (*run)(void);
    } kinds[] = {{"usage", usage}, {"prefixes", prefixes}, {"threads", threads}, {"memory", memory}, {"stack", stack}};
    EXPECT(argc > 2, "see the first lines of calls.c");
    file_count = (size_t)argc - 2;
    files = malloc(file_count * sizeof *files);
    for (size_t i = 0; i < file_count; i++) files[i] = load(argv[i + 2]);
    for (size_t i = 0; i < sizeof kinds / sizeof *kinds; i++)
        if (!strcmp(argv[1], kinds[i].name)) kinds[i].run();
    for (size_t i = 0; i < file_count; i++) free((void *)files[i].bytes);
    free(files);
    return 0;
}
