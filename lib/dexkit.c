/*
 * The border: what dexkit.h declares, made of the proved exports of crates/dexkit_c, which know no NULL, no function of
 * the caller, and no text that ends with a 0. No proof covers this file; it decides nothing about files.
 */
#include "dexkit.h"

#include <stdlib.h>
#include <string.h>

/* Structures and exports of the crate. A Rattle `&[T]` is a pointer, never NULL, and a count; a `Global` is nothing.
   tests/library/prototypes compares these lines with the crate. */
typedef struct fault {
    uint32_t kind;
    uint32_t number;
    uint32_t place;
    size_t input;
} fault;
typedef struct class_digests {
    const uint8_t (*digests)[20];
    size_t count;
    const uint8_t *names;
    size_t len;
} class_digests;
uint32_t dexkit_c_check(const uint8_t *file, size_t len, size_t *classes, fault *why);
uint32_t dexkit_c_normalise(const uint8_t *file, size_t len, dexkit_bytes *out, fault *why);
uint32_t dexkit_c_repair(const uint8_t *file, size_t len, dexkit_bytes *out, fault *why);
uint32_t dexkit_c_dump(const uint8_t *file, size_t len, dexkit_bytes *out, fault *why);
uint32_t dexkit_c_merge(const dexkit_bytes *files, size_t count, const dexkit_caps *caps, size_t fan, uint32_t flags,
                        dexkit_bytes *out, fault *why, dexkit_bytes *text);
uint32_t dexkit_c_count(const dexkit_bytes *files, size_t count, dexkit_counts *numbers, fault *why, dexkit_bytes *text);
uint32_t dexkit_c_digests(const uint8_t *file, size_t len, class_digests *out, fault *why);
uint32_t dexkit_c_condition(uint32_t number, dexkit_bytes *name);

/* What stands for NULL, and for what is not handed out yet. */
static const uint8_t none[20];
static const dexkit_bytes empty = {none, 0};

static int is_file(const uint8_t *bytes, size_t len) { return bytes || !len; }

static const uint8_t *not_null(const uint8_t *bytes) { return bytes ? bytes : none; }

/* Frees what an export handed out. Memory of no bytes is no memory of malloc. */
static void release(const void *bytes, size_t len) {
    if (len) free((void *)bytes);
}

static void put_fault(dexkit_fault *out, const fault *why, const dexkit_bytes *text) {
    char *line = out && text->len ? realloc((void *)text->bytes, text->len + 1) : NULL;
    if (line)
        line[text->len] = 0;
    else
        release(text->bytes, text->len);
    if (out) *out = (dexkit_fault){why->kind, why->number, why->place, 0, why->input, line};
}

static void put_buffer(dexkit_buffer *out, int status, const dexkit_bytes *made) {
    int is_made = status == DEXKIT_OK && made->len;
    *out = is_made ? (dexkit_buffer){(uint8_t *)made->bytes, made->len} : (dexkit_buffer){NULL, 0};
}

/* The files, none of them at NULL: copied if one is. NULL if the memory for that lacks. */
static const dexkit_bytes *not_null_files(const dexkit_bytes *files, size_t count, dexkit_bytes **copy) {
    size_t i = 0;
    *copy = NULL;
    while (i < count && files[i].bytes) i++;
    if (i == count) return count ? files : &empty;
    if (!(*copy = calloc(count, sizeof **copy))) return NULL;
    for (i = 0; i < count; i++) (*copy)[i] = (dexkit_bytes){not_null(files[i].bytes), files[i].len};
    return *copy;
}

static int are_files(const dexkit_bytes *files, size_t count) {
    size_t i = 0;
    if (!files) return !count;
    while (i < count && is_file(files[i].bytes, files[i].len)) i++;
    return i == count;
}

const char *dexkit_version(void) { return DEXKIT_VERSION; }

uint32_t dexkit_abi(void) { return DEXKIT_ABI; }

dexkit_name dexkit_condition(uint32_t number) {
    dexkit_name name = {{0}};
    dexkit_bytes text = empty;
    if (dexkit_c_condition(number, &text) == DEXKIT_OK && text.len < sizeof name.text)
        memcpy(name.text, text.bytes, text.len);
    return name;
}

int dexkit_check(const uint8_t *bytes, size_t len, size_t *classes, dexkit_fault *out) {
    fault why = {0};
    size_t count = 0;
    if (!is_file(bytes, len)) return DEXKIT_USAGE;
    int status = (int)dexkit_c_check(not_null(bytes), len, &count, &why);
    put_fault(out, &why, &empty);
    if (classes && status == DEXKIT_OK) *classes = count;
    return status;
}

/* A call that makes a file of a file. */
static int made_of(uint32_t (*make)(const uint8_t *, size_t, dexkit_bytes *, fault *), const uint8_t *bytes, size_t len,
                   dexkit_buffer *out, dexkit_fault *f) {
    fault why = {0};
    dexkit_bytes made = empty;
    if (!out || !is_file(bytes, len)) return DEXKIT_USAGE;
    int status = (int)make(not_null(bytes), len, &made, &why);
    put_fault(f, &why, &empty);
    put_buffer(out, status, &made);
    return status;
}

int dexkit_normalise(const uint8_t *bytes, size_t len, dexkit_buffer *out, dexkit_fault *f) {
    return made_of(dexkit_c_normalise, bytes, len, out, f);
}

int dexkit_repair(const uint8_t *bytes, size_t len, dexkit_buffer *out, dexkit_fault *f) {
    return made_of(dexkit_c_repair, bytes, len, out, f);
}

int dexkit_dump(const uint8_t *bytes, size_t len, dexkit_buffer *out, dexkit_fault *f) {
    return made_of(dexkit_c_dump, bytes, len, out, f);
}

int dexkit_merge(const dexkit_bytes *files, size_t count, const dexkit_caps *caps, size_t fan, uint32_t flags,
                 dexkit_buffer *out, dexkit_fault *f) {
    static const dexkit_caps greatest = DEXKIT_CAPS_GREATEST;
    fault why = {0};
    dexkit_bytes made = empty, text = empty, *copy;
    if (!out || !are_files(files, count)) return DEXKIT_USAGE;
    const dexkit_bytes *all = not_null_files(files, count, &copy);
    int status = all ? (int)dexkit_c_merge(all, count, caps ? caps : &greatest, fan, flags, &made, &why, &text)
                     : DEXKIT_NO_MEMORY;
    free(copy);
    if (status == DEXKIT_USAGE) return status;
    put_fault(f, &why, &text);
    put_buffer(out, status, &made);
    return status;
}

int dexkit_merge_to(const dexkit_bytes *files, size_t count, const dexkit_caps *caps, size_t fan, uint32_t flags,
                    dexkit_write_fn write, void *context, dexkit_fault *f) {
    dexkit_buffer made = {NULL, 0};
    if (!write) return DEXKIT_USAGE;
    int status = dexkit_merge(files, count, caps, fan, flags, &made, f);
    if (status == DEXKIT_OK && write(context, made.bytes, made.len)) status = DEXKIT_DEVICE;
    dexkit_buffer_free(&made);
    return status;
}

int dexkit_count(const dexkit_bytes *files, size_t count, dexkit_counts *counts, dexkit_fault *f) {
    fault why = {0};
    dexkit_bytes text = empty, *copy;
    dexkit_counts numbers = {0};
    if (!are_files(files, count)) return DEXKIT_USAGE;
    const dexkit_bytes *all = not_null_files(files, count, &copy);
    int status = all ? (int)dexkit_c_count(all, count, &numbers, &why, &text) : DEXKIT_NO_MEMORY;
    free(copy);
    put_fault(f, &why, &text);
    if (counts && status == DEXKIT_OK) *counts = numbers;
    return status;
}

int dexkit_digests(const uint8_t *bytes, size_t len, dexkit_class_fn each, void *context, dexkit_fault *f) {
    fault why = {0};
    class_digests made = {(const uint8_t(*)[20])none, 0, none, 0};
    if (!each || !is_file(bytes, len)) return DEXKIT_USAGE;
    int status = (int)dexkit_c_digests(not_null(bytes), len, &made, &why);
    put_fault(f, &why, &empty);
    const char *name = (const char *)made.names;
    for (size_t i = 0; i < made.count && status == DEXKIT_OK; i++) {
        size_t name_len = strlen(name);
        if (each(context, made.digests[i], name, name_len)) status = DEXKIT_DEVICE;
        name += name_len + 1;
    }
    release(made.digests, made.count);
    release(made.names, made.len);
    return status;
}

void dexkit_buffer_free(dexkit_buffer *buffer) {
    if (!buffer) return;
    free(buffer->bytes);
    *buffer = (dexkit_buffer){NULL, 0};
}

void dexkit_fault_free(dexkit_fault *f) {
    if (!f) return;
    free(f->text);
    f->text = NULL;
}
