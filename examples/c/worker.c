/*
 * A worker: it checks and makes files for whoever writes requests to it, and starts no process for them.
 *
 * A request is a line on standard input, and the answer a line on standard output: the exit status that dexkit would have
 * for the request, a tab, and the line that it would print. The words of a request have a tab between them:
 *
 *     check FILE
 *     normalise FILE OUT
 *     repair FILE OUT
 *     dump FILE OUT
 *     digest FILE OUT
 *     count OUT FILE..
 *     merge OUT CAPS FAN FLAGS FILE..      CAPS is - or six numbers with commas, FLAGS 0, or 1 to strip
 */
#include "dexkit.h"

#include <inttypes.h>
#include <stdio.h>
#include <stdlib.h>
#include <string.h>

enum { MOST_WORDS = 4096 };

static char *words[MOST_WORDS];
static size_t word_count;

/* Reads a file; its bytes are to be freed. They are NULL if it cannot be read. */
static dexkit_bytes load(const char *name) {
    dexkit_bytes file = {NULL, 0};
    FILE *stream = fopen(name, "rb");
    if (!stream) return file;
    if (fseek(stream, 0, SEEK_END) == 0) {
        long len = ftell(stream);
        uint8_t *bytes = len < 0 ? NULL : malloc((size_t)len + 1);
        rewind(stream);
        if (bytes && fread(bytes, 1, (size_t)len, stream) == (size_t)len)
            file = (dexkit_bytes){bytes, (size_t)len};
        else
            free(bytes);
    }
    fclose(stream);
    return file;
}

static int answer(int status, const char *line) {
    printf("%d\t%s\n", status, line);
    return status;
}

static int answer_about(int status, const char *name, const char *what) {
    printf("%d\tdexkit: %s: %s\n", status, name, what);
    return status;
}

/* Answers why a call did not do its work, and frees the text of the fault. */
static void explain(int status, dexkit_fault *fault, char **names) {
    if (status == DEXKIT_NO_MEMORY)
        answer(status, "dexkit: out of memory");
    else if (status == DEXKIT_USAGE)
        answer(status, "dexkit: a bad request");
    else if (fault->kind == DEXKIT_FAULT_INPUT)
        printf("%d\tdexkit: %s: refused %" PRIu32 " %s at %" PRIu32 "\n", status, names[fault->input], fault->number,
               dexkit_condition(fault->number).text, fault->place);
    else
        printf("%d\tdexkit: %s\n", status, fault->text ? fault->text : "refused");
    dexkit_fault_free(fault);
}

/* Writes a file, and answers. */
static void store(const char *name, const void *bytes, size_t len) {
    FILE *stream = fopen(name, "wb");
    int is_written = stream && (!len || fwrite(bytes, 1, len, stream) == len);
    if (stream && fclose(stream)) is_written = 0;
    if (is_written)
        answer(DEXKIT_OK, "");
    else
        answer_about(DEXKIT_DEVICE, name, "cannot be written");
}

static void check(char **names) {
    size_t classes = 0;
    dexkit_fault fault = {0};
    dexkit_bytes file = load(names[0]);
    if (!file.bytes) {
        answer_about(DEXKIT_DEVICE, names[0], "cannot be read");
        return;
    }
    int status = dexkit_check(file.bytes, file.len, &classes, &fault);
    if (status == DEXKIT_OK)
        printf("%d\t%s: ok classes=%zu\n", status, names[0], classes);
    else
        explain(status, &fault, names);
    free((void *)file.bytes);
}

typedef int (*make_fn)(const uint8_t *, size_t, dexkit_buffer *, dexkit_fault *);

static void make(make_fn call, char **names) {
    dexkit_buffer made = {NULL, 0};
    dexkit_fault fault = {0};
    dexkit_bytes file = load(names[0]);
    if (!file.bytes) {
        answer_about(DEXKIT_DEVICE, names[0], "cannot be read");
        return;
    }
    int status = call(file.bytes, file.len, &made, &fault);
    if (status == DEXKIT_OK)
        store(names[1], made.bytes, made.len);
    else
        explain(status, &fault, names);
    dexkit_buffer_free(&made);
    free((void *)file.bytes);
}

struct lines {
    FILE *stream;
    const char *file;
};

static int put_digest(void *context, const uint8_t sha1[20], const char *name, size_t name_len) {
    struct lines *lines = context;
    for (int i = 0; i < 20; i++) fprintf(lines->stream, "%02x", sha1[i]);
    return fprintf(lines->stream, "\t%.*s\t%s\n", (int)name_len, name, lines->file) < 0;
}

static void digest(char **names) {
    dexkit_fault fault = {0};
    dexkit_bytes file = load(names[0]);
    char *text = NULL;
    size_t len = 0;
    struct lines lines = {open_memstream(&text, &len), names[0]};
    if (!file.bytes || !lines.stream) {
        if (lines.stream) fclose(lines.stream);
        answer_about(DEXKIT_DEVICE, names[0], "cannot be read");
    } else {
        int status = dexkit_digests(file.bytes, file.len, put_digest, &lines, &fault);
        if (fclose(lines.stream)) status = DEXKIT_NO_MEMORY;
        if (status == DEXKIT_OK)
            store(names[1], text, len);
        else
            explain(status, &fault, names);
    }
    free(text);
    free((void *)file.bytes);
}

/* Reads files; NULL, after an answer, if one cannot be read. */
static dexkit_bytes *load_all(char **names, size_t count) {
    dexkit_bytes *files = calloc(count + 1, sizeof *files);
    for (size_t i = 0; files && i < count; i++) {
        files[i] = load(names[i]);
        if (files[i].bytes) continue;
        answer_about(DEXKIT_DEVICE, names[i], "cannot be read");
        while (i--) free((void *)files[i].bytes);
        free(files);
        return NULL;
    }
    return files;
}

static void free_all(dexkit_bytes *files, size_t count) {
    for (size_t i = 0; i < count; i++) free((void *)files[i].bytes);
    free(files);
}

static void count(const char *out, char **names, size_t files_count) {
    static const dexkit_caps most = DEXKIT_CAPS_GREATEST;
    dexkit_counts n;
    dexkit_fault fault = {0};
    dexkit_bytes *files = load_all(names, files_count);
    if (!files) return;
    int status = dexkit_count(files, files_count, &n, &fault);
    if (status == DEXKIT_OK) {
        char text[512];
        int len = snprintf(text, sizeof text,
                           "types %zu of %" PRIu32 "\nprotos %zu of %" PRIu32 "\nfields %zu of %" PRIu32
                           "\nmethods %zu of %" PRIu32 "\nshort-strings %zu of %" PRIu32 "\nweight %" PRIu64
                           " of %" PRIu32 "\nclasses %zu\nstrings %zu\n",
                           n.types, most.types, n.protos, most.protos, n.fields, most.fields, n.methods, most.methods,
                           n.short_strings, most.short_strings, n.weight, most.weight, n.classes, n.strings);
        store(out, text, (size_t)len);
    } else {
        explain(status, &fault, names);
    }
    free_all(files, files_count);
}

static void merge(const char *out, const char *numbers, const char *fan, const char *flags, char **names,
                  size_t files_count) {
    dexkit_caps caps = DEXKIT_CAPS_GREATEST;
    dexkit_buffer made = {NULL, 0};
    dexkit_fault fault = {0};
    dexkit_bytes *files = load_all(names, files_count);
    if (!files) return;
    sscanf(numbers, "%" SCNu32 ",%" SCNu32 ",%" SCNu32 ",%" SCNu32 ",%" SCNu32 ",%" SCNu32, &caps.types, &caps.protos,
           &caps.fields, &caps.methods, &caps.short_strings, &caps.weight);
    int status = dexkit_merge(files, files_count, &caps, strtoul(fan, NULL, 10), (uint32_t)strtoul(flags, NULL, 10),
                              &made, &fault);
    if (status == DEXKIT_OK)
        store(out, made.bytes, made.len);
    else
        explain(status, &fault, names);
    dexkit_buffer_free(&made);
    free_all(files, files_count);
}

static int is_request(const char *name, size_t least) { return !strcmp(words[0], name) && word_count > least; }

static void serve(void) {
    if (is_request("check", 1))
        check(words + 1);
    else if (is_request("normalise", 2))
        make(dexkit_normalise, words + 1);
    else if (is_request("repair", 2))
        make(dexkit_repair, words + 1);
    else if (is_request("dump", 2))
        make(dexkit_dump, words + 1);
    else if (is_request("digest", 2))
        digest(words + 1);
    else if (is_request("count", 1))
        count(words[1], words + 2, word_count - 2);
    else if (is_request("merge", 4))
        merge(words[1], words[2], words[3], words[4], words + 5, word_count - 5);
    else
        answer(DEXKIT_USAGE, "dexkit: a bad request");
}

int main(void) {
    char *line = NULL;
    size_t room = 0;
    if (dexkit_abi() != DEXKIT_ABI) {
        fprintf(stderr, "worker: libdexkit has another ABI\n");
        return 2;
    }
    while (getline(&line, &room, stdin) > 0) {
        char *next = line;
        line[strcspn(line, "\n")] = 0;
        for (word_count = 0; word_count < MOST_WORDS && (words[word_count] = strsep(&next, "\t")); word_count++) {
        }
        serve();
        fflush(stdout);
    }
    free(line);
    return 0;
}
