/*
 * dexkit.h: checks, normalises, merges, strips, counts, lists and repairs DEX 035 files that lie in memory, and digests
 * their classes. lib/README.md is the way from nothing to a call.
 *
 * Memory.   The library never keeps, frees or writes what the caller passes in. What a call hands out (`dexkit_buffer`,
 *           the text of a `dexkit_fault`) belongs to the caller, who frees it with dexkit_buffer_free or
 *           dexkit_fault_free. Memory comes from the program's malloc, realloc and free. Where these fail the call has
 *           freed all that it took, and returns DEXKIT_NO_MEMORY: it never aborts, exits, prints, or touches a file, a
 *           lock, a signal, the locale or the environment.
 * State.    There is none: no init, no global, no thread local. Any number of threads may be in any calls at once, also
 *           over the same bytes, while nobody writes these. Not for signal handlers, nor for a forked child of a process
 *           with threads, because of malloc.
 * Stack.    A call needs at most DEXKIT_STACK bytes. That is measured and not proved: 33 KB was the most.
 * NULL.     `bytes` may be NULL if `len` is 0, `files` if `count` is 0, `caps` always (the greatest caps), and so may
 *           each out-parameter but a buffer, which is not written then. NULL for a buffer, a function, or for bytes of
 *           which there are some, is DEXKIT_USAGE.
 * Status.   What a call returns is the exit status that the program has for the same files. With DEXKIT_USAGE nothing
 *           is written at all. With any other status, a fault and a buffer that were given are written: a fault is of
 *           the kind DEXKIT_FAULT_NONE unless the status is DEXKIT_REFUSED, and a buffer is NULL unless it is DEXKIT_OK.
 * ABI.      Structures do not change within one DEXKIT_ABI: a new field or meaning is a new number and a new soname.
 *           Functions may be added. dexkit_abi() is that of the library that was linked.
 * Machine.  x86-64 Linux with SSSE3 and SSE4.1 (x86-64-v2), which the library does not test for.
 *
 * What is proved of each call is in docs/PROMISES.md, with what is assumed of the caller: pointers are valid for their
 * lengths during the call, nobody writes the inputs meanwhile, and out-parameters overlap neither these nor each other.
 * "Accepted", "canonical", "union" and "cap" are those of docs/FORMAT.md.
 */
#ifndef DEXKIT_H
#define DEXKIT_H

#include <stddef.h>
#include <stdint.h>

#ifdef __cplusplus
extern "C" {
#endif

#define DEXKIT_ABI 1
#define DEXKIT_STACK (256 * 1024)

/* What a call returns. */
enum {
    DEXKIT_OK = 0,
    DEXKIT_REFUSED = 1,  /* a file or the union is refused: the fault says why */
    DEXKIT_USAGE = 2,    /* no file, a cap above the greatest, a fan of 1, an unknown flag, NULL where it may not be */
    DEXKIT_DEVICE = 3,   /* a function of the caller returned something else than 0 */
    DEXKIT_NO_MEMORY = 4 /* an allocation failed */
};

/* The kinds of faults. */
enum {
    DEXKIT_FAULT_NONE = 0,
    DEXKIT_FAULT_INPUT = 1,    /* file number `input` does not meet condition `number` at `place` */
    DEXKIT_FAULT_CONFLICT = 2, /* the class that `text` names has two different definitions */
    DEXKIT_FAULT_CYCLE = 3,    /* the class that `text` names is above itself, or below such a class */
    DEXKIT_FAULT_CAP = 4       /* the union exceeds cap `number`: 1 types, 2 protos, 3 fields, 4 methods,
                                  5 short strings, 6 weight */
};

/* A file of the caller. */
typedef struct dexkit_bytes {
    const uint8_t *bytes;
    size_t len;
} dexkit_bytes;

/* A file that is handed out. It is NULL if it has no bytes, as the listing of a file without classes. */
typedef struct dexkit_buffer {
    uint8_t *bytes;
    size_t len;
} dexkit_buffer;

/* Why a call returned DEXKIT_REFUSED. */
typedef struct dexkit_fault {
    uint32_t kind; /* DEXKIT_FAULT_.. */
    uint32_t number;
    uint32_t place;
    uint32_t reserved;
    size_t input; /* files are counted from 0 */
    char *text;   /* of a conflict, a cycle or a cap: what the program prints after its own name, as "conflict La/B;",
                     ended by a 0. NULL if the memory for it lacked */
} dexkit_fault;

/* The most that a union may hold. */
typedef struct dexkit_caps {
    uint32_t types;
    uint32_t protos;
    uint32_t fields;
    uint32_t methods;
    uint32_t short_strings;
    uint32_t weight;
} dexkit_caps;

#define DEXKIT_CAPS_GREATEST {65535, 65535, 65536, 65536, 65536, 1u << 30}

/* What a union holds. */
typedef struct dexkit_counts {
    size_t types;
    size_t protos;
    size_t fields;
    size_t methods;
    size_t short_strings;
    uint64_t weight; /* or 2^64 - 1 if it is more */
    size_t classes;
    size_t strings;
} dexkit_counts;

/* The name of a condition, ended by a 0. It is empty if no condition has the number. */
typedef struct dexkit_name {
    char text[16];
} dexkit_name;

/* Functions of the caller. One that returns something else than 0 ends the call, which returns DEXKIT_DEVICE. They may
   call the library. A longjmp or an exception out of them leaks what the call holds, and breaks nothing else. */
typedef int (*dexkit_write_fn)(void *context, const uint8_t *bytes, size_t len);
typedef int (*dexkit_class_fn)(void *context, const uint8_t sha1[20], const char *name, size_t name_len);

#define DEXKIT_STRIP 1u /* a flag of merges: leave out debug programs and source texts */

/* The version, such as "1.0.0", and the DEXKIT_ABI of the library. */
const char *dexkit_version(void);
uint32_t dexkit_abi(void);

/* The name of condition 1 to 23, such as "Checksum": printf("%s", dexkit_condition(fault.number).text). */
dexkit_name dexkit_condition(uint32_t number);

/* Is the file accepted? Then *classes is the number of its classes. */
int dexkit_check(const uint8_t *bytes, size_t len, size_t *classes, dexkit_fault *fault);

/* The canonical file of what a file holds. */
int dexkit_normalise(const uint8_t *bytes, size_t len, dexkit_buffer *out, dexkit_fault *fault);

/* The file with its checksum and signature set right, if it is accepted then. Bytes 8 to 31 alone differ. */
int dexkit_repair(const uint8_t *bytes, size_t len, dexkit_buffer *out, dexkit_fault *fault);

/* The listing of a file, as text: its classes, with their members and instructions. No 0 is at its end. */
int dexkit_dump(const uint8_t *bytes, size_t len, dexkit_buffer *out, dexkit_fault *fault);

/* The canonical file of the union of files: the same bytes in whatever order they are, and however often. A fan of 0
   merges them at once, one of 2 or more that many at a time. Flags: DEXKIT_STRIP, or 0. */
int dexkit_merge(const dexkit_bytes *files, size_t count, const dexkit_caps *caps, size_t fan, uint32_t flags,
                 dexkit_buffer *out, dexkit_fault *fault);

/* The same, given to a function in one piece, if all went well. */
int dexkit_merge_to(const dexkit_bytes *files, size_t count, const dexkit_caps *caps, size_t fan, uint32_t flags,
                    dexkit_write_fn write, void *context, dexkit_fault *fault);

/* What the union of files holds. No cap is asked, and there may be no file. */
int dexkit_count(const dexkit_bytes *files, size_t count, dexkit_counts *counts, dexkit_fault *fault);

/* Calls a function for each class, in the order of a canonical file, with its digest and its name as the program prints
   it, ended by a 0. The digest is the signature of the canonical file of the class alone. */
int dexkit_digests(const uint8_t *bytes, size_t len, dexkit_class_fn each, void *context, dexkit_fault *fault);

/* Frees what was handed out, and sets its pointer to NULL. The numbers of a fault stay. NULL is allowed. */
void dexkit_buffer_free(dexkit_buffer *buffer);
void dexkit_fault_free(dexkit_fault *fault);

#ifdef __cplusplus
}
#endif
#endif
