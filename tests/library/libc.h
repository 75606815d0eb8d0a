/*
 * What the border and the callers in C take of the C library, as glibc has it on x86-64 Linux: for the kit's compiler,
 * which has no headers. tests/library/gate gives it the names of the headers that these include.
 */
#ifndef LIBC_H
#define LIBC_H

typedef unsigned char uint8_t;
typedef unsigned int uint32_t;
typedef unsigned long uint64_t;
typedef unsigned long uintptr_t;
typedef unsigned long size_t;
typedef long ssize_t;
#define UINT32_MAX 4294967295u
#define PRIu32 "u"
#define SCNu32 "u"
#define PRIu64 "lu"
#define NULL ((void *)0)
#define offsetof(type, field) __builtin_offsetof(type, field)

void *malloc(size_t size);
void *calloc(size_t count, size_t size);
void *realloc(void *block, size_t size);
void free(void *block);
void exit(int status) __attribute__((noreturn));
unsigned long strtoul(const char *text, char **end, int base);

void *memcpy(void *restrict to, const void *restrict from, size_t len);
void *memset(void *to, int byte, size_t len);
int memcmp(const void *left, const void *right, size_t len);
size_t strlen(const char *text);
int strcmp(const char *left, const char *right);
int strncmp(const char *left, const char *right, size_t len);
char *strchr(const char *text, int sign);
size_t strcspn(const char *text, const char *signs);
char *strsep(char **rest, const char *signs);

typedef struct file_of_libc FILE;
extern FILE *stdin, *stdout, *stderr;
#define SEEK_END 2
FILE *fopen(const char *restrict name, const char *restrict mode);
FILE *open_memstream(char **text, size_t *len);
int fclose(FILE *stream);
int fflush(FILE *stream);
int fseek(FILE *stream, long at, int from);
long ftell(FILE *stream);
void rewind(FILE *stream);
size_t fread(void *restrict to, size_t size, size_t count, FILE *restrict stream);
size_t fwrite(const void *restrict from, size_t size, size_t count, FILE *restrict stream);
ssize_t getline(char **restrict line, size_t *restrict room, FILE *restrict stream);
int fputc(int sign, FILE *stream);
int printf(const char *restrict format, ...) __attribute__((format(printf, 1, 2)));
int fprintf(FILE *restrict stream, const char *restrict format, ...) __attribute__((format(printf, 2, 3)));
int snprintf(char *restrict to, size_t room, const char *restrict format, ...) __attribute__((format(printf, 3, 4)));
int sscanf(const char *restrict text, const char *restrict format, ...) __attribute__((format(scanf, 2, 3)));

typedef _Atomic(int) atomic_int;
typedef _Atomic(long) atomic_long;

typedef unsigned long pthread_t;
typedef union pthread_attr_t {
    char room[56];
    long alignment;
} pthread_attr_t;
int pthread_attr_init(pthread_attr_t *attributes);
int pthread_attr_setstack(pthread_attr_t *attributes, void *stack, size_t len);
int pthread_attr_setstacksize(pthread_attr_t *attributes, size_t len);
int pthread_create(pthread_t *restrict thread, const pthread_attr_t *restrict attributes, void *(*work)(void *),
                   void *restrict context);
int pthread_join(pthread_t thread, void **result);

#define PROT_NONE 0
#define PROT_READ 1
#define PROT_WRITE 2
#define MAP_PRIVATE 2
#define MAP_ANONYMOUS 32
#define MAP_FAILED ((void *)-1)
#define _SC_PAGESIZE 30
void *mmap(void *at, size_t len, int protection, int flags, int file, long offset);
int mprotect(void *at, size_t len, int protection);
int munmap(void *at, size_t len);
long sysconf(int name);

#endif
