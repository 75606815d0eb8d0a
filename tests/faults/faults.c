/*
 * A library to preload into a program. It makes chosen calls of the C library fail or come short, and counts them.
 *
 * FAULTS names the fault, such as `growth=7`: the 7th growth fails; or two faults with a comma between them. A growth is
 * a call of malloc or realloc. Other calls are counted separately; reads of files under /proc and writes to standard error
 * are not counted. A create is an open of a file that must not exist, and a close is counted if it is of such a file.
 *
 *   growth=N      the Nth growth fails
 *   read=N        the Nth read fails with EIO; interrupted-read=N: with EINTR
 *   write=N       the Nth write fails with EIO; interrupted-write=N: with EINTR; empty-write=N: it moves no byte
 *   short-read=N  the Nth read moves one byte; short-read=0: each does; short-write=N: the same for writes
 *   create=N      the Nth create fails with EACCES; interrupted-create=N: with EINTR; taken=N: with EEXIST
 *   sync=N        the Nth fsync fails with EIO; interrupted-sync=N: with EINTR
 *   close=N       the Nth close closes, and fails with EIO
 *   rename=N      the Nth rename fails with EIO
 *   unlink=N      the Nth unlink fails with EACCES
 *
 * FAULTS_COUNTS names a file of 72 bytes, to which the numbers of growths, reads, writes, creates, syncs, closes, renames
 * and unlinks are written as they rise, and then the number of blocks of memory that are held.
 *
 * It includes no header and is linked with no library, so that a compiler suffices on a machine that has no headers of
 * the C library: what it calls of that library is declared here, for Linux on x86-64, and found there when it is loaded.
 */
typedef unsigned long size_t;
typedef long ssize_t;

#define NULL ((void *)0)
#define EINTR 4
#define EIO 5
#define ENOMEM 12
#define EACCES 13
#define EEXIST 17
#define AT_FDCWD -100
#define O_RDWR 2
#define O_CREAT 0100
#define O_EXCL 0200
#define PROT_READ 1
#define PROT_WRITE 2
#define MAP_SHARED 1
#define MAP_FAILED ((void *)-1)
#define STDERR_FILENO 2
#define SYS_read 0
#define SYS_write 1
#define SYS_close 3
#define SYS_fsync 74
#define SYS_rename 82
#define SYS_unlink 87
#define SYS_openat 257
#define PROC_FILES 0x9fa0

struct statfs {
    long f_type;
    long others[14];
};

int *__errno_location(void);
int fstatfs(int fd, struct statfs *system);
void *mmap(void *start, size_t size, int access, int flags, int fd, long offset);
long syscall(long number, ...);
void *__libc_malloc(size_t size);
void *__libc_calloc(size_t count, size_t size);
void *__libc_realloc(void *block, size_t size);
void __libc_free(void *block);

#define errno (*__errno_location())

enum { GROWTHS, READS, WRITES, CREATES, SYNCS, CLOSES, RENAMES, UNLINKS, KINDS, BLOCKS = KINDS, COUNTS };
enum { MOST_FAULTS = 2 };

struct fault {
    const char *name;
    int kind;
    enum { FAILS, MOVES_ONE, MOVES_NONE } how;
    int error;
};

static const struct fault faults[] = {
    {"growth=", GROWTHS, FAILS, ENOMEM},          {"read=", READS, FAILS, EIO},
    {"interrupted-read=", READS, FAILS, EINTR},   {"short-read=", READS, MOVES_ONE, 0},
    {"write=", WRITES, FAILS, EIO},               {"interrupted-write=", WRITES, FAILS, EINTR},
    {"empty-write=", WRITES, MOVES_NONE, 0},      {"short-write=", WRITES, MOVES_ONE, 0},
    {"create=", CREATES, FAILS, EACCES},          {"interrupted-create=", CREATES, FAILS, EINTR},
    {"taken=", CREATES, FAILS, EEXIST},           {"sync=", SYNCS, FAILS, EIO},
    {"interrupted-sync=", SYNCS, FAILS, EINTR},   {"close=", CLOSES, FAILS, EIO},
    {"rename=", RENAMES, FAILS, EIO},             {"unlink=", UNLINKS, FAILS, EACCES},
};

static struct {
    const struct fault *fault;
    unsigned long call;
} chosen[MOST_FAULTS];

/* The file that was made last, or -1. */
static int made = -1;

static unsigned long own_counts[COUNTS];
static unsigned long *counts = own_counts;

/* Returns what is after a prefix of a text, or NULL if it does not begin with that. */
static const char *after(const char *prefix, const char *text) {
    while (*prefix && *prefix == *text) prefix++, text++;
    return *prefix ? NULL : text;
}

/* Chooses the fault with this number by the text of it, and returns what is after a comma, or NULL. */
static const char *choose_one(const char *text, int number) {
    for (size_t i = 0; i < sizeof faults / sizeof *faults; i++) {
        const char *digits = after(faults[i].name, text);
        if (!digits) continue;
        chosen[number].fault = &faults[i];
        for (; *digits >= '0' && *digits <= '9'; digits++)
            chosen[number].call = 10 * chosen[number].call + (*digits - '0');
        return *digits == ',' ? digits + 1 : NULL;
    }
    return NULL;
}

/* The C library calls this with the arguments and the environment before `main`. */
__attribute__((constructor)) static void choose(int count, char **words, char **environment) {
    const char *fault = NULL, *file = NULL;
    (void)count, (void)words;
    for (; *environment; environment++) {
        const char *found;
        if ((found = after("FAULTS=", *environment))) fault = found;
        if ((found = after("FAULTS_COUNTS=", *environment))) file = found;
    }
    for (int i = 0; fault && i < MOST_FAULTS; i++) fault = choose_one(fault, i);
    if (file) {
        int fd = syscall(SYS_openat, AT_FDCWD, file, O_RDWR, 0);
        void *shared = mmap(NULL, sizeof own_counts, PROT_READ | PROT_WRITE, MAP_SHARED, fd, 0);
        if (shared != MAP_FAILED) counts = shared;
        syscall(SYS_close, fd);
    }
}

/* Counts a call, and returns the fault that it has, or NULL. */
static const struct fault *fault_at(int kind) {
    unsigned long call = ++counts[kind];
    for (int i = 0; i < MOST_FAULTS; i++) {
        const struct fault *fault = chosen[i].fault;
        if (fault && fault->kind == kind && (chosen[i].call == 0 || chosen[i].call == call)) return fault;
    }
    return NULL;
}

/* Counts a call, and returns whether it fails. */
static int fails(int kind) {
    const struct fault *fault = fault_at(kind);
    if (fault) errno = fault->error;
    return fault != NULL;
}

/* Counts a block that is held from now on, if there is one. */
static void *held(void *block) {
    if (block) counts[BLOCKS]++;
    return block;
}

void *malloc(size_t size) {
    return fails(GROWTHS) ? NULL : held(__libc_malloc(size));
}

void *calloc(size_t count, size_t size) {
    return held(__libc_calloc(count, size));
}

void *realloc(void *block, size_t size) {
    if (fails(GROWTHS)) return NULL;
    return block ? __libc_realloc(block, size) : held(__libc_realloc(block, size));
}

void free(void *block) {
    if (block) counts[BLOCKS]--;
    __libc_free(block);
}

/* Returns how many of size bytes a call moves, or -1 if it fails. */
static ssize_t moved(int kind, size_t size) {
    const struct fault *fault = fault_at(kind);
    if (!fault) return size;
    if (fault->how == MOVES_ONE) return size < 1 ? size : 1;
    if (fault->how == MOVES_NONE) return 0;
    errno = fault->error;
    return -1;
}

ssize_t read(int fd, void *bytes, size_t size) {
    struct statfs system;
    if (fstatfs(fd, &system) == 0 && system.f_type != PROC_FILES) {
        ssize_t most = moved(READS, size);
        if (most < 0) return most;
        size = most;
    }
    return syscall(SYS_read, fd, bytes, size);
}

ssize_t write(int fd, const void *bytes, size_t size) {
    if (fd != STDERR_FILENO) {
        ssize_t most = moved(WRITES, size);
        if (most <= 0 && size > 0) return most;
        size = most;
    }
    return syscall(SYS_write, fd, bytes, size);
}

int open(const char *file, int flags, ...) {
    int mode = 0;
    if (flags & O_CREAT) {
        __builtin_va_list rest;
        __builtin_va_start(rest, flags);
        mode = __builtin_va_arg(rest, int);
        __builtin_va_end(rest);
    }
    if (!(flags & O_EXCL)) return syscall(SYS_openat, AT_FDCWD, file, flags, mode);
    return fails(CREATES) ? -1 : (made = syscall(SYS_openat, AT_FDCWD, file, flags, mode));
}

int fsync(int fd) {
    return fails(SYNCS) ? -1 : syscall(SYS_fsync, fd);
}

/* Whether it fails or not, the number is free after it. */
int close(int fd) {
    int is_made = fd >= 0 && fd == made;
    if (is_made) made = -1;
    int status = syscall(SYS_close, fd);
    return is_made && fails(CLOSES) ? -1 : status;
}

int rename(const char *from, const char *to) {
    return fails(RENAMES) ? -1 : syscall(SYS_rename, from, to);
}

int unlink(const char *file) {
    return fails(UNLINKS) ? -1 : syscall(SYS_unlink, file);
}
