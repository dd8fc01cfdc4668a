/* Preloaded into a program, refuses some of its requests for memory, and counts its blocks. Written for
 * tools/refuse_memory.
 *
 * Requests are counted that the program's own code makes, not those of the libraries that it uses, and only while a
 * call under test runs: from the first write to standard output to the write that has a colon. REFUSE_REQUESTS says
 * which are refused, by numbers that rise from 1; without it none is.
 *
 * Blocks are counted that the program's own code has and did not free: at the first and at the last write to standard
 * output that is a single space, and at the end. The program writes a space when the run with the call under test has
 * given its last reply, and another when its twin has; both still have all that replied. What a refused call took is
 * free again by then, or is the room that a later call used. So the twin, which never had the call, has no fewer blocks
 * than the run, but for those of the program's own texts, which are as many in a run in which nothing is refused. (It
 * has more where a collection was refused: copies that streams keep have no room to spare.) At the end no block is left.
 *
 * At the end REFUSE_COUNT, a file, is given how many requests there were, how many of them were refused, how many
 * blocks more the twin had than the run, and how many are left.
 */
#define _GNU_SOURCE
#include <dlfcn.h>
#include <errno.h>
#include <fcntl.h>
#include <link.h>
#include <stdio.h>
#include <stdlib.h>
#include <string.h>
#include <unistd.h>

static enum { BEFORE, DURING, AFTER } call = BEFORE;
/* Said of the blocks where none of a run and its twin were counted. */
#define NO_TWIN 1000000

static unsigned long requests, refused;
static long blocks, blocks_first, blocks_last;
/* The numbers of the requests to refuse that are still to come. */
static const char *wanted = "";
static char *first_byte, *last_byte;

static void *(*real_malloc)(size_t);
static void *(*real_realloc)(void *, size_t);
static void *(*real_calloc)(size_t, size_t);
static void (*real_free)(void *);
static int (*real_posix_memalign)(void **, size_t, size_t);
static void *(*real_aligned_alloc)(size_t, size_t);
static ssize_t (*real_write)(int, const void *, size_t);
static void (*real_exit)(int) __attribute__((noreturn));

/* Calls of calloc before the library's own is known, which dlsym makes itself, are served from here. */
static char early[4096];
static size_t early_used;

/* The program is the first object of the list; its code lies in its segments that can be executed. */
static int find_code(struct dl_phdr_info *info, size_t size, void *data) {
    (void)size;
    (void)data;
    for (int i = 0; i < info->dlpi_phnum; i++) {
        const ElfW(Phdr) *segment = &info->dlpi_phdr[i];
        if (segment->p_type == PT_LOAD && (segment->p_flags & PF_X)) {
            first_byte = (char *)info->dlpi_addr + segment->p_vaddr;
            last_byte = first_byte + segment->p_memsz;
        }
    }
    return 1;
}

__attribute__((constructor)) static void start(void) {
    real_calloc = dlsym(RTLD_NEXT, "calloc");
    real_malloc = dlsym(RTLD_NEXT, "malloc");
    real_realloc = dlsym(RTLD_NEXT, "realloc");
    real_free = dlsym(RTLD_NEXT, "free");
    real_posix_memalign = dlsym(RTLD_NEXT, "posix_memalign");
    real_aligned_alloc = dlsym(RTLD_NEXT, "aligned_alloc");
    real_write = dlsym(RTLD_NEXT, "write");
    real_exit = dlsym(RTLD_NEXT, "_exit");
    const char *numbers = getenv("REFUSE_REQUESTS");
    if (numbers)
        wanted = numbers;
    dl_iterate_phdr(find_code, NULL);
}

__attribute__((destructor)) static void finish(void) {
    const char *path = getenv("REFUSE_COUNT");
    if (!path)
        return;
    char text[128];
    int length = snprintf(text, sizeof text, "%lu %lu %ld %ld\n", requests, refused,
                          blocks_first ? blocks_last - blocks_first : NO_TWIN, blocks);
    int file = open(path, O_WRONLY | O_CREAT | O_TRUNC, 0600);
    if (file >= 0) {
        if (real_write(file, text, (size_t)length) < 0)
            perror(path);
        close(file);
    }
}

/* A program that may start threads ends so, and runs no destructors. */
void _exit(int status) {
    finish();
    real_exit(status);
}

/* Whether the program's own code is at this place. */
static int is_own(void *from) {
    char *place = from;
    return place >= first_byte && place < last_byte;
}

/* Whether the request that comes from this place is one to be refused. */
static int is_refused(void *from) {
    if (call != DURING || !is_own(from))
        return 0;
    char *behind;
    if (++requests != strtoul(wanted, &behind, 10))
        return 0;
    wanted = behind + strspn(behind, " ");
    refused++;
    errno = ENOMEM;
    return 1;
}

/* Counts a block that a request from this place was given, and returns it. */
static void *counted(void *from, void *block) {
    if (block && is_own(from))
        blocks++;
    return block;
}

void *malloc(size_t size) {
    void *from = __builtin_return_address(0);
    if (!real_malloc)
        real_malloc = dlsym(RTLD_NEXT, "malloc");
    return is_refused(from) ? NULL : counted(from, real_malloc(size));
}

void *realloc(void *block, size_t size) {
    void *from = __builtin_return_address(0);
    if (!real_realloc)
        real_realloc = dlsym(RTLD_NEXT, "realloc");
    if (is_refused(from))
        return NULL;
    void *moved = real_realloc(block, size);
    return block ? moved : counted(from, moved);
}

void *calloc(size_t count, size_t size) {
    void *from = __builtin_return_address(0);
    if (!real_calloc) {
        size_t bytes = (count * size + 15) / 16 * 16;
        if (early_used + bytes > sizeof early)
            return NULL;
        early_used += bytes;
        return early + early_used - bytes;
    }
    return is_refused(from) ? NULL : counted(from, real_calloc(count, size));
}

int posix_memalign(void **block, size_t alignment, size_t size) {
    void *from = __builtin_return_address(0);
    if (is_refused(from))
        return ENOMEM;
    int status = real_posix_memalign(block, alignment, size);
    if (!status)
        counted(from, *block);
    return status;
}

void *aligned_alloc(size_t alignment, size_t size) {
    void *from = __builtin_return_address(0);
    return is_refused(from) ? NULL : counted(from, real_aligned_alloc(alignment, size));
}

void free(void *block) {
    if (!real_free)
        real_free = dlsym(RTLD_NEXT, "free");
    if ((char *)block >= early && (char *)block < early + sizeof early)
        return;
    if (block && is_own(__builtin_return_address(0)))
        blocks--;
    real_free(block);
}

ssize_t write(int file, const void *bytes, size_t size) {
    if (file == STDOUT_FILENO && call == BEFORE)
        call = DURING;
    if (file == STDOUT_FILENO && memchr(bytes, ':', size))
        call = AFTER;
    if (file == STDOUT_FILENO && size == 1 && *(const char *)bytes == ' ') {
        blocks_last = blocks;
        if (!blocks_first)
            blocks_first = blocks;
    }
    return real_write(file, bytes, size);
}
