/* Put before the C library's allocator by the loader: counts the requests for memory of a process, from
   its start on, and refuses those whose numbers lie from REFUSE_FROM to REFUSE_TO (none where these are
   not set). Where REFUSE_BEHIND_LINE is set, it counts only those between the first line that the process
   writes to its standard output and what it writes there next. How many there were stands in the first
   eight bytes of the file that REFUSE_COUNT names, which the process shares, since it may end without a
   call of what should run at its end. */
#define _GNU_SOURCE
#include <errno.h>
#include <fcntl.h>
#include <stdatomic.h>
#include <stdlib.h>
#include <sys/mman.h>
#include <sys/syscall.h>
#include <unistd.h>

void *__libc_malloc(size_t size);
void *__libc_calloc(size_t number, size_t size);
void *__libc_realloc(void *block, size_t size);
void *__libc_memalign(size_t alignment, size_t size);

static atomic_ulong *asked;
static unsigned long from, to;

/* Whether requests are counted now; where it is not from the start on, the first line is awaited. */
enum stage { AWAITED, COUNTED, PASSED };
static _Atomic enum stage stage = COUNTED;
static int is_marked;

static unsigned long number_in(const char *name) {
    const char *text = getenv(name);
    return text ? strtoul(text, NULL, 10) : 0;
}

__attribute__((constructor)) static void begin(void) {
    const char *name = getenv("REFUSE_COUNT");
    int file = name ? open(name, O_RDWR | O_CREAT | O_TRUNC, 0600) : -1;
    if (file < 0 || ftruncate(file, sizeof *asked))
        return;
    void *shared = mmap(NULL, sizeof *asked, PROT_READ | PROT_WRITE, MAP_SHARED, file, 0);
    close(file);
    if (shared == MAP_FAILED)
        return;
    from = number_in("REFUSE_FROM");
    to = number_in("REFUSE_TO");
    is_marked = getenv("REFUSE_BEHIND_LINE") != NULL;
    stage = is_marked ? AWAITED : COUNTED;
    asked = shared;
}

static int is_refused(void) {
    if (!asked || stage != COUNTED)
        return 0;
    unsigned long number = atomic_fetch_add(asked, 1) + 1;
    if (!from || number < from || number > to)
        return 0;
    errno = ENOMEM;
    return 1;
}

void *malloc(size_t size) { return is_refused() ? NULL : __libc_malloc(size); }

void *calloc(size_t number, size_t size) { return is_refused() ? NULL : __libc_calloc(number, size); }

void *realloc(void *block, size_t size) { return is_refused() ? NULL : __libc_realloc(block, size); }

void *aligned_alloc(size_t alignment, size_t size) { return is_refused() ? NULL : __libc_memalign(alignment, size); }

ssize_t write(int file, const void *bytes, size_t size) {
    if (is_marked && file == STDOUT_FILENO && size) {
        if (stage == COUNTED)
            stage = PASSED;
        else if (stage == AWAITED && ((const char *)bytes)[size - 1] == '\n')
            stage = COUNTED;
    }
    return syscall(SYS_write, file, bytes, size);
}
