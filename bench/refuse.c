/* Loaded before a program (LD_PRELOAD), refuses its growths from the one numbered REFUSE_FIRST, from 1,
   to the one numbered REFUSE_LAST. A growth is a call of malloc, calloc, realloc, aligned_alloc or
   posix_memalign that the program's own code makes: the caller's address lies in the program's image.
   Calls from elsewhere, the C library's start-up among them, are granted and not numbered. Each call
   leaves one byte on descriptor REFUSE_FD: 'g' a growth that was granted, 'r' one that was refused,
   'c' a call from elsewhere.
   For the GNU C library, whose allocator is reached here by its __libc_ names. */
#define _GNU_SOURCE
#include <errno.h>
#include <link.h>
#include <stdint.h>
#include <stdlib.h>
#include <unistd.h>

extern void *__libc_malloc(size_t);
extern void *__libc_calloc(size_t, size_t);
extern void *__libc_realloc(void *, size_t);
extern void *__libc_memalign(size_t, size_t);

struct image {
    uintptr_t start, end;
};

static struct image program;
static unsigned long first_refused, last_refused, growths;
static int report = -1;

/* The first image that is told is the program's. */
static int note_image(struct dl_phdr_info *info, size_t size, void *image)
{
    struct image *found = image;
    (void)size;
    found->start = UINTPTR_MAX;
    for (int i = 0; i < info->dlpi_phnum; i++) {
        const ElfW(Phdr) *part = &info->dlpi_phdr[i];
        uintptr_t start = info->dlpi_addr + part->p_vaddr, end = start + part->p_memsz;
        if (part->p_type != PT_LOAD)
            continue;
        if (start < found->start)
            found->start = start;
        if (end > found->end)
            found->end = end;
    }
    return 1;
}

static unsigned long number_in(const char *variable)
{
    const char *word = getenv(variable);
    return word == NULL ? 0 : strtoul(word, NULL, 10);
}

__attribute__((constructor)) static void begin(void)
{
    dl_iterate_phdr(note_image, &program);
    first_refused = number_in("REFUSE_FIRST");
    last_refused = number_in("REFUSE_LAST");
    report = getenv("REFUSE_FD") == NULL ? -1 : (int)number_in("REFUSE_FD");
}

static void tell(char seen)
{
    int kept = errno;
    if (report >= 0 && write(report, &seen, 1) != 1)
        _exit(99);
    errno = kept;
}

static int is_refused(const void *caller)
{
    uintptr_t at = (uintptr_t)caller;
    if (at < program.start || at >= program.end) {
        tell('c');
        return 0;
    }
    growths++;
    if (growths < first_refused || growths > last_refused) {
        tell('g');
        return 0;
    }
    tell('r');
    errno = ENOMEM;
    return 1;
}

#define IS_REFUSED is_refused(__builtin_return_address(0))

void *malloc(size_t size)
{
    return IS_REFUSED ? NULL : __libc_malloc(size);
}

void *calloc(size_t count, size_t size)
{
    return IS_REFUSED ? NULL : __libc_calloc(count, size);
}

void *realloc(void *old, size_t size)
{
    return IS_REFUSED ? NULL : __libc_realloc(old, size);
}

void *aligned_alloc(size_t alignment, size_t size)
{
    return IS_REFUSED ? NULL : __libc_memalign(alignment, size);
}

int posix_memalign(void **result, size_t alignment, size_t size)
{
    if (IS_REFUSED)
        return ENOMEM;
    *result = __libc_memalign(alignment, size);
    return *result == NULL ? ENOMEM : 0;
}
