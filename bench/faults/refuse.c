// Refuses one request for memory of a program that it is loaded before, and counts them all. README.md says how it is used.
//
// REFUSE=N     refuses request N alone, counted from 1; without it none is refused
// REFUSE=N..   refuses request N and all behind it
// REFUSE_BUT=LOW-HIGH  requests of these places, as the line below tells them, pass and are not counted
// REFUSE_TELL  a file, to which a line is added for the first request that is refused, and one at the end of the program
//
// A request is a call of malloc, calloc, realloc, reallocarray, aligned_alloc, memalign or posix_memalign, whichever thread makes it.
// Those before the constructor below are the loader's and are not counted. Behind it the program starts. With a request of the program
// the line tells the place behind the call, as nm counts addresses; with one of a library the place is 0.
#define _GNU_SOURCE
#include <errno.h>
#include <fcntl.h>
#include <link.h>
#include <stdatomic.h>
#include <stdint.h>
#include <stdio.h>
#include <stdlib.h>
#include <sys/syscall.h>
#include <unistd.h>

// The C library's own functions, by the names that it has for them beside those that are replaced here.
extern void *__libc_malloc(size_t);
extern void *__libc_calloc(size_t, size_t);
extern void *__libc_realloc(void *, size_t);
extern void *__libc_memalign(size_t, size_t);

static _Atomic int counting;
static _Atomic unsigned long requests, refused;
static unsigned long first, last;
static const char *tell_path;
static uintptr_t program_base, program_low, program_high, but_low, but_high;

static void tell(const char *line, int length) {
    if (tell_path == NULL) return;
    int to = open(tell_path, O_WRONLY | O_CREAT | O_APPEND | O_CLOEXEC, 0644);
    if (to < 0) return;
    if (write(to, line, length) != length) abort();
    close(to);
}

// The first object that is loaded is the program itself: the addresses of its code tell its requests from those of libraries.
static int find_program(struct dl_phdr_info *object, size_t size, void *unused) {
    program_base = object->dlpi_addr;
    for (int i = 0; i < object->dlpi_phnum; i++) {
        const ElfW(Phdr) *part = &object->dlpi_phdr[i];
        if (part->p_type != PT_LOAD || !(part->p_flags & PF_X)) continue;
        program_low = object->dlpi_addr + part->p_vaddr;
        program_high = program_low + part->p_memsz;
    }
    return 1;
}

__attribute__((constructor)) static void start(void) {
    const char *wanted = getenv("REFUSE"), *but = getenv("REFUSE_BUT");
    char *behind;
    tell_path = getenv("REFUSE_TELL");
    if (wanted != NULL) {
        first = strtoul(wanted, &behind, 10);
        last = *behind == '.' ? -1UL : first;
    }
    if (but != NULL) sscanf(but, "%lx-%lx", &but_low, &but_high);
    dl_iterate_phdr(find_program, NULL);
    counting = 1;
}

// The program ends by exit, which calls this, or by _exit, which does not.
__attribute__((destructor)) static void end(void) {
    char line[100];
    if (counting-- <= 0) return;
    tell(line, snprintf(line, sizeof line, "requests %lu, refused %lu\n", requests, refused));
}

void _exit(int status) {
    end();
    for (;;) syscall(SYS_exit_group, status);
}

// Counts a request of so many bytes, and says whether it is to be refused. The place is that behind the call.
static int refuses(size_t size, uintptr_t place) {
    if (counting <= 0) return 0;
    place = program_low <= place && place < program_high ? place - program_base : 0;
    if (but_low <= place && place < but_high) return 0;
    unsigned long number = ++requests;
    if (number < first || number > last) return 0;
    if (refused++ == 0) {
        char line[100];
        tell(line, snprintf(line, sizeof line, "refused %lu, place %lx, bytes %zu\n", number, place, size));
    }
    errno = ENOMEM;
    return 1;
}

#define PLACE (uintptr_t)__builtin_return_address(0)

void *malloc(size_t size) { return refuses(size, PLACE) ? NULL : __libc_malloc(size); }

void *calloc(size_t count, size_t size) { return refuses(count * size, PLACE) ? NULL : __libc_calloc(count, size); }

// With no bytes it gives memory back, and is no request.
void *realloc(void *old, size_t size) { return size > 0 && refuses(size, PLACE) ? NULL : __libc_realloc(old, size); }

void *reallocarray(void *old, size_t count, size_t size) {
    size_t bytes;
    if (__builtin_mul_overflow(count, size, &bytes)) {
        errno = ENOMEM;
        return NULL;
    }
    return bytes > 0 && refuses(bytes, PLACE) ? NULL : __libc_realloc(old, bytes);
}

void *aligned_alloc(size_t align, size_t size) { return refuses(size, PLACE) ? NULL : __libc_memalign(align, size); }

void *memalign(size_t align, size_t size) { return refuses(size, PLACE) ? NULL : __libc_memalign(align, size); }

int posix_memalign(void **to, size_t align, size_t size) {
    if (align % sizeof(void *) != 0 || align == 0 || (align & (align - 1)) != 0) return EINVAL;
    void *got = refuses(size, PLACE) ? NULL : __libc_memalign(align, size);
    if (got == NULL) return ENOMEM;
    *to = got;
    return 0;
}
