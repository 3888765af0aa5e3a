/* Refuses one growth of the program that it is loaded into: the call of malloc, calloc or realloc with the number in
   the variable GROWTH, counted from 1, finds no memory, and the empty file that GROWTH_MARK names is made. Only calls
   that the program's own code makes are counted, and none of the C library's. */
#define _GNU_SOURCE
#include <errno.h>
#include <fcntl.h>
#include <link.h>
#include <stdint.h>
#include <stdlib.h>
#include <unistd.h>

extern void *__libc_malloc(size_t size);
extern void *__libc_calloc(size_t count, size_t size);
extern void *__libc_realloc(void *old, size_t size);

static uintptr_t program_start;
static uintptr_t program_end;
static long refused;
static long made;

/* The first object is the program. */
static int find_program(struct dl_phdr_info *object, size_t size, void *unused) {
    (void)size;
    (void)unused;
    for (int place = 0; place < object->dlpi_phnum; place++) {
        const ElfW(Phdr) *part = &object->dlpi_phdr[place];
        if (part->p_type == PT_LOAD && (part->p_flags & PF_X)) {
            program_start = object->dlpi_addr + part->p_vaddr;
            program_end = program_start + part->p_memsz;
        }
    }
    return 1;
}

__attribute__((constructor)) static void begin(void) {
    const char *number = getenv("GROWTH");
    refused = number == NULL ? 0 : atol(number);
    dl_iterate_phdr(find_program, NULL);
}

static int is_refused(const void *caller) {
    uintptr_t place = (uintptr_t)caller;
    if (place < program_start || program_end <= place || __atomic_add_fetch(&made, 1, __ATOMIC_SEQ_CST) != refused) {
        return 0;
    }
    const char *mark = getenv("GROWTH_MARK");
    if (mark != NULL) {
        int file = open(mark, O_CREAT | O_WRONLY, 0600);
        if (0 <= file) {
            close(file);
        }
    }
    errno = ENOMEM;
    return 1;
}

void *malloc(size_t size) {
    return is_refused(__builtin_return_address(0)) ? NULL : __libc_malloc(size);
}

void *calloc(size_t count, size_t size) {
    return is_refused(__builtin_return_address(0)) ? NULL : __libc_calloc(count, size);
}

void *realloc(void *old, size_t size) {
    return is_refused(__builtin_return_address(0)) ? NULL : __libc_realloc(old, size);
}
