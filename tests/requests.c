/* Counts what the program that it is loaded into asks of memory between two reads of its standard input: each call of malloc, calloc
   or realloc that its own code makes. The counts, a 32-bit number for each read, stand in the file that REQUESTS names, from which
   memory is shared: the program may end without a word. */
#define _GNU_SOURCE
#include <dlfcn.h>
#include <fcntl.h>
#include <link.h>
#include <stdint.h>
#include <stdlib.h>
#include <sys/mman.h>
#include <unistd.h>

extern void *__libc_malloc(size_t size);
extern void *__libc_calloc(size_t count, size_t size);
extern void *__libc_realloc(void *old, size_t size);

#define MOST_READS (1 << 20)

static uintptr_t program_start;
static uintptr_t program_end;
static uint32_t *counts;
static uint32_t reads;

/* The first object is the program. */
static int find_program(struct dl_phdr_info *object, size_t size, void *unused) {
    (void)size;
    (void)unused;
    for (int place = 0; place < object->dlpi_phnum; place++) {
        const ElfW(Phdr) *part = &object->dlpi_phdr[place];
        if (part->p_type == PT_LOAD && (part->p_flags & PF_X)) {
            program_start = object->dlpi_addr + part->p_vaddr;
            program_end = program_start + part->p_memsz;
        }
    }
    return 1;
}

__attribute__((constructor)) static void begin(void) {
    const char *name = getenv("REQUESTS");
    int file = name == NULL ? -1 : open(name, O_CREAT | O_RDWR | O_TRUNC, 0600);
    if (0 <= file && ftruncate(file, MOST_READS * sizeof(uint32_t)) == 0) {
        void *shared = mmap(NULL, MOST_READS * sizeof(uint32_t), PROT_READ | PROT_WRITE, MAP_SHARED, file, 0);
        counts = shared == MAP_FAILED ? NULL : shared;
    }
    dl_iterate_phdr(find_program, NULL);
}

static void count(const void *caller) {
    uintptr_t place = (uintptr_t)caller;
    if (counts != NULL && program_start <= place && place < program_end && reads < MOST_READS) {
        counts[reads]++;
    }
}

void *malloc(size_t size) {
    count(__builtin_return_address(0));
    return __libc_malloc(size);
}

void *calloc(size_t number, size_t size) {
    count(__builtin_return_address(0));
    return __libc_calloc(number, size);
}

void *realloc(void *old, size_t size) {
    count(__builtin_return_address(0));
    return __libc_realloc(old, size);
}

ssize_t read(int file, void *into, size_t size) {
    if (file == 0 && reads < MOST_READS) {
        reads++;
    }
    return ((ssize_t(*)(int, void *, size_t))dlsym(RTLD_NEXT, "read"))(file, into, size);
}
