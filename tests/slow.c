/* Makes syncs slow, or has them fail: ahead of each fdatasync or fsync of a file a number is read from the file that the variable
   SLOW names. The call waits for so many milliseconds; a number below zero has it fail with EIO. Where there is no such file the
   call is made as it is. Each read of a file waits for as many milliseconds as the variable SLOW_READS says. */
#define _GNU_SOURCE
#include <dlfcn.h>
#include <errno.h>
#include <fcntl.h>
#include <stdlib.h>
#include <sys/stat.h>
#include <time.h>
#include <unistd.h>

static long told(void) {
    char text[16] = "";
    const char *name = getenv("SLOW");
    int file = name == NULL ? -1 : open(name, O_RDONLY | O_CLOEXEC);
    if (file < 0) {
        return 0;
    }
    if (read(file, text, sizeof text - 1) < 0) {
        abort();
    }
    close(file);
    return strtol(text, NULL, 10);
}

static int is_file(int file) {
    struct stat found;
    return fstat(file, &found) == 0 && S_ISREG(found.st_mode);
}

static void wait_for(long milliseconds) {
    struct timespec time = {.tv_sec = milliseconds / 1000, .tv_nsec = milliseconds % 1000 * 1000000};
    nanosleep(&time, NULL);
}

static int late(int (*sync)(int), int file) {
    if (is_file(file)) {
        long wait = told();
        if (wait < 0) {
            errno = EIO;
            return -1;
        }
        wait_for(wait);
    }
    return sync(file);
}

ssize_t read(int file, void *into, size_t count) {
    const char *wait = getenv("SLOW_READS");
    if (wait != NULL && is_file(file)) {
        wait_for(strtol(wait, NULL, 10));
    }
    return ((ssize_t(*)(int, void *, size_t))dlsym(RTLD_NEXT, "read"))(file, into, count);
}

int fdatasync(int file) {
    return late((int (*)(int))dlsym(RTLD_NEXT, "fdatasync"), file);
}

int fsync(int file) {
    return late((int (*)(int))dlsym(RTLD_NEXT, "fsync"), file);
}
