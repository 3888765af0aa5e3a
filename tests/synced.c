/* Notes how much of a file a sync has covered: behind each fdatasync or fsync of a file that worked, its length as it was
   ahead of the call is written into the file that the variable SYNCED names. What a loss of power takes is behind that. */
#define _GNU_SOURCE
#include <dlfcn.h>
#include <fcntl.h>
#include <stdlib.h>
#include <sys/stat.h>
#include <unistd.h>

static int note(int (*sync)(int), int file) {
    struct stat found;
    int is_file = fstat(file, &found) == 0 && S_ISREG(found.st_mode);
    int status = sync(file);
    const char *name = getenv("SYNCED");
    if (status == 0 && is_file && name != NULL) {
        long long length = found.st_size;
        int kept = open(name, O_CREAT | O_WRONLY, 0600);
        if (0 <= kept) {
            if (pwrite(kept, &length, sizeof length, 0) != sizeof length) {
                abort();
            }
            close(kept);
        }
    }
    return status;
}

int fdatasync(int file) {
    return note((int (*)(int))dlsym(RTLD_NEXT, "fdatasync"), file);
}

int fsync(int file) {
    return note((int (*)(int))dlsym(RTLD_NEXT, "fsync"), file);
}
