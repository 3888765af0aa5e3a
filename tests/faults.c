/* Makes calls of the system fail in the program that it is loaded into, as variables say:

   FAULT_THREADS  the thread with this number, counted from 1, can't be started; 0 means that none can
   FAULT_ACCEPT   the connection with this number, counted from 1, can't be taken; FAULT_ERROR is why
   FAULT_READS    'short': a socket gives one byte at a time; 'interrupted': a signal comes before each second read
   FAULT_WRITES   the same of what a socket takes
   FAULT_MARK     a file to which each fault adds a byte

   Standard streams and files are left alone. */
#define _GNU_SOURCE
#include <dlfcn.h>
#include <errno.h>
#include <fcntl.h>
#include <pthread.h>
#include <stdlib.h>
#include <string.h>
#include <sys/socket.h>
#include <sys/stat.h>
#include <unistd.h>

static long threads;
static long accepts;
static long reads;
static long writes;

static void mark(void) {
    const char *name = getenv("FAULT_MARK");
    int file = name == NULL ? -1 : open(name, O_CREAT | O_WRONLY | O_APPEND, 0600);
    if (0 <= file) {
        ssize_t put = ((ssize_t(*)(int, const void *, size_t))dlsym(RTLD_NEXT, "write"))(file, "x", 1);
        (void)put;
        close(file);
    }
}

static long next(long *counted) {
    return __atomic_add_fetch(counted, 1, __ATOMIC_SEQ_CST);
}

static int says(const char *variable, const char *word) {
    const char *value = getenv(variable);
    return value != NULL && strcmp(value, word) == 0;
}

static int is_socket(int file) {
    struct stat about;
    return fstat(file, &about) == 0 && S_ISSOCK(about.st_mode);
}

int pthread_create(pthread_t *thread, const pthread_attr_t *how, void *(*run)(void *), void *word) {
    const char *number = getenv("FAULT_THREADS");
    if (number != NULL && (atol(number) == 0 || next(&threads) == atol(number))) {
        mark();
        return EAGAIN;
    }
    return ((int (*)(pthread_t *, const pthread_attr_t *, void *(*)(void *), void *))dlsym(RTLD_NEXT, "pthread_create"))(thread, how, run, word);
}

static int is_refused_connection(void) {
    const char *number = getenv("FAULT_ACCEPT");
    const char *error = getenv("FAULT_ERROR");
    if (number == NULL || next(&accepts) != atol(number)) {
        return 0;
    }
    mark();
    errno = error == NULL ? ECONNABORTED : atoi(error);
    return 1;
}

int accept4(int file, struct sockaddr *address, socklen_t *length, int flags) {
    if (is_refused_connection()) {
        return -1;
    }
    return ((int (*)(int, struct sockaddr *, socklen_t *, int))dlsym(RTLD_NEXT, "accept4"))(file, address, length, flags);
}

int accept(int file, struct sockaddr *address, socklen_t *length) {
    return accept4(file, address, length, 0);
}

/* How many bytes a call may move: none where a signal comes first. */
static size_t allowed(const char *variable, long *counted, int file, size_t wanted) {
    if (getenv(variable) == NULL || wanted == 0 || !is_socket(file)) {
        return wanted;
    }
    if (says(variable, "interrupted")) {
        if (next(counted) % 2 == 0) {
            return wanted;
        }
        mark();
        errno = EINTR;
        return 0;
    }
    if (1 < wanted) {
        mark();
    }
    return 1;
}

ssize_t recv(int file, void *bytes, size_t count, int flags) {
    size_t part = allowed("FAULT_READS", &reads, file, count);
    if (part == 0 && count != 0) {
        return -1;
    }
    return ((ssize_t(*)(int, void *, size_t, int))dlsym(RTLD_NEXT, "recv"))(file, bytes, part, flags);
}

ssize_t read(int file, void *bytes, size_t count) {
    size_t part = allowed("FAULT_READS", &reads, file, count);
    if (part == 0 && count != 0) {
        return -1;
    }
    return ((ssize_t(*)(int, void *, size_t))dlsym(RTLD_NEXT, "read"))(file, bytes, part);
}

ssize_t send(int file, const void *bytes, size_t count, int flags) {
    size_t part = allowed("FAULT_WRITES", &writes, file, count);
    if (part == 0 && count != 0) {
        return -1;
    }
    return ((ssize_t(*)(int, const void *, size_t, int))dlsym(RTLD_NEXT, "send"))(file, bytes, part, flags);
}

ssize_t write(int file, const void *bytes, size_t count) {
    size_t part = allowed("FAULT_WRITES", &writes, file, count);
    if (part == 0 && count != 0) {
        return -1;
    }
    return ((ssize_t(*)(int, const void *, size_t))dlsym(RTLD_NEXT, "write"))(file, bytes, part);
}
