/* Loads a server with connections, for bench/serve. Usage: serve PORT CONNECTIONS AHEAD COUNT THREADS, with one command on standard input,
   in which @ stands for the session number of a connection, and # for one of four digits, the connection's own.

   Each connection says hello, and then sends the command COUNT times, AHEAD of them at a time: the next ones when all replies to those
   before have come. It ends when its last reply has come. Where the command begins with '*', no hello is said, so that redis can be loaded
   in the same way. Writes the seconds from the first connection to the last reply, and the processor seconds that it took itself; status 1
   where a connection failed or a reply was a refusal. */
#define _GNU_SOURCE
#include <arpa/inet.h>
#include <errno.h>
#include <netinet/tcp.h>
#include <pthread.h>
#include <stdio.h>
#include <stdlib.h>
#include <string.h>
#include <sys/epoll.h>
#include <sys/resource.h>
#include <sys/socket.h>
#include <time.h>
#include <unistd.h>

enum { ROOM = 1 << 16, LINE = 1 << 12 };
static const char HELLO[] = "{\"do\":\"hello\"}\n";

struct connection {
    int socket;
    int has_session;
    long left;      /* commands that are yet to be sent */
    long wanted;    /* replies that are yet to come */
    int number;
    char *block;    /* AHEAD commands */
    size_t length;  /* of a command */
    size_t sent;    /* bytes of the commands under way that went out */
    size_t to_send;
    char reply[64]; /* what came of the reply to hello */
    size_t came;
};

struct share {
    pthread_t thread;
    int first, behind; /* of the connections */
};

static int port, connections, threads;
static long ahead, count;
static char line[LINE];
static size_t line_length;

static void fail(const char *what) {
    fprintf(stderr, "bench/serve.c: %s: %s\n", what, strerror(errno));
    exit(1);
}

static void open_connection(struct connection *one, int events) {
    struct sockaddr_in address = {.sin_family = AF_INET, .sin_port = htons((unsigned short)port)};
    int at_once = 1;
    address.sin_addr.s_addr = htonl(INADDR_LOOPBACK);
    one->socket = socket(AF_INET, SOCK_STREAM, 0);
    if (one->socket < 0 || connect(one->socket, (struct sockaddr *)&address, sizeof address) != 0) {
        fail("connect");
    }
    setsockopt(one->socket, IPPROTO_TCP, TCP_NODELAY, &at_once, sizeof at_once);
    struct epoll_event event = {.events = EPOLLIN, .data.ptr = one};
    epoll_ctl(events, EPOLL_CTL_ADD, one->socket, &event);
}

/* Sends what is under way, as far as the socket takes it; the rest goes out behind the next replies. */
static void go_on_sending(struct connection *one) {
    while (one->sent < one->to_send) {
        ssize_t put = send(one->socket, one->block + one->sent, one->to_send - one->sent, MSG_NOSIGNAL | MSG_DONTWAIT);
        if (put < 0 && (errno == EAGAIN || errno == EINTR)) {
            return;
        }
        if (put <= 0) {
            fail("send");
        }
        one->sent += (size_t)put;
    }
}

static void send_lines(struct connection *one) {
    long lines = one->left < ahead ? one->left : ahead;
    one->left -= lines;
    one->wanted = lines;
    one->sent = 0;
    one->to_send = (size_t)lines * one->length;
    go_on_sending(one);
}

/* The command of a connection under this session. */
static size_t own_command(char *own, size_t room, const struct connection *one, long session) {
    size_t length = 0;
    for (size_t place = 0; place < line_length && length + 8 < room; place++) {
        if (line[place] == '@') {
            length += (size_t)snprintf(own + length, room - length, "%ld", session);
        } else {
            own[length++] = line[place] == '#' ? (char)('0' + one->number % 4) : line[place];
        }
    }
    return length;
}

static void begin(struct connection *one, long session) {
    char own[LINE + 64];
    one->length = own_command(own, sizeof own, one, session);
    one->block = malloc((size_t)ahead * one->length);
    if (one->block == NULL) {
        fail("memory");
    }
    for (long part = 0; part < ahead; part++) {
        memcpy(one->block + (size_t)part * one->length, own, one->length);
    }
    one->has_session = 1;
    send_lines(one);
}

static void hear_hello(struct connection *one, const char *bytes, size_t length) {
    if (sizeof one->reply <= one->came + length) {
        fail("a hello");
    }
    memcpy(one->reply + one->came, bytes, length);
    one->came += length;
    if (memchr(one->reply, '\n', one->came) != NULL) {
        if (strncmp(one->reply, "{\"session\":", 11) != 0) {
            fail("a hello was refused");
        }
        begin(one, atol(one->reply + 11));
    }
}

/* Takes what came; whether the connection has all its replies. */
static int hear(struct connection *one) {
    static __thread char bytes[ROOM];
    ssize_t length = recv(one->socket, bytes, sizeof bytes, 0);
    if (length <= 0) {
        fail("recv");
    }
    if (!one->has_session) {
        hear_hello(one, bytes, (size_t)length);
        return 0;
    }
    if (memmem(bytes, (size_t)length, "\"refused\"", 9) != NULL) {
        fail("a command was refused");
    }
    for (const char *place = bytes, *end = bytes + length; (place = memchr(place, '\n', (size_t)(end - place))) != NULL; place++) {
        one->wanted--;
    }
    go_on_sending(one);
    if (one->wanted == 0 && one->sent == one->to_send) {
        if (one->left == 0) {
            return 1;
        }
        send_lines(one);
    }
    return 0;
}

static void *load(void *word) {
    struct share *share = word;
    int open = share->behind - share->first, events = epoll_create1(0);
    struct connection *all = calloc((size_t)open, sizeof *all);
    struct epoll_event found[64];
    for (int place = 0; place < open; place++) {
        all[place].left = count;
        all[place].number = share->first + place;
        open_connection(&all[place], events);
        if (line[0] == '*') {
            begin(&all[place], 0);
        } else if (send(all[place].socket, HELLO, sizeof HELLO - 1, MSG_NOSIGNAL) < 0) {
            fail("send");
        }
    }
    while (0 < open) {
        int ready = epoll_wait(events, found, 64, 30000);
        if (ready == 0) {
            errno = ETIMEDOUT;
            fail("no reply");
        }
        for (int place = 0; place < ready; place++) {
            struct connection *one = found[place].data.ptr;
            if (hear(one)) {
                close(one->socket);
                open--;
            }
        }
    }
    return NULL;
}

static double seconds(struct timespec time) {
    return (double)time.tv_sec + (double)time.tv_nsec / 1e9;
}

int main(int words, char **word) {
    struct timespec before, after, own;
    struct share shares[64];
    if (words != 6) {
        fprintf(stderr, "usage: serve PORT CONNECTIONS AHEAD COUNT THREADS\n");
        return 2;
    }
    port = atoi(word[1]);
    connections = atoi(word[2]);
    ahead = atol(word[3]);
    count = atol(word[4]);
    threads = atoi(word[5]) < connections ? atoi(word[5]) : connections;
    line_length = fread(line, 1, sizeof line - 1, stdin);
    if (line_length == 0 || port <= 0 || connections <= 0 || ahead <= 0 || count <= 0 || threads <= 0 || 64 < threads) {
        fprintf(stderr, "usage: serve PORT CONNECTIONS AHEAD COUNT THREADS\n");
        return 2;
    }
    clock_gettime(CLOCK_MONOTONIC, &before);
    for (int place = 0; place < threads; place++) {
        shares[place].first = place * connections / threads;
        shares[place].behind = (place + 1) * connections / threads;
        pthread_create(&shares[place].thread, NULL, load, &shares[place]);
    }
    for (int place = 0; place < threads; place++) {
        pthread_join(shares[place].thread, NULL);
    }
    clock_gettime(CLOCK_MONOTONIC, &after);
    clock_gettime(CLOCK_PROCESS_CPUTIME_ID, &own);
    printf("%.6f %.6f\n", seconds(after) - seconds(before), seconds(own));
    return 0;
}
