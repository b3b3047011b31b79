// Callers of one or more servers, for guard.sh: each, in a thread of its own, makes the requests of its list in turn, each on a connection
// of its own, until the time is over. Prints how many turns were made, the processor time that the callers took for each request of the
// list, in microseconds a turn, and within how many microseconds half of the turns and 99 of 100 were over.
// usage: callers CALLERS SECONDS PORT PATH TOKEN [PORT PATH TOKEN]
// It ends with status 1 where a reply isn't 200 or a call fails; each call has ten seconds.
#define _GNU_SOURCE
#include <arpa/inet.h>
#include <netinet/in.h>
#include <pthread.h>
#include <stdatomic.h>
#include <stdio.h>
#include <stdlib.h>
#include <string.h>
#include <sys/socket.h>
#include <sys/time.h>
#include <time.h>
#include <unistd.h>

#define MOST 4
#define TURNS 1000000

struct request { int port; char text[1024]; size_t length; };
struct caller { pthread_t thread; size_t turns; long spent[MOST]; };

static struct request requests[MOST];
static int request_count;
static atomic_int is_over;
static atomic_size_t turn_count;
static long turns[TURNS];

static void fail(const char *why) {
    perror(why);
    exit(1);
}

static long nanoseconds(clockid_t clock) {
    struct timespec now;
    clock_gettime(clock, &now);
    return now.tv_sec * 1000000000L + now.tv_nsec;
}

static int connected(int port) {
    struct sockaddr_in to = {.sin_family = AF_INET, .sin_port = htons(port), .sin_addr.s_addr = htonl(INADDR_LOOPBACK)};
    struct timeval limit = {.tv_sec = 10};
    int line = socket(AF_INET, SOCK_STREAM | SOCK_CLOEXEC, 0);
    if (line < 0 || setsockopt(line, SOL_SOCKET, SO_RCVTIMEO, &limit, sizeof limit)
        || setsockopt(line, SOL_SOCKET, SO_SNDTIMEO, &limit, sizeof limit)
        || connect(line, (struct sockaddr *)&to, sizeof to))
        fail("a connection");
    return line;
}

static void ask(const struct request *request) {
    char reply[16384];
    size_t count = 0;
    int line = connected(request->port);
    if (send(line, request->text, request->length, MSG_NOSIGNAL) != (ssize_t)request->length)
        fail("a request");
    // up to its end: who ends a connection first keeps its port from others for a minute, and a caller has no port to spare
    for (;;) {
        ssize_t more = recv(line, reply + count, sizeof reply - 1 - count, 0);
        if (more < 0)
            fail("a reply");
        if (!more)
            break;
        count += more;
        reply[count] = 0;
    }
    if (strncmp(reply, "HTTP/1.1 200 ", 13)) {
        fprintf(stderr, "%s\n", reply);
        exit(1);
    }
    close(line);
}

static void *call(void *given) {
    struct caller *own = given;
    while (!is_over) {
        long began = nanoseconds(CLOCK_MONOTONIC);
        for (int at = 0; at < request_count; at++) {
            long before = nanoseconds(CLOCK_THREAD_CPUTIME_ID);
            ask(&requests[at]);
            own->spent[at] += nanoseconds(CLOCK_THREAD_CPUTIME_ID) - before;
        }
        size_t turn = turn_count++;
        if (turn < TURNS)
            turns[turn] = nanoseconds(CLOCK_MONOTONIC) - began;
    }
    return NULL;
}

static int order(const void *one, const void *other) {
    long a = *(const long *)one, b = *(const long *)other;
    return (a > b) - (a < b);
}

int main(int count, char **words) {
    if (count < 6 || (count - 3) % 3 || (count - 3) / 3 > MOST) {
        fprintf(stderr, "usage: callers CALLERS SECONDS PORT PATH TOKEN [PORT PATH TOKEN]\n");
        return 2;
    }
    int callers = atoi(words[1]);
    for (char **word = words + 3; *word; word += 3) {
        struct request *next = &requests[request_count++];
        next->port = atoi(word[0]);
        next->length = snprintf(next->text, sizeof next->text,
            "GET %s HTTP/1.1\r\nHost: 127.0.0.1:%s\r\nAuthorization: token %s\r\nConnection: close\r\n\r\n",
                                word[1], word[0], word[2]);
    }
    struct caller *all = calloc(callers, sizeof *all);
    for (int at = 0; at < callers; at++)
        if (pthread_create(&all[at].thread, NULL, call, &all[at]))
            fail("a thread");
    usleep(1000000 * atof(words[2]));
    is_over = 1;
    long spent[MOST] = {0};
    for (int at = 0; at < callers; at++) {
        pthread_join(all[at].thread, NULL);
        for (int of = 0; of < request_count; of++)
            spent[of] += all[at].spent[of];
    }
    size_t made = turn_count, kept = made < TURNS ? made : TURNS;
    qsort(turns, kept, sizeof *turns, order);
    printf("%zu", made);
    for (int of = 0; of < request_count; of++)
        printf(" %.2f", spent[of] / 1e3 / made);
    printf(" %.0f %.0f\n", turns[kept / 2] / 1e3, turns[kept - 1 - kept / 100] / 1e3);
}
