/* Sends requests over several connections at once: many PORT CONNECTIONS
 *
 * The input has, one after another, a decimal number of bytes, LF, and a request of so many bytes. They are shared out in equal runs, one
 * a connection, and each is sent when the answer to the one before it, on the same connection, is whole. After 100 requests a connection
 * is opened anew. Prints the seconds that it took, and how many answers begin with status 200.
 */
#include <arpa/inet.h>
#include <netinet/in.h>
#include <netinet/tcp.h>
#include <pthread.h>
#include <stdio.h>
#include <stdlib.h>
#include <string.h>
#include <sys/socket.h>
#include <time.h>
#include <unistd.h>

enum { MOST = 100, ROOM = 1 << 20, SENT = 1 << 20, CONNECTIONS = 64 };

struct request {
    char *bytes;
    long length;
};

struct part {
    long first, after, good;
    char *answer;
};

static struct request requests[SENT];
static int port;

static void fail(const char *what) {
    perror(what);
    exit(1);
}

static int connected(void) {
    struct sockaddr_in address = {.sin_family = AF_INET, .sin_port = htons((unsigned short)port)};
    address.sin_addr.s_addr = htonl(INADDR_LOOPBACK);
    for (int tries = 0; tries < 200; tries++) {
        int connection = socket(AF_INET, SOCK_STREAM, 0), yes = 1;
        if (connection < 0)
            fail("socket");
        setsockopt(connection, IPPROTO_TCP, TCP_NODELAY, &yes, sizeof yes);
        if (connect(connection, (struct sockaddr *)&address, sizeof address) == 0)
            return connection;
        close(connection);
        usleep(50000);
    }
    fail("connect");
    return -1;
}

/* Reads one answer, and says whether its status is 200. */
static int answered(int connection, char *answer) {
    size_t have = 0, whole = 0;
    while (whole == 0 || have < whole) {
        ssize_t count = read(connection, answer + have, ROOM - have);
        if (count <= 0)
            fail("read");
        have += (size_t)count;
        answer[have] = 0;
        char *end = strstr(answer, "\r\n\r\n");
        if (whole == 0 && end != NULL) {
            char *length = strstr(answer, "Content-Length: ");
            whole = (size_t)(end + 4 - answer) + strtoul(length + 16, NULL, 10);
        }
    }
    return strncmp(answer, "HTTP/1.1 200 ", 13) == 0;
}

static void *talk(void *of) {
    struct part *part = of;
    int connection = -1;
    for (long at = part->first; at < part->after; at++) {
        if ((at - part->first) % MOST == 0) {
            if (connection >= 0)
                close(connection);
            connection = connected();
        }
        if (write(connection, requests[at].bytes, (size_t)requests[at].length) != requests[at].length)
            fail("write");
        part->good += answered(connection, part->answer);
    }
    close(connection);
    return NULL;
}

static double now(void) {
    struct timespec time;
    clock_gettime(CLOCK_MONOTONIC, &time);
    return (double)time.tv_sec + (double)time.tv_nsec / 1e9;
}

int main(int count, char **words) {
    static struct part parts[CONNECTIONS];
    pthread_t threads[CONNECTIONS];
    long length, sent = 0, good = 0;
    if (count != 3)
        return 1;
    port = atoi(words[1]);
    long connections = atol(words[2]);
    if (connections < 1 || connections > CONNECTIONS)
        return 1;
    while (sent < SENT && scanf("%ld", &length) == 1 && length < ROOM) {
        requests[sent].bytes = malloc((size_t)length);
        requests[sent].length = length;
        if (getchar() != '\n' || fread(requests[sent].bytes, 1, (size_t)length, stdin) != (size_t)length)
            return 1;
        sent++;
    }
    close(connected());
    double start = now();
    for (long part = 0; part < connections; part++) {
        parts[part].first = sent * part / connections;
        parts[part].after = sent * (part + 1) / connections;
        parts[part].answer = malloc(ROOM + 1);
        if (pthread_create(&threads[part], NULL, talk, &parts[part]) != 0)
            fail("pthread_create");
    }
    for (long part = 0; part < connections; part++) {
        pthread_join(threads[part], NULL);
        good += parts[part].good;
    }
    printf("%f %ld\n", now() - start, good);
    return 0;
}
