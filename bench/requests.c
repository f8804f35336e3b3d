/* Sends the requests of the input one after another, each when the answer to the one before is whole: requests PORT
 *
 * The input has, one after another, a decimal number of bytes, LF, and a request of so many bytes. A connection takes 100 of them,
 * and then the next one is opened. Prints the seconds that it took, and how many answers begin with status 200.
 */
#include <arpa/inet.h>
#include <netinet/in.h>
#include <netinet/tcp.h>
#include <stdio.h>
#include <stdlib.h>
#include <string.h>
#include <sys/socket.h>
#include <time.h>
#include <unistd.h>

enum { MOST = 100, ROOM = 1 << 22 };

static char answer[ROOM + 1];

static void fail(const char *what) {
    perror(what);
    exit(1);
}

static int connected(int port) {
    struct sockaddr_in address = {.sin_family = AF_INET, .sin_port = htons((unsigned short)port)};
    address.sin_addr.s_addr = htonl(INADDR_LOOPBACK);
    for (int tries = 0; tries < 200; tries++) {
        int connection = socket(AF_INET, SOCK_STREAM, 0), yes = 1;
        if (connection < 0)
            fail("socket");
        setsockopt(connection, IPPROTO_TCP, TCP_NODELAY, &yes, sizeof yes);
        if (connect(connection, (struct sockaddr *)&address, sizeof address) == 0)
            return connection;
        close(connection);
        usleep(50000);
    }
    fail("connect");
    return -1;
}

/* Reads one answer, and says whether its status is 200. */
static int answered(int connection) {
    size_t have = 0, whole = 0;
    while (whole == 0 || have < whole) {
        ssize_t count = read(connection, answer + have, ROOM - have);
        if (count <= 0)
            fail("read");
        have += (size_t)count;
        answer[have] = 0;
        char *end = strstr(answer, "\r\n\r\n");
        if (whole == 0 && end != NULL) {
            char *length = strstr(answer, "Content-Length: ");
            whole = (size_t)(end + 4 - answer) + strtoul(length + 16, NULL, 10);
        }
    }
    return strncmp(answer, "HTTP/1.1 200 ", 13) == 0;
}

static double now(void) {
    struct timespec time;
    clock_gettime(CLOCK_MONOTONIC, &time);
    return (double)time.tv_sec + (double)time.tv_nsec / 1e9;
}

int main(int count, char **words) {
    static char request[ROOM];
    long length, sent = 0, good = 0;
    double start = 0;
    int connection = -1;
    if (count != 2)
        return 1;
    while (scanf("%ld", &length) == 1 && length < ROOM) {
        if (getchar() != '\n' || fread(request, 1, (size_t)length, stdin) != (size_t)length)
            return 1;
        if (sent % MOST == 0) {
            if (connection >= 0)
                close(connection);
            connection = connected(atoi(words[1]));
        }
        if (sent == 0)
            start = now();
        if (write(connection, request, (size_t)length) != length)
            fail("write");
        good += answered(connection);
        sent++;
    }
    printf("%f %ld\n", now() - start, good);
    close(connection);
    return 0;
}
