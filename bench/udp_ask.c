/* The least that a member does in a turn, for bench/member.sh: sends a request, and takes the reply.
 *
 * udp_ask FILE PORT TURNS [CAPTURE]
 *
 * Asks 127.0.0.1:PORT the bytes of FILE; a turn takes a datagram, and ends the program with code 1 after a second
 * without one. With CAPTURE it makes the other system calls of a member's turn too: a random word is read, the two
 * events are written to CAPTURE, and the two lines to standard output, as long as a member has them. It computes
 * nothing. */
#include <arpa/inet.h>
#include <fcntl.h>
#include <netinet/in.h>
#include <stdio.h>
#include <stdlib.h>
#include <sys/socket.h>
#include <sys/time.h>
#include <unistd.h>

enum { WORD = 4, TICK = 13, ARRIVE = 17, LONGEST = 256 };

static const char SEND_LINE[] = "send n=50000 to=127.0.0.1:12300\n";
static const char MOVED_LINE[] = "moved n=50000 offset=-16500000 by=step\n";

static void check(int done, const char *what)
{
    if (!done) {
        perror(what);
        exit(1);
    }
}

static void put(int file, const void *bytes, size_t len)
{
    check(write(file, bytes, len) == (ssize_t)len, "write");
}

int main(int count, char **words)
{
    if (count != 4 && count != 5) {
        fprintf(stderr, "udp_ask FILE PORT TURNS [CAPTURE]\n");
        return 1;
    }
    char request[LONGEST], datagram[LONGEST], record[ARRIVE + LONGEST] = {0};
    int file = open(words[1], O_RDONLY);
    ssize_t len = file < 0 ? -1 : read(file, request, sizeof request);
    check(len > 0, words[1]);

    int client = socket(AF_INET, SOCK_DGRAM, 0), random = -1, capture = -1;
    struct sockaddr_in there = {.sin_family = AF_INET, .sin_port = htons(atoi(words[2]))};
    struct timeval wait = {.tv_sec = 1};
    there.sin_addr.s_addr = htonl(INADDR_LOOPBACK);
    check(client >= 0 && !setsockopt(client, SOL_SOCKET, SO_RCVTIMEO, &wait, sizeof wait), "socket");
    if (count == 5) {
        check((random = open("/dev/urandom", O_RDONLY)) >= 0, "/dev/urandom");
        check((capture = open(words[4], O_WRONLY | O_CREAT | O_TRUNC, 0600)) >= 0, words[4]);
    }
    for (long turns = atol(words[3]); turns > 0; turns--) {
        struct sockaddr_in from;
        socklen_t from_len = sizeof from;
        if (capture >= 0) {
            check(read(random, record, WORD) == WORD, "/dev/urandom");
            put(capture, record, TICK);
        }
        check(sendto(client, request, len, 0, (struct sockaddr *)&there, sizeof there) == len, "sendto");
        if (capture >= 0)
            put(STDOUT_FILENO, SEND_LINE, sizeof SEND_LINE - 1);
        ssize_t came = recvfrom(client, datagram, sizeof datagram, 0, (struct sockaddr *)&from, &from_len);
        check(came == len, "recvfrom");
        if (capture >= 0) {
            put(capture, record, ARRIVE + came);
            put(STDOUT_FILENO, MOVED_LINE, sizeof MOVED_LINE - 1);
        }
    }
    return 0;
}
