/* A load of time requests for bench/dc.sh: keeps so many of them on the way to a server, and measures the server.
 *
 * dc_load PORT PROCESS REQUESTS WINDOW FILE [ACCOUNTS]
 *
 * Sends the bytes of FILE to 127.0.0.1:PORT so often, each with another transmit timestamp, with at most WINDOW of
 * them unanswered. It looks for replies without sleeping, so that no server pays for waking it. A datagram is a reply
 * where it has the request's length, and the seconds of its transmit timestamp as originate or, as an echo has it, as
 * transmit timestamp. Then it prints, on one line, nanoseconds on the wall, nanoseconds of the processor that the
 * server's process took meanwhile, kilobytes of memory that it had at most, and requests that were lost. A last
 * request, which isn't counted, takes up the server's last turn. With ACCOUNTS each request asks for another account:
 * their RIDs are that many from 1000 on, and come in no order. */
#include <arpa/inet.h>
#include <errno.h>
#include <netinet/in.h>
#include <sched.h>
#include <stdint.h>
#include <stdio.h>
#include <stdlib.h>
#include <string.h>
#include <sys/socket.h>
#include <time.h>

enum { HEADER = 48, ORIGINATE = 24, TRANSMIT = 40, KEY_IDENTIFIER = 48, LONGEST = 256 };

/* So many accounts are asked for, or none but that of the file. */
static uint32_t accounts;

static const uint64_t PATIENCE = UINT64_C(5000000000);

static void fail(const char *what)
{
    perror(what);
    exit(1);
}

static uint64_t nanoseconds(void)
{
    struct timespec now;
    clock_gettime(CLOCK_MONOTONIC, &now);
    return now.tv_sec * UINT64_C(1000000000) + now.tv_nsec;
}

/* The first number after a word in a file of /proc/PROCESS; the word may be empty. */
static uint64_t number_of(const char *process, const char *name, const char *word)
{
    char path[64], line[256];
    snprintf(path, sizeof path, "/proc/%s/%s", process, name);
    FILE *file = fopen(path, "r");
    if (!file)
        fail(path);
    uint64_t number = 0;
    while (fgets(line, sizeof line, file))
        if (strncmp(line, word, strlen(word)) == 0) {
            number = strtoull(line + strlen(word), NULL, 10);
            break;
        }
    fclose(file);
    return number;
}

/* A socket that sends to the server alone, and whose receive doesn't wait. */
static int socket_to(int port)
{
    int client = socket(AF_INET, SOCK_DGRAM | SOCK_NONBLOCK, 0);
    struct sockaddr_in there = {.sin_family = AF_INET, .sin_port = htons(port)};
    there.sin_addr.s_addr = htonl(INADDR_LOOPBACK);
    if (client < 0 || connect(client, (struct sockaddr *)&there, sizeof there))
        fail("socket");
    return client;
}

static size_t request_of(const char *path, unsigned char *request)
{
    FILE *file = fopen(path, "rb");
    if (!file)
        fail(path);
    size_t len = fread(request, 1, LONGEST, file);
    fclose(file);
    if (len < HEADER) {
        fprintf(stderr, "dc_load: %s is no request\n", path);
        exit(1);
    }
    return len;
}

/* The number of the request stands in the last four bytes of its transmit timestamp. A key identifier has its lowest
 * byte first. */
static void send_request(int client, unsigned char *request, size_t len, uint32_t number)
{
    uint32_t word = htonl(number);
    memcpy(request + TRANSMIT + 4, &word, sizeof word);
    if (accounts) {
        uint32_t rid = 1000 + number * UINT64_C(48271) % accounts;
        for (int i = 0; i < 4; i++)
            request[KEY_IDENTIFIER + i] = rid >> 8 * i;
    }
    if (send(client, request, len, 0) != (ssize_t)len)
        fail("send");
}

static int answers(const unsigned char *reply, ssize_t len, const unsigned char *request, size_t request_len)
{
    return len == (ssize_t)request_len && (memcmp(reply + ORIGINATE, request + TRANSMIT, 4) == 0 ||
                                           memcmp(reply + TRANSMIT, request + TRANSMIT, 4) == 0);
}

/* The next datagram, or -1 where five seconds pass without one. */
static ssize_t receive(int client, unsigned char *reply, size_t room)
{
    ssize_t came = recv(client, reply, room, 0);
    for (uint64_t begin = nanoseconds(); came < 0 && nanoseconds() - begin < PATIENCE;) {
        if (errno != EAGAIN)
            fail("recv");
        sched_yield();
        came = recv(client, reply, room, 0);
    }
    return came;
}

/* Sends all requests, and gives how many were lost: where no reply comes in time, all that are on the way. */
static uint32_t load(int client, unsigned char *request, size_t len, uint32_t requests, uint32_t window)
{
    uint32_t sent = 0, done = 0, lost = 0;
    while (done < requests) {
        while (sent < requests && sent - done < window)
            send_request(client, request, len, sent++);
        unsigned char reply[LONGEST + 1];
        ssize_t came = receive(client, reply, sizeof reply);
        if (came < 0) {
            lost += sent - done;
            done = sent;
            if (lost > 4 * window) {
                fprintf(stderr, "dc_load: no replies\n");
                exit(1);
            }
        } else if (answers(reply, came, request, len)) {
            done++;
        } else {
            fprintf(stderr, "dc_load: %zd bytes that are no reply\n", came);
            exit(1);
        }
    }
    return lost;
}

int main(int count, char **words)
{
    if (count != 6 && count != 7) {
        fprintf(stderr, "dc_load PORT PROCESS REQUESTS WINDOW FILE [ACCOUNTS]\n");
        return 1;
    }
    const char *process = words[2];
    uint32_t requests = strtoul(words[3], NULL, 10), window = strtoul(words[4], NULL, 10);
    unsigned char request[LONGEST];
    size_t len = request_of(words[5], request);
    accounts = count == 7 && len > HEADER ? strtoul(words[6], NULL, 10) : 0;
    int client = socket_to(atoi(words[1]));

    uint64_t took = number_of(process, "schedstat", ""), begin = nanoseconds();
    uint32_t lost = load(client, request, len, requests, window);
    uint64_t end = nanoseconds();
    took = number_of(process, "schedstat", "") - took;
    printf("%llu %llu %llu %u\n", (unsigned long long)(end - begin), (unsigned long long)took,
           (unsigned long long)number_of(process, "status", "VmHWM:"), lost);
    send_request(client, request, len, requests);
    return 0;
}
