/* A load of remote calls for bench/service.sh: sessions with a service one after the other, and what they cost the service.
 *
 * calls_load PORT PROCESS SESSIONS CALLS KIND
 *
 * Each session binds, makes so many calls, each once the one before is answered, and ends. KIND is `bits`, `sync` (which
 * doesn't wait), `wait` (a sync that waits), or `echo`: the bytes of `bits`, to a server that sends all back. Each answer has
 * to be a response with its call's identifier and the number 0. Prints, on one line, nanoseconds on the wall, nanoseconds of
 * the processor that the server's process took meanwhile, and kilobytes of memory that it had at most. A last session isn't
 * counted, since the server ends with it. */
#include <arpa/inet.h>
#include <netinet/in.h>
#include <netinet/tcp.h>
#include <stdint.h>
#include <stdio.h>
#include <stdlib.h>
#include <string.h>
#include <sys/socket.h>
#include <time.h>
#include <unistd.h>

enum { HEADER = 16, BIND = 72, BIND_ACK = 56, BITS = 24, SYNC = 32, RESPONSE = 28, LONGEST = 128 };

static const unsigned char SERVICE[20] = "\x84\xD8\xB6\x8F\x88\x23\xD0\x11\x8C\x35\x00\xC0\x4F\xDA\x27\x95\x04\x00\x01\x00";
static const unsigned char NDR[20] = "\x04\x5D\x88\x8A\xEB\x1C\xC9\x11\x9F\xE8\x08\x00\x2B\x10\x48\x60\x02\x00\x00\x00";

static void fail(const char *what)
{
    perror(what);
    exit(1);
}

static uint64_t nanoseconds(void)
{
    struct timespec now;
    clock_gettime(CLOCK_MONOTONIC, &now);
    return now.tv_sec * UINT64_C(1000000000) + now.tv_nsec;
}

/* The first number after a word in a file of /proc/PROCESS; the word may be empty. */
static uint64_t number_of(const char *process, const char *name, const char *word)
{
    char path[64], line[256];
    snprintf(path, sizeof path, "/proc/%s/%s", process, name);
    FILE *file = fopen(path, "r");
    if (!file)
        fail(path);
    uint64_t number = 0;
    while (fgets(line, sizeof line, file))
        if (strncmp(line, word, strlen(word)) == 0) {
            number = strtoull(line + strlen(word), NULL, 10);
            break;
        }
    fclose(file);
    return number;
}

/* A connection to the server. Each session has another address of loopback, since the ports of ended ones are kept a while. */
static int connected(int port, uint32_t session)
{
    int client = socket(AF_INET, SOCK_STREAM, 0), on = 1;
    struct sockaddr_in here = {.sin_family = AF_INET}, there = {.sin_family = AF_INET, .sin_port = htons(port)};
    here.sin_addr.s_addr = htonl(0x7F000000 | (1 + session / 250 % 250) << 8 | (1 + session % 250));
    there.sin_addr.s_addr = htonl(INADDR_LOOPBACK);
    if (client < 0 || bind(client, (struct sockaddr *)&here, sizeof here) ||
        setsockopt(client, IPPROTO_TCP, TCP_NODELAY, &on, sizeof on) ||
        connect(client, (struct sockaddr *)&there, sizeof there))
        fail("connect");
    return client;
}

/* Sends a PDU, and takes so many bytes of an answer. */
static void call(int client, const unsigned char *pdu, size_t len, unsigned char *answer, size_t answer_len)
{
    if (send(client, pdu, len, MSG_NOSIGNAL) != (ssize_t)len)
        fail("send");
    for (size_t taken = 0; taken < answer_len;) {
        ssize_t came = recv(client, answer + taken, answer_len - taken, 0);
        if (came <= 0)
            fail("recv");
        taken += came;
    }
}

static void header(unsigned char *pdu, unsigned char kind, unsigned char len, uint32_t call)
{
    memset(pdu, 0, LONGEST);
    memcpy(pdu, "\x05\x00\x00\x03\x10", 5);
    pdu[2] = kind;
    pdu[8] = len;
    memcpy(pdu + 12, &call, 4);
}

static size_t bind_of(unsigned char *pdu)
{
    header(pdu, 11, BIND, 1);
    memcpy(pdu + HEADER, "\xD0\x16\xD0\x16\x00\x00\x00\x00\x01\x00\x00\x00\x00\x00\x01\x00", 16);
    memcpy(pdu + HEADER + 16, SERVICE, sizeof SERVICE);
    memcpy(pdu + HEADER + 36, NDR, sizeof NDR);
    return BIND;
}

/* The bits, or a sync with flags 2, which waits or doesn't. */
static size_t request_of(unsigned char *pdu, const char *kind, uint32_t call)
{
    int syncs = strcmp(kind, "sync") == 0 || strcmp(kind, "wait") == 0;
    header(pdu, 0, syncs ? SYNC : BITS, call);
    if (!syncs) {
        pdu[HEADER + 6] = 1;
        return BITS;
    }
    pdu[HEADER] = 8;
    pdu[HEADER + 8] = strcmp(kind, "wait") == 0;
    pdu[HEADER + 12] = 2;
    return SYNC;
}

static void session(int client, uint32_t calls, const char *kind)
{
    unsigned char pdu[LONGEST], answer[LONGEST];
    int echo = strcmp(kind, "echo") == 0;
    call(client, pdu, bind_of(pdu), answer, echo ? BIND : BIND_ACK);
    for (uint32_t i = 0; i < calls; i++) {
        size_t len = request_of(pdu, kind, i + 2);
        call(client, pdu, len, answer, echo ? len : RESPONSE);
        /* The type of the answer, and its number, which is 0 in each of them. */
        if (!echo && (answer[2] != 2 || memcmp(answer + 12, pdu + 12, 4) || memcmp(answer + 24, "\0\0\0\0", 4))) {
            fprintf(stderr, "calls_load: call %u of %s has another answer\n", i + 2, kind);
            exit(1);
        }
    }
    if (shutdown(client, SHUT_WR) || recv(client, answer, sizeof answer, 0) != 0)
        fail("end of a session");
    close(client);
}

int main(int count, char **words)
{
    if (count != 6) {
        fprintf(stderr, "calls_load PORT PROCESS SESSIONS CALLS KIND\n");
        return 1;
    }
    const char *process = words[2];
    uint32_t sessions = strtoul(words[3], NULL, 10), calls = strtoul(words[4], NULL, 10);
    uint64_t took = number_of(process, "schedstat", ""), begin = nanoseconds();
    uint64_t memory = 0;
    for (uint32_t i = 0; i < sessions; i++) {
        int client = connected(atoi(words[1]), i);
        /* The last session isn't counted, since the server ends with it. */
        if (i + 1 == sessions) {
            begin = nanoseconds() - begin;
            took = number_of(process, "schedstat", "") - took;
            memory = number_of(process, "status", "VmHWM:");
        }
        session(client, calls, words[5]);
    }
    printf("%llu %llu %llu\n", (unsigned long long)begin, (unsigned long long)took, (unsigned long long)memory);
    return 0;
}
