/*
 * A world for one process: preloaded (LD_PRELOAD), it gives the program virtual time, a machine's clock that is off and
 * drifts, and time servers behind a network with delay, jitter, loss and outages. Nothing leaves the process: a datagram
 * ends here, and a wait is over at once. Ten days pass in seconds, and each run with the same words is the same.
 *
 * The environment variable SIM has the words of the world, NAME=VALUE, separated by blanks:
 *
 *   off=SECONDS        how far the machine's clock is ahead at the start
 *   drift=PPM          how much too fast it runs
 *   delay=SECONDS      of the network, each way
 *   jitter=SECONDS     the mean of what is added to each delay (exponential)
 *   loss=PART          of the datagrams that are lost, each way
 *   dies=N:FROM:TO     server N doesn't answer from one second to another
 *   lies=N:FROM:TO:S   its clock is S seconds ahead then
 *   forges=N:FROM:TO   it signs under another key then
 *   wait=SECONDS       of a receive without a datagram; the program asks for one, and takes fewer turns with more
 *   near=SECONDS       what is taken for settled
 *   seed=N             of the random numbers
 *
 * Server N is 10.0.0.N, whatever the port, and has the key 000102..0f. The time is correct there, but where it lies.
 *
 * What the program takes for the time is read off the records that it writes to its capture, and what it did off its
 * report. At the end one line is added to the file that SIM_ROW names:
 *
 *   BEFORE GREATEST HOURS LAST_16 LAST CORRECTIONS STEPS CHANGES REFUSED
 *
 * that is the error before the first correction, the greatest one after it, the hours until it stays within `near`, the
 * greatest one since the last 16 corrections and that at the end, errors in seconds (positive: the clock is ahead); then
 * counts.
 *
 * Samples for chronyd (40 bytes, struct sock_sample) steer the machine's clock as chronyd would, roughly: a sample over a
 * second among the first three is a step (makestep 1 3), and each other one is slewed at one second in twelve. Of what comes
 * back between two samples a part goes to the rate: a half at most, and less where they are close.
 */
#define _GNU_SOURCE
#include <arpa/inet.h>
#include <errno.h>
#include <dlfcn.h>
#include <math.h>
#include <netinet/in.h>
#include <stdint.h>
#include <stdio.h>
#include <stdlib.h>
#include <string.h>
#include <sys/socket.h>
#include <time.h>
#include <unistd.h>

#define SECOND 1000000000LL
#define START (1767225600LL * SECOND) /* 1 January 2026, in nanoseconds since 1970 */
#define TO_1900 2208988800ULL         /* seconds */
#define TICKS_TO_1970 116444736000000000LL
#define HEADER 48
#define REQUEST 68
#define SERVERS 8
#define IN_FLIGHT 64
#define LAST 16
#define SLEW_RATE (1.0 / 12)
#define MAGIC 0x534f434b

struct server {
    double dies, revives, lies, honest, ahead, forges, signs;
};

struct datagram {
    int64_t arrives; /* 0: none */
    struct sockaddr_in from;
    uint8_t bytes[REQUEST];
};

static struct {
    double off, drift, delay, jitter, loss, wait, near;
    uint64_t seed;
    struct server servers[SERVERS + 1];
} world = {.delay = 0.005, .wait = 1, .near = 0.06, .seed = 1};

static int64_t now = START; /* the true time, in nanoseconds since 1970 */
static double error;        /* of the machine's clock, in seconds */
static double left;         /* of a slew */
static double frequency;    /* what the steering adds to the drift */
static struct datagram flying[IN_FLIGHT];

static int64_t read_at; /* the true time of the last reading */
static struct {
    double before, greatest, last, since[LAST]; /* the greatest since each of the last corrections */
    int64_t settled;
    unsigned corrections, steps, changes, refused;
    char partner[32];
} seen;

/* ---- the world ---- */

static double uniform(void) /* xorshift64*, over 0 and up to 1 */
{
    world.seed ^= world.seed >> 12;
    world.seed ^= world.seed << 25;
    world.seed ^= world.seed >> 27;
    return (double)((world.seed * 2685821657736338717ULL >> 11) + 1) / 9007199254740992.0;
}

static double clamp(double value, double most)
{
    return value > most ? most : value < -most ? -most : value;
}

static void pass(int64_t nanos)
{
    double seconds = (double)nanos / SECOND;
    double part = clamp(left, SLEW_RATE * seconds);
    now += nanos;
    error += (world.drift * 1e-6 + frequency) * seconds + part;
    left -= part;
}

static double elapsed(void)
{
    return (double)(now - START) / SECOND;
}

static void read_words(void)
{
    char *words = strdup(getenv("SIM") ? getenv("SIM") : ""), *rest = words, *word;
    while ((word = strsep(&rest, " \t\n"))) {
        unsigned n;
        double from, to, ahead;
        struct server *servers = world.servers;
        if (*word == 0 || sscanf(word, "off=%lf", &world.off) == 1 || sscanf(word, "drift=%lf", &world.drift) == 1 ||
            sscanf(word, "delay=%lf", &world.delay) == 1 || sscanf(word, "jitter=%lf", &world.jitter) == 1 ||
            sscanf(word, "loss=%lf", &world.loss) == 1 || sscanf(word, "near=%lf", &world.near) == 1 ||
            sscanf(word, "wait=%lf", &world.wait) == 1 || sscanf(word, "seed=%lu", &world.seed) == 1)
            continue;
        if (sscanf(word, "dies=%u:%lf:%lf", &n, &from, &to) == 3 && n <= SERVERS)
            servers[n].dies = from, servers[n].revives = to;
        else if (sscanf(word, "lies=%u:%lf:%lf:%lf", &n, &from, &to, &ahead) == 4 && n <= SERVERS)
            servers[n].lies = from, servers[n].honest = to, servers[n].ahead = ahead;
        else if (sscanf(word, "forges=%u:%lf:%lf", &n, &from, &to) == 3 && n <= SERVERS)
            servers[n].forges = from, servers[n].signs = to;
        else {
            fprintf(stderr, "sim: bad word %s\n", word);
            _exit(125);
        }
    }
    free(words);
    error = world.off;
}

static void begin(void)
{
    static int begun;
    if (!begun) {
        begun = 1;
        read_words();
    }
}

/* ---- time servers ---- */

/* MD5 (RFC 1321) of 64 bytes. */
static void md5_of_64(const uint8_t *bytes, uint8_t *digest)
{
    static const uint8_t turns[4][4] = {{7, 12, 17, 22}, {5, 9, 14, 20}, {4, 11, 16, 23}, {6, 10, 15, 21}};
    uint32_t state[4] = {0x67452301, 0xefcdab89, 0x98badcfe, 0x10325476};
    uint32_t blocks[2][16] = {{0}, {0x80, [14] = 64 * 8}};
    memcpy(blocks[0], bytes, 64);
    for (int block = 0; block < 2; block++) {
        uint32_t a = state[0], b = state[1], c = state[2], d = state[3];
        for (int i = 0; i < 64; i++) {
            uint32_t mixed, word;
            switch (i / 16) {
            case 0: mixed = (b & c) | (~b & d), word = i; break;
            case 1: mixed = (d & b) | (~d & c), word = 5 * i + 1; break;
            case 2: mixed = b ^ c ^ d, word = 3 * i + 5; break;
            default: mixed = c ^ (b | ~d), word = 7 * i;
            }
            mixed += a + blocks[block][word % 16] + (uint32_t)(int64_t)(fabs(sin(i + 1)) * 4294967296.0);
            a = d, d = c, c = b;
            b += mixed << turns[i / 16][i % 4] | mixed >> (32 - turns[i / 16][i % 4]);
        }
        state[0] += a, state[1] += b, state[2] += c, state[3] += d;
    }
    memcpy(digest, state, 16);
}

static void put_stamp(uint8_t *at, int64_t nanos)
{
    uint32_t seconds = htonl((uint32_t)((uint64_t)(nanos / SECOND) + TO_1900));
    uint32_t fraction = htonl((uint32_t)(((uint64_t)(nanos % SECOND) << 32) / SECOND));
    memcpy(at, &seconds, 4);
    memcpy(at + 4, &fraction, 4);
}

static int within(double from, double to)
{
    return from <= elapsed() && elapsed() < to;
}

/* What one way takes, in nanoseconds; 0 where the datagram is lost. */
static int64_t way(void)
{
    double seconds = world.delay - world.jitter * log(uniform());
    return uniform() <= world.loss ? 0 : (int64_t)(seconds * SECOND) + 1;
}

static void answer(const uint8_t *request, const struct sockaddr_in *to)
{
    unsigned n = ntohl(to->sin_addr.s_addr) & 0xff;
    int64_t there = way(), back = way(), took = 50000;
    struct server *server = &world.servers[n <= SERVERS ? n : 0];
    if (!there || !back || n > SERVERS || within(server->dies, server->revives))
        return;

    uint8_t signed_bytes[16 + HEADER] = {0};
    uint8_t *reply = signed_bytes + 16;
    int64_t came = now + there + (within(server->lies, server->honest) ? (int64_t)(server->ahead * SECOND) : 0);
    for (int i = 0; i < 16; i++)
        signed_bytes[i] = i;
    signed_bytes[0] ^= within(server->forges, server->signs);
    memcpy(reply, "\x1c\x02\x06\xec\0\0\0\x10\0\0\0\x10SIM\0", 16);
    put_stamp(reply + 16, came);
    memcpy(reply + 24, request + 40, 8);
    put_stamp(reply + 32, came);
    put_stamp(reply + 40, came + took);

    struct datagram *free_one = flying;
    while (free_one < flying + IN_FLIGHT && free_one->arrives)
        free_one++;
    if (free_one == flying + IN_FLIGHT)
        return;
    free_one->arrives = now + there + took + back;
    free_one->from = *to;
    memcpy(free_one->bytes, reply, HEADER);
    memcpy(free_one->bytes + HEADER, request + HEADER, 4);
    md5_of_64(signed_bytes, free_one->bytes + HEADER + 4);
}

/* ---- what is seen of the program ---- */

static void saw_reading(const uint8_t *bytes)
{
    int64_t ticks = 0;
    for (int i = 0; i < 8; i++)
        ticks = ticks << 8 | bytes[i];
    seen.last = (double)(ticks - TICKS_TO_1970 - read_at / 100) / 1e7;
    if (!seen.corrections) {
        seen.before = seen.last;
        seen.settled = read_at;
        return;
    }
    double *since = &seen.since[seen.corrections % LAST];
    if (fabs(seen.last) > fabs(*since))
        *since = seen.last;
    if (fabs(seen.last) > fabs(seen.greatest))
        seen.greatest = seen.last;
    if (fabs(seen.last) > world.near)
        seen.settled = read_at;
}

static void saw_line(const char *line, size_t length)
{
    char text[96] = "", partner[32];
    memcpy(text, line, length < sizeof text ? length : sizeof text - 1);
    if (strncmp(text, "moved ", 6) == 0) {
        seen.corrections++;
        seen.since[seen.corrections % LAST] = 0;
        seen.steps += strstr(text, "by=step") != NULL;
    } else if (strncmp(text, "refused ", 8) == 0) {
        seen.refused++;
    } else if (sscanf(text, "send n=%*u to=%31s", partner) == 1) {
        seen.changes += seen.partner[0] && strcmp(partner, seen.partner) != 0;
        strcpy(seen.partner, partner);
    }
}

static void steer(const uint8_t *sample)
{
    static int64_t last;
    static unsigned samples;
    double offset;
    memcpy(&offset, sample + 16, 8);
    samples++;
    if (fabs(offset) > 1 && samples <= 3) {
        error += offset;
        left = 0;
    } else {
        double since = (double)(now - last) / SECOND;
        if (last)
            frequency = clamp(frequency + (offset - left) / since * fmin(0.5, since / 4096), 500e-6);
        left = offset;
    }
    last = now;
}

/* ---- the calls of the program ---- */

int clock_gettime(clockid_t which, struct timespec *time)
{
    begin();
    pass(1000);
    int64_t nanos = now;
    if (which == CLOCK_REALTIME) {
        read_at = now;
        nanos += (int64_t)(error * SECOND);
    }
    time->tv_sec = nanos / SECOND;
    time->tv_nsec = nanos % SECOND;
    return 0;
}

ssize_t sendto(int fd, const void *bytes, size_t length, int flags, const struct sockaddr *to, socklen_t size)
{
    (void)fd, (void)flags;
    begin();
    pass(20000);
    if (length == REQUEST && size >= sizeof(struct sockaddr_in))
        answer(bytes, (const struct sockaddr_in *)to);
    return (ssize_t)length;
}

/* A datagram, or a wait without one. */
ssize_t recvfrom(int fd, void *bytes, size_t length, int flags, struct sockaddr *from, socklen_t *size)
{
    (void)fd, (void)flags;
    begin();
    struct datagram *first = NULL;
    for (struct datagram *each = flying; each < flying + IN_FLIGHT; each++)
        if (each->arrives && (!first || each->arrives < first->arrives))
            first = each;
    int64_t wait = (int64_t)(world.wait * SECOND);
    if (!first || first->arrives > now + wait) {
        pass(wait);
        errno = EAGAIN;
        return -1;
    }
    if (first->arrives > now)
        pass(first->arrives - now);
    length = length < REQUEST ? length : REQUEST;
    memcpy(bytes, first->bytes, length);
    memcpy(from, &first->from, sizeof first->from);
    *size = sizeof first->from;
    first->arrives = 0;
    return (ssize_t)length;
}

ssize_t write(int fd, const void *bytes, size_t length)
{
    static ssize_t (*real)(int, const void *, size_t);
    const uint8_t *all = bytes;
    uint32_t magic;
    if (!real)
        real = (ssize_t(*)(int, const void *, size_t))dlsym(RTLD_NEXT, "write");
    if (fd == STDOUT_FILENO)
        saw_line(bytes, length);
    else if (length == 40 && (memcpy(&magic, all + 36, 4), magic == MAGIC))
        steer(all);
    else if (length == 17 && memcmp(all, "\1W32T", 5) == 0)
        saw_reading(all + 5);
    else if ((length == 13 && all[0] == 2) || (length >= 17 && all[0] == 4))
        saw_reading(all + 1);
    return real(fd, bytes, length);
}

__attribute__((destructor)) static void end(void)
{
    FILE *row = getenv("SIM_ROW") ? fopen(getenv("SIM_ROW"), "a") : NULL;
    if (!row)
        return;
    double at_the_end = 0;
    for (int i = 0; i < LAST; i++)
        if (fabs(seen.since[i]) > fabs(at_the_end))
            at_the_end = seen.since[i];
    fprintf(row, "%.6f %.6f ", seen.before, seen.greatest);
    if (fabs(seen.last) > world.near)
        fprintf(row, "never");
    else
        fprintf(row, "%.1f", (double)(seen.settled - START) / SECOND / 3600);
    fprintf(row, " %.6f %.6f %u %u %u %u\n", at_the_end, seen.last, seen.corrections, seen.steps, seen.changes,
            seen.refused);
    fclose(row);
}
