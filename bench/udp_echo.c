/* The least that a server of datagrams does, for bench/dc.sh: takes each and sends it back, as `/dc` takes its turns.
 *
 * udp_echo PORT TURNS: on all IPv4 addresses; a turn takes a datagram of at most 256 bytes, or ends after a second. */
#include <arpa/inet.h>
#include <netinet/in.h>
#include <stdio.h>
#include <stdlib.h>
#include <sys/socket.h>
#include <sys/time.h>

int main(int count, char **words)
{
    if (count != 3) {
        fprintf(stderr, "udp_echo PORT TURNS\n");
        return 1;
    }
    int server = socket(AF_INET, SOCK_DGRAM, 0);
    struct sockaddr_in here = {.sin_family = AF_INET, .sin_port = htons(atoi(words[1]))};
    struct timeval wait = {.tv_sec = 1};
    if (server < 0 || bind(server, (struct sockaddr *)&here, sizeof here) ||
        setsockopt(server, SOL_SOCKET, SO_RCVTIMEO, &wait, sizeof wait)) {
        perror("udp_echo");
        return 1;
    }
    for (long turns = atol(words[2]); turns > 0; turns--) {
        char datagram[256];
        struct sockaddr_in from;
        socklen_t from_len = sizeof from;
        ssize_t len = recvfrom(server, datagram, sizeof datagram, 0, (struct sockaddr *)&from, &from_len);
        if (len >= 0)
            sendto(server, datagram, len, 0, (struct sockaddr *)&from, from_len);
    }
    return 0;
}
