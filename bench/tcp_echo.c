/* The least that a server of sessions does, for bench/service.sh: takes what comes and sends it back, one session after the
 * other, as `/service` answers its calls.
 *
 * tcp_echo PORT SESSIONS: on all IPv4 addresses; ends after so many sessions. */
#include <arpa/inet.h>
#include <netinet/in.h>
#include <stdio.h>
#include <stdlib.h>
#include <sys/socket.h>
#include <sys/time.h>
#include <unistd.h>

int main(int count, char **words)
{
    if (count != 3) {
        fprintf(stderr, "tcp_echo PORT SESSIONS\n");
        return 1;
    }
    int server = socket(AF_INET, SOCK_STREAM, 0), on = 1;
    struct sockaddr_in here = {.sin_family = AF_INET, .sin_port = htons(atoi(words[1]))};
    struct timeval wait = {.tv_sec = 30};
    if (server < 0 || setsockopt(server, SOL_SOCKET, SO_REUSEADDR, &on, sizeof on) ||
        bind(server, (struct sockaddr *)&here, sizeof here) || listen(server, 128)) {
        perror("tcp_echo");
        return 1;
    }
    for (long sessions = atol(words[2]); sessions > 0; sessions--) {
        char piece[5840];
        int peer = accept(server, NULL, NULL);
        if (peer < 0 || setsockopt(peer, SOL_SOCKET, SO_RCVTIMEO, &wait, sizeof wait) ||
            setsockopt(peer, SOL_SOCKET, SO_SNDTIMEO, &wait, sizeof wait)) {
            perror("tcp_echo");
            return 1;
        }
        for (;;) {
            ssize_t len = recv(peer, piece, sizeof piece, 0);
            if (len <= 0 || send(peer, piece, len, MSG_NOSIGNAL) != len)
                break;
        }
        close(peer);
    }
    return 0;
}
