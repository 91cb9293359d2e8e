/* bench/forwarder.c: forwards datagrams of VXLAN network 1 to network 2 and back, as little as a program can do at the place of
   the switch. bench/live.py compares the switch with it. */
#include <arpa/inet.h>
#include <stdio.h>
#include <sys/socket.h>

int main(void) {
    int tunnel = socket(AF_INET, SOCK_DGRAM, 0);
    struct sockaddr_in at = {.sin_family = AF_INET, .sin_port = htons(4789)}, from;
    static unsigned char datagram[65536];
    if (bind(tunnel, (void *)&at, sizeof at)) {
        perror("forwarder");
        return 3;
    }
    for (;;) {
        socklen_t length = sizeof from;
        ssize_t size = recvfrom(tunnel, datagram, sizeof datagram, 0, (void *)&from, &length);
        if (size < 8) continue;
        datagram[6] = datagram[6] == 1 ? 2 : 1;
        from.sin_port = htons(4789);
        sendto(tunnel, datagram, size, 0, (void *)&from, sizeof from);
    }
}
