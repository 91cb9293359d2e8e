/* bench/controller.c: the controller of bench/serve.py. `controller PORT` measures a switch that listens at 127.0.0.1:PORT, and prints a
   line for each figure: its number, a tab and what it is. `controller PORT echo` measures only round trips, of a program that sends back
   what it gets. */
#include <arpa/inet.h>
#include <netinet/tcp.h>
#include <stdint.h>
#include <stdio.h>
#include <stdlib.h>
#include <string.h>
#include <sys/socket.h>
#include <time.h>
#include <unistd.h>

enum { BARRIERS = 10000, STREAM = 50000, MODIFIES = 2000, TABLES = 16, PER_TABLE = 4096, ROWS = 1024, DUMPS = 5 };
enum { HELLO = 0, ERROR = 1, ECHO_REQUEST = 2, ECHO_REPLY = 3, PACKET_OUT = 13, FLOW_MOD = 14, MULTIPART_REQUEST = 18, MULTIPART_REPLY = 19, BARRIER_REQUEST = 20, BARRIER_REPLY = 21 };
enum { ADD = 0, MODIFY_STRICT = 2 };

static int peer;
static uint8_t come[1 << 21];
static size_t first, behind;

static void fail(const char *why) {
    fprintf(stderr, "controller: %s\n", why);
    exit(1);
}

static double now(void) {
    struct timespec t;
    clock_gettime(CLOCK_MONOTONIC, &t);
    return t.tv_sec + t.tv_nsec / 1e9;
}

static uint8_t *put(uint8_t *at, int bytes, uint64_t number) {
    while (bytes--) *at++ = number >> 8 * bytes;
    return at;
}

static uint64_t get(const uint8_t *at, int bytes) {
    uint64_t number = 0;
    while (bytes--) number = number << 8 | *at++;
    return number;
}

static uint8_t *put_head(uint8_t *at, int type, int length, uint32_t xid) {
    return put(put(put(put(at, 1, 4), 1, type), 2, length), 4, xid);
}

static void send_all(const uint8_t *bytes, size_t count) {
    while (count) {
        ssize_t sent = write(peer, bytes, count);
        if (sent <= 0) fail("the switch takes nothing more");
        bytes += sent, count -= sent;
    }
}

/* reads until so many bytes of the next message are there */
static void read_until(size_t count) {
    while (behind - first < count) {
        if (first) memmove(come, come + first, behind - first), behind -= first, first = 0;
        ssize_t more = read(peer, come + behind, sizeof come - behind);
        if (more <= 0) fail("the switch ended the connection");
        behind += more;
    }
}

static const uint8_t *next_message(void) {
    read_until(8);
    size_t length = get(come + first + 2, 2);
    read_until(length);
    uint8_t *message = come + first;
    first += length;
    if (message[1] == ERROR) fail("an ERROR");
    if (message[1] == ECHO_REQUEST) {
        message[1] = ECHO_REPLY;
        send_all(message, length);
    }
    return message;
}

static void barrier(uint32_t xid) {
    uint8_t request[8];
    put_head(request, BARRIER_REQUEST, 8, xid);
    send_all(request, 8);
    const uint8_t *message;
    do message = next_message();
    while (message[1] != BARRIER_REPLY || get(message + 4, 4) != xid);
}

/* a FLOW_MOD of 88 bytes for an ETH_DST of that number, whose flow has an OUTPUT to a port */
static uint8_t *put_flow_mod(uint8_t *at, int command, int table, uint64_t number, int port) {
    uint8_t *begin = at;
    memset(at, 0, 88);
    put_head(at, FLOW_MOD, 88, 9);
    put(put(at + 24, 1, table), 1, command);
    put(at + 30, 2, 10);
    memset(at + 32, 0xff, 12);
    put(put(put(put(at + 48, 2, 1), 2, 14), 4, 0x80000606), 6, number);
    put(put(at + 64, 2, 4), 2, 24);
    put(put(put(at + 72, 2, 0), 2, 16), 4, port);
    return begin + 88;
}

/* a PACKET_OUT of 100 bytes with a frame for the flow of that number, which goes through the tables */
static uint8_t *put_packet_out(uint8_t *at, uint64_t number) {
    uint8_t *begin = at;
    memset(at, 0, 100);
    put_head(at, PACKET_OUT, 100, 14);
    put(put(put(at + 8, 4, 0xffffffff), 4, 1), 2, 16);
    put(put(put(put(at + 24, 2, 0), 2, 16), 4, 0xfffffff9), 2, 0);
    put(put(put(at + 40, 6, number), 6, 0x020000000001), 2, 0x88b5);
    return begin + 100;
}

static void say(double figure, const char *what) {
    printf(figure < 100 ? "%.2f\t%s\n" : "%.0f\t%s\n", figure, what);
    fflush(stdout);
}

static void say_barriers(void) {
    double begin = now();
    for (uint32_t i = 0; i < BARRIERS; i++) barrier(10 + i);
    say(BARRIERS / (now() - begin), "barrier round trips/s");
}

static void say_echoes(void) {
    double begin = now();
    for (uint32_t i = 0; i < BARRIERS; i++) {
        uint8_t request[8];
        put_head(request, BARRIER_REQUEST, 8, i);
        send_all(request, 8);
        next_message();
    }
    say(BARRIERS / (now() - begin), "barrier round trips/s");
}

/* all ADDs in one piece, over so many tables */
static void say_stream(int tables, const char *what) {
    uint8_t *mods = malloc((size_t)STREAM * 88), *at = mods;
    for (int n = 0; n < STREAM; n++) at = put_flow_mod(at, ADD, n % tables, n / tables % PER_TABLE, 1 + n % 4);
    double begin = now();
    send_all(mods, at - mods);
    barrier(11);
    say(STREAM / (now() - begin), what);
    free(mods);
}

static void say_modifies(void) {
    double begin = now();
    for (int n = 0; n < MODIFIES; n++) {
        uint8_t mod[88];
        put_flow_mod(mod, MODIFY_STRICT, 0, n, 1 + n % 4);
        send_all(mod, 88);
        barrier(12);
    }
    say(MODIFIES / (now() - begin), "MODIFY and barrier, one by one/s");
}

/* FLOW statistics of table 1, which has 3,125 flows behind the stream over sixteen tables: the shortest of some dumps */
static void say_dump(void) {
    double least = 1e9;
    for (int n = 0; n < DUMPS; n++) {
        uint8_t request[56] = {0};
        put(put_head(request, MULTIPART_REQUEST, 56, 13), 2, 1);
        request[16] = 1;
        memset(request + 20, 0xff, 8);
        put(put(request + 48, 2, 1), 2, 4);
        double begin = now();
        send_all(request, 56);
        const uint8_t *message;
        do message = next_message();
        while (message[1] != MULTIPART_REPLY || get(message + 10, 2) & 1);
        double took = 1000 * (now() - begin);
        least = took < least ? took : least;
    }
    say(least, "dump of 3,125 flows, ms");
}

/* frames of which each made a row of the cache of table 0 */
static void fill_cache(void) {
    uint8_t *outs = malloc((size_t)2 * ROWS * 100), *at = outs;
    for (int n = 0; n < 2 * ROWS; n++) at = put_packet_out(at, n);
    send_all(outs, at - outs);
    barrier(15);
    free(outs);
}

static void connect_to(int port) {
    struct sockaddr_in at = {.sin_family = AF_INET, .sin_port = htons(port), .sin_addr = {htonl(INADDR_LOOPBACK)}};
    for (int tries = 0;; tries++) {
        peer = socket(AF_INET, SOCK_STREAM, 0);
        if (!connect(peer, (struct sockaddr *)&at, sizeof at)) break;
        if (tries == 300) fail("nobody listens");
        close(peer);
        usleep(20000);
    }
    int one = 1;
    setsockopt(peer, IPPROTO_TCP, TCP_NODELAY, &one, sizeof one);
}

static void measure_switch(void) {
    uint8_t hello[8];
    put_head(hello, HELLO, 8, 1);
    send_all(hello, 8);
    while (next_message()[1] != HELLO);
    barrier(2);
    say_barriers();
    say_stream(TABLES, "FLOW_MODs/s in one stream");
    say_modifies();
    say_dump();
    fill_cache();
    say_stream(1, "FLOW_MODs/s, one table, full cache");
}

int main(int count, char **words) {
    if (count < 2) fail("which port?");
    connect_to(atoi(words[1]));
    if (count > 2)
        say_echoes();
    else
        measure_switch();
}
