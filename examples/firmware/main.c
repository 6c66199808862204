/*
 * A terminal adapter over the library: where a maker of one begins. It has a UDP socket, a clock, and a handset for each line; here that
 * is the console. A maker puts his own three functions in the place of console_*: what was done at a telephone, which tone is heard, and
 * where a call's sound goes. At the console "1 off", "1 on", "1 flash" and "1 5" are acts at line 1. SIGHUP reads the configuration
 * again, SIGTERM ends.
 *     cc -std=c99 -I../../include main.c librgw.a -o firmware
 *     firmware CONFIG [ADDRESS [PORT]]        2427 of all addresses where none is given
 */
#define _POSIX_C_SOURCE 200809L
#include "rgw.h"
#include <arpa/inet.h>
#include <errno.h>
#include <poll.h>
#include <signal.h>
#include <stdio.h>
#include <stdlib.h>
#include <string.h>
#include <time.h>
#include <unistd.h>

enum { SIGNALS = RGW_CONFIRM, ROOM = 65536 };

/* What stands behind the lines: where acts come from, for poll (below 0 where nothing comes any more); the next act, once that can be read
 * (1, or 0 where there is none); that a signal of a line begins or ends; and that what is at a place for a connection changed (null where
 * nothing is there any more). */
typedef struct handset {
    int fd;
    int (*act)(struct handset *handset, uint16_t *line, uint32_t *act);
    void (*tone)(struct handset *handset, uint16_t line, unsigned signal, int is_on);
    void (*media)(struct handset *handset, uint16_t line, uint16_t place, const rgw_connection_info *held);
} handset;

/* A gateway with its socket, its clock and its handsets, and what was last told of each line. */
typedef struct adapter {
    rgw_gateway gateway;
    int socket;
    uint64_t began;
    handset *handset;
    unsigned char is_on[RGW_MOST_LINES + 1][SIGNALS + 1];
    rgw_connection_info held[RGW_MOST_LINES + 1][RGW_PLACES];
} adapter;

/* A signal is a byte in a pipe, so that poll wakes up for it. */
static int signals[2];

static void on_signal(int number) {
    unsigned char byte = (unsigned char)number;
    int kept = errno;
    if (write(signals[1], &byte, 1) < 0) errno = kept;
}

static uint64_t milliseconds(clockid_t clock) {
    struct timespec now;
    clock_gettime(clock, &now);
    return (uint64_t)now.tv_sec * 1000 + (uint64_t)now.tv_nsec / 1000000;
}

static int console_act(handset *console, uint16_t *line, uint32_t *act) {
    char text[64], word[16];
    unsigned number;
    if (fgets(text, sizeof text, stdin) == NULL) console->fd = -1;
    if (console->fd < 0 || sscanf(text, "%5u %15s", &number, word) != 2 || number > 65535) return 0;
    *line = (uint16_t)number;
    *act = word[1] == '\0' ? (uint32_t)(unsigned char)word[0] : 0;
    if (strcmp(word, "off") == 0) *act = RGW_OFF_HOOK;
    if (strcmp(word, "on") == 0) *act = RGW_ON_HOOK;
    if (strcmp(word, "flash") == 0) *act = RGW_FLASH;
    return 1;
}

static void console_tone(handset *console, uint16_t line, unsigned signal, int is_on) {
    static const char *const names[] = {"", "L/dl", "L/bz", "L/ro", "L/rg", "L/rs", "L/vmwi", "G/rt", "G/cg", "G/cf"};
    (void)console;
    printf("line %u: %s %s\n", line, names[signal], is_on ? "on" : "off");
}

static void console_media(handset *console, uint16_t line, uint16_t place, const rgw_connection_info *held) {
    struct in_addr host = {held == NULL ? 0 : htonl(held->remote_host)};
    (void)console;
    if (held == NULL) printf("line %u: place %u is empty\n", line, place);
    else printf("line %u: place %u receives at port %u, sends to %s:%u, mode %u, payload %u, %u ms\n", line, place, held->local_port,
                inet_ntoa(host), held->remote_port, held->mode, held->first_payload, held->packet_time);
}

/* Sends what the last event gave. What the network refuses is lost, as any datagram may be: the gateway sends again what matters. */
static void send_outputs(adapter *adapter) {
    static uint8_t bytes[ROOM];
    struct sockaddr_in to = {.sin_family = AF_INET};
    rgw_output_info output;
    size_t len;
    for (size_t i = 0; rgw_output(&adapter->gateway, i, &output, bytes, sizeof bytes, &len) == RGW_OK; i++) {
        to.sin_addr.s_addr = htonl(output.host);
        to.sin_port = htons(output.port);
        if (sendto(adapter->socket, bytes, len, 0, (struct sockaddr *)&to, sizeof to) < 0) perror("sendto");
    }
}

/* Tells a line's handset what it hears, and where its sound goes, as far as that changed. */
static void tell_line(adapter *adapter, uint16_t line) {
    unsigned char is_on[SIGNALS + 1] = {0};
    rgw_signal_info signal;
    for (size_t i = 0; rgw_signal(&adapter->gateway, line, i, &signal) == RGW_OK; i++) is_on[signal.signal] = 1;
    for (unsigned s = 1; s <= SIGNALS; s++)
        if (is_on[s] != adapter->is_on[line][s]) adapter->handset->tone(adapter->handset, line, s, is_on[s]);
    memcpy(adapter->is_on[line], is_on, sizeof is_on);
    for (uint16_t place = 0; place < RGW_PLACES; place++) {
        rgw_connection_info now = {0}, *was = &adapter->held[line][place];
        int is_there = rgw_connection(&adapter->gateway, line, place, &now) == RGW_OK;
        if (memcmp(&now, was, sizeof now) == 0) continue;
        *was = now;
        adapter->handset->media(adapter->handset, line, place, is_there ? was : NULL);
    }
}

/* What an event did: datagrams go out, and the handsets are told, also of lines that are no more. What is refused did nothing. */
static rgw_result follow(adapter *adapter, rgw_result result, const char *event) {
    if (result != RGW_OK) fprintf(stderr, "%s: %s\n", event, rgw_strerror(result));
    else send_outputs(adapter);
    for (uint16_t line = 1; line <= RGW_MOST_LINES; line++) tell_line(adapter, line);
    fflush(stdout);
    return result;
}

/* The clock goes on to now, in steps that the gateway takes. Where memory is refused the next turn goes on from there. */
static void catch_up(adapter *adapter) {
    uint64_t now = 0, real = milliseconds(CLOCK_MONOTONIC) - adapter->began;
    rgw_now(&adapter->gateway, &now);
    while (now < real) {
        now = real - now > RGW_LARGEST_TICK ? now + RGW_LARGEST_TICK : real;
        if (follow(adapter, rgw_tick(&adapter->gateway, now), "tick") != RGW_OK) return;
    }
}

/* How long poll may wait, in ms: until something is due, but no longer than a tick may be. */
static int longest_wait(adapter *adapter) {
    uint64_t due, now = 0;
    rgw_now(&adapter->gateway, &now);
    if (rgw_next_due(&adapter->gateway, &due) != RGW_OK || due > now + RGW_LARGEST_TICK) return RGW_LARGEST_TICK;
    return due > now ? (int)(due - now) : 0;
}

static void take_datagram(adapter *adapter) {
    static uint8_t bytes[ROOM];
    struct sockaddr_in from;
    socklen_t size = sizeof from;
    ssize_t len = recvfrom(adapter->socket, bytes, sizeof bytes, MSG_DONTWAIT, (struct sockaddr *)&from, &size);
    if (len >= 0)
        follow(adapter, rgw_datagram(&adapter->gateway, ntohl(from.sin_addr.s_addr), ntohs(from.sin_port), bytes, (size_t)len), "datagram");
}

/* Opens a gateway of the configuration in a file in the place of the one that there is; where there is a fault, that one goes on. */
static rgw_result open_gateway(adapter *adapter, const char *path) {
    static char text[RGW_LONGEST_CONFIG + 1];
    char flaw[1024] = "";
    rgw_gateway fresh = RGW_CLOSED;
    FILE *file = fopen(path, "rb");
    size_t len = file == NULL ? 0 : fread(text, 1, sizeof text, file), needed = 0;
    if (file == NULL) perror(path);
    else fclose(file);
    rgw_result result = rgw_check(text, len, flaw, sizeof flaw - 1, &needed);
    /* Ids begin elsewhere than at the last start (RFC 3435, 3.2.1.2). */
    if (result == RGW_OK) result = rgw_open(&fresh, text, len, (uint32_t)(milliseconds(CLOCK_REALTIME) / 50 % RGW_FIRSTS));
    if (result == RGW_OK) {
        rgw_close(&adapter->gateway);
        adapter->gateway = fresh;
        adapter->began = milliseconds(CLOCK_MONOTONIC);
    }
    return follow(adapter, result, result == RGW_HAS_FLAW ? flaw : path);
}

static int open_socket(const char *address, const char *port) {
    struct sockaddr_in here = {.sin_family = AF_INET, .sin_port = htons((uint16_t)strtoul(port, NULL, 10))};
    int fd = socket(AF_INET, SOCK_DGRAM, 0);
    if (inet_pton(AF_INET, address, &here.sin_addr) == 1 && bind(fd, (struct sockaddr *)&here, sizeof here) == 0) return fd;
    perror(address);
    return -1;
}

/* Serves until SIGTERM or SIGINT comes. */
static void serve(adapter *adapter, const char *path) {
    for (;;) {
        struct pollfd ready[3] = {{adapter->socket, POLLIN, 0}, {adapter->handset->fd, POLLIN, 0}, {signals[0], POLLIN, 0}};
        unsigned char number;
        uint16_t line;
        uint32_t act;
        if (poll(ready, 3, longest_wait(adapter)) < 0 && errno != EINTR) return;
        catch_up(adapter);
        if (ready[0].revents) take_datagram(adapter);
        if (ready[1].revents && adapter->handset->act(adapter->handset, &line, &act))
            follow(adapter, rgw_phone(&adapter->gateway, line, act), "phone");
        if (ready[2].revents && read(signals[0], &number, 1) == 1) {
            if (number != SIGHUP) return;
            open_gateway(adapter, path);
        }
    }
}

int main(int count, char **words) {
    static const int caught[] = {SIGTERM, SIGINT, SIGHUP};
    static adapter here = {.gateway = RGW_CLOSED};
    handset console = {STDIN_FILENO, console_act, console_tone, console_media};
    struct sigaction action = {.sa_handler = on_signal};
    if (count < 2 || count > 4) return fprintf(stderr, "usage: %s CONFIG [ADDRESS [PORT]]\n", words[0]), 2;
    here.handset = &console;
    here.socket = open_socket(count > 2 ? words[2] : "0.0.0.0", count > 3 ? words[3] : "2427");
    if (here.socket < 0 || pipe(signals) < 0 || rgw_version() != RGW_VERSION_NUMBER || open_gateway(&here, words[1]) != RGW_OK) return 1;
    setvbuf(stdin, NULL, _IONBF, 0); /* what fgets took ahead, poll wouldn't tell */
    for (size_t i = 0; i < sizeof caught / sizeof *caught; i++) sigaction(caught[i], &action, NULL);
    fprintf(stderr, "serving\n");
    serve(&here, words[1]);
    close(here.socket);
    rgw_close(&here.gateway);
    fprintf(stderr, "ended\n");
    return 0;
}
