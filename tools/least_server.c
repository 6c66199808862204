/* The least that a server of audits does: it waits, reads a datagram, and answers its id. tools/beside runs it beside rgwd. */
#include <arpa/inet.h>
#include <stdio.h>
#include <stdlib.h>
#include <sys/epoll.h>
int main(int count, char **words)
{
    int by = socket(AF_INET, SOCK_DGRAM, 0), ready = epoll_create1(0), size;
    struct sockaddr_in from, own = {.sin_family = AF_INET, .sin_port = htons(atoi(words[count - 1])), .sin_addr.s_addr = htonl(INADDR_LOOPBACK)};
    struct epoll_event told = {.events = EPOLLIN};
    char text[4001], answer[64];
    socklen_t length = sizeof from;
    if (bind(by, (struct sockaddr *)&own, sizeof own) || epoll_ctl(ready, EPOLL_CTL_ADD, by, &told))
        return 1;
    while (epoll_wait(ready, &told, 1, -1) == 1)
        while ((size = recvfrom(by, text, sizeof text - 1, MSG_DONTWAIT, (struct sockaddr *)&from, &length)) > 5) {
            text[size] = 0, size = sprintf(answer, "200 %lu OK\r\n", strtoul(text + 5, NULL, 10)); /* a verb has four letters */
            sendto(by, answer, size, 0, (struct sockaddr *)&from, length);
        }
}
