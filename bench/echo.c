/* A client that sends anonymous binds of 14 bytes and waits for replies of 14 bytes, and a server that sends
   back what it reads:
     echo serve PORT                 serves streams on loopback, one after the other
     echo ask PORT COUNT FLIGHT      sends COUNT requests, at most FLIGHT of them unanswered, and prints the
                                     requests a second */
#include <arpa/inet.h>
#include <netinet/tcp.h>
#include <stdio.h>
#include <stdlib.h>
#include <string.h>
#include <sys/socket.h>
#include <time.h>
#include <unistd.h>

enum { SIZE = 14, PIECE = 65536 };

static const unsigned char bind_request[SIZE] = {
    0x30, 0x0c, 0x02, 0x01, 0x01, 0x60, 0x07, 0x02, 0x01, 0x03, 0x04, 0x00, 0x80, 0x00};

static void stop(const char *why) { perror(why); exit(1); }

static struct sockaddr_in place(int port) {
    struct sockaddr_in found = {.sin_family = AF_INET, .sin_port = htons(port)};
    found.sin_addr.s_addr = htonl(INADDR_LOOPBACK);
    return found;
}

static void send_all(int stream, const unsigned char *bytes, size_t count) {
    while (count > 0) {
        ssize_t sent = write(stream, bytes, count);
        if (sent <= 0) stop("write");
        bytes += sent;
        count -= sent;
    }
}

static void no_delay(int stream) {
    int on = 1;
    setsockopt(stream, IPPROTO_TCP, TCP_NODELAY, &on, sizeof on);
}

static void serve(int port) {
    static unsigned char bytes[PIECE];
    struct sockaddr_in here = place(port);
    int on = 1, listener = socket(AF_INET, SOCK_STREAM, 0);
    setsockopt(listener, SOL_SOCKET, SO_REUSEADDR, &on, sizeof on);
    if (bind(listener, (struct sockaddr *)&here, sizeof here) || listen(listener, 16)) stop("listen");
    for (;;) {
        int stream = accept(listener, NULL, NULL);
        if (stream < 0) stop("accept");
        no_delay(stream);
        for (ssize_t count; (count = read(stream, bytes, PIECE)) > 0;) send_all(stream, bytes, count);
        close(stream);
    }
}

static double now(void) {
    struct timespec time;
    clock_gettime(CLOCK_MONOTONIC, &time);
    return time.tv_sec + time.tv_nsec / 1e9;
}

static int open_stream(int port) {
    struct sockaddr_in there = place(port);
    for (int tries = 0; tries < 500; tries++) {
        int stream = socket(AF_INET, SOCK_STREAM, 0);
        if (connect(stream, (struct sockaddr *)&there, sizeof there) == 0) return stream;
        close(stream);
        usleep(10000);
    }
    stop("connect");
    return -1;
}

static void ask(int port, long count, long flight) {
    static unsigned char requests[1024 * SIZE], replies[PIECE];
    for (int i = 0; i < 1024; i++) memcpy(requests + i * SIZE, bind_request, SIZE);
    int stream = open_stream(port);
    no_delay(stream);
    long sent = 0, heard = 0;
    double start = now();
    while (heard < count * SIZE) {
        long more = flight - (sent - heard / SIZE);
        if (more > count - sent) more = count - sent;
        if (more > 0) {
            send_all(stream, requests, more * SIZE);
            sent += more;
        }
        ssize_t got = read(stream, replies, PIECE);
        if (got <= 0) stop("read");
        heard += got;
    }
    printf("%.0f\n", count / (now() - start));
    close(stream);
}

int main(int count, char **words) {
    if (count == 3 && strcmp(words[1], "serve") == 0) serve(atoi(words[2]));
    long flight = count == 5 ? atol(words[4]) : 0;
    if (flight < 1 || flight > 1024) {
        fprintf(stderr, "echo serve PORT, or echo ask PORT COUNT FLIGHT (1 to 1024)\n");
        return 2;
    }
    ask(atoi(words[2]), atol(words[3]), flight);
    return 0;
}
