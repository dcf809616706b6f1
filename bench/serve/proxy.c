// A bare TCP proxy on loopback: it opens a connection for each connection that comes, and moves the octets between the two until
// both ends have closed theirs. It is what an exchange of routers is measured against, whose calls have two connections each.
//
// usage: proxy PORT TO_ADDRESS TO_PORT THREADS
//   Listens on 127.0.0.1, PORT. Each thread has one connection at a time.
#define _GNU_SOURCE
#include <arpa/inet.h>
#include <netinet/tcp.h>
#include <poll.h>
#include <pthread.h>
#include <signal.h>
#include <stdbool.h>
#include <stdio.h>
#include <stdlib.h>
#include <sys/socket.h>
#include <unistd.h>

enum { ROOM = 4096, BACKLOG = 1024, STACK = 128 * 1024 };

static int listener;
static struct sockaddr_in target;

static void fail(const char *what) {
  perror(what);
  exit(1);
}

// Moves what has come. Returns whether more may come.
static bool move(int from, int to) {
  char octets[ROOM];
  ssize_t count = read(from, octets, sizeof octets);
  if (count > 0 && write(to, octets, (size_t)count) == count) return true;
  shutdown(to, SHUT_WR);
  return false;
}

static void join(int near, int far) {
  struct pollfd ends[2] = {{.fd = near, .events = POLLIN}, {.fd = far, .events = POLLIN}};
  while (ends[0].fd >= 0 || ends[1].fd >= 0) {
    if (poll(ends, 2, -1) < 0) fail("proxy: poll");
    if (ends[0].revents && !move(near, far)) ends[0].fd = -1;
    if (ends[1].revents && !move(far, near)) ends[1].fd = -1;
    ends[0].revents = ends[1].revents = 0;
  }
}

static void *serve(void *unused) {
  int one = 1;
  for (;;) {
    int near = accept(listener, NULL, NULL), far = socket(AF_INET, SOCK_STREAM, 0);
    if (near < 0) fail("proxy: accept");
    setsockopt(near, IPPROTO_TCP, TCP_NODELAY, &one, sizeof one);
    setsockopt(far, IPPROTO_TCP, TCP_NODELAY, &one, sizeof one);
    if (!connect(far, (struct sockaddr *)&target, sizeof target)) join(near, far);
    close(near);
    close(far);
  }
  return unused;
}

int main(int count, char **words) {
  if (count != 5) {
    fprintf(stderr, "usage: proxy PORT TO_ADDRESS TO_PORT THREADS\n");
    return 2;
  }
  int one = 1, threads = atoi(words[4]);
  struct sockaddr_in at = {.sin_family = AF_INET, .sin_port = htons((uint16_t)atoi(words[1]))};
  at.sin_addr.s_addr = htonl(INADDR_LOOPBACK);
  target = (struct sockaddr_in){.sin_family = AF_INET, .sin_port = htons((uint16_t)atoi(words[3]))};
  inet_aton(words[2], &target.sin_addr);
  signal(SIGPIPE, SIG_IGN);
  listener = socket(AF_INET, SOCK_STREAM, 0);
  setsockopt(listener, SOL_SOCKET, SO_REUSEADDR, &one, sizeof one);
  if (bind(listener, (struct sockaddr *)&at, sizeof at) || listen(listener, BACKLOG)) fail("proxy: listen");
  pthread_attr_t small;
  pthread_attr_init(&small);
  pthread_attr_setstacksize(&small, STACK);
  for (int i = 0; i < threads; i++) {
    pthread_t thread;
    if (pthread_create(&thread, &small, serve, NULL)) fail("proxy: thread");
  }
  pause();
}
