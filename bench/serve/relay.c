// A bare relay of octets on loopback: what a connection of a pair sends goes to the other one, and nobody looks at it.
// It is what an exchange is measured against: the least that any program between two connections does.
//
// usage: relay BASE PAIRS [THREADS]
//   Pair i is joined between the ports BASE + 2i and BASE + 2i + 1. The pairs are shared among the threads (1).
#define _GNU_SOURCE
#include <arpa/inet.h>
#include <errno.h>
#include <netinet/tcp.h>
#include <pthread.h>
#include <signal.h>
#include <stdbool.h>
#include <stdint.h>
#include <stdio.h>
#include <stdlib.h>
#include <sys/epoll.h>
#include <sys/socket.h>
#include <unistd.h>

enum { ROOM = 65536, BATCH = 64 };

// One side of a pair, with the octets of its connection that the far side has not taken yet.
struct side {
  int listener, connection;  // connection: -1 for none
  int epoll;
  uint32_t watched;
  struct side *far;
  size_t held, written;
  char octets[ROOM];
};

struct worker {
  int epoll;
  struct side *sides;
  size_t first, end;
};

static void fail(const char *what) {
  perror(what);
  exit(1);
}

static int listen_on(int port) {
  int one = 1, socket_ = socket(AF_INET, SOCK_STREAM | SOCK_NONBLOCK, 0);
  struct sockaddr_in at = {.sin_family = AF_INET, .sin_port = htons((uint16_t)port)};
  at.sin_addr.s_addr = htonl(INADDR_LOOPBACK);
  setsockopt(socket_, SOL_SOCKET, SO_REUSEADDR, &one, sizeof one);
  if (bind(socket_, (struct sockaddr *)&at, sizeof at) || listen(socket_, 4)) fail("relay: listen");
  return socket_;
}

// A side's events come with the side; those of its listener with the lowest bit of the address set.
static void watch(struct side *side, int descriptor, int operation, uint32_t events, bool listener) {
  struct epoll_event event = {.events = events, .data.u64 = (uint64_t)(uintptr_t)side | (listener ? 1 : 0)};
  if (epoll_ctl(side->epoll, operation, descriptor, &event)) fail("relay: epoll");
}

// A side is read once its octets are gone, and written while the far side holds some.
static void watch_again(struct side *side) {
  uint32_t events = (side->held == 0 ? EPOLLIN : 0) | (side->far->held > 0 ? EPOLLOUT : 0);
  if (events != side->watched) watch(side, side->connection, EPOLL_CTL_MOD, events, false);
  side->watched = events;
}

// A connection that waits while the side has another one is taken after that.
static void come(struct side *side) {
  int one = 1, connection;
  if (side->connection >= 0 || (connection = accept4(side->listener, NULL, NULL, SOCK_NONBLOCK)) < 0) return;
  setsockopt(connection, IPPROTO_TCP, TCP_NODELAY, &one, sizeof one);
  side->connection = connection;
  if (side->far->connection < 0) return;
  watch(side, side->connection, EPOLL_CTL_ADD, side->watched = EPOLLIN, false);
  watch(side->far, side->far->connection, EPOLL_CTL_ADD, side->far->watched = EPOLLIN, false);
}

static void part(struct side *side) {
  struct side *both[] = {side, side->far};
  for (int i = 0; i < 2; i++) {
    close(both[i]->connection);
    both[i]->connection = -1;
    both[i]->held = 0;
  }
  come(side);
  come(side->far);
}

static void pass_on(struct side *side) {
  ssize_t count = write(side->far->connection, side->octets + side->written, side->held - side->written);
  if (count < 0 && errno != EAGAIN) return part(side);
  if (count > 0) side->written += (size_t)count;
  if (side->written == side->held) side->held = 0;
  watch_again(side);
  watch_again(side->far);
}

static void take_in(struct side *side) {
  ssize_t count = read(side->connection, side->octets, ROOM);
  if (count < 0 && errno == EAGAIN) return;
  if (count <= 0) return part(side);
  side->held = (size_t)count;
  side->written = 0;
  pass_on(side);
}

static void act(struct epoll_event event) {
  struct side *side = (struct side *)(uintptr_t)(event.data.u64 & ~UINT64_C(1));
  if (event.data.u64 & 1) return come(side);
  if (side->connection >= 0 && side->far->held > 0 && (event.events & EPOLLOUT)) pass_on(side->far);
  if (side->connection >= 0 && side->held == 0 && (event.events & (EPOLLIN | EPOLLHUP | EPOLLERR))) take_in(side);
}

static void *work(void *given) {
  struct worker *worker = given;
  struct epoll_event events[BATCH];
  for (size_t i = worker->first; i < worker->end; i++) {
    worker->sides[i].epoll = worker->epoll;
    watch(&worker->sides[i], worker->sides[i].listener, EPOLL_CTL_ADD, EPOLLIN | EPOLLET, true);
  }
  for (;;) {
    int count = epoll_wait(worker->epoll, events, BATCH, -1);
    for (int i = 0; i < count; i++) act(events[i]);
  }
  return NULL;
}

static struct side *prepare(int base, size_t pairs) {
  struct side *sides = calloc(2 * pairs, sizeof *sides);
  if (!sides) fail("relay: memory");
  for (size_t i = 0; i < 2 * pairs; i++) {
    sides[i].listener = listen_on(base + (int)i);
    sides[i].connection = -1;
    sides[i].far = &sides[i ^ 1];
  }
  return sides;
}

int main(int count, char **given) {
  if (count < 3) return 2;
  size_t pairs = strtoul(given[2], NULL, 10), threads = count > 3 ? strtoul(given[3], NULL, 10) : 1;
  if (pairs == 0 || threads == 0) return 2;
  struct side *sides = prepare(atoi(given[1]), pairs);
  signal(SIGPIPE, SIG_IGN);
  for (size_t i = 0; i < threads; i++) {
    struct worker *worker = malloc(sizeof *worker);
    pthread_t thread;
    if (!worker) fail("relay: memory");
    *worker = (struct worker){epoll_create1(0), sides, 2 * (pairs * i / threads), 2 * (pairs * (i + 1) / threads)};
    if (pthread_create(&thread, NULL, work, worker)) fail("relay: thread");
  }
  pause();
}
