// Both ends of calls, as XOT over TCP, against an exchange or a bare relay: the octets are the same for both.
//
// usage: load BASE PAIRS WINDOW SECONDS THREADS [GAP]
//   The caller of pair i is the line on port BASE + 2i, the called line that on BASE + 2i + 1, with the address 30
//   and i in four digits. Each line connects and sends a clear request, which is confirmed once the line is up. Then
//   each pair sets up a call with the window, its caller sends data packets of 128 octets for SECONDS, as many as the
//   window lets it, the called line acknowledges each by RR, and the caller clears. The pairs are shared among THREADS.
//   With GAP a caller sends one packet every GAP milliseconds instead.
//
// Prints one line of JSON: packets, seconds, what times were taken (microseconds), and the packets of each call.
// A time is that from a packet's sending to the RR for it, or with GAP to its arrival at the called line.
#define _GNU_SOURCE
#include <arpa/inet.h>
#include <errno.h>
#include <netinet/tcp.h>
#include <pthread.h>
#include <signal.h>
#include <stdbool.h>
#include <stdint.h>
#include <stdio.h>
#include <stdlib.h>
#include <string.h>
#include <sys/epoll.h>
#include <sys/socket.h>
#include <time.h>
#include <unistd.h>

enum { DATA = 128, ROOM = 16384, BATCH = 64, PATIENCE = 30 };  // patience: seconds
enum { CALL = 0x0b, ACCEPTED = 0x0f, CLEAR = 0x13, CONFIRMATION = 0x17, READY = 0x01 };

enum state { RISING, UP, CONNECTED, CLEARING, ENDED };

struct line {
  int socket, port;
  size_t pair;
  bool calls;
  enum state state;
  struct line *far;
  unsigned char in[ROOM];
  size_t have;
  uint64_t sent, acknowledged, received;  // data packets: the first two of a caller, the last of a called line
  double sent_at[8], next;
};

struct player {
  pthread_t thread;
  int epoll;
  struct line *lines;
  size_t count;
  double *times;
  size_t taken, room;
  double done;  // when its last data packet was acknowledged
};

static int window;
static double seconds, gap, begun;  // begun: 0 until the data packets begin
static pthread_barrier_t all;

static double now(void) {
  struct timespec time;
  clock_gettime(CLOCK_MONOTONIC, &time);
  return (double)time.tv_sec + (double)time.tv_nsec / 1e9;
}

// The line's call is being cleared, by whichever end. From then on the end of a connection is no fault: an exchange
// that has made its last record closes all of them.
static bool is_clearing(const struct line *line) {
  return line->state >= CLEARING || line->far->state >= CLEARING;
}

static void fail(const struct line *line, const char *what) {
  fprintf(stderr, "load: port %d: %s\n", line->port, what);
  exit(1);
}

static void unexpected(const struct line *line, const unsigned char *packet, size_t length) {
  fprintf(stderr, "load: port %d: a packet that is not due:", line->port);
  for (size_t i = 0; i < length && i < 16; i++) fprintf(stderr, " %02x", packet[i]);
  fprintf(stderr, "\n");
  exit(1);
}

// Tries for ten seconds, since the ports may not be open yet.
static int connect_to(const struct line *line) {
  struct sockaddr_in at = {.sin_family = AF_INET, .sin_port = htons((uint16_t)line->port)};
  struct timespec pause = {0, 20 * 1000 * 1000};
  int one = 1;
  at.sin_addr.s_addr = htonl(INADDR_LOOPBACK);
  for (int i = 0; i < 3000; i++) {
    int made = socket(AF_INET, SOCK_STREAM, 0);
    if (!connect(made, (struct sockaddr *)&at, sizeof at)) {
      setsockopt(made, IPPROTO_TCP, TCP_NODELAY, &one, sizeof one);
      return made;
    }
    close(made);
    nanosleep(&pause, NULL);
  }
  fail(line, "no connection");
  return -1;
}

// Writing =====================================================================================================

// Each packet is written by itself, as by terminals that have nothing to do with each other. What is under way fits
// into the socket's buffer, so that a write does not wait for the other end.
static void put(struct line *line, const unsigned char *packet, size_t length) {
  unsigned char frame[4 + 3 + DATA] = {0, 0, (unsigned char)(length >> 8), (unsigned char)length};
  memcpy(frame + 4, packet, length);
  ssize_t count = write(line->socket, frame, 4 + length);
  if (count != (ssize_t)(4 + length) && !is_clearing(line)) fail(line, "the connection has ended");
}

static void put_short(struct line *line, unsigned char type) {
  put(line, (unsigned char[]){0x10, 1, type}, 3);
}

static void put_clear(struct line *line) {
  put(line, (unsigned char[]){0x10, 1, CLEAR, 0, 0}, 5);
}

static void put_call(struct line *line) {
  size_t pair = line->pair;
  unsigned char packet[] = {0x10, 1, CALL, 6, 0x30, 0, 0, 3, 0x43, (unsigned char)window, (unsigned char)window};
  packet[5] = (unsigned char)(pair / 1000 << 4 | pair / 100 % 10);
  packet[6] = (unsigned char)(pair / 10 % 10 << 4 | pair % 10);
  put(line, packet, sizeof packet);
}

static void put_data(struct line *line, double time) {
  static const unsigned char text[DATA] = "The quick brown fox jumps over the lazy dog. ";
  unsigned char packet[3 + DATA] = {0x10, 1, (unsigned char)(line->sent % 8 << 1)};
  memcpy(packet + 3, text, DATA);
  put(line, packet, sizeof packet);
  line->sent_at[line->sent % 8] = time;
  line->sent++;
}

// As many data packets as the caller may send now.
static void stream(struct line *line, double time) {
  if (time >= begun + seconds) return;
  while (line->sent - line->acknowledged < (uint64_t)window && time >= line->next) {
    put_data(line, time);
    line->next += gap;
  }
}

// Reading =====================================================================================================

static void take_time(struct player *player, double time) {
  if (player->taken == player->room) {
    player->room = player->room ? 2 * player->room : 4096;
    player->times = realloc(player->times, player->room * sizeof *player->times);
    if (!player->times) exit(1);
  }
  player->times[player->taken++] = time;
}

static void receive_data(struct player *player, struct line *line, const unsigned char *packet, size_t length, double time) {
  bool is_next = (packet[2] >> 1 & 7) == line->received % 8;
  if (!is_next || length != 3 + DATA || line->state != CONNECTED) unexpected(line, packet, length);
  if (gap > 0) take_time(player, time - line->far->sent_at[line->received % 8]);
  line->received++;
  put_short(line, (unsigned char)(line->received % 8 << 5 | READY));
}

static void acknowledge(struct player *player, struct line *line, const unsigned char *packet, size_t length, double time) {
  while (line->acknowledged % 8 != packet[2] >> 5) {
    if (line->acknowledged == line->sent) unexpected(line, packet, length);
    if (gap == 0) take_time(player, time - line->sent_at[line->acknowledged % 8]);
    line->acknowledged++;
  }
}

// A clear request, or a clear indication: through a relay one end's is the other's.
static void receive_clear(struct line *line, const unsigned char *packet, size_t length) {
  if (line->state == CONNECTED && !is_clearing(line)) unexpected(line, packet, length);
  put_short(line, CONFIRMATION);
  if (line->state == CONNECTED) line->state = ENDED;
}

static void receive(struct player *player, struct line *line, const unsigned char *packet, size_t length, double time) {
  unsigned char type = packet[2];
  if (!(type & 1)) return receive_data(player, line, packet, length, time);
  if ((type & 0x1f) == READY && line->calls) return acknowledge(player, line, packet, length, time);
  if (type == CLEAR) return receive_clear(line, packet, length);
  if (type == CALL && line->state == UP) {
    put_short(line, ACCEPTED);
    line->state = CONNECTED;
  } else if (type == ACCEPTED && line->state == UP) {
    line->state = CONNECTED;
  } else if (type == CONFIRMATION && line->state == RISING) {
    line->state = UP;
  } else if (type == CONFIRMATION && line->state == CLEARING) {
    line->state = ENDED;
  } else {
    unexpected(line, packet, length);
  }
}

// Each whole packet, and where the octets of the next one begin.
static void receive_all(struct player *player, struct line *line, double time) {
  size_t at = 0;
  while (line->have - at >= 4) {
    size_t length = (size_t)line->in[at + 2] << 8 | line->in[at + 3];
    if (length < 3 || length > 1028) fail(line, "no frame");
    if (line->have - at < 4 + length) break;
    receive(player, line, line->in + at + 4, length, time);
    at += 4 + length;
  }
  memmove(line->in, line->in + at, line->have - at);
  line->have -= at;
}

static void read_in(struct player *player, struct line *line) {
  ssize_t count = read(line->socket, line->in + line->have, ROOM - line->have);
  double time = now();
  if (count <= 0) {
    if (!is_clearing(line)) fail(line, "the connection has ended");
    line->state = ENDED;
    epoll_ctl(player->epoll, EPOLL_CTL_DEL, line->socket, NULL);
    return;
  }
  line->have += (size_t)count;
  receive_all(player, line, time);
  if (line->calls && line->state == CONNECTED && begun > 0) stream(line, time);
}

// Playing =====================================================================================================

static bool is_up(const struct line *line) { return line->state == UP; }
static bool is_connected(const struct line *line) { return line->state == CONNECTED; }
static bool is_done(const struct line *line) { return now() >= begun + seconds && line->sent == line->acknowledged; }
static bool is_ended(const struct line *line) { return line->state == ENDED; }

static bool all_are(const struct player *player, bool (*wanted)(const struct line *)) {
  for (size_t i = 0; i < player->count; i++)
    if (!wanted(&player->lines[i])) return false;
  return true;
}

// Milliseconds until the next packet is to be sent, where the clock tells that. Callers stand at the even places.
static int milliseconds(const struct player *player) {
  double time = now(), next = time + PATIENCE;
  for (size_t i = 0; i < player->count && gap > 0 && begun > 0; i += 2) {
    const struct line *line = &player->lines[i];
    bool may = line->sent - line->acknowledged < (uint64_t)window;
    if (may && line->next < next) next = line->next;
  }
  return next > time ? (int)((next - time) * 1e3) + 1 : 0;
}

static void send_due(struct player *player) {
  double time = now();
  for (size_t i = 0; i < player->count; i += 2) stream(&player->lines[i], time);
}

// Reads and answers until all lines are as wanted, which is looked at after each batch of events.
static void play(struct player *player, bool (*wanted)(const struct line *)) {
  struct epoll_event events[BATCH];
  double last = now() + seconds + PATIENCE;
  while (!all_are(player, wanted)) {
    int count = epoll_wait(player->epoll, events, BATCH, milliseconds(player));
    if (now() > last) fail(player->lines, "nothing more comes");
    for (int i = 0; i < count; i++) read_in(player, events[i].data.ptr);
    if (gap > 0 && wanted == is_done) send_due(player);
  }
}

static void connect_all(struct player *player) {
  for (size_t i = 0; i < player->count; i++) {
    struct line *line = &player->lines[i];
    struct epoll_event event = {.events = EPOLLIN, .data.ptr = line};
    line->socket = connect_to(line);
    epoll_ctl(player->epoll, EPOLL_CTL_ADD, line->socket, &event);
    put_clear(line);
  }
}

static void call_all(struct player *player) {
  for (size_t i = 0; i < player->count; i += 2) put_call(&player->lines[i]);
}

static void clear_all(struct player *player) {
  for (size_t i = 0; i < player->count; i += 2) {
    player->lines[i].state = CLEARING;
    put_clear(&player->lines[i]);
  }
}

// All threads come to a barrier before the calls, and the last of them tells when the data begins.
static void *run(void *given) {
  struct player *player = given;
  connect_all(player);
  play(player, is_up);
  pthread_barrier_wait(&all);
  call_all(player);
  play(player, is_connected);
  if (pthread_barrier_wait(&all) == PTHREAD_BARRIER_SERIAL_THREAD) begun = now();
  pthread_barrier_wait(&all);
  for (size_t i = 0; i < player->count; i++) player->lines[i].next = begun;
  send_due(player);
  play(player, is_done);
  player->done = now();
  pthread_barrier_wait(&all);
  clear_all(player);
  play(player, is_ended);
  return NULL;
}

// Setting up and telling ======================================================================================

static struct line *prepare(int base, size_t pairs) {
  struct line *lines = calloc(2 * pairs, sizeof *lines);
  if (!lines) exit(1);
  for (size_t i = 0; i < 2 * pairs; i++) {
    lines[i].port = base + (int)i;
    lines[i].pair = i / 2;
    lines[i].calls = i % 2 == 0;
    lines[i].far = &lines[i ^ 1];
  }
  return lines;
}

static int compare(const void *one, const void *other) {
  double left = *(const double *)one, right = *(const double *)other;
  return (left > right) - (left < right);
}

// The times of all players as those of one, in order.
static void gather(struct player *into, const struct player *players, size_t threads) {
  for (size_t i = 0; i < threads; i++) {
    for (size_t k = 0; k < players[i].taken; k++) take_time(into, players[i].times[k]);
    if (players[i].done > into->done) into->done = players[i].done;
  }
  qsort(into->times, into->taken, sizeof *into->times, compare);
}

static void tell(const struct player *of, const struct line *lines, size_t pairs) {
  double sum = 0;
  size_t last = of->taken - 1;
  for (size_t i = 0; i <= last; i++) sum += of->times[i];
  printf("{\"seconds\": %.6f, \"times\": %zu, ", of->done - begun, of->taken);
  printf("\"mean\": %.2f, \"median\": %.2f, ", sum / (double)of->taken * 1e6, of->times[of->taken / 2] * 1e6);
  printf("\"p99\": %.2f, \"most\": %.2f, ", of->times[last - of->taken / 100] * 1e6, of->times[last] * 1e6);
  printf("\"packets\": [");
  for (size_t i = 0; i < pairs; i++) printf(i == 0 ? "%lu" : ", %lu", (unsigned long)lines[2 * i].sent);
  printf("]}\n");
}

int main(int count, char **given) {
  if (count < 6) return 2;
  size_t pairs = strtoul(given[2], NULL, 10), threads = strtoul(given[5], NULL, 10);
  window = atoi(given[3]);
  seconds = atof(given[4]);
  gap = count > 6 ? atof(given[6]) / 1e3 : 0;
  if (pairs == 0 || pairs > 9999 || threads == 0 || window < 1 || window > 7 || seconds <= 0) return 2;
  struct line *lines = prepare(atoi(given[1]), pairs);
  struct player *players = calloc(threads, sizeof *players), whole = {0};
  if (!players) return 1;
  signal(SIGPIPE, SIG_IGN);
  pthread_barrier_init(&all, NULL, (unsigned)threads);
  for (size_t i = 0; i < threads; i++) {
    size_t first = 2 * (pairs * i / threads), end = 2 * (pairs * (i + 1) / threads);
    players[i] = (struct player){.epoll = epoll_create1(0), .lines = lines + first, .count = end - first};
    if (pthread_create(&players[i].thread, NULL, run, &players[i])) return 1;
  }
  for (size_t i = 0; i < threads; i++) pthread_join(players[i].thread, NULL);
  gather(&whole, players, threads);
  if (whole.taken == 0) fail(lines, "no packet went through");
  tell(&whole, lines, pairs);
  return 0;
}
