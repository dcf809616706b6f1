// Two XOT routers (RFC 1613): one places calls, each in a connection of its own, and the other takes them. The octets are the same
// through an exchange and through a bare proxy.
//
// usage: router_load ADDRESS PORT FROM_ADDRESS AT_ADDRESS AT_PORT DIALLED CALLS DATA SECONDS
//   CALLS threads at FROM_ADDRESS connect to ADDRESS, PORT, again and again for SECONDS. Each call is requested to the DIALLED
//   address, of an even number of digits, accepted by the other router, which listens at AT_ADDRESS, AT_PORT, carries DATA data
//   packets of 128 octets, 0 to 7, each acknowledged by RR before the next, and is cleared by its caller. Then its connections end.
//   A call that is cleared before it was answered, since no line was free, is counted as turned away, and tried again.
//
// Prints one line of JSON: calls, turned away, seconds, and the mean and the 99th percentile of the time of a call (microseconds).
#define _GNU_SOURCE
#include <arpa/inet.h>
#include <errno.h>
#include <netinet/tcp.h>
#include <pthread.h>
#include <signal.h>
#include <stdbool.h>
#include <stdint.h>
#include <stdio.h>
#include <stdlib.h>
#include <string.h>
#include <sys/socket.h>
#include <sys/time.h>
#include <time.h>
#include <unistd.h>

enum { DATA = 128, MOST_PACKET = 3 + DATA, SPARE = 32, BACKLOG = 1024, PATIENCE = 10, MOST_TIMES = 1 << 20, MOST_CALLS = 256 };  // patience: seconds
enum { CALL = 0x0b, ACCEPTED = 0x0f, CLEAR = 0x13, CONFIRMATION = 0x17, END = -1 };  // end: of the connection

struct caller {
  pthread_t thread;
  uint64_t calls, turned_away;
  float *times;
};

static struct sockaddr_in exchange, from, at;
static const char *dialled;
static int listener, packets;
static double ends_at;

static double now(void) {
  struct timespec time;
  clock_gettime(CLOCK_MONOTONIC, &time);
  return (double)time.tv_sec + (double)time.tv_nsec / 1e9;
}

static void fail(const char *what) {
  fprintf(stderr, "router_load: %s: %s\n", what, strerror(errno));
  exit(1);
}

static void settle(int made) {
  int one = 1;
  struct timeval patience = {PATIENCE, 0};
  setsockopt(made, IPPROTO_TCP, TCP_NODELAY, &one, sizeof one);
  setsockopt(made, SOL_SOCKET, SO_RCVTIMEO, &patience, sizeof patience);
}

// Returns whether the packet was written: the connection may have ended.
static bool put(int to, const unsigned char *packet, size_t length) {
  unsigned char frame[4 + MOST_PACKET] = {0, 0, (unsigned char)(length >> 8), (unsigned char)length};
  memcpy(frame + 4, packet, length);
  return send(to, frame, 4 + length, MSG_NOSIGNAL) == (ssize_t)(4 + length);
}

static bool put_short(int to, int type) {
  return put(to, (unsigned char[]){0x10, 1, (unsigned char)type}, 3);
}

static bool put_call(int to) {
  size_t digits = strlen(dialled);
  unsigned char packet[24] = {0x10, 1, CALL, (unsigned char)digits};
  for (size_t i = 0; i < digits; i += 2) packet[4 + i / 2] = (unsigned char)((dialled[i] - '0') << 4 | (dialled[i + 1] - '0'));
  return put(to, packet, 4 + digits / 2 + 1);
}

// Reads the next packet, and returns its third octet, or END.
static int take(int connection) {
  unsigned char head[4], packet[1028];
  ssize_t count = recv(connection, head, sizeof head, MSG_WAITALL);
  if (count == 0 || (count < 0 && errno == ECONNRESET)) return END;
  if (count != sizeof head) fail("a packet that did not come");
  size_t length = (size_t)head[2] << 8 | head[3];
  if (length > sizeof packet || recv(connection, packet, length, MSG_WAITALL) != (ssize_t)length) fail("a packet that is cut off");
  return packet[2];
}

static void expect(int connection, int type) {
  if (take(connection) != type) fail("a packet that is not due");
}

// The router that is called =====================================================================================

static void answer(int call) {
  int received = 0;
  if (take(call) != CALL) return;
  put_short(call, ACCEPTED);
  for (;;) {
    int type = take(call);
    if (type == CLEAR) {
      put_short(call, CONFIRMATION);
      while (take(call) != END) {}
      return;
    }
    if (type == END) return;
    received++;
    put_short(call, received % 8 << 5 | 1);
  }
}

static void *called(void *unused) {
  for (;;) {
    int call = accept(listener, NULL, NULL);
    if (call < 0) fail("accept");
    settle(call);
    answer(call);
    close(call);
  }
  return unused;
}

// The router that calls =========================================================================================

static int connect_to_exchange(void) {
  int made = socket(AF_INET, SOCK_STREAM, 0), one = 1;
  setsockopt(made, IPPROTO_IP, IP_BIND_ADDRESS_NO_PORT, &one, sizeof one);
  if (bind(made, (struct sockaddr *)&from, sizeof from)) fail("bind");
  settle(made);
  if (connect(made, (struct sockaddr *)&exchange, sizeof exchange)) fail("connect");
  return made;
}

// Each packet is acknowledged by RR before the next.
static void send_data(int call) {
  unsigned char packet[MOST_PACKET] = {0x10, 1};
  for (int i = 0; i < packets; i++) {
    packet[2] = (unsigned char)(i << 1);
    put(call, packet, sizeof packet);
    expect(call, (i + 1) % 8 << 5 | 1);
  }
}

// Places one call. Returns whether it was answered.
static bool place(void) {
  int call = connect_to_exchange(), answer = put_call(call) ? take(call) : END;
  bool is_answered = answer == ACCEPTED;
  if (answer == CLEAR) {
    put_short(call, CONFIRMATION);
    while (take(call) != END) {}
  }
  if (is_answered) {
    send_data(call);
    put(call, (unsigned char[]){0x10, 1, CLEAR, 0, 0}, 5);
    expect(call, CONFIRMATION);
    shutdown(call, SHUT_WR);
    while (take(call) != END) {}
  }
  close(call);
  return is_answered;
}

static void *calling(void *of) {
  struct caller *caller = of;
  for (double begun = now(); begun < ends_at; begun = now()) {
    if (!place()) {
      caller->turned_away++;
    } else {
      if (caller->calls < MOST_TIMES) caller->times[caller->calls] = (float)(now() - begun);
      caller->calls++;
    }
  }
  return NULL;
}

static int compare(const void *one, const void *other) {
  float a = *(const float *)one, b = *(const float *)other;
  return (a > b) - (a < b);
}

static void tell(struct caller *callers, size_t count, double seconds) {
  uint64_t calls = 0, turned_away = 0, taken = 0;
  for (size_t i = 0; i < count; i++) calls += callers[i].calls, turned_away += callers[i].turned_away;
  float *times = malloc((calls + 1) * sizeof *times);
  double sum = 0;
  for (size_t i = 0; i < count; i++) {
    for (uint64_t k = 0; k < callers[i].calls && k < MOST_TIMES; k++) sum += times[taken++] = callers[i].times[k];
  }
  if (taken == 0) fail("no call was answered");
  qsort(times, taken, sizeof *times, compare);
  printf("{\"calls\": %llu, \"turned_away\": %llu, \"seconds\": %.3f, \"mean\": %.1f, \"p99\": %.1f}\n", (unsigned long long)calls,
         (unsigned long long)turned_away, seconds, sum / (double)taken * 1e6, (double)times[taken * 99 / 100] * 1e6);
}

static struct sockaddr_in address_of(const char *address, const char *port) {
  struct sockaddr_in made = {.sin_family = AF_INET, .sin_port = htons((uint16_t)atoi(port))};
  if (!inet_aton(address, &made.sin_addr)) fail(address);
  return made;
}

int main(int count, char **words) {
  if (count != 10) {
    fprintf(stderr, "usage: router_load ADDRESS PORT FROM_ADDRESS AT_ADDRESS AT_PORT DIALLED CALLS DATA SECONDS\n");
    return 2;
  }
  exchange = address_of(words[1], words[2]);
  from = address_of(words[3], "0");
  at = address_of(words[4], words[5]);
  dialled = words[6];
  size_t calls = (size_t)atoi(words[7]);
  packets = atoi(words[8]);
  if (calls < 1 || calls > MOST_CALLS || packets < 0 || packets > 7) fail("CALLS is 1 to 256, and DATA 0 to 7");
  int one = 1;
  listener = socket(AF_INET, SOCK_STREAM, 0);
  setsockopt(listener, SOL_SOCKET, SO_REUSEADDR, &one, sizeof one);
  if (bind(listener, (struct sockaddr *)&at, sizeof at) || listen(listener, BACKLOG)) fail("listen");
  pthread_t thread;
  for (size_t i = 0; i < calls + SPARE; i++) {
    if (pthread_create(&thread, NULL, called, NULL)) fail("thread");
  }
  struct caller *callers = calloc(calls, sizeof *callers);
  double begun = now();
  ends_at = begun + atof(words[9]);
  for (size_t i = 0; i < calls; i++) {
    callers[i].times = malloc(MOST_TIMES * sizeof *callers[i].times);
    if (pthread_create(&callers[i].thread, NULL, calling, &callers[i])) fail("thread");
  }
  for (size_t i = 0; i < calls; i++) pthread_join(callers[i].thread, NULL);
  tell(callers, calls, now() - begun);
}
