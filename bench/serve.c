/*
 * A forwarder of UDP datagrams, and the load that `bench/serve` measures forwarders with. All is on 127.0.0.1.
 *
 * Usage: driver forward PORT THREADS TO
 *        driver load
 *
 * `forward` prints `ready`. Each thread receives from its own socket at PORT and sends what comes to the port TO, until it is killed.
 *
 * `load` prints `sink PORT`: what a forwarder sends there is taken for what the load sent. It then runs the commands on
 * standard input, one a line, and prints a line of names and numbers for each:
 *
 *   probe PORT                            one datagram of each sender
 *   load PORT WINDOW MILLISECONDS PID..   at most WINDOW datagrams in flight; `used` is the processor time of the processes PID..
 *   trips PORT MILLISECONDS               one datagram at a time, all of one sender
 *   paced PORT RATE MILLISECONDS          RATE datagrams a second, whatever comes back
 *
 * In each line `sent` and `received` count the datagrams of the whole command, each once, and `strange` counts what came and was not sent,
 * or came twice. A datagram is an IPv4 packet of SIZE bytes with a UDP datagram to 10.0.0.2:53, as `dswitch serve` takes them.
 */
#define _GNU_SOURCE
#include <arpa/inet.h>
#include <errno.h>
#include <linux/sock_diag.h>
#include <netinet/udp.h>
#include <pthread.h>
#include <signal.h>
#include <stdatomic.h>
#include <stdbool.h>
#include <stdint.h>
#include <stdio.h>
#include <stdlib.h>
#include <string.h>
#include <sys/prctl.h>
#include <sys/socket.h>
#include <time.h>
#include <unistd.h>

/* NUMBERS is the most that a command sends. */
enum { SIZE = 60, SENDERS = 16, WINDOW = 1024, BATCH = 64, PARTS = 64, NUMBERS = 1 << 24, TRIPS = 1 << 21, THREADS = 64, PROCESSES = 64, LONGEST = 65536 };

/* In nanoseconds. A sleep of the load lets datagrams gather, so that a forwarder has no sleeper to wake for each of them. */
static const uint64_t SECOND = 1000000000, MILLISECOND = 1000000, SLEEP = 20000, TICK = 100000, WARM_UP = 100000000, GIVEN_UP = 500000000;

static void fail(const char *what) {
    perror(what);
    exit(1);
}

static uint64_t now(void) {
    struct timespec at;
    clock_gettime(CLOCK_MONOTONIC, &at);
    return SECOND * (uint64_t)at.tv_sec + (uint64_t)at.tv_nsec;
}

static void sleep_until(uint64_t at) {
    struct timespec end = {(time_t)(at / SECOND), (long)(at % SECOND)};
    while (clock_nanosleep(CLOCK_MONOTONIC, TIMER_ABSTIME, &end, NULL) == EINTR) {
    }
}

static struct sockaddr_in at_port(int port) {
    struct sockaddr_in address = {.sin_family = AF_INET, .sin_port = htons((uint16_t)port), .sin_addr.s_addr = htonl(INADDR_LOOPBACK)};
    return address;
}

static int bound(int port, bool shared) {
    struct sockaddr_in address = at_port(port);
    int one = 1, fd = socket(AF_INET, SOCK_DGRAM, 0);
    if (fd < 0)
        fail("socket");
    if (shared && setsockopt(fd, SOL_SOCKET, SO_REUSEPORT, &one, sizeof one) != 0)
        fail("SO_REUSEPORT");
    if (bind(fd, (struct sockaddr *)&address, sizeof address) != 0)
        fail("bind");
    return fd;
}

/* The forwarder. */

struct forwarder {
    int fd;
    struct sockaddr_in to;
};

_Noreturn static void *forward(void *about) {
    const struct forwarder *f = about;
    uint8_t bytes[LONGEST];
    for (;;) {
        ssize_t size = recv(f->fd, bytes, sizeof bytes, 0);
        if (size >= 0)
            sendto(f->fd, bytes, (size_t)size, 0, (const struct sockaddr *)&f->to, sizeof f->to);
        else if (errno != EINTR)
            fail("recv");
    }
}

static void forward_all(int port, int threads, int to) {
    static struct forwarder forwarders[THREADS];
    pthread_t thread;
    if (threads < 1 || threads > THREADS) {
        fprintf(stderr, "from 1 to %d threads\n", THREADS);
        exit(2);
    }
    for (int i = 0; i < threads; i++)
        forwarders[i] = (struct forwarder){bound(port, true), at_port(to)};
    for (int i = 1; i < threads; i++)
        if (pthread_create(&thread, NULL, forward, &forwarders[i]) != 0)
            fail("pthread_create");
    /* It ends with the script that started it. */
    prctl(PR_SET_PDEATHSIG, SIGKILL);
    puts("ready");
    fflush(stdout);
    forward(&forwarders[0]);
}

/* The load. Datagrams of a command have the numbers from 0 on, and a place of the window. */

struct stamp {
    uint32_t command, place;
    uint64_t number;
};

enum { STAMP = 28 };

static int sink, senders[SENDERS];
static uint32_t command;
static _Atomic uint64_t sent, received, strange;
static _Atomic uint8_t came[NUMBERS / 8];

/* What is sent: a datagram for each place. The last one of a place has this number, and was sent at this time. */
static uint8_t packets[WINDOW][SIZE];
static _Atomic uint64_t number_at[WINDOW];
static uint64_t sent_at[WINDOW];

/* The places whose datagrams came back, by sender, in a ring: the thread that receives puts them in, and the one that sends takes them out. */
static uint16_t returned[SENDERS][WINDOW];
static _Atomic uint32_t put_in[SENDERS];
static uint32_t taken_out[SENDERS];

/* Where the sink's datagrams are received: longer ones are seen to be longer. */
static uint8_t arrived[BATCH][SIZE + 1];
static struct iovec arrived_parts[BATCH];
static struct mmsghdr arrivals[BATCH];

/* Nothing more is sent by this command. */
static atomic_bool ended;

static void prepare(void) {
    static const uint8_t header[STAMP] = {0x45, 0, 0, SIZE, 0, 0, 0, 0, 64, 17, 0, 0, 10, 0, 0, 1, 10, 0, 0, 2, 0, 0, 0, 53, 0, SIZE - 20, 0, 0};
    for (int place = 0; place < WINDOW; place++) {
        memcpy(packets[place], header, sizeof header);
        packets[place][20] = 5000 >> 8;
        packets[place][21] = (uint8_t)(5000 + place % SENDERS);
    }
    for (int i = 0; i < BATCH; i++) {
        arrived_parts[i] = (struct iovec){arrived[i], sizeof arrived[i]};
        arrivals[i].msg_hdr.msg_iov = &arrived_parts[i];
        arrivals[i].msg_hdr.msg_iovlen = 1;
    }
}

static bool has_come(uint64_t number) {
    return came[number / 8] >> number % 8 & 1;
}

/* Gives the datagram of a place the next number. */
static void stamp(int place, uint64_t at) {
    struct stamp s = {command, (uint32_t)place, sent};
    memcpy(packets[place] + STAMP, &s, sizeof s);
    number_at[place] = s.number;
    sent_at[place] = at;
    if (++sent == NUMBERS) {
        fprintf(stderr, "a command may send %d datagrams\n", NUMBERS - 1);
        exit(1);
    }
}

/* Counts a datagram that came. False if this command did not send it, or if it came before. */
static bool count(const uint8_t *bytes, size_t size, struct stamp *s) {
    if (size == SIZE) {
        memcpy(s, bytes + STAMP, sizeof *s);
        /* An earlier command did not wait for it any more. */
        if (s->command > 0 && s->command < command)
            return false;
        if (s->command == command && s->place < WINDOW && s->number < sent && memcmp(bytes, packets[s->place], STAMP) == 0 && !has_come(s->number)) {
            came[s->number / 8] |= (uint8_t)(1 << s->number % 8);
            received++;
            return true;
        }
    }
    strange++;
    return false;
}

/* Receives what has come, up to BATCH datagrams, and frees their places. Returns how many came. */
static int receive_some(void) {
    int came_now = recvmmsg(sink, arrivals, BATCH, MSG_DONTWAIT, NULL);
    if (came_now < 0 && errno != EAGAIN && errno != EINTR)
        fail("recvmmsg");
    for (int i = 0; i < came_now; i++) {
        struct stamp s;
        if (count(arrived[i], arrivals[i].msg_len, &s) && number_at[s.place] == s.number) {
            int sender = (int)s.place % SENDERS;
            returned[sender][put_in[sender] % WINDOW] = (uint16_t)s.place;
            put_in[sender]++;
        }
    }
    return came_now;
}

/* Receives until the command has ended and nothing is in flight, or nothing has come for long. */
static void *receive_all(void *about) {
    uint64_t last = now();
    (void)about;
    for (;;) {
        int came_now = receive_some();
        uint64_t at = now();
        if (came_now > 0)
            last = at;
        else if (ended && (received == sent || at - last > GIVEN_UP))
            return NULL;
        if (came_now < BATCH)
            sleep_until(at + SLEEP);
    }
}

static void begin(int port) {
    struct sockaddr_in to = at_port(port);
    command++;
    for (int i = 0; i < NUMBERS / 8; i++)
        atomic_store_explicit(&came[i], 0, memory_order_relaxed);
    sent = received = strange = 0;
    ended = false;
    for (int i = 0; i < SENDERS; i++) {
        int error;
        socklen_t size = sizeof error;
        taken_out[i] = put_in[i] = 0;
        /* The error of a port at which nobody received is taken off the socket. */
        if (connect(senders[i], (struct sockaddr *)&to, sizeof to) != 0 || getsockopt(senders[i], SOL_SOCKET, SO_ERROR, &error, &size) != 0)
            fail("connect");
    }
}

static void end(const char *more) {
    printf("sent %llu received %llu strange %llu%s\n", (unsigned long long)sent, (unsigned long long)received, (unsigned long long)strange, more);
    fflush(stdout);
}

/* If nobody receives at the port, the next send fails, and its datagrams are lost. */
static void send_one(int place, uint64_t at) {
    stamp(place, at);
    send(senders[place % SENDERS], packets[place], SIZE, 0);
}

static void probe(int port) {
    begin(port);
    for (int place = 0; place < SENDERS; place++)
        send_one(place, 0);
    ended = true;
    receive_all(NULL);
    end("");
}

/* Processor time in nanoseconds, by a clock of a process or a thread. */
static uint64_t used(clockid_t clock) {
    struct timespec at;
    return clock_gettime(clock, &at) == 0 ? SECOND * (uint64_t)at.tv_sec + (uint64_t)at.tv_nsec : 0;
}

static uint64_t used_by(const pid_t *processes, int number) {
    uint64_t sum = 0;
    for (int i = 0; i < number; i++) {
        clockid_t clock;
        if (clock_getcpuclockid(processes[i], &clock) == 0)
            sum += used(clock);
    }
    return sum;
}

/* Sends a datagram for each place of a sender that is free, all by one call: the system cuts them apart. */
static void refill(int sender, uint32_t least, uint64_t at) {
    struct iovec parts[PARTS];
    uint32_t number = put_in[sender] - taken_out[sender];
    if (number < least)
        return;
    struct msghdr message = {.msg_iov = parts, .msg_iovlen = number < PARTS ? number : PARTS};
    for (size_t i = 0; i < message.msg_iovlen; i++) {
        int place = returned[sender][taken_out[sender]++ % WINDOW];
        stamp(place, at);
        parts[i] = (struct iovec){packets[place], SIZE};
    }
    sendmsg(senders[sender], &message, 0);
}

/* Sends another datagram for each that did not come back for long. */
static void replace_lost(int window, uint64_t at) {
    for (int place = 0; place < window; place++)
        if (at - sent_at[place] > GIVEN_UP && !has_come(number_at[place]))
            send_one(place, at);
}

/* A sender waits until half of its places are free, so that it has several datagrams to send at once. */
static void keep_in_flight(int window, uint64_t until) {
    uint32_t half = (uint32_t)(window / SENDERS / 2);
    uint64_t at = now();
    for (uint64_t next = at + WARM_UP; at < until; at = now()) {
        for (int sender = 0; sender < SENDERS; sender++)
            refill(sender, half > 0 ? half : 1, at);
        if (at > next) {
            replace_lost(window, at);
            next = at + WARM_UP;
        }
        sleep_until(at + SLEEP);
    }
}

static pthread_t receiver(void) {
    pthread_t thread;
    if (pthread_create(&thread, NULL, receive_all, NULL) != 0)
        fail("pthread_create");
    return thread;
}

struct usage {
    uint64_t at, received, there, sending, receiving;
};

static struct usage usage_now(pthread_t thread, const pid_t *processes, int number) {
    clockid_t receiving, sending;
    if (pthread_getcpuclockid(thread, &receiving) != 0 || pthread_getcpuclockid(pthread_self(), &sending) != 0)
        fail("pthread_getcpuclockid");
    return (struct usage){now(), received, used_by(processes, number), used(sending), used(receiving)};
}

static void load(int port, int window, uint64_t milliseconds, const pid_t *processes, int number) {
    char more[200];
    begin(port);
    pthread_t thread = receiver();
    for (int place = 0; place < window; place++)
        send_one(place, now());
    keep_in_flight(window, now() + WARM_UP);
    struct usage from = usage_now(thread, processes, number);
    keep_in_flight(window, from.at + milliseconds * MILLISECOND);
    struct usage to = usage_now(thread, processes, number);
    ended = true;
    pthread_join(thread, NULL);
    snprintf(more, sizeof more, " counted %llu nanoseconds %llu used %llu sending %llu receiving %llu", (unsigned long long)(to.received - from.received),
             (unsigned long long)(to.at - from.at), (unsigned long long)(to.there - from.there), (unsigned long long)(to.sending - from.sending),
             (unsigned long long)(to.receiving - from.receiving));
    end(more);
}

static int by_size(const void *a, const void *b) {
    uint32_t x = *(const uint32_t *)a, y = *(const uint32_t *)b;
    return (x > y) - (x < y);
}

/* The sink's socket waits half a second at most. */
static void trips(int port, uint64_t milliseconds) {
    static uint32_t times[TRIPS];
    char more[160];
    int made = 0;
    begin(port);
    uint64_t start = now(), until = start + milliseconds * MILLISECOND, at = start;
    while (at < until && made < TRIPS) {
        struct stamp s;
        ssize_t size;
        uint64_t from = at;
        send_one(0, at);
        do
            size = recv(sink, arrived[0], sizeof arrived[0], 0);
        while (size >= 0 && !(count(arrived[0], (size_t)size, &s) && s.number == number_at[0]));
        at = now();
        if (size >= 0)
            times[made++] = (uint32_t)(at - from);
    }
    qsort(times, (size_t)made, sizeof *times, by_size);
    snprintf(more, sizeof more, " trips %d nanoseconds %llu median %u slow %u", made, (unsigned long long)(at - start), made ? times[made / 2] : 0,
             made ? times[(uint64_t)made * 99 / 100] : 0);
    ended = true;
    receive_all(NULL);
    end(more);
}

/* How many datagrams the system dropped at the sink so far. */
static uint32_t dropped_here(void) {
    uint32_t words[SK_MEMINFO_VARS] = {0};
    socklen_t size = sizeof words;
    return getsockopt(sink, SOL_SOCKET, SO_MEMINFO, words, &size) == 0 ? words[SK_MEMINFO_DROPS] : 0;
}

/* After a pause of this program it does not send all at once that is due. */
static void paced(int port, uint64_t rate, uint64_t milliseconds) {
    char more[80];
    int place = 0;
    uint32_t dropped = dropped_here();
    begin(port);
    pthread_t thread = receiver();
    uint64_t start = now(), until = start + milliseconds * MILLISECOND;
    for (uint64_t at = start; at < until; at = now()) {
        uint64_t due = (at - start) * rate / SECOND;
        for (int i = 0; i < BATCH && sent < due; i++, place = (place + 1) % SENDERS)
            send_one(place, at);
        sleep_until(at + TICK);
    }
    ended = true;
    pthread_join(thread, NULL);
    snprintf(more, sizeof more, " dropped %u", dropped_here() - dropped);
    end(more);
}

/* The numbers of a line after its first word. */
static int numbers_of(char *line, long *numbers, int most) {
    int count = 0;
    for (char *word = strtok(line, " \n"); (word = strtok(NULL, " \n")) != NULL && count < most;)
        numbers[count++] = strtol(word, NULL, 10);
    return count;
}

static void obey(char *line) {
    long n[3 + PROCESSES];
    char name[16];
    if (sscanf(line, "%15s", name) != 1)
        return;
    int count = numbers_of(line, n, 3 + PROCESSES);
    if (strcmp(name, "probe") == 0 && count == 1) {
        probe((int)n[0]);
    } else if (strcmp(name, "load") == 0 && count >= 3 && n[1] >= 1 && n[1] <= WINDOW) {
        pid_t processes[PROCESSES];
        for (int i = 3; i < count; i++)
            processes[i - 3] = (pid_t)n[i];
        load((int)n[0], (int)n[1], (uint64_t)n[2], processes, count - 3);
    } else if (strcmp(name, "trips") == 0 && count == 2) {
        trips((int)n[0], (uint64_t)n[1]);
    } else if (strcmp(name, "paced") == 0 && count == 3) {
        paced((int)n[0], (uint64_t)n[1], (uint64_t)n[2]);
    } else {
        fprintf(stderr, "no command: %s\n", name);
        exit(2);
    }
}

static void load_all(void) {
    static char line[4096];
    struct sockaddr_in address;
    socklen_t size = sizeof address;
    struct timeval limit = {0, (suseconds_t)(GIVEN_UP / 1000)};
    int room = 8 << 20, segment = SIZE;
    prepare();
    /* A sleep may end 50 microseconds late otherwise. */
    prctl(PR_SET_TIMERSLACK, 1);
    sink = bound(0, false);
    /* The first is for root alone, the second within the system's limit. */
    if (setsockopt(sink, SOL_SOCKET, SO_RCVBUFFORCE, &room, sizeof room) != 0)
        setsockopt(sink, SOL_SOCKET, SO_RCVBUF, &room, sizeof room);
    if (setsockopt(sink, SOL_SOCKET, SO_RCVTIMEO, &limit, sizeof limit) != 0)
        fail("SO_RCVTIMEO");
    for (int i = 0; i < SENDERS; i++) {
        senders[i] = bound(0, false);
        if (setsockopt(senders[i], SOL_UDP, UDP_SEGMENT, &segment, sizeof segment) != 0)
            fail("UDP_SEGMENT");
    }
    if (getsockname(sink, (struct sockaddr *)&address, &size) != 0)
        fail("getsockname");
    printf("sink %d\n", ntohs(address.sin_port));
    fflush(stdout);
    while (fgets(line, sizeof line, stdin) != NULL)
        obey(line);
}

int main(int argc, char **argv) {
    if (argc == 5 && strcmp(argv[1], "forward") == 0) {
        forward_all(atoi(argv[2]), atoi(argv[3]), atoi(argv[4]));
    } else if (argc == 2 && strcmp(argv[1], "load") == 0) {
        load_all();
    } else {
        fprintf(stderr, "usage: driver forward PORT THREADS TO, or driver load\n");
        return 2;
    }
    return 0;
}
