// A load for a server that speaks RESP2, or memcached's protocol of lines: CLIENTS threads, each with one connection, send DEEP units at
// once and read all replies before the next.
//   load PORT CLIENTS DEEP SECONDS UNIT KEYS SIZE [PREFIX]
// A unit is one command, or for exec2 one transaction (MULTI, INCR, INCR, EXEC). Those of memcached begin with "mc". Keys are drawn
// uniformly for so many SECONDS; with 0 each key has its turn once, in order. PACE=N in the environment offers N units a second, and no
// more; with SKEW=1 half of the keys that are drawn are of the first sixteenth (the fourth power of a uniform number). Prints one line of JSON: units, errors, values that were missing, and the time of a batch. It fails at what is no reply, at a reply
// too many, and where the connection ends.
#define _GNU_SOURCE
#include <arpa/inet.h>
#include <netinet/tcp.h>
#include <pthread.h>
#include <stdbool.h>
#include <stdint.h>
#include <stdio.h>
#include <stdlib.h>
#include <string.h>
#include <time.h>
#include <unistd.h>

enum { CLIENTS_MAX = 128, KEYS_MAX = 16, DIGITS = 12, MICROSECONDS_MAX = 200000, SECONDS_MAX = 4096, INPUT = 1 << 18 };

static int port, clients, deep;
static double seconds, pace, start_time;
static bool is_skewed;
static uint64_t keys;
static const char *prefix = "key:";
static char *value;
static pthread_barrier_t gate;

// What is sent again and again: its bytes, where the digits of its keys stand, and how many replies it gets.
static struct { char *bytes; size_t length, places[KEYS_MAX]; int keys, replies; bool of_memcached; } unit;

// What a client has done.
static struct own {
    volatile uint64_t done, errors, full, missing;
    char pad[96];
    uint32_t *times; // how many batches took so many microseconds
    char first[128]; // the first error
    double ended;
} owns[CLIENTS_MAX];

// The replies to a batch, as far as they were read: how many lines and bytes of a value are due, and the line that has begun.
struct replies { struct own *of; int64_t due; uint64_t skip; int values; char line[512]; size_t length; };

static double now(void) { struct timespec t; clock_gettime(CLOCK_MONOTONIC, &t); return t.tv_sec + t.tv_nsec * 1e-9; }
static void fail(const char *why, const char *what) { fprintf(stderr, "load: %s%s\n", why, what); exit(1); }
static bool begins(const char *line, const char *with) { return !strncmp(line, with, strlen(with)); }

// Units

static void text(const char *s) { size_t n = strlen(s); memcpy(unit.bytes + unit.length, s, n); unit.length += n; }
static void count(const char *sign, size_t n) { char head[32]; snprintf(head, sizeof head, "%s%zu\r\n", sign, n); text(head); }
static void key_text(void) { text(prefix); unit.places[unit.keys++] = unit.length; for (int i = 0; i < DIGITS; i++) text("0"); }
static void words(size_t n) { count("*", n); }
static void word(const char *s) { count("$", strlen(s)); text(s); text("\r\n"); }
static void key(void) { count("$", strlen(prefix) + DIGITS); key_text(); text("\r\n"); }

static bool build_resp(const char *name) {
    unit.replies = 1;
    if (!strcmp(name, "get")) { words(2); word("GET"); key(); }
    else if (!strcmp(name, "set")) { words(3); word("SET"); key(); word(value); }
    else if (!strcmp(name, "incr")) { words(2); word("INCR"); key(); }
    else if (!strcmp(name, "append")) { words(3); word("APPEND"); key(); word("1"); }
    else if (!strcmp(name, "mget10")) { words(11); word("MGET"); for (int i = 0; i < 10; i++) key(); }
    else if (!strcmp(name, "mset3")) { words(7); word("MSET"); for (int i = 0; i < 3; i++) { key(); word("123"); } }
    else if (!strcmp(name, "ping")) { words(1); word("PING"); }
    else if (!strcmp(name, "exec2")) {
        words(1); word("MULTI");
        for (int i = 0; i < 2; i++) { words(2); word("INCR"); key(); }
        words(1); word("EXEC");
        unit.replies = 4;
    } else return false;
    return true;
}

static bool build_memcached(const char *name) {
    unit.of_memcached = true; unit.replies = 1;
    if (!strcmp(name, "mcget")) { text("get "); key_text(); text("\r\n"); }
    else if (!strcmp(name, "mcset")) { text("set "); key_text(); count(" 0 0 ", strlen(value)); text(value); text("\r\n"); }
    else if (!strcmp(name, "mcincr")) { text("incr "); key_text(); text(" 1\r\n"); }
    else if (!strcmp(name, "mcappend")) { text("append "); key_text(); text(" 0 0 1\r\n1\r\n"); }
    else if (!strcmp(name, "mcget10")) { text("get"); for (int i = 0; i < 10; i++) { text(" "); key_text(); } text("\r\n"); }
    else return false;
    return true;
}

static void build(const char *name) {
    unit.bytes = malloc((1 << 16) + strlen(value));
    if (!(begins(name, "mc") ? build_memcached(name) : build_resp(name))) fail("no unit ", name);
}

// Replies

static void note_error(struct own *me, const char *line) {
    me->errors++;
    if (begins(line, "-FULL") || begins(line, "SERVER_ERROR out of memory")) me->full++;
    if (me->first[0]) return;
    for (size_t i = 0; i + 1 < sizeof me->first && line[i] && line[i] != '\r'; i++)
        me->first[i] = line[i] < ' ' || line[i] == '"' || line[i] == '\\' ? '?' : line[i];
}

static void resp_line(struct replies *to) {
    long number = atol(to->line + 1);
    to->due--;
    switch (to->line[0]) {
    case '+': case ':': break;
    case '-': note_error(to->of, to->line); break;
    case '$': if (number >= 0) to->skip = number + 2; else to->of->missing++; break;
    case '*': if (number >= 0) to->due += number; else to->of->missing++; break;
    default: fail("no reply: ", to->line);
    }
}

static void memcached_line(struct replies *to) {
    const char *line = to->line;
    unsigned long size;
    if (begins(line, "VALUE ")) {
        if (sscanf(line, "VALUE %*s %*u %lu", &size) != 1) fail("no reply: ", line);
        to->skip = size + 2; to->values++;
        return;
    }
    to->due--;
    if (begins(line, "END")) {
        if (to->values > unit.keys) fail("more values than keys", "");
        to->of->missing += unit.keys - to->values;
    }
    else if (begins(line, "NOT_FOUND") || begins(line, "NOT_STORED")) to->of->missing++;
    else if (begins(line, "ERROR") || begins(line, "CLIENT_ERROR ") || begins(line, "SERVER_ERROR ")) note_error(to->of, line);
    else if (!begins(line, "STORED") && (line[0] < '0' || line[0] > '9')) fail("no reply: ", line);
    to->values = 0;
}

static void take(struct replies *to, const char *bytes, size_t length) {
    while (length) {
        if (to->due <= 0 && !to->skip) fail("more replies than requests", "");
        const char *end = to->skip ? 0 : memchr(bytes, '\n', length);
        size_t n = to->skip ? to->skip : end ? (size_t)(end - bytes) + 1 : length;
        if (n > length) n = length;
        if (to->skip) to->skip -= n;
        else {
            if (to->length + n >= sizeof to->line) fail("a line of a reply is too long", "");
            memcpy(to->line + to->length, bytes, n); to->length += n; to->line[to->length] = 0;
            if (end) { if (unit.of_memcached) memcached_line(to); else resp_line(to); to->length = 0; }
        }
        bytes += n; length -= n;
    }
}

static void read_replies(int fd, char *in, struct own *me, int units) {
    struct replies to = { .of = me, .due = (int64_t)units * unit.replies };
    while (to.due > 0 || to.skip) {
        ssize_t n = read(fd, in, INPUT);
        if (n <= 0) fail("connection closed", "");
        take(&to, in, n);
    }
}

// Clients

static int connected(void) {
    int fd = socket(AF_INET, SOCK_STREAM, 0), one = 1;
    struct sockaddr_in to = { .sin_family = AF_INET, .sin_port = htons(port), .sin_addr.s_addr = htonl(INADDR_LOOPBACK) };
    if (connect(fd, (void *)&to, sizeof to)) { perror("load: connect"); exit(1); }
    setsockopt(fd, IPPROTO_TCP, TCP_NODELAY, &one, sizeof one);
    return fd;
}

static void digits(char *at, uint64_t n) { for (int i = DIGITS - 1; i >= 0; i--) { at[i] = '0' + n % 10; n /= 10; } }
static uint64_t drawn(uint64_t *rng) {
    *rng ^= *rng << 13; *rng ^= *rng >> 7; *rng ^= *rng << 17;
    if (!is_skewed) return (*rng >> 11) % keys;
    double x = (*rng >> 11) * 0x1p-53;
    return (uint64_t)(x * x * x * x * keys);
}

// Names the keys of the next batch: how many units it has. With 0 seconds there are fewer at the end, and then none.
static int name_keys(char *out, uint64_t *rng, uint64_t *next) {
    for (int at = 0; at < deep; at++) {
        if (seconds == 0 && *next >= keys) return at;
        for (int p = 0; p < unit.keys; p++) {
            uint64_t n = seconds == 0 ? *next % keys : drawn(rng);
            digits(out + at * unit.length + unit.places[p], n);
            *next += clients;
        }
    }
    return deep;
}

static void send_all(int fd, const char *out, size_t length) {
    for (size_t sent = 0; sent < length;) {
        ssize_t n = write(fd, out + sent, length - sent);
        if (n <= 0) { perror("load: write"); exit(1); }
        sent += n;
    }
}

static void *work(void *arg) {
    struct own *me = arg;
    uint64_t id = me - owns, next = id, rng = 88172645463325252ull ^ ((uint64_t)(now() * 1e6) * 2654435761u) ^ (id << 40);
    int fd = connected();
    char *out = malloc(unit.length * deep), *in = malloc(INPUT);
    for (int i = 0; i < deep; i++) memcpy(out + i * unit.length, unit.bytes, unit.length);
    pthread_barrier_wait(&gate);
    double begin = start_time;
    for (double at; at = now(), seconds == 0 || at - begin < seconds;) {
        int units = name_keys(out, &rng, &next);
        if (!units) break;
        send_all(fd, out, units * unit.length);
        read_replies(fd, in, me, units);
        double took = (now() - at) * 1e6;
        me->times[took < MICROSECONDS_MAX - 1 ? (int)took : MICROSECONDS_MAX - 1]++;
        if (pace > 0) { double left = begin + (me->done + units) * clients / pace - now(); if (left > 0) usleep(left * 1e6); }
        me->done += units;
    }
    me->ended = now();
    close(fd);
    return 0;
}

// How many units were done in each second, while it passes.
static int each_second(double *series) {
    int length = 0; uint64_t last = 0;
    for (int s = 1; s <= (int)seconds && s < SECONDS_MAX; s++) {
        double left = start_time + s - now();
        if (left > 0) usleep(left * 1e6);
        uint64_t done = 0;
        for (int i = 0; i < clients; i++) done += owns[i].done;
        series[length++] = done - last; last = done;
    }
    return length;
}

// The time in microseconds within which this part of all batches was done.
static int within(double part) {
    uint64_t all = 0, sum = 0;
    for (int t = 0; t < MICROSECONDS_MAX; t++) for (int i = 0; i < clients; i++) all += owns[i].times[t];
    for (int t = 0; t < MICROSECONDS_MAX; t++) {
        for (int i = 0; i < clients; i++) sum += owns[i].times[t];
        if (sum && sum >= all * part) return t;
    }
    return -1;
}

static void tell(const double *series, int length) {
    struct own all = { 0 };
    for (int i = 0; i < clients; i++) {
        all.done += owns[i].done; all.errors += owns[i].errors; all.full += owns[i].full; all.missing += owns[i].missing;
        if (owns[i].ended > all.ended) all.ended = owns[i].ended;
        if (owns[i].first[0]) memcpy(all.first, owns[i].first, sizeof all.first);
    }
    double took = all.ended - start_time;
    printf("{\"units\": %lu, \"seconds\": %.4f, \"rate\": %.0f, ", all.done, took, all.done / took);
    printf("\"errors\": %lu, \"full\": %lu, \"missing\": %lu, \"first\": \"%s\", ", all.errors, all.full, all.missing, all.first);
    printf("\"p50_us\": %d, \"p99_us\": %d, \"most_us\": %d, \"series\": [", within(0.5), within(0.99), within(1));
    for (int i = 0; i < length; i++) printf("%s%.0f", i ? ", " : "", series[i]);
    printf("]}\n");
}

int main(int argc, char **argv) {
    if (argc < 8) { fprintf(stderr, "load PORT CLIENTS DEEP SECONDS UNIT KEYS SIZE [PREFIX]\n"); return 2; }
    port = atoi(argv[1]); clients = atoi(argv[2]); deep = atoi(argv[3]); seconds = atof(argv[4]); keys = atoll(argv[6]);
    if (clients < 1 || clients > CLIENTS_MAX) fail("CLIENTS is 1 to 128", "");
    if (deep < 1 || keys < 1) fail("DEEP and KEYS are at least 1", "");
    if (argc > 8) prefix = argv[8];
    if (getenv("PACE")) pace = atof(getenv("PACE"));
    is_skewed = getenv("SKEW") && !strcmp(getenv("SKEW"), "1");
    size_t size = atoll(argv[7]);
    value = size == 3 ? strdup("123") : memset(calloc(1, size + 1), 'x', size);
    build(argv[5]);
    pthread_t threads[CLIENTS_MAX];
    pthread_barrier_init(&gate, 0, clients + 1);
    for (int i = 0; i < clients; i++) {
        owns[i].times = calloc(MICROSECONDS_MAX, sizeof *owns[i].times);
        pthread_create(&threads[i], 0, work, &owns[i]);
    }
    start_time = now();
    pthread_barrier_wait(&gate);
    static double series[SECONDS_MAX];
    int length = each_second(series);
    for (int i = 0; i < clients; i++) pthread_join(threads[i], 0);
    tell(series, length);
    return 0;
}
