/* A plain program that does the work of `univmon central`, as a yardstick for its speed.
   cc -O2 -o central central.c; ./central TRACE [HEAP]: defaults as of univmon, the heap 0 or HEAP. */
#include <stdint.h>
#include <stdio.h>
#include <stdlib.h>
#include <string.h>

#define LEVELS 12
#define ROWS 5
#define WIDTH 1024
#define PRIME ((1ull << 61) - 1)
#define FUNCTIONS 254
#define SLOTS (1u << 21)

typedef struct { uint32_t word[11]; } Key;
typedef struct { Key key; int top; int used; } Slot;
typedef struct { Key key; int64_t score; } Entry;

static uint64_t coefficient[FUNCTIONS][12];
static int64_t counter[LEVELS + 1][ROWS][WIDTH];
static Entry heap[LEVELS + 1][1024];
static unsigned held[LEVELS + 1], dropped[LEVELS + 1];
static uint64_t packets_live[LEVELS + 1];
static Slot *slots;
static unsigned heap_size;

static uint32_t rotate(uint32_t x, int n) { return x << n | x >> (32 - n); }

#define QUARTER(a, b, c, d) \
    a += b, d = rotate(d ^ a, 16), c += d, b = rotate(b ^ c, 12), a += b, d = rotate(d ^ a, 8), c += d, b = rotate(b ^ c, 7)

/* RFC 8439, section 2.3 */
static void block(uint64_t seed, uint32_t number, uint32_t out[16]) {
    uint32_t in[16] = {0x61707865, 0x3320646e, 0x79622d32, 0x6b206574, (uint32_t)seed, (uint32_t)(seed >> 32)};
    uint32_t x[16];
    in[12] = number;
    memcpy(x, in, sizeof x);
    for (int i = 0; i < 10; i++) {
        QUARTER(x[0], x[4], x[8], x[12]); QUARTER(x[1], x[5], x[9], x[13]);
        QUARTER(x[2], x[6], x[10], x[14]); QUARTER(x[3], x[7], x[11], x[15]);
        QUARTER(x[0], x[5], x[10], x[15]); QUARTER(x[1], x[6], x[11], x[12]);
        QUARTER(x[2], x[7], x[8], x[13]); QUARTER(x[3], x[4], x[9], x[14]);
    }
    for (int i = 0; i < 16; i++) out[i] = x[i] + in[i];
}

static void draw(uint64_t seed) {
    uint32_t words[16];
    for (uint32_t n = 0; n < FUNCTIONS * 24; n += 2) {
        if (n % 16 == 0) block(seed, n / 16, words);
        coefficient[n / 24][n % 24 / 2] = (words[n % 16] | (uint64_t)words[n % 16 + 1] << 32) % PRIME;
    }
}

static uint64_t hash(int f, const Key *key) {
    unsigned __int128 sum = coefficient[f][0];
    for (int i = 0; i < 11; i++) sum += (unsigned __int128)coefficient[f][i + 1] * key->word[i];
    uint64_t both = (uint64_t)(sum & PRIME) + (uint64_t)(sum >> 61);
    return both >= PRIME ? both - PRIME : both;
}

static int by_number(const void *a, const void *b) {
    int64_t x = *(const int64_t *)a, y = *(const int64_t *)b;
    return (x > y) - (x < y);
}

static int compare(const Key *a, const Key *b) {
    for (int i = 0; i < 11; i++)
        if (a->word[i] != b->word[i]) return a->word[i] < b->word[i] ? -1 : 1;
    return 0;
}

static void offer(int level, const Key *key, int64_t score) {
    Entry *entries = heap[level];
    unsigned n = held[level], last = 0;
    for (unsigned i = 0; i < n; i++)
        if (compare(&entries[i].key, key) == 0) { entries[i].score = score; return; }
    entries[n].key = *key;
    entries[n].score = score;
    if (n < heap_size) { held[level]++; return; }
    for (unsigned i = 1; i <= n; i++)
        if (entries[i].score < entries[last].score
            || (entries[i].score == entries[last].score && compare(&entries[i].key, &entries[last].key) > 0)) last = i;
    entries[last] = entries[n];
    dropped[level] = 1;
}

static void note(const Key *key, int top) {
    uint64_t at = 1469598103934665603ull;
    for (int i = 0; i < 11; i++) at = (at ^ key->word[i]) * 1099511628211ull;
    for (at %= SLOTS;; at = (at + 1) % SLOTS) {
        Slot *slot = &slots[at];
        if (!slot->used) { slot->used = 1; slot->key = *key; slot->top = top; return; }
        if (compare(&slot->key, key) == 0) return;
    }
}

static void feed(const Key *key) {
    int top = 0;
    for (int j = 0; j <= LEVELS; top = j++) {
        if (j > 0 && hash(j - 1, key) % 2 == 0) break;
        int64_t row[ROWS];
        packets_live[j]++;
        for (int r = 0; r < ROWS; r++) {
            int f = 16 + 2 * (7 * j + r);
            int64_t sign = hash(f + 1, key) % 2 ? 1 : -1;
            int64_t *place = &counter[j][r][hash(f, key) & (WIDTH - 1)];
            *place += sign;
            row[r] = sign * *place;
        }
        if (heap_size) {
            qsort(row, ROWS, sizeof row[0], by_number);
            offer(j, key, row[ROWS / 2]);
        }
    }
    if (!heap_size) note(key, top);
}

static uint32_t big(const uint8_t *p) { return (uint32_t)p[0] << 24 | p[1] << 16 | p[2] << 8 | p[3]; }

static int key_of(const uint8_t *p, uint32_t n, Key *key) {
    if (n < 34 || p[12] != 8 || p[13] != 0 || p[14] >> 4 != 4 || (p[14] & 15) < 5) return 0;
    const uint8_t *h = p + 14;
    uint32_t length = 4 * (h[0] & 15), ports = 0;
    if (((h[6] << 8 | h[7]) & 8191) == 0 && (h[9] == 6 || h[9] == 17)) {
        if (n < 14 + length + 4) return 0;
        ports = big(h + length);
    }
    *key = (Key){{4, big(h + 12), 0, 0, 0, big(h + 16), 0, 0, 0, ports, h[9]}};
    return 1;
}

int main(int argc, char **argv) {
    static uint8_t frame[262144];
    uint8_t head[24];
    uint32_t packets = 0, keyed = 0;
    FILE *trace = fopen(argv[1], "rb");
    heap_size = argc > 2 ? (unsigned)atoi(argv[2]) : 0;
    slots = calloc(SLOTS, sizeof *slots);
    draw(1);
    if (!trace || fread(head, 1, 24, trace) != 24) return 1;
    while (fread(head, 1, 16, trace) == 16) {
        uint32_t n;
        Key key;
        memcpy(&n, head + 8, 4);
        if (n > sizeof frame || fread(frame, 1, n, trace) != n) return 1;
        packets++;
        if (key_of(frame, n, &key)) { keyed++; feed(&key); }
    }
    printf("packets %u keyed %u\n", packets, keyed);
    for (int j = 0; j <= LEVELS; j++) {
        uint64_t keys = held[j], nonzero = 0;
        if (!heap_size)
            for (uint32_t i = 0; i < SLOTS; i++) keys += slots[i].used && slots[i].top >= j;
        for (int r = 0; r < ROWS; r++)
            for (int b = 0; b < WIDTH; b++) nonzero += counter[j][r][b] != 0;
        printf("level %d packets %llu keys %llu nonzero %llu\n", j, (unsigned long long)packets_live[j],
               (unsigned long long)keys, (unsigned long long)nonzero);
    }
    return 0;
}
