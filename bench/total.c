/* A plain program that does the work of `univmon total`, as a yardstick for its speed.
   cc -O2 -o total total.c; ./total TRACE: a trace of little-endian numbers and Ethernet frames. */
#include <stdint.h>
#include <stdio.h>
#include <string.h>

static uint32_t big_16(const uint8_t *p) { return (uint32_t)p[0] << 8 | p[1]; }

static int has_ports(const uint8_t *packet, uint32_t n, uint8_t protocol, uint32_t header) {
    return (protocol != 6 && protocol != 17) || n >= header + 4;
}

/* RFC 791, section 3.1 */
static int is_keyed_4(const uint8_t *packet, uint32_t n) {
    if (n < 20 || packet[0] >> 4 != 4 || (packet[0] & 15) < 5) return 0;
    if (big_16(packet + 6) & 8191) return 1;
    return has_ports(packet, n, packet[9], 4 * (packet[0] & 15));
}

/* RFC 8200, section 3 */
static int is_keyed_6(const uint8_t *packet, uint32_t n) {
    return n >= 40 && packet[0] >> 4 == 6 && has_ports(packet, n, packet[6], 40);
}

/* At most two tags of IEEE 802.1Q stand before the type. */
static int is_keyed(const uint8_t *frame, uint32_t n) {
    uint32_t at = 12;
    for (int tags = 0; tags < 2 && n >= at + 2; tags++) {
        uint32_t type = big_16(frame + at);
        if (type != 0x8100 && type != 0x88a8) break;
        at += 4;
    }
    if (n < at + 2) return 0;
    if (big_16(frame + at) == 0x0800) return is_keyed_4(frame + at + 2, n - at - 2);
    if (big_16(frame + at) == 0x86dd) return is_keyed_6(frame + at + 2, n - at - 2);
    return 0;
}

int main(int argc, char **argv) {
    static uint8_t frame[262144];
    uint8_t head[24];
    uint32_t packets = 0, keyed = 0;
    FILE *trace = argc > 1 ? fopen(argv[1], "rb") : NULL;
    if (!trace || fread(head, 1, 24, trace) != 24) return 1;
    while (fread(head, 1, 16, trace) == 16) {
        uint32_t n;
        memcpy(&n, head + 8, 4);
        if (n > sizeof frame || fread(frame, 1, n, trace) != n) return 1;
        packets++;
        keyed += is_keyed(frame, n);
    }
    printf("packets %u\nkeyed %u\nunkeyed %u\n", packets, keyed, packets - keyed);
    return 0;
}
