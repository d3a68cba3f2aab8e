/* Writes a pair of captures, UP and DOWN, and beside them the table that `link` has to print for each of their flows.

       captures [-n RECORDS] [-l LEAST] [-g GREATEST] [-s SNAPSHOT] [-e] [-b] [-u] [-t] FOLDER

       -n RECORDS   records of UP (1000000); DOWN has fewer, since packets are lost
       -l LEAST     shortest packet, in bytes of IP, 64 or more (64)
       -g GREATEST  longest packet, in bytes of IP, at most 65000 (1500)
       -s SNAPSHOT  bytes captured of each packet or frame at most (64)
       -e           Ethernet frames; raw IP if left out
       -b           big-endian; little-endian if left out
       -u           microseconds; nanoseconds if left out
       -t           writes up.txt too, the lines of `show` for UP

   FOLDER gets up.pcap and down.pcap; words, the words BLOCK and DMIN of `link`, one a line; flows, the flows, one a line;
   and for each FLOW of these table-FLOW, the text that `link BLOCK DMIN FLOW up.pcap down.pcap` has to print. What is
   written is always the same.

   The network that this comes from: packets are marked by one clock, evenly through some four minutes, in blocks of ten
   seconds. A packet passes UP up to 50 ms after it was marked, and DOWN up to 150 ms after that and the least delay. So
   both captures are out of the order of marking, across the edges of blocks too. Three packets in two hundred are lost
   between the two. Nine packets in ten have a mark of one of four flows; the tenth is other traffic, which nothing counts.

   The tables are counted from the packets and what was done with them, each in the block in which it was marked: no
   reading, no window and no record enters them. Headers are right but for checksums; behind them stands a pattern. */
#include <inttypes.h>
#include <stdint.h>
#include <stdio.h>
#include <stdlib.h>
#include <string.h>
#include <unistd.h>

#define SECOND 1000000000ull
#define MILLISECOND 1000000ull

#define BLOCK (10 * SECOND)
#define LEAST_DELAY MILLISECOND
#define TO_UP (50 * MILLISECOND)
#define TO_DOWN (150 * MILLISECOND)
#define START (1700000003 * SECOND)
#define SPAN (247 * SECOND)
#define FIRST_BLOCK (START / BLOCK)
#define BLOCKS ((START + SPAN) / BLOCK + 1 - FIRST_BLOCK)

#define FLOWS 4
static const uint32_t flow_ids[FLOWS] = {74565, 1, 74566, 1048575};
#define FOREIGN 500000 /* marks packets, and is none of the four */

enum kind {
    MARKED,      /* a mark in the Hop-by-Hop header, then UDP */
    TCP6,        /* IPv6 without extension headers */
    UNMARKED,    /* a Hop-by-Hop header with a Router Alert, then ICMPv6 */
    DESTINATION, /* a mark of a flow in a Destination Options header, where `link` doesn't look */
    UDP4,        /* IPv4 */
    KINDS
};

struct packet {
    uint64_t number;
    uint32_t flow; /* what its mark says, where it has one */
    uint16_t length;
    uint8_t kind, loss, delay; /* the mark's two bits */
};

/* The next time that a packet passes a point. */
struct pass {
    uint64_t reading;
    struct packet packet;
    int at_down;
};

static uint64_t records = 1000000;
static unsigned least = 64, greatest = 1500, snapshot = 64;
static int ethernet, big_endian, microseconds, with_text;

static void fail(const char *what) {
    perror(what);
    exit(1);
}

/* ---- numbers by chance ---- */

/* The next number below k of a linear congruential generator. */
static uint64_t draw(uint64_t k) {
    static uint64_t state = 7;
    state = state * 6364136223846793005u + 1442695040888963407u;
    return (state >> 33) % k;
}

/* ---- bytes of packets, in network order ---- */

static void put16(uint8_t *to, unsigned value) {
    to[0] = (uint8_t)(value >> 8);
    to[1] = (uint8_t)value;
}

static void put32(uint8_t *to, uint32_t value) {
    put16(to, value >> 16);
    put16(to + 2, value & 0xffff);
}

/* An AltMark Option (RFC 9343, section 3.1): 20 bits of flow, the loss bit, the delay bit, ten reserved. */
static void put_mark(uint8_t *to, const struct packet *packet) {
    put16(to, 0x1204);
    put32(to + 2, packet->flow << 12 | (uint32_t)packet->loss << 11 | (uint32_t)packet->delay << 10);
}

/* Behind a header that counts in eight bytes: the number that it announces, and its length. */
static void put_header(uint8_t *to, unsigned announces) {
    to[0] = (uint8_t)announces;
    to[1] = 0;
}

static void put_udp(uint8_t *to, const struct packet *packet, unsigned length) {
    put16(to, 4000);
    put16(to + 2, 5000);
    put16(to + 4, length);
    put16(to + 6, 0x5a5a);
    if (length >= 16)
        put32(to + 8, (uint32_t)packet->number);
}

static void put_ip4(uint8_t *to, const struct packet *packet) {
    to[0] = 0x45;
    to[1] = 0;
    put16(to + 2, packet->length);
    put32(to + 4, (uint32_t)packet->number << 16);
    put16(to + 8, 64 << 8 | 17);
    put16(to + 10, 0x5a5a);
    put32(to + 12, 0xc0000201);
    put32(to + 16, 0xc0000202);
    put_udp(to + 20, packet, packet->length - 20u);
}

static void put_ip6(uint8_t *to, const struct packet *packet) {
    static const uint8_t numbers[KINDS] = {[MARKED] = 0, [TCP6] = 6, [UNMARKED] = 0, [DESTINATION] = 60};
    put32(to, 0x60000000);
    put16(to + 4, packet->length - 40u);
    to[6] = numbers[packet->kind];
    to[7] = 64;
    memset(to + 8, 0, 32);
    put32(to + 8, 0x20010db8);
    put16(to + 12, 1);
    to[23] = 1;
    put32(to + 24, 0x20010db8);
    put16(to + 28, 2);
    to[39] = 1;
    switch (packet->kind) {
    case MARKED:
    case DESTINATION:
        put_header(to + 40, 17);
        put_mark(to + 42, packet);
        put_udp(to + 48, packet, packet->length - 48u);
        break;
    case UNMARKED:
        put_header(to + 40, 58);
        put32(to + 42, 0x05020000); /* Router Alert (RFC 2711) */
        put16(to + 46, 0x0100);     /* PadN without data */
        put32(to + 48, 0x8f000000); /* an MLD report (RFC 3810) */
        break;
    default:
        put32(to + 40, 4000u << 16 | 443);
        put32(to + 44, (uint32_t)packet->number);
        put32(to + 48, 0);
        put32(to + 52, 0x50100400);
    }
}

/* ---- captures ---- */

struct capture {
    FILE *file, *text; /* text is where the lines of `show` go, or null */
    uint64_t count;
};

/* A number of the capture itself, in the byte order of its file. */
static void put_number(uint8_t *to, uint32_t value) {
    for (int i = 0; i < 4; i++)
        to[big_endian ? 3 - i : i] = (uint8_t)(value >> 8 * i);
}

static void put_all(FILE *file, const void *bytes, size_t length) {
    if (fwrite(bytes, 1, length, file) != length)
        fail("captures");
}

static void write_head(FILE *file) {
    uint8_t head[24] = {0};
    put_number(head, microseconds ? 0xa1b2c3d4 : 0xa1b23c4d);
    head[big_endian ? 5 : 4] = 2;
    head[big_endian ? 7 : 6] = 4;
    put_number(head + 16, snapshot);
    put_number(head + 20, ethernet ? 1 : 101);
    put_all(file, head, sizeof head);
}

/* The line of `show` for this packet. */
static void write_line(struct capture *to, const struct packet *packet, uint64_t reading, unsigned captured, unsigned whole) {
    if (microseconds)
        reading -= reading % 1000;
    fprintf(to->text, "%" PRIu64 " %" PRIu64 " %u %u ", to->count, reading, captured, whole);
    switch (packet->kind) {
    case MARKED: fprintf(to->text, "ip6 0:8,=17 %u/%d/%d -\n", packet->flow, packet->loss, packet->delay); break;
    case DESTINATION: fprintf(to->text, "ip6 60:8,=17 - %u/%d/%d\n", packet->flow, packet->loss, packet->delay); break;
    case UNMARKED: fputs("ip6 0:8,=58 - -\n", to->text); break;
    case TCP6: fputs("ip6 =6 - -\n", to->text); break;
    default: fputs("other\n", to->text);
    }
}

/* The record of a packet: 16 bytes of header, then the frame as far as it is captured. Behind the packet's headers stands the
   pattern that `main` put there, or what an earlier packet left of its own. */
static uint8_t bytes[16 + 14 + 65535];
static void write_record(struct capture *to, const struct packet *packet, uint64_t reading) {
    unsigned behind = ethernet ? 14 : 0, whole = behind + packet->length, captured = whole < snapshot ? whole : snapshot;
    uint64_t fraction = reading % SECOND;
    put_number(bytes, (uint32_t)(reading / SECOND));
    put_number(bytes + 4, (uint32_t)(microseconds ? fraction / 1000 : fraction));
    put_number(bytes + 8, captured);
    put_number(bytes + 12, whole);
    if (ethernet) {
        memcpy(bytes + 16, "\2\0\0\0\0\2\2\0\0\0\0\1", 12);
        put16(bytes + 28, packet->kind == UDP4 ? 0x0800 : 0x86dd);
    }
    if (packet->kind == UDP4)
        put_ip4(bytes + 16 + behind, packet);
    else
        put_ip6(bytes + 16 + behind, packet);
    put_all(to->file, bytes, 16 + captured);
    to->count++;
    if (to->text)
        write_line(to, packet, reading, captured, whole);
}

/* ---- packets on their way ---- */

/* A heap: the pass with the least reading stands first; of equal ones that of the earlier packet. */
static struct pass *heap;
static size_t held, room;

static int is_before(const struct pass *a, const struct pass *b) {
    if (a->reading != b->reading)
        return a->reading < b->reading;
    return a->packet.number < b->packet.number;
}

static void push(struct pass pass) {
    if (held == room) {
        room = room ? 2 * room : 4096;
        heap = realloc(heap, room * sizeof *heap);
        if (!heap)
            fail("captures");
    }
    size_t at = held++;
    while (at && is_before(&pass, &heap[(at - 1) / 2])) {
        heap[at] = heap[(at - 1) / 2];
        at = (at - 1) / 2;
    }
    heap[at] = pass;
}

static struct pass pop(void) {
    struct pass first = heap[0], last = heap[--held];
    size_t at = 0, child;
    while ((child = 2 * at + 1) < held) {
        if (child + 1 < held && is_before(&heap[child + 1], &heap[child]))
            child++;
        if (is_before(&last, &heap[child]))
            break;
        heap[at] = heap[child];
        at = child;
    }
    heap[at] = last;
    return first;
}

static struct capture up, down;

/* Writes the passes before this time. No later packet passes a point before it is marked. */
static void write_until(uint64_t time) {
    while (held && heap[0].reading < time) {
        struct pass pass = pop();
        write_record(pass.at_down ? &down : &up, &pass.packet, pass.reading);
    }
}

/* ---- the network ---- */

/* Packets of each flow and block that entered, and those of them that left. */
static uint64_t entered[FLOWS][BLOCKS], left[FLOWS][BLOCKS];

/* What the packet of this number is, marked in this block, and the place of its flow among the four. Other traffic has the
   place FLOWS. */
static struct packet make_packet(uint64_t number, uint64_t block, unsigned *flow) {
    static int seen[FLOWS][BLOCKS];
    struct packet packet = {.number = number, .loss = block % 2};
    packet.length = (uint16_t)(least + draw(greatest - least + 1));
    *flow = FLOWS;
    if (draw(10) > 0) {
        *flow = (unsigned)draw(FLOWS);
        packet.flow = flow_ids[*flow];
        /* The delay bit is set on the first packet of a flow and block. */
        packet.delay = !seen[*flow][block - FIRST_BLOCK];
        seen[*flow][block - FIRST_BLOCK] = 1;
        return packet;
    }
    packet.kind = (uint8_t)draw(KINDS);
    packet.flow = packet.kind == DESTINATION ? flow_ids[draw(FLOWS)] : FOREIGN;
    return packet;
}

static void send_all(void) {
    for (uint64_t number = 0; number < records; number++) {
        uint64_t marked = START + (uint64_t)((unsigned __int128)number * SPAN / records), block = marked / BLOCK;
        unsigned flow;
        struct packet packet = make_packet(number, block, &flow);
        uint64_t at_up = marked + draw(TO_UP + 1), at_down = at_up + LEAST_DELAY + draw(TO_DOWN + 1);
        int lost = draw(200) < 3;
        write_until(marked);
        push((struct pass){at_up, packet, 0});
        if (!lost)
            push((struct pass){at_down, packet, 1});
        if (flow < FLOWS) {
            entered[flow][block - FIRST_BLOCK]++;
            left[flow][block - FIRST_BLOCK] += !lost;
        }
    }
    write_until(UINT64_MAX);
}

/* ---- files ---- */

static FILE *create(const char *folder, const char *name) {
    char path[4096];
    snprintf(path, sizeof path, "%s/%s", folder, name);
    FILE *file = fopen(path, "w");
    if (!file)
        fail(path);
    setvbuf(file, NULL, _IOFBF, 1 << 20);
    return file;
}

static void finish(FILE *file) {
    if (fclose(file))
        fail("captures");
}

static void write_tables(const char *folder) {
    FILE *words = create(folder, "words"), *flows = create(folder, "flows");
    fprintf(words, "%llu\n%llu\n", BLOCK, LEAST_DELAY);
    finish(words);
    for (unsigned flow = 0; flow < FLOWS; flow++) {
        char name[64];
        snprintf(name, sizeof name, "table-%u", flow_ids[flow]);
        fprintf(flows, "%u\n", flow_ids[flow]);
        FILE *table = create(folder, name);
        fputs("block,in,out,lost\n", table);
        for (uint64_t block = 0; block < BLOCKS; block++) {
            uint64_t in = entered[flow][block], out = left[flow][block];
            if (in > 0)
                fprintf(table, "%llu,%" PRIu64 ",%" PRIu64 ",%" PRIu64 "\n", FIRST_BLOCK + block, in, out, in - out);
        }
        finish(table);
    }
    finish(flows);
}

static void usage(void) {
    fputs("usage: captures [-n RECORDS] [-l LEAST] [-g GREATEST] [-s SNAPSHOT] [-e] [-b] [-u] [-t] FOLDER\n", stderr);
    exit(2);
}

int main(int argc, char **argv) {
    int option;
    while ((option = getopt(argc, argv, "n:l:g:s:ebut")) != -1) {
        switch (option) {
        case 'n': records = strtoull(optarg, NULL, 10); break;
        case 'l': least = (unsigned)strtoul(optarg, NULL, 10); break;
        case 'g': greatest = (unsigned)strtoul(optarg, NULL, 10); break;
        case 's': snapshot = (unsigned)strtoul(optarg, NULL, 10); break;
        case 'e': ethernet = 1; break;
        case 'b': big_endian = 1; break;
        case 'u': microseconds = 1; break;
        case 't': with_text = 1; break;
        default: usage();
        }
    }
    /* What is captured has all headers: 14 of Ethernet, 40 of IPv6 and 8 of options. */
    if (argc - optind != 1 || !records || least < 64 || least > greatest || greatest > 65000 || snapshot < 62)
        usage();
    for (size_t i = 0; i < sizeof bytes; i++)
        bytes[i] = (uint8_t)(i * 167 + 13);
    const char *folder = argv[optind];
    up.file = create(folder, "up.pcap");
    down.file = create(folder, "down.pcap");
    if (with_text)
        up.text = create(folder, "up.txt");
    write_head(up.file);
    write_head(down.file);
    send_all();
    finish(up.file);
    finish(down.file);
    if (with_text)
        finish(up.text);
    write_tables(folder);
    return 0;
}
