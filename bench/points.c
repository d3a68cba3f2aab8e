/* Writes a big pair of captures, the domain file for them, and the exact bytes
   that `altmark` must print for them.  See usage() below and README.md, "The points of a domain".

   cc -O2 -o points points.c

   In DIR it makes u.pcap (node a), v.pcap (node b), two.toml, and the wanted
   texts meter_a.csv, meter_b.csv, audit.csv and link.csv (flow 0).  The texts come
   from what was sent and lost, not from reading the captures.

   With one flow, three blocks and the default bounds the domain file says the same
   as `examples/two/two.toml`. */
#include <inttypes.h>
#include <stdint.h>
#include <stdio.h>
#include <stdlib.h>
#include <string.h>
#include <sys/stat.h>
#include <unistd.h>

typedef uint64_t u64;
typedef unsigned __int128 u128;
#define L 10000000000ull
#define H (L / 2)

static u64 state;
static u64 draw(u64 k) { /* splitmix64 */
    u64 z = (state += 0x9e3779b97f4a7c15ull);
    z = (z ^ (z >> 30)) * 0xbf58476d1ce4e5b9ull;
    z = (z ^ (z >> 27)) * 0x94d049bb133111ebull;
    return (z ^ (z >> 31)) % k;
}

static u64 n = 1000000, blocks = 3, seed = 1;
static unsigned captured = 64, original = 0, flows = 1, other = 10, foreign = 0, loss_ppm = 10000;
static u64 delay_base = 10000000, jitter = 5000000, skew = 300000;
static unsigned linktype = 101, tags = 0;
static int big = 0, micro = 0, plain = 0, dest = 0;

enum { FLOW, FOREIGN, TCP6, UDP6, UDP4 };
struct packet { u64 at; u64 seq; uint32_t flow; uint8_t kind, colour, d; };

struct cell { u64 count, dcount; u128 sum, dsum; };
static struct cell *up, *down; /* flow * blocks + block */

static uint32_t id_of(unsigned f) { return (74565u + 7919u * f) & 0xfffff; }

static void put16(uint8_t *p, unsigned v) { p[0] = v >> 8; p[1] = v; }
static void put32(uint8_t *p, uint32_t v) { put16(p, v >> 16); put16(p + 2, v & 0xffff); }
static void file32(uint8_t *p, uint32_t v) {
    if (big) put32(p, v);
    else { p[0] = v; p[1] = v >> 8; p[2] = v >> 16; p[3] = v >> 24; }
}
static uint32_t ones(const uint8_t *p, size_t k, uint32_t s) {
    for (size_t i = 0; i + 1 < k; i += 2) s += (uint32_t)p[i] << 8 | p[i + 1];
    if (k & 1) s += (uint32_t)p[k - 1] << 8;
    while (s >> 16) s = (s & 0xffff) + (s >> 16);
    return s;
}

/* Builds one packet of `size` bytes, of which `have` are written; answers `have`.
   Bytes that aren't written count as zero in the checksum. */
static uint8_t pattern[262144];
static unsigned build(uint8_t *b, const struct packet *p, unsigned size, unsigned have) {
    if (p->kind == UDP4) {
        memcpy(b + 20, pattern, have - 20);
        memset(b, 0, 28);
        b[0] = 0x45; put16(b + 2, size); put16(b + 4, p->seq & 0xffff); b[8] = 64; b[9] = 17;
        put32(b + 12, 0x0a000001); put32(b + 16, 0x0a000002);
        put16(b + 10, ~ones(b, 20, 0) & 0xffff);
        put16(b + 20, 4000); put16(b + 22, 5000); put16(b + 24, size - 20);
        return have;
    }
    int marked = (p->kind == FLOW && !plain) || p->kind == FOREIGN;
    unsigned up_at = marked ? 48 : 40, proto = p->kind == TCP6 ? 6 : 17;
    memset(b, 0, 64);
    put32(b, 0x60000000); put16(b + 4, size - 40);
    b[6] = marked ? (dest ? 60 : 0) : proto; b[7] = 64;
    unsigned s = p->kind == FLOW ? 2 * p->flow + 1 : 0xf001, d = p->kind == FLOW ? 2 * p->flow + 2 : 0xf002;
    put32(b + 8, 0x20010db8); put16(b + 12, s); b[23] = 1;
    put32(b + 24, 0x20010db8); put16(b + 28, d); b[39] = 1;
    if (marked) {
        b[40] = proto; b[42] = 0x12; b[43] = 4;
        uint32_t id = p->kind == FLOW ? id_of(p->flow) : 1;
        put32(b + 44, id << 12 | (uint32_t)p->colour << 11 | (uint32_t)p->d << 10);
    }
    uint8_t *u = b + up_at;
    unsigned len = size - up_at, got = have - up_at;
    unsigned head = proto == 6 ? 20 : 8;
    if (got > head) memcpy(u + head, pattern, got - head);
    put16(u, 4000); put16(u + 2, proto == 6 ? 443 : 5000);
    if (proto == 6) { put32(u + 4, (uint32_t)p->seq); u[12] = 0x50; u[13] = 0x10; put16(u + 14, 64000); }
    else put16(u + 4, len);
    if (proto == 17 && got >= 16) { put32(u + 8, 0xff000000 | (uint32_t)(p->seq >> 32)); put32(u + 12, (uint32_t)p->seq); }
    unsigned at = proto == 6 ? 16 : 6;
    u[at] = u[at + 1] = 0;
    uint32_t sum = ones(b + 8, 32, proto + len);
    sum = ~ones(u, got, sum) & 0xffff;
    put16(u + at, proto == 17 && !sum ? 0xffff : sum);
    return have;
}

static void record(FILE *f, const struct packet *p, u64 reading) {
    static uint8_t b[16 + 22 + 262144];
    unsigned size = original, have = captured;
    if (plain && p->kind == FLOW) { size -= 8; have -= 8; }
    unsigned l2 = linktype == 1 ? 14 + 4 * tags : 0;
    file32(b, reading / 1000000000);
    file32(b + 4, micro ? reading % 1000000000 / 1000 : reading % 1000000000);
    file32(b + 8, l2 + have); file32(b + 12, l2 + size);
    if (l2) {
        memcpy(b + 16, "\x02\0\0\0\0\2\x02\0\0\0\0\1", 12);
        uint8_t *q = b + 28;
        for (unsigned t = 0; t < tags; t++, q += 4) { put16(q, t + 1 < tags ? 0x88a8 : 0x8100); put16(q + 2, 100 + t); }
        put16(q, p->kind == UDP4 ? 0x0800 : 0x86dd);
    }
    build(b + 16 + l2, p, size, have);
    if (fwrite(b, 1, 16 + l2 + have, f) != 16 + l2 + have) { perror("points"); exit(1); }
}

static FILE *create(const char *dir, const char *name) {
    char path[4096];
    snprintf(path, sizeof path, "%s/%s", dir, name);
    FILE *f = fopen(path, "w");
    if (!f) { perror(path); exit(1); }
    setvbuf(f, NULL, _IOFBF, 1 << 20);
    return f;
}
static void head(FILE *f) {
    uint8_t b[24] = {0};
    file32(b, micro ? 0xa1b2c3d4 : 0xa1b23c4d);
    if (big) { b[5] = 2; b[7] = 4; } else { b[4] = 2; b[6] = 4; }
    file32(b + 16, 262144); file32(b + 20, linktype);
    fwrite(b, 1, 24, f);
}

/* packets on their way, least arrival first */
static struct packet *heap; static size_t held, room;
static int before(const struct packet *a, const struct packet *b) { return a->at != b->at ? a->at < b->at : a->seq < b->seq; }
static void push(struct packet p) {
    if (held == room) { room = room ? 2 * room : 4096; heap = realloc(heap, room * sizeof *heap); if (!heap) exit(1); }
    size_t i = held++;
    while (i && before(&p, &heap[(i - 1) / 2])) { heap[i] = heap[(i - 1) / 2]; i = (i - 1) / 2; }
    heap[i] = p;
}
static struct packet pop(void) {
    struct packet top = heap[0], p = heap[--held];
    size_t i = 0, c;
    while ((c = 2 * i + 1) < held) {
        if (c + 1 < held && before(&heap[c + 1], &heap[c])) c++;
        if (before(&p, &heap[c])) break;
        heap[i] = heap[c]; i = c;
    }
    heap[i] = p;
    return top;
}

static u64 cut(u64 r) { return micro ? r / 1000 * 1000 : r; }
static u64 base(u64 b) { return b ? b * L - H : 0; }
static void add(struct cell *c, const struct packet *p, u64 block, u64 reading) {
    if (block >= blocks) return;
    c += p->flow * blocks + block;
    u64 o = reading - base(block);
    c->count++; c->sum += o;
    if (p->d) { c->dcount++; c->dsum += o; }
}
static const char *dec(u128 v) {
    static char t[4][48]; static int k;
    char *p = t[k = (k + 1) & 3] + 47;
    *p = 0;
    do *--p = '0' + (int)(v % 10); while (v /= 10);
    return p;
}
static const char *diff(u128 a, u128 b) {
    static char t[2][50]; static int k;
    char *p = t[k ^= 1];
    snprintf(p, 50, "%s%s", a < b ? "-" : "", dec(a < b ? b - a : a - b));
    return p;
}
static const char *flow_name(unsigned f) {
    static char t[32];
    if (flows == 1) return "voice";
    snprintf(t, 32, "flow%u", f);
    return t;
}
static void report(const char *dir, const char *name, const char *node, struct cell *c) {
    FILE *f = create(dir, name);
    fputs("version,node,flow,block,count,sum,dcount,dsum\n", f);
    for (u64 b = 0; b < blocks; b++)
        for (unsigned k = 0; k < flows; k++) {
            struct cell *x = &c[k * blocks + b];
            fprintf(f, "1,%s,%s,%" PRIu64 ",%" PRIu64 ",%s,%" PRIu64 ",%s\n", node, flow_name(k), b, x->count, dec(x->sum), x->dcount, dec(x->dsum));
        }
    fclose(f);
}

static void usage(void) {
    fputs("usage: points [options] DIR\n"
          "  -n N       records in u.pcap (1000000)     -c BYTES  captured IP bytes, 64 or more (64)\n"
          "  -o BYTES   original IP bytes (as -c)       -f F      flows, 1 to 1024 (1)\n"
          "  -b B       blocks of 10 s (3)              -x PERC   background, unmarked IPv6 and IPv4 (10)\n"
          "  -y PERC    marked with an unknown id (0)   -p PPM    loss, packets of a million (10000)\n"
          "  -g NS      least delay (10000000)          -j NS     jitter (5000000)\n"
          "  -k NS      clock of b is ahead, to 500000 (300000)\n"
          "  -l LINK    101, 229 or 1 (101)             -t TAGS   Ethernet tags, 0 to 2 (0)\n"
          "  -s SEED    (1)                             -E big-endian   -u microseconds\n"
          "  -D marks in Destination Options            -m no marks: flows' packets 8 bytes shorter;\n"
          "             `mark two.toml u.pcap` of these must give the bytes of u.pcap without -m\n", stderr);
    exit(2);
}

int main(int argc, char **argv) {
    int o;
    while ((o = getopt(argc, argv, "n:c:o:f:b:x:y:p:g:j:k:l:t:s:EuDm")) != -1) {
        u64 v = optarg ? strtoull(optarg, NULL, 10) : 0;
        switch (o) {
        case 'n': n = v; break;            case 'c': captured = v; break;
        case 'o': original = v; break;     case 'f': flows = v; break;
        case 'b': blocks = v; break;       case 'x': other = v; break;
        case 'y': foreign = v; break;      case 'p': loss_ppm = v; break;
        case 'g': delay_base = v; break;   case 'j': jitter = v; break;
        case 'k': skew = v; break;         case 'l': linktype = v; break;
        case 't': tags = v; break;         case 's': seed = v; break;
        case 'E': big = 1; break;          case 'u': micro = 1; break;
        case 'D': dest = 1; break;         case 'm': plain = 1; break;
        default: usage();
        }
    }
    if (!original) original = captured;
    if (optind + 1 != argc || captured < 64 || captured > 262000 || original < captured || original > 65535 || !flows
        || flows > 1024 || !blocks || flows * blocks > 32768 || other + foreign > 100 || tags > 2 || skew > 500000
        || delay_base + jitter > 499000000 || (linktype != 101 && linktype != 229 && linktype != 1)) usage();
    const char *dir = argv[optind];
    mkdir(dir, 0777);
    up = calloc(flows * blocks, sizeof *up); down = calloc(flows * blocks, sizeof *down);
    u64 *next_d = calloc(flows, sizeof *next_d); /* least block that a D bit may still announce */
    if (!up || !down || !next_d) return 1;
    for (size_t i = 0; i < sizeof pattern; i++) pattern[i] = (uint8_t)(i * 167 + 13);
    state = seed;

    FILE *u = create(dir, "u.pcap"), *v = create(dir, "v.pcap");
    head(u); head(v);
    u64 span = blocks * L;
    for (u64 i = 0; i < n; i++) {
        u64 t = cut((u64)((u128)i * span / n)), k = draw(100);
        struct packet p = {.seq = i, .kind = k < other ? TCP6 : k < other + foreign ? FOREIGN : FLOW};
        u64 kind = draw(4), f = draw(flows), lose = draw(1000000), wait = delay_base + (jitter ? draw(jitter + 1) : 0);
        if (p.kind == TCP6 && kind) p.kind = kind == 1 || linktype == 229 ? UDP6 : UDP4;
        u64 block = t / L;
        p.flow = f; p.colour = block & 1;
        if (p.kind == FLOW && block >= next_d[f]) { p.d = 1; next_d[f] = block + 1; }
        while (held && heap[0].at <= t) { struct packet q = pop(); record(v, &q, q.at); }
        record(u, &p, t);
        if (p.kind == FLOW) add(up, &p, block, t);
        if (lose < loss_ppm) continue;
        p.at = cut(t + wait + skew);
        if (p.kind == FLOW) add(down, &p, block, p.at);
        push(p);
    }
    while (held) { struct packet q = pop(); record(v, &q, q.at); }
    if (fclose(u) || fclose(v)) { perror("points"); return 1; }

    FILE *d = create(dir, "two.toml");
    fprintf(d, "[timing]\nblock_ns = %llu\nskew_ns = 1000000\ndelay_min_ns = 0\ndelay_max_ns = 500000000\n\n"
               "[marking]\nplace = \"%s\"\n\n", L, dest ? "destination" : "hop-by-hop");
    for (unsigned f = 0; f < flows; f++)
        fprintf(d, "[[flow]]\nname = \"%s\"\nid = %u\nsource = \"2001:db8:%x::/48\"\ndestination = \"2001:db8:%x::/48\"\n\n",
                flow_name(f), id_of(f), 2 * f + 1, 2 * f + 2);
    for (int k = 0; k < 2; k++)
        fprintf(d, "[[node]]\nname = \"%c\"\ncapture = \"%c.pcap\"\nfrom_ns = 0\nuntil_ns = %" PRIu64 "\n\n", 'a' + k, 'u' + k, (u64)((blocks + 1) * L));
    fprintf(d, "[[link]]\nfrom = \"a\"\nto = \"b\"\n");
    fclose(d);
    if (plain) return 0;

    report(dir, "meter_a.csv", "a", up);
    report(dir, "meter_b.csv", "b", down);
    FILE *w = create(dir, "audit.csv");
    fputs("scope,flow,block,in,out,lost,delay,din,dout,ddelay\n", w);
    for (int s = 0; s < 2; s++)
        for (unsigned f = 0; f < flows; f++)
            for (u64 b = 0; b < blocks; b++) {
                struct cell *x = &up[f * blocks + b], *y = &down[f * blocks + b];
                fprintf(w, "%s,%s,%" PRIu64 ",%" PRIu64 ",%" PRIu64 ",%" PRIu64 ",%s,%" PRIu64 ",%" PRIu64 ",%s\n", s ? "network" : "0", flow_name(f), b,
                        x->count, y->count, x->count - y->count, x->count == y->count ? diff(y->sum, x->sum) : "-",
                        x->dcount, y->dcount, x->dcount == y->dcount ? diff(y->dsum, x->dsum) : "-");
            }
    fclose(w);
    w = create(dir, "link.csv");
    fputs("block,in,out,lost\n", w);
    for (u64 b = 0; b < blocks; b++)
        if (up[b].count || down[b].count)
            fprintf(w, "%" PRIu64 ",%" PRIu64 ",%" PRIu64 ",%" PRIu64 "\n", b, up[b].count, down[b].count, up[b].count - down[b].count);
    fclose(w);
    return 0;
}
