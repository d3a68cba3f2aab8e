/* Writes what the greatest domain needs: as many nodes, links, flows and cells as there may be, and a great table.

   cc -O2 -o mesh mesh.c
   mesh DIR

   In DIR it makes net.toml, the captures p0.pcap to p127.pcap, and the wanted texts: the reports p0.csv to p127.csv
   and the loss table table.csv.  The texts come from what was sent and lost, not from reading the captures.  one.toml
   is the same domain with one reported block.

   Nodes 0 to 66 stand in a row, each link of which is a cluster.  From nodes 66 to 96 links lead to nodes 97 to 127,
   all in one cluster.  Packets enter at node 0 and at nodes 67 to 96: in each block one of each flow at each.  One
   packet in fifty is lost. */
#include <inttypes.h>
#include <stdint.h>
#include <stdio.h>
#include <stdlib.h>
#include <string.h>
#include <sys/stat.h>

typedef uint64_t u64;
typedef int64_t i64;
enum { NODES = 128, LINKS = 1024, FLOWS = 1024, BLOCKS = 32 };
enum { ROW = 66, STARTS = 31, ENDS = 31, FIRST_END = ROW + STARTS };
#define L 10000000000ull
#define H (L / 2)

struct cell { u64 count, sum, dcount, dsum; };
static struct cell cells[NODES][FLOWS * BLOCKS]; /* flow * BLOCKS + block */
static FILE *captures[NODES];

static u64 state = 1;
static u64 draw(u64 k) { /* splitmix64 */
    u64 z = (state += 0x9e3779b97f4a7c15ull);
    z = (z ^ (z >> 30)) * 0xbf58476d1ce4e5b9ull;
    z = (z ^ (z >> 27)) * 0x94d049bb133111ebull;
    return (z ^ (z >> 31)) % k;
}

static FILE *create(const char *dir, const char *form, int number) {
    char name[64], path[4096];
    snprintf(name, sizeof name, form, number);
    snprintf(path, sizeof path, "%s/%s", dir, name);
    FILE *f = fopen(path, "w");
    if (!f) { perror(path); exit(1); }
    setvbuf(f, NULL, _IOFBF, 1 << 16);
    return f;
}
static void done(FILE *f) {
    if (ferror(f) | fclose(f)) { perror("mesh"); exit(1); }
}
static void put16(uint8_t *p, unsigned v) { p[0] = v >> 8; p[1] = v; }
static void put32(uint8_t *p, uint32_t v) { put16(p, v >> 16); put16(p + 2, v & 0xffff); }
static void low32(uint8_t *p, uint32_t v) { p[0] = v; p[1] = v >> 8; p[2] = v >> 16; p[3] = v >> 24; }
static uint32_t id_of(unsigned flow) { return (74565u + 7919u * flow) & 0xfffff; }

/* A packet of 48 bytes is read at a node: 40 of IPv6, and the Hop-by-Hop header with its mark. */
static void seen(int node, unsigned flow, u64 block, int delay_bit, u64 reading) {
    uint8_t b[64] = {0};
    low32(b, reading / 1000000000); low32(b + 4, reading % 1000000000); low32(b + 8, 48); low32(b + 12, 48);
    uint8_t *p = b + 16;
    put32(p, 0x60000000); put16(p + 4, 8); p[7] = 64;
    put32(p + 8, 0x20010db8); put16(p + 12, 2 * flow + 1); p[23] = 1;
    put32(p + 24, 0x20010db8); put16(p + 28, 2 * flow + 2); p[39] = 1;
    p[40] = 59; p[42] = 0x12; p[43] = 4;
    put32(p + 44, id_of(flow) << 12 | (uint32_t)(block & 1) << 11 | (uint32_t)delay_bit << 10);
    fwrite(b, 1, sizeof b, captures[node]);
    struct cell *c = &cells[node][flow * BLOCKS + block];
    u64 offset = reading - (block ? block * L - H : 0);
    c->count++; c->sum += offset;
    if (delay_bit) { c->dcount++; c->dsum += offset; }
}

/* A packet goes from an entry to its end, or is lost on one of the links between. */
static void send(int entry, unsigned flow, u64 block, u64 time) {
    int hops = entry ? 1 : ROW + 1, ends = entry == FIRST_END - 1 ? ENDS - 3 : ENDS, delay_bit = !entry;
    int end = FIRST_END + (int)draw(ends), lost = draw(50) ? hops : (int)draw(hops);
    seen(entry, flow, block, delay_bit, time);
    for (int hop = 1; hop <= hops && hop <= lost; hop++) {
        time += 1000000 + draw(1000000);
        seen(hop < hops ? entry + hop : end, flow, block, delay_bit, time);
    }
}

static void domain(FILE *f, int blocks) {
    fprintf(f, "[timing]\nblock_ns = %llu\nskew_ns = 1000000\ndelay_min_ns = 0\ndelay_max_ns = 500000000\n\n"
               "[marking]\nplace = \"hop-by-hop\"\n\n", L);
    for (unsigned k = 0; k < FLOWS; k++)
        fprintf(f, "[[flow]]\nname = \"flow%u\"\nid = %u\n"
                   "source = \"2001:db8:%x::/48\"\ndestination = \"2001:db8:%x::/48\"\n\n",
                k, id_of(k), 2 * k + 1, 2 * k + 2);
    for (int k = 0; k < NODES; k++)
        fprintf(f, "[[node]]\nname = \"p%d\"\ncapture = \"p%d.pcap\"\nfrom_ns = 0\nuntil_ns = %llu\n\n",
                k, k, (blocks + 1) * L);
    int links = 0;
    for (; links < ROW; links++) fprintf(f, "[[link]]\nfrom = \"p%d\"\nto = \"p%d\"\n\n", links, links + 1);
    for (int s = ROW; s < FIRST_END; s++)
        for (int e = FIRST_END; e < NODES && links < LINKS; e++, links++)
            fprintf(f, "[[link]]\nfrom = \"p%d\"\nto = \"p%d\"\n\n", s, e);
    if (links != LINKS) exit(1);
}

static void report(FILE *f, int node) {
    fputs("version,node,flow,block,count,sum,dcount,dsum\n", f);
    for (int b = 0; b < BLOCKS; b++)
        for (int k = 0; k < FLOWS; k++) {
            struct cell *c = &cells[node][k * BLOCKS + b];
            fprintf(f, "1,p%d,flow%d,%d,%" PRIu64 ",%" PRIu64 ",%" PRIu64 ",%" PRIu64 "\n",
                    node, k, b, c->count, c->sum, c->dcount, c->dsum);
        }
}

/* Adds the cells of nodes `from` and up, below `end`. */
static void sum(struct cell *s, int from, int end, int place) {
    for (int k = from; k < end; k++) {
        struct cell *c = &cells[k][place];
        s->count += c->count; s->sum += c->sum; s->dcount += c->dcount; s->dsum += c->dsum;
    }
}
static void table(FILE *f) {
    fputs("scope,flow,block,in,out,lost,delay,din,dout,ddelay\n", f);
    for (int scope = 0; scope <= ROW + 1; scope++)
        for (int k = 0; k < FLOWS; k++)
            for (int b = 0; b < BLOCKS; b++) {
                struct cell in = {0}, out = {0};
                int place = k * BLOCKS + b;
                char name[16], delay[32] = "-", d_delay[32] = "-";
                snprintf(name, sizeof name, "%d", scope);
                if (scope < ROW) { sum(&in, scope, scope + 1, place); sum(&out, scope + 1, scope + 2, place); }
                else {
                    if (scope == ROW) sum(&in, ROW, ROW + 1, place);
                    else { strcpy(name, "network"); sum(&in, 0, 1, place); }
                    sum(&in, ROW + 1, FIRST_END, place);
                    sum(&out, FIRST_END, NODES, place);
                }
                if (in.count == out.count) snprintf(delay, sizeof delay, "%" PRId64, (i64)(out.sum - in.sum));
                if (in.dcount == out.dcount) snprintf(d_delay, sizeof d_delay, "%" PRId64, (i64)(out.dsum - in.dsum));
                fprintf(f, "%s,flow%d,%d,%" PRIu64 ",%" PRIu64 ",%" PRId64 ",%s,%" PRIu64 ",%" PRIu64 ",%s\n",
                        name, k, b, in.count, out.count, (i64)(in.count - out.count), delay, in.dcount, out.dcount,
                        d_delay);
            }
}

int main(int argc, char **argv) {
    if (argc != 2) { fputs("usage: mesh DIR\n", stderr); return 2; }
    const char *dir = argv[1];
    mkdir(dir, 0777);
    uint8_t head[24] = {0};
    low32(head, 0xa1b23c4d); head[4] = 2; head[6] = 4; low32(head + 16, 262144); low32(head + 20, 101);
    for (int k = 0; k < NODES; k++) { captures[k] = create(dir, "p%d.pcap", k); fwrite(head, 1, 24, captures[k]); }
    for (u64 block = 0; block < BLOCKS; block++)
        for (unsigned flow = 0; flow < FLOWS; flow++) {
            u64 time = block * L + flow * (L / FLOWS);
            send(0, flow, block, time);
            for (int entry = ROW + 1; entry < FIRST_END; entry++) send(entry, flow, block, time + draw(1000000));
        }
    for (int k = 0; k < NODES; k++) {
        done(captures[k]);
        FILE *f = create(dir, "p%d.csv", k);
        report(f, k);
        done(f);
    }
    FILE *f = create(dir, "net.toml", 0);
    domain(f, BLOCKS); done(f);
    f = create(dir, "one.toml", 0);
    domain(f, 1); done(f);
    f = create(dir, "table.csv", 0);
    table(f); done(f);
    return 0;
}
