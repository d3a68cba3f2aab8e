/* A tight C program that does what `altmark meter`, `audit` and `link` do: a speed
   yardstick, and a second reading of the formats to compare answers with.

   cc -O3 -march=native -pthread -o yardstick yardstick.c  

   yardstick [-m | -t N] meter DOMAIN NODE
   yardstick [-m | -t N] audit DOMAIN
   yardstick [-m | -t N] link BLOCK DMIN FLOW UP DOWN
   yardstick mark DOMAIN FILE
   yardstick strip DOMAIN FILE

   default  one thread, read() of 64 KiB pieces
   -m       one thread, mmap of the whole file
   -t N     N threads on the mmap.  Each guesses a record's begin in its part of the file;
            a guess counts only where the part before really ends there, else that part
            is counted again from the right place.

   Texts on both streams and the statuses are those of docs/formats.md, with
   `altmark: ` as the prefix on standard error, so that they can be compared byte for byte.
   The domain file is read line by line, `key = value`: enough for right domain files, and
   no judge of wrong ones.  Captures are named from the working directory. */
#define _GNU_SOURCE
#include <arpa/inet.h>
#include <errno.h>
#include <fcntl.h>
#include <inttypes.h>
#include <pthread.h>
#include <stdint.h>
#include <stdio.h>
#include <stdlib.h>
#include <string.h>
#include <sys/mman.h>
#include <sys/stat.h>
#include <unistd.h>

typedef uint64_t u64;
typedef uint32_t u32;
typedef uint8_t u8;
typedef unsigned __int128 u128;
#define likely(x) __builtin_expect(!!(x), 1)
#define unlikely(x) __builtin_expect(!!(x), 0)
#define MAX 262144u

/* ---- what is counted ---- */
struct cell { u64 count, dcount; u128 sum, dsum; };
struct pair { u64 block, count; };
struct table { struct pair *p; u64 *order; u64 room, used; }; /* blocks of `link`, no bounds known */

struct job {            /* one node, or one side of a link */
    u64 L, H, z;
    int dest;           /* marks in Destination Options */
    u64 first, end;     /* reported blocks */
    const uint16_t *slot; /* flow id -> flow + 1, or 0 */
    u32 link_flow;      /* `link`: the one id */
    int is_link;
};
struct counts {
    u64 lo, hi, e;      /* the epoch that the last reading was in: [lo, hi) */
    struct cell *cells; /* flow * blocks + block - first */
    struct table t;
    u64 records;        /* records passed so far */
    u64 cut;            /* number of the record whose headers are cut, or 0 */
};

static void *zalloc(size_t n) {
    void *p = calloc(1, n ? n : 1);
    if (!p) _exit(7);
    return p;
}
static u64 *table_at(struct table *t, u64 block) {
    if (2 * (t->used + 1) > t->room) {
        struct table n = {.room = t->room ? 2 * t->room : 64, .used = 0};
        n.p = zalloc(n.room * sizeof *n.p);
        for (u64 i = 0; i < t->room; i++)
            if (t->p[i].count) *table_at(&n, t->p[i].block) = t->p[i].count;
        free(t->p);
        *t = n;
    }
    u64 i = (block * 0x9e3779b97f4a7c15ull) >> 20 & (t->room - 1);
    while (t->p[i].count && t->p[i].block != block) i = (i + 1) & (t->room - 1);
    if (!t->p[i].count) { t->p[i].block = block; t->used++; }
    return &t->p[i].count;
}

/* ---- one record ---- */
static inline u32 le32(const u8 *p) { u32 v; memcpy(&v, p, 4); return v; }
static inline u32 be16(const u8 *p) { return (u32)p[0] << 8 | p[1]; }

/* 1: marked, *mark is the data; 0: none; -1: cut */
static inline int options(const u8 *b, u32 p, u32 q, u32 *mark) {
    int found = 0;
    while (p < q) {
        if (b[p] == 0) { p++; continue; }
        if (q - p < 2 || q - p - 2 < b[p + 1]) return -2; /* malformed: the header isn't lent */
        if (b[p] == 0x12 && b[p + 1] == 4 && !found) {
            *mark = be16(b + p + 2) << 16 | be16(b + p + 4);
            found = 1;
        }
        p += 2 + b[p + 1];
    }
    return found;
}
static inline __attribute__((always_inline)) int find_mark(const u8 *b, u32 n, int whole, int dest, u32 *mark) {
    if (n && b[0] >> 4 != 6) return 0;
    if (n < 40) return whole ? 0 : -1;
    u32 plen = be16(b + 4);
    if (!dest) {
        if (b[6] != 0) return 0;
        /* by far the commonest spelling: 8 bytes of header, the mark its first option */
        if (likely(n >= 48 && plen >= 8 && le32(b + 40) >> 8 == 0x041200)) {
            *mark = __builtin_bswap32(le32(b + 44));
            return 1;
        }
    }
    u32 told = 40 + plen, limit = n < told ? n : told;
    int cut = limit < told && !whole ? -1 : 0;
    if (!dest) {
        if (limit < 42 || limit - 40 < 8 + 8 * (u32)b[41]) return cut;
        int r = options(b, 42, 48 + 8 * (u32)b[41], mark);
        return r < 0 ? 0 : r;
    }
    u32 p = 40;
    u8 next = b[6];
    while (next == 43 || next == 60 || (next == 0 && p == 40)) {
        if (limit < p + 2 || limit - p < 8 + 8 * (u32)b[p + 1]) return cut;
        u32 q = p + 8 + 8 * (u32)b[p + 1];
        if (next != 43) {
            u32 m = 0;
            int r = options(b, p + 2, q, &m);
            if (r < 0) return 0;
            if (r && next == 60) { *mark = m; return 1; }
        }
        next = b[p];
        p = q;
    }
    return 0;
}
static inline __attribute__((always_inline)) int frame(int link, const u8 *b, u32 n, int whole, u32 *at) { /* 1 IPv6, 0 other, -1 cut */
    *at = 0;
    if (link == 229) return 1;
    if (link == 101) return n ? b[0] >> 4 == 6 : whole ? 0 : -1;
    u32 p = 12;
    for (int tags = 0;; tags++, p += 4) {
        if (n < p + 2) return whole ? 0 : -1;
        u32 t = be16(b + p);
        if (t == 0x86dd) { *at = p + 2; return 1; }
        if ((t != 0x8100 && t != 0x88a8) || tags == 2) return 0;
    }
}
static inline __attribute__((always_inline)) int count(const struct job *j, struct counts *c, int link, int dest, int is_link, u64 reading, const u8 *b, u32 n, int whole) {
    u32 at, mark = 0;
    int r = frame(link, b, n, whole, &at);
    if (r == 1) r = find_mark(b + at, n - at, whole, dest, &mark);
    if (unlikely(r < 0)) return -1;
    if (!r) return 0;
    u32 flow = mark >> 12;
    if (is_link ? flow != j->link_flow : !(flow = j->slot[flow])) return 0;
    if (unlikely(reading - c->lo >= c->hi - c->lo)) {
        if (reading + j->H < j->z) return 0;
        c->e = (reading + j->H - j->z) / j->L;
        c->hi = (c->e + 1) * j->L + j->z - j->H;
        u64 begin = c->e * j->L + j->z;
        c->lo = begin < j->H ? 0 : begin - j->H;
    }
    u64 block = c->e;
    if ((block ^ (mark >> 11)) & 1) {
        if (!block) return 0;
        block--;
    }
    if (is_link) { ++*table_at(&c->t, block); return 0; }
    u64 blocks = j->end - j->first, k = block - j->first;
    if (k >= blocks) return 0;
    struct cell *x = &c->cells[(flow - 1) * blocks + k];
    u64 offset = reading - (block ? block * j->L - j->H : 0);
    x->count++;
    x->sum += offset;
    if (mark >> 10 & 1) { x->dcount++; x->dsum += offset; }
    return 0;
}

/* ---- captures ---- */
struct form { int big, nano, link; };
static void fail(int status, const char *name, const char *format, u64 a, u64 b) {
    fprintf(stderr, "altmark: %s: ", name);
    fprintf(stderr, format, a, b);
    fputc('\n', stderr);
    exit(status);
}
static struct form head(const char *name, const u8 *b, u64 n) {
    struct form f = {0, 0, 0};
    if (n < 24) fail(3, name, "file ends in record 0", 0, 0);
    u32 m = le32(b);
    if (m == 0xa1b2c3d4 || m == 0xa1b23c4d) f.nano = m == 0xa1b23c4d;
    else if (m == 0xd4c3b2a1 || m == 0x4d3cb2a1) { f.big = 1; f.nano = m == 0x4d3cb2a1; }
    else fail(3, name, "bad magic", 0, 0);
    u32 v = le32(b + 4), l = le32(b + 20);
    if (f.big) { v = __builtin_bswap32(v); v = v << 16 | v >> 16; l = __builtin_bswap32(l); }
    if (v != 0x00040002) fail(3, name, "bad version", 0, 0);
    f.link = l & 0xffff;
    if (f.link != 1 && f.link != 101 && f.link != 229) fail(3, name, "unknown link type %" PRIu64, f.link, 0);
    return f;
}
enum { MORE, CUT_HEADERS, LONG };
/* Counts the whole records of b[*at..n) that begin below `limit`. */
static inline __attribute__((always_inline)) int run(const struct job *j, struct counts *c, struct form f, int dest, int is_link, const u8 *b, u64 *at, u64 n, u64 limit, u64 *bad) {
    u64 p = *at;
    int why = MORE;
    while (p < limit && n - p >= 16) {
        u32 s = le32(b + p), r = le32(b + p + 4), k = le32(b + p + 8), w = le32(b + p + 12);
        if (f.big) { s = __builtin_bswap32(s); r = __builtin_bswap32(r); k = __builtin_bswap32(k); w = __builtin_bswap32(w); }
        if (unlikely(k > MAX)) { *bad = k; why = LONG; break; }
        if (n - p - 16 < k) break;
        c->records++;
        u64 reading = (u64)s * 1000000000u + (f.nano ? (u64)r : (u64)r * 1000u);
        if (unlikely(count(j, c, f.link, dest, is_link, reading, b + p + 16, k, k >= w) < 0)) { why = CUT_HEADERS; break; }
        p += 16 + (u64)k;
    }
    *at = p;
    return why;
}
static int run_any(const struct job *j, struct counts *c, struct form f, const u8 *b, u64 *at, u64 n, u64 limit, u64 *bad) {
    const struct form raw = {0, 1, 101}, ether = {0, 1, 1}; /* constants where it's common */
    int plain = !f.big && f.nano && !j->dest;
    if (plain && f.link == 101) return j->is_link ? run(j, c, raw, 0, 1, b, at, n, limit, bad) : run(j, c, raw, 0, 0, b, at, n, limit, bad);
    if (plain && f.link == 1) return j->is_link ? run(j, c, ether, 0, 1, b, at, n, limit, bad) : run(j, c, ether, 0, 0, b, at, n, limit, bad);
    return run(j, c, f, j->dest, j->is_link, b, at, n, limit, bad);
}
static void refuse(const char *name, int why, u64 records, u64 bad) {
    if (why == LONG) fail(3, name, "record %" PRIu64 " is too long: %" PRIu64, records + 1, bad);
    if (why == CUT_HEADERS) fail(3, name, "headers of record %" PRIu64 " are cut", records, 0);
    fail(3, name, "file ends in record %" PRIu64, records + 1, 0);
}
static int open_file(const char *name) {
    int fd = open(name, O_RDONLY);
    if (fd < 0) fail(errno == ENOENT ? 4 : 5, name, errno == ENOENT ? "missing" : "read fault", 0, 0);
    return fd;
}
static void by_read(const struct job *j, struct counts *c, const char *name) {
    enum { PIECE = 65536 };
    u8 *b = zalloc(MAX + 16 + PIECE);
    int fd = open_file(name), begun = 0, why;
    u64 held = 0, at = 0, bad = 0;
    struct form f = {0, 0, 0};
    for (;;) {
        ssize_t r = read(fd, b + held, PIECE);
        if (r < 0 && errno == EINTR) continue;
        if (r < 0) fail(5, name, "read fault", 0, 0);
        if (r == 0) break;
        held += (u64)r;
        at = 0;
        if (!begun) {
            if (held < 24) continue;
            f = head(name, b, held);
            at = 24;
            begun = 1;
        }
        if ((why = run_any(j, c, f, b, &at, held, held, &bad))) refuse(name, why, c->records, bad);
        memmove(b, b + at, held -= at);
    }
    if (!begun) head(name, b, held);
    if (held) refuse(name, MORE, c->records, 0);
    close(fd);
    free(b);
}

/* ---- threads ---- */
struct part {
    const struct job *j; struct form f; const u8 *b;
    u64 n, start, limit, at, bad; int why;
    struct counts c;
    pthread_t thread;
};
static void *work(void *v) {
    struct part *p = v;
    p->at = p->start;
    p->why = run_any(p->j, &p->c, p->f, p->b, &p->at, p->n, p->limit, &p->bad);
    return NULL;
}
/* A place from `from` on at which sixteen records seem to follow one another. */
static u64 guess(struct form f, const u8 *b, u64 n, u64 from, u64 to) {
    u32 s0 = le32(b + 24);
    if (f.big) s0 = __builtin_bswap32(s0);
    for (u64 p = from; p < to; p++) {
        u64 q = p;
        int k = 0;
        for (; k < 16 && n - q >= 16; k++) {
            u32 s = le32(b + q), r = le32(b + q + 4), c = le32(b + q + 8), w = le32(b + q + 12);
            if (f.big) { s = __builtin_bswap32(s); r = __builtin_bswap32(r); c = __builtin_bswap32(c); w = __builtin_bswap32(w); }
            if (c > MAX || c > w || w > 1u << 24 || s - s0 > 1u << 26 || r >= (f.nano ? 1000000000u : 1000000u) || n - q - 16 < c) break;
            q += 16 + (u64)c;
        }
        if (k == 16 || (k && q == n)) return p;
    }
    return to;
}
static struct cell *cells_of(const struct job *j, u32 flows) { return j->is_link ? NULL : zalloc(flows * (j->end - j->first) * sizeof(struct cell)); }
static void merge(const struct job *j, struct counts *to, struct counts *c, u32 flows) {
    if (j->is_link)
        for (u64 i = 0; i < c->t.room; i++) {
            if (c->t.p[i].count) *table_at(&to->t, c->t.p[i].block) += c->t.p[i].count;
        }
    else
        for (u64 i = 0; i < flows * (j->end - j->first); i++) {
            to->cells[i].count += c->cells[i].count; to->cells[i].sum += c->cells[i].sum;
            to->cells[i].dcount += c->cells[i].dcount; to->cells[i].dsum += c->cells[i].dsum;
        }
    to->records += c->records;
}
static void by_map(const struct job *j, struct counts *c, const char *name, int threads, u32 flows) {
    int fd = open_file(name);
    struct stat st;
    if (fstat(fd, &st)) fail(5, name, "read fault", 0, 0);
    u64 n = (u64)st.st_size, at = 24, bad = 0;
    if (n < 24) { u8 b[24] = {0}; head(name, b, n); }
    u8 *b = mmap(NULL, n, PROT_READ, MAP_PRIVATE | (threads > 1 ? 0 : MAP_POPULATE), fd, 0);
    if (b == MAP_FAILED) fail(5, name, "read fault", 0, 0);
    struct form f = head(name, b, n);
    if (threads <= 1 || n < 1 << 20) {
        int why = run_any(j, c, f, b, &at, n, n, &bad);
        if (why || at < n) refuse(name, why, c->records, bad);
    } else {
        struct part *p = zalloc((u64)threads * sizeof *p);
        for (int k = 0; k < threads; k++) {
            u64 from = 24 + (n - 24) / threads * k, to = k + 1 < threads ? 24 + (n - 24) / threads * (k + 1) : n;
            p[k] = (struct part){.j = j, .f = f, .b = b, .n = n, .limit = to, .start = k ? guess(f, b, n, from, to) : 24};
            p[k].c.cells = cells_of(j, flows);
            if (k) p[k - 1].limit = p[k].start;
        }
        for (int k = 1; k < threads; k++)
            if (pthread_create(&p[k].thread, NULL, work, &p[k])) _exit(7);
        work(&p[0]);
        for (int k = 1; k < threads; k++) pthread_join(p[k].thread, NULL);
        for (int k = 0; k < threads; k++) {
            if (p[k].start != at) { /* a wrong guess: count this part again */
                free(p[k].c.cells);
                free(p[k].c.t.p);
                p[k].c = (struct counts){.cells = cells_of(j, flows)};
                p[k].start = at;
                work(&p[k]);
            }
            merge(j, c, &p[k].c, flows);
            at = p[k].at;
            if (p[k].why || at < p[k].limit) refuse(name, p[k].why, c->records, p[k].bad);
            free(p[k].c.cells);
            free(p[k].c.t.p);
        }
        free(p);
    }
    munmap(b, n);
    close(fd);
}

/* ---- the domain file, line by line ---- */
struct flow { char name[40]; u32 id; u8 at[2][16], mask[2][16]; int seen; u64 block; };
struct node { char name[40], capture[260]; u64 from, until, z; };
struct edge { char from[40], to[40]; u32 a, b; };
static struct flow flows[1024];
static struct node nodes[128];
static struct edge edges[1024];
static u32 nflows, nnodes, nedges;
static u64 L, dmin, first, end;
static int dest;

static void text(char *to, size_t room, const char *v) {
    const char *a = strchr(v, '"'), *z = a ? strchr(a + 1, '"') : NULL;
    if (!z || (size_t)(z - a - 1) >= room) { fputs("altmark: domain: not TOML\n", stderr); exit(3); }
    memcpy(to, a + 1, (size_t)(z - a - 1));
    to[z - a - 1] = 0;
}
static void prefix(struct flow *f, int k, const char *v) {
    char t[80], *slash;
    text(t, sizeof t, v);
    int bits = 128;
    if ((slash = strchr(t, '/'))) { *slash = 0; bits = atoi(slash + 1); }
    if (inet_pton(AF_INET6, t, f->at[k]) != 1) exit(3);
    for (int i = 0; i < 16; i++, bits -= 8) {
        f->mask[k][i] = bits >= 8 ? 0xff : bits <= 0 ? 0 : (u8)(0xff << (8 - bits));
        f->at[k][i] &= f->mask[k][i];
    }
}
static u32 node_named(const char *name) {
    for (u32 i = 0; i < nnodes; i++) if (!strcmp(nodes[i].name, name)) return i;
    fputs("altmark: unknown node\n", stderr);
    exit(3);
}
static void domain(const char *name) {
    FILE *d = fopen(name, "r");
    if (!d) fail(4, name, "missing", 0, 0);
    char line[1024], key[64], at[64] = "";
    while (fgets(line, sizeof line, d)) {
        char *v;
        if (sscanf(line, " [[%63[a-z]]]", at) == 1 && strstr(line, "[[")) {
            if (!strcmp(at, "flow")) nflows++;
            if (!strcmp(at, "node")) nnodes++;
            if (!strcmp(at, "link")) nedges++;
            if (nflows > 1024 || nnodes > 128 || nedges > 1024) exit(3);
            continue;
        }
        if (sscanf(line, " [%63[a-z]]", at) == 1) continue;
        if (sscanf(line, " %63[a-z_] =", key) != 1 || !(v = strchr(line, '='))) continue;
        v++;
        u64 number = strtoull(v + strspn(v, " \t"), NULL, 10);
        if (!strcmp(key, "block_ns")) L = number;
        else if (!strcmp(key, "delay_min_ns")) dmin = number;
        else if (!strcmp(key, "place")) dest = strstr(v, "destination") != NULL;
        else if (!strcmp(key, "id")) flows[nflows - 1].id = (u32)number & 0xfffff;
        else if (!strcmp(key, "source")) prefix(&flows[nflows - 1], 0, v);
        else if (!strcmp(key, "destination")) prefix(&flows[nflows - 1], 1, v);
        else if (!strcmp(key, "from_ns")) nodes[nnodes - 1].from = number;
        else if (!strcmp(key, "until_ns")) nodes[nnodes - 1].until = number;
        else if (!strcmp(key, "capture")) text(nodes[nnodes - 1].capture, 260, v);
        else if (!strcmp(key, "from")) text(edges[nedges - 1].from, 40, v);
        else if (!strcmp(key, "to")) text(edges[nedges - 1].to, 40, v);
        else if (!strcmp(key, "name")) {
            if (!strcmp(at, "flow")) text(flows[nflows - 1].name, 40, v);
            else text(nodes[nnodes - 1].name, 40, v);
        }
    }
    fclose(d);
    if (!L || !nflows || !nnodes || !nedges) { fputs("altmark: domain: not TOML\n", stderr); exit(3); }
    for (u32 i = 0; i < nedges; i++) {
        edges[i].a = node_named(edges[i].from);
        nodes[edges[i].b = node_named(edges[i].to)].z = dmin;
    }
    end = ~0ull;
    for (u32 i = 0; i < nnodes; i++) {
        u64 z = nodes[i].z, H = L / 2, from = nodes[i].from, a, b;
        /* least n with max(0, nL - H + z) >= from; count of n with (n + 1)L + H + z <= until */
        a = !from || (z >= H && z - H >= from) ? 0 : (from + H - z + L - 1) / L;
        b = nodes[i].until < L + H + z ? 0 : (nodes[i].until - H - z) / L;
        if (a > first) first = a;
        if (b < end) end = b;
    }
    if (first >= end) { fprintf(stderr, "altmark: domain: no block is covered: first %" PRIu64 " end %" PRIu64 "\n", first, end); exit(3); }
}

static int mode = 0, threads = 1;
static void one(const struct job *j, struct counts *c, const char *name) {
    c->cells = cells_of(j, nflows);
    if (mode) by_map(j, c, name, threads, nflows);
    else by_read(j, c, name);
}

/* ---- marking and stripping ---- */
struct walk { u32 hop, dest1, mark_at, mark, end_at, told_at; int kind, next, dests; }; /* places, 0 where there is none */
enum { END, MALFORMED, CUT };
/* end_at is the place of a malformed ending; mark_at that of the first mark in the wanted kind of header */
static struct walk go(const u8 *b, u32 n, int whole, int want) {
    struct walk w = {0};
    u32 told = 40 + be16(b + 4), limit = n < told ? n : told, p = 40;
    w.told_at = 6;
    w.next = b[6];
    while (w.next == 43 || w.next == 60 || (w.next == 0 && p == 40)) {
        if (limit < p + 2 || limit - p < 8 + 8 * (u32)b[p + 1]) {
            w.kind = limit < told && !whole ? CUT : MALFORMED;
            w.end_at = p;
            return w;
        }
        u32 q = p + 8 + 8 * (u32)b[p + 1], o = p + 2, mark = 0;
        if (w.next != 43) {
            while (o < q) {
                if (b[o] == 0) { o++; continue; }
                if (q - o < 2 || q - o - 2 < b[o + 1]) { w.kind = MALFORMED; w.end_at = o; return w; }
                if (b[o] == 0x12 && b[o + 1] == 4 && !mark) mark = o;
                o += 2 + b[o + 1];
            }
            if (w.next == want && mark && !w.mark_at) { w.mark_at = mark; w.mark = __builtin_bswap32(le32(b + mark + 2)); }
            if (w.next == 0) w.hop = p;
            else if (!w.dest1) w.dest1 = p;
        }
        w.told_at = p;
        w.next = b[p];
        p = q;
    }
    w.end_at = p;
    return w;
}
static struct { u8 key[32]; struct flow *f; int full; } cache[4096];
static struct flow *flow_of(const u8 *addresses) {
    u64 h = 0, v;
    for (int i = 0; i < 4; i++) { memcpy(&v, addresses + 8 * i, 8); h = (h ^ v) * 0x9e3779b97f4a7c15ull; h ^= h >> 29; }
    h &= 4095;
    if (cache[h].full && !memcmp(cache[h].key, addresses, 32)) return cache[h].f;
    struct flow *f = NULL;
    for (u32 i = 0; i < nflows && !f; i++) {
        f = &flows[i];
        for (int k = 0; k < 32; k++)
            if ((addresses[k] & f->mask[k / 16][k % 16]) != f->at[k / 16][k % 16]) { f = NULL; break; }
    }
    memcpy(cache[h].key, addresses, 32);
    cache[h].f = f;
    cache[h].full = 1;
    return f;
}
static u8 outbuf[MAX + 65536 + 64];
static u32 outn;
static void flush(void) {
    for (u32 o = 0; o < outn;) {
        ssize_t r = write(1, outbuf + o, outn - o);
        if (r < 0 && errno != EINTR) { fputs("altmark: write fault\n", stderr); exit(6); }
        if (r > 0) o += (u32)r;
    }
    outn = 0;
}
static void put(const void *b, u32 n) {
    if (outn + n > sizeof outbuf) flush();
    memcpy(outbuf + outn, b, n);
    outn += n;
}
static void turn(struct form f, u8 *p, u32 v) { if (f.big) v = __builtin_bswap32(v); memcpy(p, &v, 4); }
static void wrong(const char *name, u64 k, const char *what, u32 at) {
    char t[128];
    flush();
    snprintf(t, sizeof t, "record %%" PRIu64 ": %s", what);
    fail(3, name, t, k, at);
}
static void rewrite(const char *name, int strip) {
    u8 *b = zalloc(MAX + 16 + 65536);
    int fd = open_file(name), begun = 0, want = dest ? 60 : 0;
    u64 held = 0, at, k = 0;
    struct form f = {0, 0, 0};
    for (;;) {
        ssize_t r = read(fd, b + held, 65536);
        if (r < 0 && errno == EINTR) continue;
        if (r < 0) { flush(); fail(5, name, "read fault", 0, 0); }
        if (r == 0) break;
        held += (u64)r;
        at = 0;
        if (!begun) {
            if (held < 24) continue;
            f = head(name, b, held);
            put(b, at = 24);
            begun = 1;
        }
        while (held - at >= 16) {
            u8 *h = b + at, *p = h + 16;
            u32 s = le32(h), x = le32(h + 4), n = le32(h + 8), o = le32(h + 12), ip;
            if (f.big) { s = __builtin_bswap32(s); x = __builtin_bswap32(x); n = __builtin_bswap32(n); o = __builtin_bswap32(o); }
            if (n > MAX) { flush(); refuse(name, LONG, k, n); }
            if (held - at - 16 < n) break;
            k++;
            at += 16 + (u64)n;
            struct flow *w = NULL;
            if (frame(f.link, p, n, n >= o, &ip) == 1 && n - ip >= 40 && p[ip] >> 4 == 6) w = flow_of(p + ip + 8);
            if (!w) { put(h, 16 + n); continue; }
            u8 *q = p + ip;
            u32 m = n - ip, len = be16(q + 4);
            struct walk g = go(q, m, n >= o, want);
            if (strip) {
                u32 e = g.mark_at;
                if (!e || g.mark >> 12 != w->id || o < 8) { put(h, 16 + n); continue; }
                /* the header that holds the option, and the byte that announced it */
                u32 a = 40, told = 6, z;
                while (z = a + 8 + 8 * (u32)q[a + 1], e >= z) { told = a; a = z; }
                u32 before = 0;
                for (u32 i = a + 2; i < e; i += q[i] ? 2u + q[i + 1] : 1u) before = i;
                u32 from;
                if (q[a + 1] == 0) { from = a; q[told] = q[a]; }
                else if (e + 6 == z && before && q[before] == 1 && q[before + 1] == 0) { from = before; q[a + 1]--; }
                else { put(h, 16 + n); continue; }
                q[4] = (u8)((len - 8) >> 8); q[5] = (u8)(len - 8);
                turn(f, h + 8, n - 8); turn(f, h + 12, o - 8);
                put(h, 16 + ip + from);
                put(q + from + 8, m - from - 8);
                continue;
            }
            u64 block = ((u64)s * 1000000000u + (f.nano ? (u64)x : (u64)x * 1000u)) / L;
            if (g.kind == MALFORMED) wrong(name, k, "malformed at %" PRIu64, g.end_at);
            if (g.kind == CUT) wrong(name, k, "cut", 0);
            if (g.mark_at) wrong(name, k, "already marked at %" PRIu64, g.mark_at);
            if (g.next == 51) wrong(name, k, "protected", 0);
            u32 grow = dest ? g.dest1 : g.hop;
            if (grow && q[grow + 1] == 255) wrong(name, k, "header full", 0);
            if (len > 65527) wrong(name, k, "packet full", 0);
            if (n > 262136 || o > 4294967287u) wrong(name, k, "record full", 0);
            int d = !w->seen || block > w->block;
            if (d) { w->seen = 1; w->block = block; }
            u32 data = w->id << 12 | (u32)(block & 1) << 11 | (u32)d << 10;
            u8 add[8] = {1, 0, 0x12, 4, (u8)(data >> 24), (u8)(data >> 16), (u8)(data >> 8), (u8)data};
            u32 to;
            if (grow) { to = grow + 8 + 8 * (u32)q[grow + 1]; q[grow + 1]++; }
            else {
                u32 told = dest ? g.told_at : 6;
                to = dest ? g.end_at : 40;
                add[0] = q[told];
                q[told] = (u8)want;
            }
            q[4] = (u8)((len + 8) >> 8); q[5] = (u8)(len + 8);
            turn(f, h + 8, n + 8); turn(f, h + 12, o + 8);
            put(h, 16 + ip + to);
            put(add, 8);
            put(q + to, m - to);
        }
        memmove(b, b + at, held -= at);
        if (outn >= 65536) flush();
    }
    flush();
    if (!begun) head(name, b, held);
    if (held) refuse(name, MORE, k, 0);
}
static uint16_t slot[1 << 20];
static struct cell *meter(u32 node) {
    struct job j = {.L = L, .H = L / 2, .z = nodes[node].z, .dest = dest, .first = first, .end = end, .slot = slot};
    struct counts c = {0};
    one(&j, &c, nodes[node].capture);
    return c.cells;
}
static void number(u128 v) {
    char t[48], *p = t + 47;
    *p = 0;
    do *--p = '0' + (int)(v % 10); while (v /= 10);
    fputs(p, stdout);
}
static void delay(u64 in, u64 out, u128 a, u128 b) {
    if (in != out) { putchar('-'); return; }
    if (b < a) putchar('-');
    number(b < a ? a - b : b - a);
}
static int by_block(const void *a, const void *b) {
    u64 x = ((const struct pair *)a)->block, y = ((const struct pair *)b)->block;
    return x < y ? -1 : x > y;
}
static u64 word(const char *w, u64 lo, u64 hi) {
    if (!*w || strspn(w, "0123456789") != strlen(w) || (w[0] == '0' && w[1])) goto bad;
    errno = 0;
    u64 v = strtoull(w, NULL, 10);
    if (!errno && v >= lo && v <= hi) return v;
bad:
    fputs("altmark: usage\n", stderr);
    exit(2);
}

int main(int argc, char **argv) {
    static char out[1 << 16];
    setvbuf(stdout, out, _IOFBF, sizeof out);
    int o;
    while ((o = getopt(argc, argv, "+mt:")) != -1) {
        mode = 1;
        if (o == 't') threads = atoi(optarg);
        if (o == '?' || threads < 1 || threads > 64) return 2;
    }
    argv += optind;
    argc -= optind;
    if (argc == 6 && !strcmp(argv[0], "link")) {
        u64 block = word(argv[1], 2, 1ull << 40), z = word(argv[2], 0, 1ull << 40), flow = word(argv[3], 0, 0xfffff);
        if (block & 1) word("", 0, 0);
        struct counts c[2];
        memset(c, 0, sizeof c);
        for (int k = 0; k < 2; k++) {
            struct job j = {.L = block, .H = block / 2, .z = k ? z : 0, .is_link = 1, .link_flow = (u32)flow};
            one(&j, &c[k], argv[4 + k]);
        }
        struct pair *all = zalloc((c[0].t.used + c[1].t.used) * sizeof *all);
        u64 m = 0;
        for (int k = 0; k < 2; k++)
            for (u64 i = 0; i < c[k].t.room; i++)
                if (c[k].t.p[i].count) all[m++].block = c[k].t.p[i].block;
        qsort(all, m, sizeof *all, by_block);
        puts("block,in,out,lost");
        for (u64 i = 0; i < m; i++) {
            if (i && all[i].block == all[i - 1].block) continue;
            u64 in = *table_at(&c[0].t, all[i].block), left = *table_at(&c[1].t, all[i].block);
            printf("%" PRIu64 ",%" PRIu64 ",%" PRIu64 ",%" PRId64 "\n", all[i].block, in, left, (int64_t)(in - left));
        }
    } else if ((argc == 3 && !strcmp(argv[0], "meter")) || (argc == 2 && !strcmp(argv[0], "audit"))) {
        domain(argv[1]);
        for (u32 i = 0; i < nflows; i++) slot[flows[i].id] = (uint16_t)(i + 1);
        u64 blocks = end - first;
        if (argc == 3) {
            u32 v = node_named(argv[2]);
            struct cell *c = meter(v);
            puts("version,node,flow,block,count,sum,dcount,dsum");
            for (u64 b = 0; b < blocks; b++)
                for (u32 f = 0; f < nflows; f++) {
                    struct cell *x = &c[f * blocks + b];
                    printf("1,%s,%s,%" PRIu64 ",%" PRIu64 ",", nodes[v].name, flows[f].name, b + first, x->count);
                    number(x->sum);
                    printf(",%" PRIu64 ",", x->dcount);
                    number(x->dsum);
                    putchar('\n');
                }
        } else {
            struct cell *c[128];
            for (u32 i = 0; i < nnodes; i++) c[i] = meter(i);
            u32 of[1024], clusters = 0, number_of[1024];
            for (u32 i = 0; i < nedges; i++) of[i] = i;
            for (int again = 1; again;) { /* links that share a start or an end */
                again = 0;
                for (u32 i = 0; i < nedges; i++)
                    for (u32 k = 0; k < nedges; k++)
                        if ((edges[i].a == edges[k].a || edges[i].b == edges[k].b) && of[k] < of[i]) { of[i] = of[k]; again = 1; }
            }
            for (u32 i = 0; i < nedges; i++) number_of[i] = of[i] == i ? clusters++ : 0;
            puts("scope,flow,block,in,out,lost,delay,din,dout,ddelay");
            for (u32 s = 0; s <= clusters; s++) {
                u8 in[128] = {0}, left[128] = {0};
                if (s == clusters) {
                    memset(in, 1, nnodes);
                    memset(left, 1, nnodes);
                    for (u32 i = 0; i < nedges; i++) in[edges[i].b] = left[edges[i].a] = 0;
                } else
                    for (u32 i = 0; i < nedges; i++)
                        if (number_of[of[i]] == s) in[edges[i].a] = left[edges[i].b] = 1;
                for (u32 f = 0; f < nflows; f++)
                    for (u64 b = 0; b < blocks; b++) {
                        struct cell x = {0}, y = {0};
                        for (u32 v = 0; v < nnodes; v++) {
                            struct cell *q = &c[v][f * blocks + b];
                            if (in[v]) { x.count += q->count; x.sum += q->sum; x.dcount += q->dcount; x.dsum += q->dsum; }
                            if (left[v]) { y.count += q->count; y.sum += q->sum; y.dcount += q->dcount; y.dsum += q->dsum; }
                        }
                        if (s == clusters) fputs("network", stdout);
                        else printf("%u", s);
                        printf(",%s,%" PRIu64 ",%" PRIu64 ",%" PRIu64 ",%" PRId64 ",", flows[f].name, b + first, x.count, y.count, (int64_t)(x.count - y.count));
                        delay(x.count, y.count, x.sum, y.sum);
                        printf(",%" PRIu64 ",%" PRIu64 ",", x.dcount, y.dcount);
                        delay(x.dcount, y.dcount, x.dsum, y.dsum);
                        putchar('\n');
                    }
            }
        }
    } else if (argc == 3 && (!strcmp(argv[0], "mark") || !strcmp(argv[0], "strip"))) {
        domain(argv[1]);
        rewrite(argv[2], argv[0][0] == 's');
    } else word("", 0, 0);
    if (fflush(stdout) || ferror(stdout)) { fputs("altmark: write fault\n", stderr); return 6; }
    return 0;
}
