/* A tight C program that prints what `altmark link` prints, over right captures alone: a yardstick of speed.

       tight BLOCK DELAY_MIN FLOW UP DOWN

   BLOCK and DELAY_MIN are in nanoseconds. The captures are read in pieces of 64 KiB, as the program reads them, by one
   thread. It knows the commonest spelling of a Hop-by-Hop header with a mark (eight bytes, which are the mark) and goes
   through the options of any other. The block of the record before is kept, so that most records need no division. A record
   that isn't right ends it with status 3 and no more words: what is wrong with a capture is not its business. */
#include <fcntl.h>
#include <inttypes.h>
#include <stdint.h>
#include <stdio.h>
#include <stdlib.h>
#include <string.h>
#include <unistd.h>

typedef uint8_t u8;
typedef uint32_t u32;
typedef uint64_t u64;

enum { PIECE = 65536, LONGEST = 262144, BLOCKS = 1 << 20 };

/* The counts of each block at the two points. The blocks that are counted lie near one another, from `first` on. */
static u64 counts[2][BLOCKS], first;
static int begun;

static u64 length, flow_id;

static u32 le32(const u8 *at) {
    u32 value;
    memcpy(&value, at, 4);
    return value;
}

static u32 be16(const u8 *at) { return (u32)at[0] << 8 | at[1]; }

static u32 be32(const u8 *at) { return __builtin_bswap32(le32(at)); }

/* Whether the packet is marked in its Hop-by-Hop header; the four bytes of the mark. */
static inline int is_marked(const u8 *at, u32 size, u32 *mark) {
    if (size < 48 || at[0] >> 4 != 6 || at[6] != 0) return 0;
    u32 told = 40 + be16(at + 4), end = size < told ? size : told;
    if (end >= 48 && be32(at + 40) << 8 == 0x00120400 && at[41] == 0) {
        *mark = be32(at + 44);
        return 1;
    }
    u32 next = 42, area = 48 + 8 * (u32)at[41];
    if (area > end) return 0;
    int found = 0;
    while (next < area) {
        if (at[next] == 0) {
            next++;
            continue;
        }
        if (area - next < 2 || area - next - 2 < at[next + 1]) return 0;
        if (at[next] == 0x12 && at[next + 1] == 4 && !found) {
            *mark = be32(at + next + 2);
            found = 1;
        }
        next += 2 + at[next + 1];
    }
    return found;
}

struct window {
    u64 from, until, block;
};

/* Counts one record of a reading at a point of this shift. */
static inline void count(u64 *table, u64 shift, struct window *near, u64 reading, const u8 *at, u32 size) {
    u32 mark;
    if (!is_marked(at, size, &mark) || mark >> 12 != flow_id) return;
    if (reading - near->from >= near->until - near->from) {
        u64 half = length / 2;
        if (reading + half < shift) return;
        near->block = (reading + half - shift) / length;
        u64 begin = near->block * length + shift;
        near->until = begin + length - half;
        near->from = begin < half ? 0 : begin - half;
    }
    u64 block = near->block;
    if ((block ^ mark >> 11) & 1) {
        if (block == 0) return;
        block--;
    }
    if (!begun) {
        first = block < BLOCKS / 2 ? 0 : block - BLOCKS / 2;
        begun = 1;
    }
    if (block - first >= BLOCKS) exit(3);
    table[block - first]++;
}

/* Where the IPv6 packet of a frame begins; 0 and no packet for another frame. */
static inline u32 packet_at(u32 link, const u8 *at, u32 size, int *is_packet) {
    *is_packet = 1;
    if (link != 1) return 0;
    u32 type = 12;
    for (int tags = 0; tags < 3; tags++, type += 4) {
        if (size < type + 2) break;
        u32 value = be16(at + type);
        if (value == 0x86dd) return type + 2;
        if (value != 0x8100 && value != 0x88a8) break;
    }
    *is_packet = 0;
    return 0;
}

struct form {
    u32 big, nanoseconds, link;
};

/* Counts the whole records of a piece; how many bytes they took. */
static inline __attribute__((always_inline)) u64 count_piece(
    struct form form, u64 *table, u64 shift, struct window *near, const u8 *bytes, u64 size) {
    u64 at = 0;
    while (size - at >= 16) {
        u32 head[3];
        memcpy(head, bytes + at, 12);
        if (form.big)
            for (int i = 0; i < 3; i++) head[i] = __builtin_bswap32(head[i]);
        u32 kept = head[2];
        if (kept > LONGEST) exit(3);
        if (size - at - 16 < kept) break;
        u64 reading = head[0] * 1000000000ull + head[1] * (form.nanoseconds ? 1ull : 1000ull);
        int is_packet;
        u32 skip = packet_at(form.link, bytes + at + 16, kept, &is_packet);
        if (is_packet) count(table, shift, near, reading, bytes + at + 16 + skip, kept - skip);
        at += 16 + kept;
    }
    return at;
}

static void count_file(const char *name, u64 *table, u64 shift) {
    static u8 bytes[LONGEST + 16 + PIECE];
    int file = open(name, O_RDONLY);
    if (file < 0) exit(4);
    struct form form = {0, 0, 0};
    struct window near = {0, 0, 0};
    u64 held = 0;
    int headed = 0;
    for (;;) {
        ssize_t got = read(file, bytes + held, PIECE);
        if (got < 0) exit(5);
        if (got == 0) break;
        held += (u64)got;
        u64 at = 0;
        if (!headed) {
            if (held < 24) continue;
            u32 magic = le32(bytes);
            form.big = magic == 0xd4c3b2a1 || magic == 0x4d3cb2a1;
            form.nanoseconds = magic == 0xa1b23c4d || magic == 0x4d3cb2a1;
            form.link = (form.big ? be32(bytes + 20) : le32(bytes + 20)) & 0xffff;
            headed = 1;
            at = 24;
        }
        const struct form raw = {0, 1, 101};
        if (memcmp(&form, &raw, sizeof form) == 0)
            at += count_piece(raw, table, shift, &near, bytes + at, held - at);
        else
            at += count_piece(form, table, shift, &near, bytes + at, held - at);
        memmove(bytes, bytes + at, held -= at);
    }
    if (held || !headed) exit(3);
    close(file);
}

int main(int argc, char **argv) {
    if (argc != 6) return 2;
    length = strtoull(argv[1], NULL, 10);
    flow_id = strtoull(argv[3], NULL, 10);
    if (length == 0) return 2;
    count_file(argv[4], counts[0], 0);
    count_file(argv[5], counts[1], strtoull(argv[2], NULL, 10));
    puts("block,in,out,lost");
    for (u64 at = 0; at < BLOCKS; at++) {
        u64 entered = counts[0][at], left = counts[1][at];
        if (entered || left)
            printf("%" PRIu64 ",%" PRIu64 ",%" PRIu64 ",%" PRId64 "\n", first + at, entered, left, (int64_t)(entered - left));
    }
    return 0;
}
