/* Writes the counter WHL 1 {v0:=v0+1}, where v0 has 12 bits and the value 4094, as a file. Reads the file into buffers
 * that have room for any paper, and plays two cycles of what was read. Then reads the file without its last byte.
 *
 *   tools/archives
 *   gcc -Iinclude examples/files.c target/staticlib/libpaper.a target/staticlib/libplayer.a -o target/files
 *   target/files
 */
#include <stdio.h>

#include "paper.h"
#include "player.h"

enum { EXPRS = 3, NODES = 2, VARS = 1, CHANS = 0, CYCLES = 2, BYTES = PAPER_FILE_BYTES(NODES, EXPRS, VARS) };

/* op, p, q */
static const uint16_t exprs[3 * EXPRS] = {
    PLAYER_OP_NUMBER, 1, 0,   /* expression 0: 1 */
    PLAYER_OP_VARIABLE, 0, 0, /* expression 1: v0 */
    PLAYER_OP_ADD, 1, 0       /* expression 2: v0 + 1 */
};

/* kind, parent, end, a, b */
static const uint16_t nodes[5 * NODES] = {
    PLAYER_KIND_WHL, PLAYER_NO_PARENT, 2, 0, 0, /* node 0 */
    PLAYER_KIND_ASG, 0, 2, 0, 2                 /* node 1: v0 gets expression 2 */
};

static const uint16_t widths[VARS] = {12};
static const uint16_t values[VARS] = {4094};

/* Room for any paper that player_check accepts. */
static struct {
    uint16_t exprs[3 * PLAYER_EXPRS_MAX], nodes[5 * PLAYER_NODES_MAX], values[PLAYER_VARS_MAX], widths[PLAYER_VARS_MAX];
    uint8_t marks[PLAYER_NODES_MAX];
    uint16_t counts[PLAYER_NODES_MAX];
} room;

static void play(uint16_t n, uint16_t e, uint16_t v, uint16_t c)
{
    static const uint16_t book[CYCLES] = {1, 1};
    uint32_t begun;
    uint64_t ran;

    begun = player_begin(room.exprs, 3u * e, room.nodes, 5u * n, room.widths, v, v, c, room.values, v, room.marks, n,
                         room.counts, n);
    if (PLAYER_NUMBER(begun) != PLAYER_OK) {
        printf("begin: number %d\n", PLAYER_NUMBER(begun));
        return;
    }
    ran = player_run(room.exprs, 3u * e, room.nodes, 5u * n, room.widths, v, v, c, room.values, v, room.marks, n,
                     room.counts, n, book, CYCLES, CYCLES);
    printf("run: number %d, worked %d, v0 %d\n", PLAYER_NUMBER(ran), PLAYER_WORKED(ran), room.values[0]);
}

static void read_and_play(const uint8_t *file, size_t length)
{
    uint64_t sizes = paper_sizes(file, length);
    uint32_t answer = paper_read(file, length, room.exprs, sizeof room.exprs / 2, room.nodes, sizeof room.nodes / 2,
                                 room.values, PLAYER_VARS_MAX, room.widths, PLAYER_VARS_MAX);

    printf("read %d bytes: number %d, item %d\n", (int)length, PAPER_NUMBER(answer), PAPER_ITEM(answer));
    if (PAPER_NUMBER(answer) == PAPER_OK) {
        printf("nodes %d, expressions %d, variables %d, channels %d, v0 %d\n", PAPER_NODES(sizes), PAPER_EXPRS(sizes),
               PAPER_VARS(sizes), PAPER_CHANS(sizes), room.values[0]);
        play(PAPER_NODES(sizes), PAPER_EXPRS(sizes), PAPER_VARS(sizes), PAPER_CHANS(sizes));
    }
}

int main(void)
{
    uint8_t file[BYTES];
    uint32_t answer =
        paper_write(exprs, 3 * EXPRS, nodes, 5 * NODES, widths, VARS, VARS, CHANS, values, VARS, file, BYTES);

    printf("write: number %d\n", PAPER_NUMBER(answer));
    if (PAPER_NUMBER(answer) == PAPER_OK) {
        read_and_play(file, BYTES);
        read_and_play(file, BYTES - 1);
    }
    return 0;
}
