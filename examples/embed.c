/* Begins the swap PAR{v0:=v1; v1:=v0} with the values 3 and 7 and runs it in both orders of its two statements.
 *
 *   tools/archives player
 *   gcc -Iinclude examples/embed.c target/staticlib/libplayer.a -o target/embed && target/embed
 */
#include <stdio.h>

#include "player.h"

enum { EXPRS = 2, NODES = 3, VARS = 2, CHANS = 0, CYCLES = 5, ENTRIES = 2 };

/* op, p, q */
static const uint16_t exprs[3 * EXPRS] = {
    PLAYER_OP_VARIABLE, 0, 0, /* expression 0: v0 */
    PLAYER_OP_VARIABLE, 1, 0  /* expression 1: v1 */
};

/* kind, parent, end, a, b */
static const uint16_t nodes[5 * NODES] = {
    PLAYER_KIND_PAR, PLAYER_NO_PARENT, 3, 0, 0, /* node 0 */
    PLAYER_KIND_ASG, 0, 2, 0, 1,                /* node 1: v0 gets expression 1 */
    PLAYER_KIND_ASG, 0, 3, 1, 0                 /* node 2: v1 gets expression 0 */
};

/* bits of v0, bits of v1 */
static const uint16_t widths[VARS] = {12, 12};

static void play(const uint16_t book[ENTRIES])
{
    uint16_t values[VARS] = {3, 7};
    uint8_t marks[NODES];
    uint16_t counts[NODES];
    uint32_t begun;
    uint64_t ran;

    begun = player_begin(exprs, 3 * EXPRS, nodes, 5 * NODES, widths, VARS, VARS, CHANS, values, VARS, marks, NODES,
                         counts, NODES);
    if (PLAYER_NUMBER(begun) != PLAYER_OK) {
        printf("begin: number %d\n", PLAYER_NUMBER(begun));
        return;
    }
    ran = player_run(exprs, 3 * EXPRS, nodes, 5 * NODES, widths, VARS, VARS, CHANS, values, VARS, marks, NODES, counts,
                     NODES, book, ENTRIES, CYCLES);
    printf("book %d,%d: number %d, worked %d, values %d %d\n", book[0], book[1], PLAYER_NUMBER(ran), PLAYER_WORKED(ran),
           values[0], values[1]);
}

int main(void)
{
    static const uint16_t up[ENTRIES] = {1, 2};
    static const uint16_t down[ENTRIES] = {2, 1};

    play(up);
    play(down);
    return 0;
}
