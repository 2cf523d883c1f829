/* The clock-cycle player for Handel-C programs: check a program, begin it, run it.
 *
 * docs/MACHINE.md tells the whole machine: programs, states, books, and what the numbers below refuse.
 *
 * Lists. Every list is lent for the time of the call: the player keeps no pointer and frees nothing. A list is a
 * pointer to its first element, then its length in elements, not in bytes. The pointer is aligned for the element and
 * not null. That goes for a list of length 0 too: any aligned pointer but null will do there, and nothing is read
 * through it. A list that a call writes must not overlap any other list of the call. Lists of any length and content
 * may be lent otherwise: the answer's number tells what is wrong with them.
 *
 * A program is three lists and two numbers: a list of expressions, three words each (op, p, q); a list of nodes, five
 * words each (kind, parent, end, a, b); a list of widths, one word for each variable; the number of variables, and the
 * number of channels. So exprs_len is three times the number of expressions, nodes_len five times the number of nodes,
 * and widths_len the number of variables.
 *
 * The width of a variable is the number of its bits, 1 to 16. Whatever is stored to the variable, by an assignment or
 * from a channel, is kept modulo two to the power of the width: with width 12, 4,096 is stored as 0. Nothing else has a
 * width. Expressions are worked modulo 65,536, whatever the widths of the variables in them, and what is sent on a
 * channel is sent whole. With width 16 for every variable a store never loses anything.
 *
 * A state is three lists: a value for each variable, a mark (1 or 0) for each node, a thread count for each node. Each
 * value is below two to the power of its variable's width. A run sees to that in what it stores; starting values are
 * not cut, and where one is too large the program does not begin.
 *
 *   uint16_t values[VARS];                      the starting values
 *   uint8_t marks[NODES];                       written by player_begin
 *   uint16_t counts[NODES];                     written by player_begin
 *
 * A book has, for each cycle in turn, the numbers of the nodes that are marked when the cycle starts, each once, in any
 * order. So a book that lasts a whole run is as long as all its cycles have marks together, and need not be longer than
 * the number of cycles times the number of nodes. A longer book does no harm, since what follows is not read; a book
 * that is too short is refused with PLAYER_BOOK at the first cycle that it has too few entries for. A caller without an
 * order of their own runs one cycle at a time, and lists the nodes whose mark is 1 for its book.
 *
 * Answers. The number of an answer tells what went wrong. With PLAYER_EXPRESSION, PLAYER_NODE, PLAYER_RANGE and
 * PLAYER_WIDTHS the item tells where it is first found, so that a program can be mended from the top. Nothing is left
 * open: two calls that are given equal numbers and lent equal lists answer the same and write the same.
 *
 * Memory. A call allocates nothing. This is the most of the caller's stack that it was seen to use, over programs that
 * are large, deep or random (tests/tests/stack.rs). It is measured and not proved; 1 KB is 1,024 bytes:
 *
 *   player_check   about 6.3 KB
 *   player_begin   about 16.6 KB
 *   player_run     about 22.7 KB
 *
 * The archive, target/staticlib/libplayer.a, is for x86-64. examples/embed.c begins a program and runs it.
 *
 * This header is for C89 and later, with a <stdint.h>, and for C++98 and later.
 */
#ifndef PLAYER_H
#define PLAYER_H

#include <stddef.h>
#include <stdint.h>

#ifdef __cplusplus
extern "C" {
#endif

/* The most that a program may have. */
enum player_limit {
    PLAYER_NODES_MAX = 1024, /* at least 1 */
    PLAYER_EXPRS_MAX = 1024,
    PLAYER_VARS_MAX = 256,
    PLAYER_CHANS_MAX = 256,
    PLAYER_DEPTH_MAX = 32, /* a node and all above it */
    PLAYER_WIDTH_MAX = 16  /* the bits of a variable; at least 1 */
};

/* The parent word of node 0. */
enum player_parent { PLAYER_NO_PARENT = 65535 };

/* The first word of an expression. Words that are not named are 0. Arithmetic is modulo 65,536. */
enum player_op {
    PLAYER_OP_NUMBER = 0,   /* p itself */
    PLAYER_OP_VARIABLE = 1, /* the value of variable p */
    /* p and q are the indices of two earlier expressions. */
    PLAYER_OP_ADD = 2,
    PLAYER_OP_SUB = 3,
    PLAYER_OP_MUL = 4,
    PLAYER_OP_AND = 5,   /* bit by bit */
    PLAYER_OP_EQUAL = 6, /* 1 or 0 */
    PLAYER_OP_BELOW = 7  /* 1 or 0, unsigned */
};

/* The first word of a node. Words that are not named are 0. */
enum player_kind {
    PLAYER_KIND_SEQ = 1, /* its children one after the other: 1 child or more */
    PLAYER_KIND_PAR = 2, /* its children side by side: 2 children or more */
    PLAYER_KIND_ASG = 3, /* stores expression b to variable a, as much as its width keeps: a leaf */
    PLAYER_KIND_IN = 4,  /* receives from channel a and stores to variable b in the same way: a leaf */
    PLAYER_KIND_OUT = 5, /* sends expression b on channel a: a leaf */
    PLAYER_KIND_IF = 6,  /* the first child where expression a is not 0, else the second: 1 or 2 children */
    PLAYER_KIND_WHL = 7, /* its child again and again while expression a is not 0: 1 child */
    PLAYER_KIND_DLY = 8  /* nothing, for one cycle: a leaf */
};

/* What went wrong. The questions are asked in this order, which is not that of the numbers: 11 is asked after 4 and
 * before 5. The answer's number is that of the first that fails. With 2, 3, 4 and 11 the item is as said below; with
 * every other number it is 0. */
enum player_number {
    PLAYER_OK = 0, /* nothing */
    /* The list of expressions or of nodes is no whole number of records, or there are too many expressions, nodes,
     * variables or channels, or no node. */
    PLAYER_SIZES = 1,
    /* An expression has an unknown op, an operand that is no earlier expression (for op 1: no variable), or an unused
     * word that is not 0. The item is the lowest index of such an expression. */
    PLAYER_EXPRESSION = 2,
    /* A node has an unknown kind, an end or a parent word that does not fit the tree, too great a depth, a number of
     * children that its kind does not have, or an unused word that is not 0. The item is the lowest index of such a
     * node. */
    PLAYER_NODE = 3,
    /* A node refers to a variable, channel or expression that the program does not have. The item is the lowest index
     * of such a node. */
    PLAYER_RANGE = 4,
    /* There are more or fewer widths than variables, or a width is 0 or above PLAYER_WIDTH_MAX. The item is the lowest
     * variable with such a width, or 0 where there are more or fewer widths than variables. */
    PLAYER_WIDTHS = 11,
    /* A list of the state has a wrong length. */
    PLAYER_STATE_LENGTHS = 5,
    /* The state is not well formed: a value is too large for its variable's width; or a mark is neither 0 nor 1, or not
     * at a leaf; or two marked leaves are not in different children of a PAR; or a thread count is wrong. player_begin
     * asks this of the values alone. */
    PLAYER_STATE = 6,
    /* The book has too few entries left for the cycle, or they are not the marked nodes, each once. */
    PLAYER_BOOK = 7,
    /* Two IN are marked on one channel, or two OUT. */
    PLAYER_CHANNEL = 8,
    /* Two completing statements store to one variable. */
    PLAYER_STORE = 9,
    /* A loop went round without a statement that takes a cycle. */
    PLAYER_ZERO_TIME = 10
};

/* The parts of an answer, each a uint16_t. The argument is the whole answer of a call. */
#define PLAYER_NUMBER(answer) ((uint16_t)((answer) & 0xffffu))
#define PLAYER_ITEM(answer) ((uint16_t)((answer) >> 16 & 0xffffu))
/* of player_run's answer alone */
#define PLAYER_WORKED(answer) ((uint16_t)((answer) >> 32 & 0xffffu))

/* Checks a program: numbers 1 to 4, then 11. Nothing is written.
 *
 * The answer has the number in its low 16 bits and the item in its high 16 bits.
 */
uint32_t player_check(const uint16_t *exprs, size_t exprs_len, const uint16_t *nodes, size_t nodes_len,
                      const uint16_t *widths, size_t widths_len, uint16_t vars, uint16_t chans);

/* Begins a program with the values as they are: numbers 1 to 4, then 11, 5, 6 for the values alone, and 10.
 *
 * values has an element for each variable, marks and counts have one for each node. What stands in marks and counts
 * before the call is not read, and may be anything. Where the answer's number is 0, both are written whole: marks has a
 * 1 for each statement that the first cycle works. Where it is not 0, nothing is written.
 *
 * The answer is laid out as player_check's.
 */
uint32_t player_begin(const uint16_t *exprs, size_t exprs_len, const uint16_t *nodes, size_t nodes_len,
                      const uint16_t *widths, size_t widths_len, uint16_t vars, uint16_t chans, const uint16_t *values,
                      size_t values_len, uint8_t *marks, size_t marks_len, uint16_t *counts, size_t counts_len);

/* Runs a program from a state, one that player_begin or player_run left or any other that is well formed: numbers 1 to
 * 4, then 11, 5 and 6, and then 7 to 10, which are asked anew in each cycle.
 *
 * It works cycles until as many as asked for are worked, no mark stands, or a cycle is refused. The three lists are
 * then as the last worked cycle left them; where none was worked, they are as they were. It works in the lists
 * themselves, so that nobody else may read them before it returns, and takes back what a refused cycle wrote.
 *
 * The answer has the number in its lowest 16 bits, the item in the next 16 bits, and the cycles worked in the 16 bits
 * above. Its highest 16 bits are 0.
 */
uint64_t player_run(const uint16_t *exprs, size_t exprs_len, const uint16_t *nodes, size_t nodes_len,
                    const uint16_t *widths, size_t widths_len, uint16_t vars, uint16_t chans, uint16_t *values,
                    size_t values_len, uint8_t *marks, size_t marks_len, uint16_t *counts, size_t counts_len,
                    const uint16_t *book, size_t book_len, uint16_t cycles);

#ifdef __cplusplus
}
#endif

#endif
