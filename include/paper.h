/* Papers as files: how large a file's paper is, reading it, writing it.
 *
 * A paper here is a program and a starting value for each of its variables. player.h and docs/MACHINE.md tell what a
 * program is, and how it is played. A file holds one paper, and nothing of the cycles asked or the book.
 *
 * A file. It is a list of words from 0 to 65,535, each of two bytes, the low one first, on whatever machine. With N
 * nodes, E expressions, V variables and C channels it is these words, with nothing before, between or behind them:
 *
 *   words   what they are
 *   3 E     the expressions: op, p, q of each
 *   5 N     the nodes: kind, parent, end, a, b of each
 *   V       the values, one for each variable
 *   V       the widths, one for each variable
 *   4       the counts: N, E, V, C
 *   4       the distances of the expressions, the nodes, the values and the widths
 *
 * The last eight words are the trailer, and what stands before it are the four parts. The distance of a part is the
 * number of words from the part's first word to the trailer's first word, so that whoever reads a file finds every part
 * from its end. The counts say what each distance is, and how many bytes the file has:
 *
 *   expressions   3 E + 5 N + 2 V
 *   nodes         5 N + 2 V
 *   values        2 V
 *   widths        V
 *   all bytes     2 (3 E + 5 N + 2 V) + 16
 *
 * A file is right where all five are so. If the counts ask for a distance above 65,535, no word is equal to it, and the
 * file is wrong whatever stands there.
 *
 * The paper that is a delay alone, DLY, has one node, 8 65535 1 0 0, and nothing else. Its 26 bytes, in hexadecimal:
 *
 *   08 00 ff ff 01 00 00 00 00 00     the node
 *   01 00 00 00 00 00 00 00           N = 1, E = 0, V = 0, C = 0
 *   05 00 05 00 00 00 00 00           the distances 5, 5, 0, 0
 *
 * Lists. Every list is lent for the time of the call: no call keeps a pointer or frees anything. A list is a pointer to
 * its first element, then its length in elements, not in bytes. A file is a list of bytes and may stand at any address;
 * the other lists have elements of 16 bits, in the machine's own order, and their pointers are aligned for these. No
 * pointer is null. That goes for a list of length 0 too: any aligned pointer but null will do there, and nothing is
 * read or written through it. A list that a call writes must not overlap any other list of the call. Lists of any
 * length and content may be lent otherwise: the answer's number tells what is wrong with them.
 *
 * Values. Whether a value is too large for the width of its variable is not asked here. Such a paper is written and
 * read as it is; player_begin refuses it.
 *
 * Answers. The number of an answer tells what went wrong, and the item where, as it does in player.h. Where the number
 * is not 0, nothing is written. Nothing is left open: two calls that are given equal numbers and lent equal lists
 * answer the same and write the same.
 *
 * Memory. A call allocates nothing. This is the most of the caller's stack that it was seen to use, over papers that
 * are large, deep or random (tests/tests/stack.rs). It is measured and not proved; 1 KB is 1,024 bytes:
 *
 *   paper_sizes   less than 1 KB
 *   paper_read    about 23.0 KB
 *   paper_write   about 6.5 KB
 *
 * The archive, target/staticlib/libpaper.a, is for x86-64. It needs no other archive, and goes together with
 * libplayer.a in one program. examples/files.c writes a paper, reads it and plays what it has read.
 *
 * This header is for C89 and later, with a <stdint.h>, and for C++98 and later.
 */
#ifndef PAPER_H
#define PAPER_H

#include <stddef.h>
#include <stdint.h>

#ifdef __cplusplus
extern "C" {
#endif

/* What went wrong. The answer's number is that of the first question that fails, in the order that the call has them.
 * Numbers 1 to 5 and 11 are those of player.h. With 2, 3, 4 and 11 the item is that of player_check; with every other
 * number it is 0. */
enum paper_number {
    PAPER_OK = 0, /* nothing */
    /* The list of expressions or of nodes is no whole number of records, or there are too many expressions, nodes,
     * variables or channels, or no node. */
    PAPER_SIZES = 1,
    /* An expression is wrong. The item is the lowest index of such an expression. */
    PAPER_EXPRESSION = 2,
    /* A node is wrong, or does not fit the tree. The item is the lowest index of such a node. */
    PAPER_NODE = 3,
    /* A node refers to a variable, channel or expression that the program does not have. The item is the lowest index
     * of such a node. */
    PAPER_RANGE = 4,
    /* There are more or fewer widths than variables, or a width is 0 or above 16. The item is the lowest variable with
     * such a width, or 0 where there are more or fewer widths than variables, as only a writer may have it. */
    PAPER_WIDTHS = 11,
    /* There are more or fewer values than variables. */
    PAPER_VALUES_LENGTH = 5,
    /* The file is not right: an odd number of bytes or fewer than 16, or a distance or the length that the counts do
     * not ask for. */
    PAPER_FILE = 12,
    /* A buffer that is to be written is too short. */
    PAPER_BUFFER = 13
};

/* The parts of an answer of paper_read or paper_write, each a uint16_t. The argument is the whole answer. */
#define PAPER_NUMBER(answer) ((uint16_t)((answer) & 0xffffu))
#define PAPER_ITEM(answer) ((uint16_t)((answer) >> 16 & 0xffffu))

/* The counts that paper_sizes gives, each a uint16_t. The argument is all that it gives. */
#define PAPER_NODES(sizes) ((uint16_t)((sizes) & 0xffffu))
#define PAPER_EXPRS(sizes) ((uint16_t)((sizes) >> 16 & 0xffffu))
#define PAPER_VARS(sizes) ((uint16_t)((sizes) >> 32 & 0xffffu))
#define PAPER_CHANS(sizes) ((uint16_t)((sizes) >> 48 & 0xffffu))

/* The bytes of a file with so many nodes, expressions and variables, as a size_t. */
#define PAPER_FILE_BYTES(nodes, exprs, vars) \
    ((size_t)2 * ((size_t)3 * (exprs) + (size_t)5 * (nodes) + (size_t)2 * (vars)) + (size_t)16)

/* Tells the counts of a file, so that buffers can be made for reading it. Nothing is written.
 *
 * Where the file is right, N is in the lowest 16 bits, E in the next 16 bits, V in the 16 bits above and C in the
 * highest 16 bits. Whether the program is right is not asked: a count may be above its limit, and is then still told.
 * Where the file is not right, all 64 bits are 0. So they are for a right file with four counts of 0, which paper_read
 * refuses too.
 */
uint64_t paper_sizes(const uint8_t *file, size_t file_len);

/* Reads a file: number 12, then 1 to 4 and 11 of the program in it, then 13.
 *
 * The buffers are to have room for the four parts: exprs 3 E words or more, nodes 5 N, values V and widths V. What
 * stands in them before the call is not read, and may be anything. Where the answer's number is 0, each holds its part
 * from its first word on, and what stood in the words after that stands there still. The numbers of variables and of
 * channels are those that paper_sizes tells.
 *
 * The answer has the number in its low 16 bits and the item in its high 16 bits.
 */
uint32_t paper_read(const uint8_t *file, size_t file_len, uint16_t *exprs, size_t exprs_len, uint16_t *nodes,
                    size_t nodes_len, uint16_t *values, size_t values_len, uint16_t *widths, size_t widths_len);

/* Writes a file: numbers 1 to 4 and 11 of the program, then 5 of the values, then 13.
 *
 * The program is lent as it is to player_check, with exprs_len three times the number of expressions, nodes_len five
 * times the number of nodes, widths_len and values_len the number of variables. file is to have room for all bytes of
 * the file or more; PAPER_FILE_BYTES tells how many these are. What stands in it before the call is not read. Where the
 * answer's number is 0, it holds the file from its first byte on, and what stood in the bytes after that stands there
 * still.
 *
 * The answer is laid out as paper_read's.
 */
uint32_t paper_write(const uint16_t *exprs, size_t exprs_len, const uint16_t *nodes, size_t nodes_len,
                     const uint16_t *widths, size_t widths_len, uint16_t vars, uint16_t chans, const uint16_t *values,
                     size_t values_len, uint8_t *file, size_t file_len);

#ifdef __cplusplus
}
#endif

#endif
