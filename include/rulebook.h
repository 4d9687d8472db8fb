/* rulebook.h: rules from tested rows, proved.
 *
 * Every function here is total: it takes any numbers and any bytes, ends, and refuses by number. None allocates or keeps state;
 * of the C library only memcpy and memset are called. What each answers, and every byte it leaves in a buffer, is proved
 * (see docs/PROMISES.md).
 *
 * A buffer is passed as a pointer and a length in bytes; with length 0 the pointer is not read, but it must not be NULL.
 * The buffers of one call must not overlap. n is the number of values of each setting (1 to 64), l the number of settings (1 to 16).
 */
#ifndef RULEBOOK_H
#define RULEBOOK_H

#include <stddef.h>
#include <stdint.h>

#ifdef __cplusplus
extern "C" {
#endif

/* Families of rules. */
enum {
    RULEBOOK_GENERAL = 0,
    RULEBOOK_HORN = 1,
    RULEBOOK_DUAL_HORN = 2,
    RULEBOOK_BIJUNCTIVE = 3
};

/* Refusals; in brackets what gives[] then holds. */
enum {
    RULEBOOK_OK = 0,
    RULEBOOK_LIMITS = 1,      /* n or l outside its limits */
    RULEBOOK_LENGTH = 2,      /* table length no multiple of l */
    RULEBOOK_ROWS = 3,        /* more than 512 rows [number of rows] */
    RULEBOOK_VALUE = 4,       /* a value n or more [place of the first] */
    RULEBOOK_ORDER = 5,       /* a row not above the one before it [its number] */
    RULEBOOK_FAMILY = 6,      /* family above 3 */
    RULEBOOK_OPEN = 7,        /* not closed [the first rows that show it: two, or three for bijunctive] */
    RULEBOOK_ROOM = 8,        /* room shorter than the book [length needed] */
    RULEBOOK_CUT = 9,         /* book cut short [place of that record's mark] */
    RULEBOOK_MARK = 10,       /* wrong mark [its place] */
    RULEBOOK_FIELD = 11,      /* field out of range [its place] */
    RULEBOOK_LITERAL = 12,    /* a literal not after the one before it [its place] */
    RULEBOOK_IDLE = 13,       /* idle rule [place of its mark] */
    RULEBOOK_OUTSIDE = 14,    /* rule outside the head's family [place of its mark] */
    RULEBOOK_TRAILING = 15,   /* bytes after the end [place of the first] */
    RULEBOOK_COMBINATION = 16,/* combination not l long */
    RULEBOOK_HIGH = 17,       /* a value of the combination n or more [place of the first] */
    RULEBOOK_CURSOR = 18,     /* bad cursor */
    RULEBOOK_BUDGET = 19,     /* budget 0 or above 65,535 */
    RULEBOOK_NO_ROW = 20      /* room shorter than one row */
};

/* number: 0 for success, else the refusal. gives: what the call or the refusal gives, in order, zero past it. */
typedef struct {
    uint64_t number;
    uint64_t gives[4];
} rulebook_answer;

/* A prefix of a combination: its length and its values, unused ones zero. All zero is the beginning. */
typedef struct {
    uint64_t len;
    uint8_t values[16];
} rulebook_cursor;

typedef struct {
    rulebook_answer answer;
    rulebook_cursor cursor;
} rulebook_page_answer;

/* A part of a lent book. */
typedef struct {
    uint64_t place;
    uint64_t length;
} rulebook_part;

/* Is this a sound table: l bytes a row, values below n, rows strictly ascending, at most 512 of them? Gives the number of rows. */
rulebook_answer rulebook_check(uint64_t n, uint64_t l, const uint8_t *table, size_t table_len);

/* Makes the book of a table in a family. Writes it at the start of the room, and nothing else; a refusal writes nothing.
 * Gives the book's length and its number of rules. */
rulebook_answer rulebook_make(uint64_t n, uint64_t l, uint64_t family, const uint8_t *table, size_t table_len,
                              uint8_t *room, size_t room_len);

/* Reads a book. Gives n, l, family and the number of rules. */
rulebook_answer rulebook_read(const uint8_t *book, size_t book_len);

/* Where a rule's record stands in the book: mark, count and literals. Length 0, at the end, where there is no such rule. */
rulebook_part rulebook_rule(const uint8_t *book, size_t book_len, uint64_t number);

/* Does the combination meet the book? Gives 1 if it is permitted, else 0 and the number of the first rule not met. */
rulebook_answer rulebook_test(const uint8_t *book, size_t book_len, const uint8_t *combination, size_t combination_len);

/* The prefix one longer that ends in 0; the next value at its last place; the prefix one shorter. The same where there is none. */
rulebook_cursor rulebook_down(rulebook_cursor cursor, uint64_t n, uint64_t l);
rulebook_cursor rulebook_along(rulebook_cursor cursor, uint64_t n, uint64_t l);
rulebook_cursor rulebook_up(rulebook_cursor cursor, uint64_t n, uint64_t l);

/* A page of the permitted combinations after the cursor, ascending, written as rows of l bytes at the start of the room.
 * Gives the number of rows, of steps (at most budget), and 1 if the listing is finished. The next page goes on from the cursor given. */
rulebook_page_answer rulebook_page(const uint8_t *book, size_t book_len, rulebook_cursor cursor, uint8_t *room, size_t room_len,
                                   uint64_t budget);

#ifdef __cplusplus
}
#endif
#endif
