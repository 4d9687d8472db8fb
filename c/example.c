/* example.c: every step of the rule book from C.
 *
 * It makes the Horn book of a small table, prints the rules, tests two combinations, lists the permitted ones page by page, and
 * shows a refusal. Build and run it with c/run.
 *
 * The library allocates nothing and keeps nothing: you lend it bytes, it answers by value. Where a call answers number 0, all is
 * well and gives[] holds what the header says; any other number is a refusal, and then no lent byte was changed.
 */
#include <inttypes.h>
#include <stdio.h>
#include <stdlib.h>

#include "rulebook.h"

/* Table T: two settings with values 0, 1 and 2, and three tested rows, one byte a value, in ascending order. */
enum { VALUES = 3, SETTINGS = 2 };
static const uint8_t table[] = {0, 1, 1, 1, 2, 2};

/* Ends the program where a call was refused that must not be: the line that the printing program would write. */
static void expect(rulebook_answer answer, const char *call) {
    if (answer.number == RULEBOOK_OK) return;
    fprintf(stderr, "%s: refused %" PRIu64 ", gives %" PRIu64 " %" PRIu64 " %" PRIu64 "\n", call, answer.number, answer.gives[0],
            answer.gives[1], answer.gives[2]);
    exit(1);
}

/* A rule's record is its two-byte mark, the number of literals, and three bytes for each: setting, sign, bound. */
static void print_rule(const uint8_t *record) {
    for (unsigned k = 0; k < record[2]; k++) {
        const uint8_t *literal = record + 3 + 3 * k;
        printf(" %u%s%u", literal[0], literal[1] == 0 ? "<=" : ">=", literal[2]);
    }
    printf("\n");
}

/* Reads the head first; then each rule is a part of the book itself, so nothing is copied. */
static void print_book(const uint8_t *book, size_t length) {
    rulebook_answer head = rulebook_read(book, length);
    expect(head, "read");
    printf("book of %" PRIu64 " values, %" PRIu64 " settings, family %" PRIu64 ", %" PRIu64 " rules\n", head.gives[0], head.gives[1],
           head.gives[2], head.gives[3]);
    for (uint64_t number = 0; number < head.gives[3]; number++) {
        rulebook_part part = rulebook_rule(book, length, number);
        printf("rule %" PRIu64, number);
        print_rule(book + part.place);
    }
}

static void print_test(const uint8_t *book, size_t length, uint8_t first, uint8_t second) {
    uint8_t combination[SETTINGS] = {first, second};
    rulebook_answer tested = rulebook_test(book, length, combination, sizeof combination);
    expect(tested, "test");
    if (tested.gives[0] == 1)
        printf("combination %u %u is permitted\n", first, second);
    else
        printf("combination %u %u does not meet rule %" PRIu64 "\n", first, second, tested.gives[1]);
}

/* A page ends when the room is full or when the budget of steps is spent, so each call's work is bounded whatever the book says.
 * Here both are tiny, to show several pages; a real caller lends room for thousands of rows and a budget of 65,535. */
static void print_permitted(const uint8_t *book, size_t length) {
    uint8_t room[2 * SETTINGS];
    rulebook_cursor cursor = {0, {0}}; /* the beginning */
    int finished = 0;
    for (int number = 0; !finished; number++) {
        rulebook_page_answer page = rulebook_page(book, length, cursor, room, sizeof room, 6);
        expect(page.answer, "page");
        printf("page %d, %" PRIu64 " steps:", number, page.answer.gives[1]);
        for (uint64_t row = 0; row < page.answer.gives[0]; row++)
            printf(" [%u %u]", room[row * SETTINGS], room[row * SETTINGS + 1]);
        printf("\n");
        cursor = page.cursor;
        finished = page.answer.gives[2] == 1;
    }
}

int main(void) {
    /* Ask for the length with a room of no bytes: the refusal gives the length needed. The pointer must not be NULL even so.
     * For the largest tables it is cheaper to lend a megabyte at once, which is enough for any book, than to ask. */
    uint8_t none;
    rulebook_answer asked = rulebook_make(VALUES, SETTINGS, RULEBOOK_HORN, table, sizeof table, &none, 0);
    if (asked.number != RULEBOOK_ROOM) expect(asked, "make");
    size_t length = (size_t)asked.gives[0];
    uint8_t *book = malloc(length);
    if (book == NULL) return 1;
    expect(rulebook_make(VALUES, SETTINGS, RULEBOOK_HORN, table, sizeof table, book, length), "make");
    printf("made %zu bytes\n", length);

    print_book(book, length);
    print_test(book, length, 1, 1);
    print_test(book, length, 2, 1);
    print_permitted(book, length);

    /* Bytes from outside need no care: any fault is found and named. Here a bound is out of range. */
    book[12] = 9;
    rulebook_answer damaged = rulebook_read(book, length);
    printf("damaged book: refused %" PRIu64 " at place %" PRIu64 "\n", damaged.number, damaged.gives[0]);

    free(book);
    return 0;
}
