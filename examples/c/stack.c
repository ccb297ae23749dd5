/* All calls, for the deepest tables, eight of them in turn, each edited, and eight that call each other, on a thread whose stack has exactly
   MIZZENGRAPE_STACK_BYTES and a page below it that ends the program. */
#define _DEFAULT_SOURCE
#include <pthread.h>
#include <stdio.h>
#include <string.h>
#include <sys/mman.h>
#include <unistd.h>

#include "mizzengrape.h"

enum { DEPTH = 6, WORDS = 256, ENTRIES = 256, ROUTINES = 8 };

static int32_t table[WORDS];
static size_t table_len;
static int32_t facts[4 * ENTRIES];
static uint32_t report[MIZZENGRAPE_REPORT_WORDS];

static void put(const int32_t *words, size_t count)
{
    memcpy(table + table_len, words, count * sizeof *words);
    table_len += count;
}

static void statement(int32_t kind, int32_t a, int32_t b, int32_t c, int32_t d, int32_t e, int32_t f)
{
    const int32_t words[] = {kind, a, b, c, d, e, f};
    put(words, 7);
}

/* An object of three cells; row (count(rows)) and rows. */
static const int32_t declared[] = {3, 1, 0, 0, -1, 0, 0, 1, 0, 0, 0, 0, 0, 0, 0, 0, 0};

/* A bundle that steps both, with room for so many statements more. */
static void step(int32_t more)
{
    statement(13, 2 + more, 0, 0, 0, 0, 0); /* bundled */
    statement(6, 0, 0, 1, 0, 0, 0);         /*   row = row + 1 */
    statement(2, 1, 1, -1, 0, 0, 0);        /*   rows = rows - 1 */
}

/* Ifs within ifs to the greatest depth, and there that bundle: without bounds rows, and with one that the bundle puts in force on both sides of each if. */
static void deepest(int with_row)
{
    const int32_t inner = with_row ? 5 : 4, other = with_row ? 2 : 0, statements = DEPTH * (1 + other) + inner;
    const int32_t first = with_row ? 8 : 6;
    const int32_t pairs[] = {first, 1, first + 1, 16, first + 17, 7 * statements, first + 17 + 7 * statements, 6};
    const int32_t row[] = {0, -1, 0, 0, 1, 0};
    table_len = 0;
    put(pairs, (size_t)first);
    put(declared, 17);
    for (int32_t depth = DEPTH - 1; depth >= 0; depth--)
        statement(11, 1, 2, 1, 0, inner + depth * (1 + other), other); /* if (rows > 0) */
    statement(10, 1, 2, 1, 0, 0, 0);                                   /* dynamic_check(rows > 0) */
    step(with_row);
    if (with_row) {
        statement(14, 0, 0, 0, 0, 0, 0); /*   where row : count(rows) */
        for (int32_t depth = 0; depth < DEPTH; depth++) {
            statement(13, 1, 0, 0, 0, 0, 0); /* else bundled */
            statement(14, 0, 0, 0, 0, 0, 0);
        }
        put(row, 6);
    }
}

/* Whiles within whiles around the same bundle, and as many entries as a list may have, shared out to all of them: row is not null. */
static void deepest_loops(void)
{
    const int32_t statements = 1 + DEPTH + 4;
    const int32_t pairs[] = {6, 1, 7, 16, 23, 7 * statements};
    table_len = 0;
    put(pairs, 6);
    put(declared, 17);
    statement(10, 0, 5, 1, 0, 0, 0); /* dynamic_check(row != NULL) */
    for (int32_t depth = DEPTH - 1; depth >= 0; depth--)
        statement(12, 1, 2, 1, 0, 4 + depth, 0); /* while (rows > 0) */
    statement(9, 0, -1, 0, 1, 0, 0);             /* row[0] = rows */
    step(0);
    for (int32_t entry = 0; entry < ENTRIES; entry++) {
        const int32_t words[] = {1 + entry * DEPTH / ENTRIES, -1, 0, -1};
        memcpy(facts + 4 * entry, words, sizeof words);
    }
}

/* Whether the table is accepted and its run done, by the calls with a list of so many words and, where it is empty, by those without. */
static int answers(size_t facts_len)
{
    static const uint32_t directory[] = {1, 3}, origins[] = {1, 0};
    uint32_t cells[4] = {0}, values[] = {1, 3}, checked[4], ran[4];
    if (mizzengrape_try_check_with_facts(table, table_len, facts, facts_len, report, MIZZENGRAPE_REPORT_WORDS, checked, 4) != MIZZENGRAPE_ANSWERED
        || checked[0] != 0 || (facts_len > 0 && checked[3] != 1))
        return 0;
    if (mizzengrape_try_run_with_facts(table, table_len, facts, facts_len, directory, 2, cells, 4, values, 2, origins, 2, 100, ran, 4)
            != MIZZENGRAPE_ANSWERED
        || ran[0] != 0)
        return 0;
    if (facts_len > 0)
        return 1;
    values[0] = 1;
    values[1] = 3;
    return mizzengrape_try_check(table, table_len, checked, 3) == MIZZENGRAPE_ANSWERED && checked[0] == 0
           && mizzengrape_try_run(table, table_len, directory, 2, cells, 4, values, 2, origins, 2, 100, ran, 4) == MIZZENGRAPE_ANSWERED && ran[0] == 0;
}

/* Whether that table is taken to be edited, and its statement at a position replaced by itself and accepted again, from the start and from a place there. */
static int edited(int32_t position, size_t statements)
{
    static uint64_t store[MIZZENGRAPE_STORE_WORDS(1)];
    static int32_t text[WORDS];
    const uint32_t keep[] = {(uint32_t)position};
    const size_t text_len = 7 * statements;
    uint32_t answer[MIZZENGRAPE_EDIT_ANSWER_WORDS];
    memcpy(text, table + table[4] + 7 * position, text_len * sizeof *text);
    for (size_t places = 0; places < 2; places++) {
        if (mizzengrape_try_edit_start(table, table_len, table_len, store, MIZZENGRAPE_STORE_WORDS(places), keep, 1, answer, 6) != MIZZENGRAPE_ANSWERED
            || answer[0] != 0 || answer[5] != 1)
            return 0;
        if (mizzengrape_try_edit(table, WORDS, MIZZENGRAPE_REPLACE, keep[0], text, text_len, store, MIZZENGRAPE_STORE_WORDS(places), keep, 1, answer, 6)
                != MIZZENGRAPE_ANSWERED
            || answer[0] != 0 || answer[4] != table_len || answer[5] != 1)
            return 0;
    }
    return store[0] == 1;
}

/* Whether eight routines of that table, each with an object of its own behind the one before, end done in turn. */
static int dispatched(size_t facts_len)
{
    static int32_t tables[ROUTINES * WORDS], lists[ROUTINES * 4 * ENTRIES];
    static mizzengrape_dispatch_room room;
    uint32_t directories[2 * ROUTINES], cells[1 + 3 * ROUTINES] = {0}, values[2 * ROUTINES], origins[2 * ROUTINES], lengths[5 * ROUTINES];
    uint32_t answer[MIZZENGRAPE_DISPATCH_ANSWER_WORDS];
    for (uint32_t r = 0; r < ROUTINES; r++) {
        const uint32_t parts[] = {(uint32_t)table_len, (uint32_t)facts_len, 2, 2, 2};
        memcpy(tables + r * table_len, table, table_len * sizeof *table);
        memcpy(lists + r * facts_len, facts, facts_len * sizeof *facts);
        memcpy(lengths + 5 * r, parts, sizeof parts);
        directories[2 * r] = values[2 * r] = 1 + 3 * r;
        directories[2 * r + 1] = values[2 * r + 1] = 3;
        origins[2 * r] = 1;
        origins[2 * r + 1] = 0;
    }
    if (mizzengrape_try_dispatch(tables, ROUTINES * table_len, lists, ROUTINES * facts_len, directories, 2 * ROUTINES, cells, 1 + 3 * ROUTINES, values,
                                 2 * ROUTINES, origins, 2 * ROUTINES, lengths, 5 * ROUTINES, 1, 1000, room.ends, MIZZENGRAPE_DISPATCH_ENDS,
                                 room.successors, MIZZENGRAPE_DISPATCH_SUCCESSORS, answer, MIZZENGRAPE_DISPATCH_ANSWER_WORDS)
            != MIZZENGRAPE_ANSWERED
        || answer[0] != 0 || answer[1] != ROUTINES)
        return 0;
    for (uint32_t r = 0; r < ROUTINES; r++)
        if (answer[5 + 4 * r] != 0)
            return 0;
    return 1;
}

/* Eight routines, each of them ifs within ifs to the greatest depth, and there a call of the one before with row and rows: accepted, and done. */
static int called(void)
{
    static int32_t tables[ROUTINES * WORDS];
    static mizzengrape_set_room room;
    static const uint32_t directory[] = {1, 3}, origins[] = {1, 0};
    uint32_t cells[4] = {0}, values[] = {1, 3}, lengths[ROUTINES], answer[5];
    size_t tables_len = 0;
    for (int32_t r = 0; r < ROUTINES; r++) {
        const int32_t objects = r == 0, statements = DEPTH + 1;
        const int32_t pairs[] = {6, objects, 6 + objects, 16, 22 + objects, 7 * statements};
        table_len = 0;
        put(pairs, 6);
        put(declared + 1 - objects, (size_t)(16 + objects));
        for (int32_t depth = DEPTH - 1; depth >= 0; depth--)
            statement(11, 1, 2, 1, 0, 1 + depth, 0); /* if (rows > 0) */
        if (r == 0)
            statement(9, 0, -1, 0, 1, 0, 0); /* row[0] = rows */
        else
            statement(15, r - 1, -1, 0, 1, -1, -1); /* the routine before, of row and rows */
        memcpy(tables + tables_len, table, table_len * sizeof *table);
        tables_len += table_len;
        lengths[r] = (uint32_t)table_len;
    }
    return mizzengrape_try_check_set(tables, tables_len, lengths, ROUTINES, room.member, MIZZENGRAPE_SET_MEMBER_WORDS, answer, 4) == MIZZENGRAPE_ANSWERED
           && answer[0] == 0
           && mizzengrape_try_run_set(tables, tables_len, lengths, ROUTINES, directory, 2, cells, 4, values, 2, origins, 2, 1000, room.member,
                                      MIZZENGRAPE_SET_MEMBER_WORDS, room.ends, MIZZENGRAPE_SET_ENDS, room.successors, MIZZENGRAPE_SET_SUCCESSORS, answer, 5)
                  == MIZZENGRAPE_ANSWERED
           && answer[0] == 0 && answer[1] == ROUTINES * (DEPTH + 1) && cells[1] == 3;
}

static void *calls(void *wrong)
{
    for (int with_row = 0; with_row < 2; with_row++) {
        deepest(with_row);
        *(int *)wrong |= !answers(0) || !dispatched(0) || !edited(0, (size_t)table[5] / 7);
    }
    deepest_loops();
    *(int *)wrong |= !answers(4 * ENTRIES) || !dispatched(4 * ENTRIES) || !edited(1, (size_t)table[5] / 7 - 1);
    *(int *)wrong |= !called();
    return NULL;
}

int main(void)
{
    const size_t page = (size_t)sysconf(_SC_PAGESIZE);
    char *memory = mmap(NULL, page + MIZZENGRAPE_STACK_BYTES, PROT_READ | PROT_WRITE, MAP_PRIVATE | MAP_ANONYMOUS, -1, 0);
    pthread_attr_t attributes;
    pthread_t thread;
    int wrong = 0;
    if (memory == MAP_FAILED || mprotect(memory, page, PROT_NONE) != 0 || pthread_attr_init(&attributes) != 0
        || pthread_attr_setstack(&attributes, memory + page, MIZZENGRAPE_STACK_BYTES) != 0
        || pthread_create(&thread, &attributes, calls, &wrong) != 0 || pthread_join(thread, NULL) != 0) {
        fprintf(stderr, "no thread with a stack of %d bytes\n", MIZZENGRAPE_STACK_BYTES);
        return 2;
    }
    printf("the deepest tables on a stack of %d bytes: %s\n", MIZZENGRAPE_STACK_BYTES, wrong ? "wrong answers" : "accepted and done");
    return wrong;
}
