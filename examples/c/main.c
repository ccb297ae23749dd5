/* Embedding in C: checks a routine for late entries, runs it for three boats, shows what wrong arguments are answered, and what a list of loop facts adds;
   then runs both laptops' routines in turn, edits the routine with the verdict alongside, and runs a scoring routine that calls the handicap formula.
   The memory: cell 0 is in no object, cells 1 and 2 are one laptop's block, cells 3 and 4 the other's. */
#include <stdio.h>

#include "mizzengrape.h"

#define LENGTH(a) (sizeof(a) / sizeof((a)[0]))

static const int32_t routine[] = {
    6, 2, 8, 24, 32, 35,        /* objects, variables, statements: offset and length of each */
    2, 2,                       /* objects 0 and 1 have 2 cells each */
    1, 0, 0, -1, 0, 0, 1, 0,    /* variable 0: row, array_ptr with count(rows) */
    0, 0, 0, 0, 0, 0, 0, 0,     /* variable 1: rows */
    0, 0, 0, 0, 0, 0, 0, 0,     /* variable 2: boat */
    10, 1, 2, 1, 0, 0, 0,       /* 0: check rows > 0 */
    9, 0, -1, 0, 2, 0, 0,       /* 1: row[0] := boat */
    13, 2, 0, 0, 0, 0, 0,       /* 2: bundle of 2 */
    6, 0, 0, 1, 0, 0, 0,        /* 3:   row := row + 1 */
    2, 1, 1, -1, 0, 0, 0,       /* 4:   rows := rows - 1 */
};

/* The count raised before anything allows it. */
static const int32_t raised[] = {
    6, 2, 8, 24, 32, 7, 2, 2, 1, 0, 0, -1, 0, 0, 1, 0, 0, 0, 0, 0, 0, 0, 0, 0, 0, 0, 0, 0, 0, 0, 0, 0,
    2, 1, 1, 1, 0, 0, 0,        /* 0: rows := rows + 1 */
};

/* The two sides of an if declare different bounds of row. A first offset of 8: bounds rows follow the statements. */
static const int32_t differing[] = {
    8, 0, 8, 16, 24, 21, 45, 12,
    1, 0, 0, -1, 0, 0, 1, 0,    /* variable 0: row, array_ptr with count(rows) */
    0, 0, 0, 0, 0, 0, 0, 0,     /* variable 1: rows */
    11, 1, 4, 1, 0, 1, 1,       /* 0: if rows == 0 */
    14, 0, 0, 0, 0, 0, 0,       /* 1:   where row : count(0) */
    14, 0, 1, 0, 0, 0, 0,       /* 2: else where row : count(rows) */
    0, -1, 0, 0, -1, 0,         /* row 0: count(0) */
    0, -1, 0, 0, 1, 0,          /* row 1: count(rows) */
};

/* The sum of a block's cells: the loop ends at i != rows, which alone does not say that i stays below rows. */
static const int32_t sum[] = {
    6, 2, 8, 40, 48, 42,
    2, 2,
    1, 0, 0, -1, 0, 0, 1, 0,    /* variable 0: row, array_ptr with count(rows) */
    0, 0, 0, 0, 0, 0, 0, 0,     /* variable 1: rows */
    0, 0, 0, 0, 0, 0, 0, 0,     /* variable 2: i */
    0, 0, 0, 0, 0, 0, 0, 0,     /* variable 3: cell */
    0, 0, 0, 0, 0, 0, 0, 0,     /* variable 4: total */
    10, 0, 5, 1, 0, 0, 0,       /* 0: check row != NULL */
    1, 2, 0, 0, 0, 0, 0,        /* 1: i := 0 */
    12, 2, 5, 0, 1, 3, 0,       /* 2: while i != rows */
    8, 3, 0, 2, 0, 0, 0,        /* 3:   cell := row[i] */
    3, 4, 4, 3, 0, 0, 0,        /* 4:   total := total + cell */
    2, 2, 2, 1, 0, 0, 0,        /* 5:   i := i + 1 */
};
static const int32_t i_up_to_rows[] = {2, 2, 1, 0};   /* at each test of statement 2: i <= rows */
static const int32_t i_below_rows[] = {2, 2, 1, -1};  /* i <= rows - 1, which is wrong at the last test */

/* The routine of one laptop, which knows of its own block alone: boats boats get the next rows, with the numbers from boat on. */
#define LAPTOP                                                                  \
    6, 1, 7, 32, 39, 56,                                                        \
    2,                          /* object 0: this laptop's block of 2 cells */  \
    1, 0, 0, -1, 0, 0, 1, 0,    /* variable 0: row, array_ptr with count(rows) */ \
    0, 0, 0, 0, 0, 0, 0, 0,     /* variable 1: rows */                          \
    0, 0, 0, 0, 0, 0, 0, 0,     /* variable 2: boat */                          \
    0, 0, 0, 0, 0, 0, 0, 0,     /* variable 3: boats */                         \
    12, 3, 2, 1, 0, 7, 0,       /* 0: while boats > 0 */                        \
    10, 1, 2, 1, 0, 0, 0,       /* 1:   check rows > 0 */                       \
    9, 0, -1, 0, 2, 0, 0,       /* 2:   row[0] := boat */                       \
    13, 2, 0, 0, 0, 0, 0,       /* 3:   bundle of 2 */                          \
    6, 0, 0, 1, 0, 0, 0,        /* 4:     row := row + 1 */                     \
    2, 1, 1, -1, 0, 0, 0,       /* 5:     rows := rows - 1 */                   \
    2, 2, 2, 1, 0, 0, 0,        /* 6:   boat := boat + 1 */                     \
    2, 3, 3, -1, 0, 0, 0        /* 7:   boats := boats - 1 */
static const int32_t laptops[] = {LAPTOP, LAPTOP};
static const uint32_t laptop_lengths[] = {95, 0, 2, 4, 4, 95, 0, 2, 4, 4};

/* The handicap formula, and a routine that calls it for a row of its block: two tables, of which the first lists the objects of both. */
static const int32_t scored[] = {
    6, 1, 7, 24, 31, 7,
    2,                          /* object 0: a block of 2 cells, time and corrected time */
    0, 0, 0, 0, 0, 0, 0, 0,     /* variable 0: time */
    0, 0, 0, 0, 0, 0, 0, 0,     /* variable 1: factor */
    0, 0, 0, 0, 0, 0, 0, 0,     /* variable 2: corrected, the result */
    3, 2, 0, 1, 2, 0, 0,        /* 0: corrected := time * factor */

    6, 0, 6, 24, 30, 21,
    1, 0, 0, -1, 0, 0, -1, 2,   /* variable 0: row, array_ptr with count(2) */
    0, 0, 0, 0, 0, 0, 0, 0,     /* variable 1: factor */
    0, 0, 0, 0, 0, 0, 0, 0,     /* variable 2: time */
    8, 2, 0, -1, 0, 0, 0,       /* 0: time := row[0] */
    15, 0, 2, 2, 1, -1, -1,     /* 1: time := routine 0 of time and factor */
    9, 0, -1, 1, 2, 0, 0,       /* 2: row[1] := time */
};
static const uint32_t scored_lengths[] = {38, 51};

static const uint32_t directory[] = {1, 2, 3, 2};
static const uint32_t origins[] = {1, 0, 0};
static uint32_t cells[] = {0, 0, 0, 201, 0};
static uint32_t values[] = {1, 2, 0};

static void show_check(const char *what, mizzengrape_call call, const uint32_t *answer)
{
    if (call != MIZZENGRAPE_ANSWERED)
        printf("%s: call %d\n", what, (int)call);
    else
        printf("%s: answer %u %u %u, %s\n", what, (unsigned)answer[0], (unsigned)answer[1], (unsigned)answer[2], mizzengrape_refusal_text(answer[0]));
}

static void show_run(const char *what, mizzengrape_call call, const uint32_t *answer)
{
    if (call != MIZZENGRAPE_ANSWERED) {
        printf("%s: call %d\n", what, (int)call);
        return;
    }
    printf("%s: answer %u %u %u %u, cells", what, (unsigned)answer[0], (unsigned)answer[1], (unsigned)answer[2], (unsigned)answer[3]);
    for (size_t i = 0; i < LENGTH(cells); i++)
        printf(" %u", (unsigned)cells[i]);
    if (answer[0] == MIZZENGRAPE_STOPPED)
        printf(", %s", mizzengrape_stop_text(answer[3]));
    printf("\n");
}

static void check(const char *what, const int32_t *table, size_t table_len, size_t answer_len)
{
    uint32_t answer[3] = {99, 99, 99};
    mizzengrape_call call = mizzengrape_try_check(table, table_len, answer, answer_len);
    show_check(what, call, answer);
}

/* A run on the cells and values above, with these lengths of what is lent. */
static void run(const char *what, size_t directory_len, size_t cells_len, size_t values_len, size_t origins_len, uint32_t limit, size_t answer_len)
{
    uint32_t answer[4] = {99, 99, 99, 99};
    mizzengrape_call call = mizzengrape_try_run(routine, LENGTH(routine), directory, directory_len, cells, cells_len, values, values_len, origins,
                                                origins_len, limit, answer, answer_len);
    show_run(what, call, answer);
}

/* A check with a list, and the accesses that it reports. */
static void check_with_facts(const char *what, const int32_t *facts, size_t facts_len, size_t report_len)
{
    static uint32_t report[MIZZENGRAPE_REPORT_WORDS];
    uint32_t answer[4] = {99, 99, 99, 99};
    mizzengrape_call call = mizzengrape_try_check_with_facts(sum, LENGTH(sum), facts, facts_len, report, report_len, answer, 4);
    show_check(what, call, answer);
    for (uint32_t i = 0; call == MIZZENGRAPE_ANSWERED && i < answer[3]; i++)
        printf("  statement %u cannot stop\n", (unsigned)report[i]);
}

static void loop_facts(void)
{
    uint32_t entry[] = {1, 2, 0, 0, 0}, answer[4];
    static const uint32_t of_block[] = {1, 0, 0, 0, 0};
    check_with_facts("the sum", NULL, 0, MIZZENGRAPE_REPORT_WORDS);
    check_with_facts("with i <= rows", i_up_to_rows, LENGTH(i_up_to_rows), MIZZENGRAPE_REPORT_WORDS);
    check_with_facts("with i < rows", i_below_rows, LENGTH(i_below_rows), MIZZENGRAPE_REPORT_WORDS);
    check_with_facts("an entry cut short", i_up_to_rows, 3, MIZZENGRAPE_REPORT_WORDS);
    check_with_facts("a short report", i_up_to_rows, LENGTH(i_up_to_rows), MIZZENGRAPE_REPORT_WORDS - 1);
    show_run("the sum of the block",
             mizzengrape_try_run_with_facts(sum, LENGTH(sum), i_up_to_rows, LENGTH(i_up_to_rows), directory, 4, cells, 5, entry, 5, of_block, 5, 100,
                                            answer, 4),
             answer);
    printf("total %u\n", (unsigned)entry[4]);
}

/* Both laptops' routines in turn, each from the beginning of its block on: the first has two boats, the second so many. */
static void in_turn(const char *what, const uint32_t *directories, uint32_t second_boats, size_t lengths_len, uint32_t quantum, uint32_t total)
{
    static mizzengrape_dispatch_room room;
    static const uint32_t of_blocks[] = {1, 0, 0, 0, 1, 0, 0, 0};
    uint32_t memory[] = {0, 0, 0, 0, 0}, entry[] = {directories[0], 2, 101, 2, directories[2], 2, 201, second_boats}, answer[MIZZENGRAPE_DISPATCH_ANSWER_WORDS];
    mizzengrape_call call = mizzengrape_try_dispatch(laptops, LENGTH(laptops), NULL, 0, directories, 4, memory, LENGTH(memory), entry, LENGTH(entry),
                                                     of_blocks, LENGTH(of_blocks), laptop_lengths, lengths_len, quantum, total, room.ends,
                                                     LENGTH(room.ends), room.successors, LENGTH(room.successors), answer, LENGTH(answer));
    if (call != MIZZENGRAPE_ANSWERED) {
        printf("%s: call %d\n", what, (int)call);
        return;
    }
    if (answer[0] == MIZZENGRAPE_REFUSED) {
        printf("%s: refused %u, routine %u, place %u\n", what, (unsigned)answer[1], (unsigned)answer[2], (unsigned)answer[3]);
        return;
    }
    printf("%s:", what);
    for (uint32_t r = 0; r < answer[1]; r++) {
        const uint32_t *words = answer + 5 + 4 * r;
        printf(" routine %u answers %u %u %u %u,", (unsigned)r, (unsigned)words[0], (unsigned)words[1], (unsigned)words[2], (unsigned)words[3]);
    }
    printf(" cells");
    for (size_t i = 0; i < LENGTH(memory); i++)
        printf(" %u", (unsigned)memory[i]);
    printf("\n");
}

static void turns(void)
{
    static const uint32_t overlapping[] = {1, 2, 2, 2}, past_the_end[] = {1, 2, 4, 2};
    in_turn("both laptops in turn", directory, 2, 10, 1, 100);
    in_turn("a boat too many at the second", directory, 3, 10, 3, 100);
    in_turn("ten steps for both", directory, 2, 10, 4, 10);
    in_turn("one laptop alone", directory, 2, 5, 1000, 100);
    in_turn("blocks that overlap", overlapping, 2, 10, 1, 100);
    in_turn("a block past the memory", past_the_end, 2, 10, 1, 100);
    in_turn("no routine", directory, 2, 0, 1, 100);
    in_turn("nine words for two", directory, 2, 9, 1, 100);
    in_turn("turns of no step", directory, 2, 10, 0, 100);
    in_turn("turns of 1001 steps", directory, 2, 10, 1001, 100);
}

/* Room that is too small, misaligned, or lies in what is lent. */
static void wrong_room(void)
{
    static mizzengrape_dispatch_room room;
    const struct {
        const char *what;
        uint64_t *ends;
        size_t ends_len, successors_len;
        uint32_t *values;
        size_t answer_len;
    } rooms[] = {
        {"room one end short", room.ends, LENGTH(room.ends) - 1, LENGTH(room.successors), values, 37},
        {"room one successor short", room.ends, LENGTH(room.ends), LENGTH(room.successors) - 1, values, 37},
        {"36 words for the answer", room.ends, LENGTH(room.ends), LENGTH(room.successors), values, 36},
        {"misaligned room", (uint64_t *)(uintptr_t)((uintptr_t)room.ends + 4), LENGTH(room.ends), LENGTH(room.successors), values, 37},
        {"room past the address space", room.ends, SIZE_MAX, LENGTH(room.successors), values, 37},
        {"no room, null", NULL, LENGTH(room.ends), LENGTH(room.successors), values, 37},
        {"values in the room", room.ends, LENGTH(room.ends), LENGTH(room.successors), (uint32_t *)room.ends + 2 * LENGTH(room.ends) - 1, 37},
    };
    uint32_t answer[MIZZENGRAPE_DISPATCH_ANSWER_WORDS];
    for (size_t i = 0; i < LENGTH(rooms); i++)
        printf("%s: call %d\n", rooms[i].what,
               (int)mizzengrape_try_dispatch(laptops, LENGTH(laptops), NULL, 0, directory, 4, cells, 5, rooms[i].values, 1, origins, 3, laptop_lengths, 10, 1,
                                             100, rooms[i].ends, rooms[i].ends_len, room.successors, rooms[i].successors_len, answer,
                                             rooms[i].answer_len));
}

/* The routine in a buffer with room for three statements more, and a store of two places. */
static int32_t buffer[LENGTH(routine) + 3 * 7];
static uint64_t store[MIZZENGRAPE_STORE_WORDS(2)];
static const uint32_t keep[] = {0, 2};

static void show_edit(const char *what, mizzengrape_call call, const uint32_t *answer)
{
    show_check(what, call, answer);
    if (call != MIZZENGRAPE_ANSWERED)
        return;
    printf("  %s, %u walked, table of %u words, kept", answer[5] == 1 ? "made" : "not made", (unsigned)answer[3], (unsigned)answer[4]);
    for (uint64_t place = 0; place < store[0]; place++)
        printf(" %u", (unsigned)store[MIZZENGRAPE_STORE_WORDS(place)]);
    printf("\n");
}

static void edit(const char *what, uint32_t operation, uint32_t position, const int32_t *text, size_t text_len)
{
    uint32_t answer[MIZZENGRAPE_EDIT_ANSWER_WORDS];
    mizzengrape_call call = mizzengrape_try_edit(buffer, LENGTH(buffer), operation, position, text, text_len, store, LENGTH(store), keep, LENGTH(keep),
                                                 answer, LENGTH(answer));
    show_edit(what, call, answer);
}

static void editing(void)
{
    static const int32_t raise[] = {2, 1, 1, 1, 0, 0, 0};                           /* rows := rows + 1 */
    static const int32_t next_boat[] = {2, 2, 2, 1, 0, 0, 0};                       /* boat := boat + 1 */
    static const int32_t two_rows[] = {10, 1, 2, 1, 1, 0, 0};                       /* check rows > 1 */
    static const int32_t step[] = {13, 2, 0, 0, 0, 0, 0, 6, 0, 0, 1, 0, 0, 0};      /* a bundle of 2, cut short */
    static const int32_t no_variable[] = {2, 3, 3, 1, 0, 0, 0};                     /* variable 3 := variable 3 + 1 */
    uint32_t answer[MIZZENGRAPE_EDIT_ANSWER_WORDS];
    for (size_t i = 0; i < LENGTH(routine); i++)
        buffer[i] = routine[i];
    mizzengrape_call call = mizzengrape_try_edit_start(buffer, LENGTH(buffer), LENGTH(routine), store, LENGTH(store), keep, LENGTH(keep), answer,
                                                       LENGTH(answer));
    show_edit("taken to be edited", call, answer);
    edit("the next boat, at the end", MIZZENGRAPE_INSERT, 5, next_boat, 7);
    edit("the count raised there", MIZZENGRAPE_INSERT, 6, raise, 7);
    edit("and taken back", MIZZENGRAPE_REMOVE, 6, NULL, 0);
    edit("in the bundle", MIZZENGRAPE_REMOVE, 3, NULL, 0);
    edit("a variable that is none", MIZZENGRAPE_INSERT, 0, no_variable, 7);
    edit("half a bundle", MIZZENGRAPE_REPLACE, 2, step, 14);
    edit("the check replaced", MIZZENGRAPE_REPLACE, 0, two_rows, 7);
    edit("the check removed", MIZZENGRAPE_REMOVE, 0, NULL, 0);
    edit("and inserted again", MIZZENGRAPE_INSERT, 0, two_rows, 7);
    edit("room is left", MIZZENGRAPE_INSERT, 6, next_boat, 7);
    edit("and once more", MIZZENGRAPE_INSERT, 7, next_boat, 7);
    edit("no room is left", MIZZENGRAPE_INSERT, 8, next_boat, 7);
    edit("text in the buffer", MIZZENGRAPE_INSERT, 0, buffer + 32, 7);
    call = mizzengrape_try_edit_start(buffer, LENGTH(buffer), 5, store, LENGTH(store), keep, LENGTH(keep), answer, LENGTH(answer));
    show_edit("five words to be edited", call, answer);
    printf("five words for the answer: call %d\n",
           (int)mizzengrape_try_edit(buffer, LENGTH(buffer), MIZZENGRAPE_REMOVE, 0, NULL, 0, store, LENGTH(store), NULL, 0, answer, 5));
    printf("misaligned store: call %d\n", (int)mizzengrape_try_edit(buffer, LENGTH(buffer), MIZZENGRAPE_REMOVE, 0, NULL, 0,
                                                                    (uint64_t *)(uintptr_t)((uintptr_t)store + 4), 1, NULL, 0, answer, 6));
    printf("no store and no buffer, null: call %d,", (int)mizzengrape_try_edit(NULL, 0, MIZZENGRAPE_REMOVE, 0, NULL, 0, NULL, 0, NULL, 0, answer, 6));
    printf(" answer %u\n", (unsigned)answer[0]);
}

/* The scoring routine on a block of its own, with these lengths of what is lent and so many steps. */
static void score(const char *what, size_t lengths_len, size_t values_len, uint32_t limit, size_t member_len)
{
    static mizzengrape_set_room room;
    static const uint32_t of_block[] = {1, 0, 0}, block[] = {1, 2};
    uint32_t memory[] = {0, 700, 0}, entry[] = {1, 3, 0}, answer[5];
    mizzengrape_call call = mizzengrape_try_check_set(scored, LENGTH(scored), scored_lengths, lengths_len, room.member, member_len, answer, 4);
    if (call != MIZZENGRAPE_ANSWERED) {
        printf("%s: call %d\n", what, (int)call);
        return;
    }
    printf("%s: checked %u %u %u %u", what, (unsigned)answer[0], (unsigned)answer[1], (unsigned)answer[2], (unsigned)answer[3]);
    call = mizzengrape_try_run_set(scored, LENGTH(scored), scored_lengths, lengths_len, block, 2, memory, LENGTH(memory), entry, values_len, of_block, 3,
                                   limit, room.member, member_len, room.ends, LENGTH(room.ends), room.successors, LENGTH(room.successors), answer, 5);
    if (call != MIZZENGRAPE_ANSWERED) {
        printf(", call %d\n", (int)call);
        return;
    }
    printf(", ran %u %u %u %u of routine %u, cells %u %u %u\n", (unsigned)answer[0], (unsigned)answer[1], (unsigned)answer[2], (unsigned)answer[3],
           (unsigned)answer[4], (unsigned)memory[0], (unsigned)memory[1], (unsigned)memory[2]);
}

static void sets(void)
{
    score("a score", 2, 3, 100, MIZZENGRAPE_SET_MEMBER_WORDS);
    score("two steps", 2, 3, 2, MIZZENGRAPE_SET_MEMBER_WORDS);
    score("two values for three", 2, 2, 100, MIZZENGRAPE_SET_MEMBER_WORDS);
    score("the formula alone", 1, 3, 100, MIZZENGRAPE_SET_MEMBER_WORDS);
    score("no routine", 0, 3, 100, MIZZENGRAPE_SET_MEMBER_WORDS);
    score("a member one word short", 2, 3, 100, MIZZENGRAPE_SET_MEMBER_WORDS - 1);
    check("a call in a routine alone", scored + 38, 51, 3);
}

static void wrong_pointers(void)
{
    uint32_t answer[4];
    const int32_t *misaligned = (const int32_t *)(uintptr_t)((uintptr_t)routine + 1);
    check("no table, null", NULL, 0, 3);
    check("null table of 6 words", NULL, 6, 3);
    check("misaligned table", misaligned, 6, 3);
    check("table past the address space", routine, SIZE_MAX, 3);
    show_run("no memory, null",
             mizzengrape_try_run(routine, LENGTH(routine), NULL, 0, NULL, 0, NULL, 0, NULL, 0, 9, answer, 4), answer);
    show_run("null cells",
             mizzengrape_try_run(routine, LENGTH(routine), directory, 4, NULL, 5, values, 3, origins, 3, 9, answer, 4), answer);
    show_run("values in the cells",
             mizzengrape_try_run(routine, LENGTH(routine), directory, 4, cells, 5, cells + 2, 3, origins, 3, 9, answer, 4), answer);
    show_run("answer in the cells",
             mizzengrape_try_run(routine, LENGTH(routine), directory, 4, cells, 5, values, 3, origins, 3, 9, cells + 1, 4), answer);
}

int main(void)
{
    if (mizzengrape_version() != MIZZENGRAPE_VERSION_NUMBER) {
        fprintf(stderr, "header %s and library %u come from two releases\n", MIZZENGRAPE_VERSION, (unsigned)mizzengrape_version());
        return 1;
    }
    check("the routine", routine, LENGTH(routine), 3);
    check("the count raised first", raised, LENGTH(raised), 3);
    check("bounds that differ", differing, LENGTH(differing), 3);
    for (uint32_t boat = 101; boat <= 103; boat++) {
        char what[16];
        snprintf(what, sizeof what, "boat %u", (unsigned)boat);
        values[2] = boat;
        run(what, 4, 5, 3, 3, 100, 4);
    }
    printf("values %u %u %u\n", (unsigned)values[0], (unsigned)values[1], (unsigned)values[2]);
    run("no step allowed", 4, 5, 3, 3, 0, 4);

    check("five words of the table", routine, 5, 3);
    check("one word too few", routine, LENGTH(routine) - 1, 3);
    check("room for two words", routine, LENGTH(routine), 2);
    run("no directory", 0, 5, 3, 3, 100, 4);
    run("half a pair", 3, 5, 3, 3, 100, 4);
    run("no cells", 4, 0, 3, 3, 100, 4);
    run("one cell too few", 4, 4, 3, 3, 100, 4);
    run("two values", 4, 5, 2, 3, 100, 4);
    run("no origins", 4, 5, 3, 0, 100, 4);
    run("room for three words", 4, 5, 3, 3, 100, 3);
    wrong_pointers();
    loop_facts();
    turns();
    wrong_room();
    editing();
    sets();
    return 0;
}
