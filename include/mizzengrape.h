/* Mizzengrape: the proved checker and interpreter for routine tables, as a static library.

   A routine is a table of 32-bit words (docs/FORMAT.md; the command `mizzengrape` makes tables from Checked C text). mizzengrape_check answers whether the
   rules accept it; mizzengrape_run runs an accepted one on memory that the caller lends. With a list of loop facts beside the table they are
   mizzengrape_check_with_facts, which also reports the accesses that cannot fail, and mizzengrape_run_with_facts. mizzengrape_dispatch runs several in turn.
   mizzengrape_edit_start and mizzengrape_edit change a table one statement at a time and give its verdict each time.
   mizzengrape_check_set and mizzengrape_run_set are for routines that call each other.

   Tables. A table begins with pairs of offset and length: objects, variables, statements; the first offset is 6, and the table has at most 7,318 words.
   - A first offset of 8 means a fourth pair and section, bounds rows of six words behind the statements: bounds that statements of kind 14 declare for a
     pointer. Such a table has at most 64 rows and 7,704 words.
   - The word after a pointer's kind is its element size s in cells, 0 or 1 for one cell, at most 8: an index, a variable that is added to the pointer, and
     the integer of an end of its bounds count elements, so they are multiplied by s. Every constant is in cells.
   - An object word below 0 is a terminated object of that many cells, sign removed, whose last cell is 0 at every point of a run. A pointer of kind 2
     (nt_array_ptr) is null or belongs to a terminated object; it may also read the cell at its upper end, and store 0 there.

   Loop facts. A list of facts about loops may be lent beside a table, to a check and to a run: four words an entry, a while statement, x, y and k, sorted by
   statement, at most 256 entries. An entry means x <= y + k at every test of that while; x and y are variables of one kind, and -1 stands for zero. Each
   fact is tested: it has to be shown before the loop and again at the end of the body, where all entries of that loop are assumed together at its head.
   Then they are known in the body and after the loop; else the list is refused with 17. Nobody has to trust who wrote the list.

   Calls. Every slice is a pointer and a length in elements. Nothing is kept after a call, and nothing is allocated. There are two ways in:
   - mizzengrape_check, mizzengrape_run, the same .._with_facts and .._set, mizzengrape_dispatch, mizzengrape_edit_start and mizzengrape_edit are the proved
     functions. Their caller promises of each slice that its pointer is not null (also where the length is 0), is aligned to four bytes (one of uint64_t to
     the alignment of that type, mostly eight) and has that many elements of memory behind it; and that a slice that is written overlaps no other.
   - mizzengrape_try_check and so on, the same names with try_, below, ask for less: they look at null, alignment and overlap first, and answer what is wrong
     without calling. What no program can see is left to the caller: that a pointer has that many elements behind it, and that no other thread writes them.

   Stack. A thread with a stack of MIZZENGRAPE_STACK_BYTES, 128 KiB, has room for each call at the deepest nesting, with 4 KiB left for its caller
   (examples/c/stack.c runs all of them on exactly that stack; `compare stack` measures the least).

   Memory. What a run is lent:
   - cells: the memory, at most 16,777,216 cells of 32 bits. Address a is cells[a]. Cell 0 is in no object, so address 0 is null.
   - directory: two words for each object of the table, its first cell and its length in cells, in the order of the objects and of the memory. The first
     cell is 1 or more, the length is that of the table, without its sign; objects may touch, and cells may lie in no object. It is empty where the table
     has no object. The last cell of each terminated object has to be 0 when a run begins, whether a pointer is lent into it or not.
   - values: one word for each variable, an integer or an address. All may be 0: integers are 0 then and pointers null.
   - origins: one word for each variable. For an integer and for a null pointer it is 0; for another pointer the number of the object that it belongs to,
     plus 1. (Where objects touch, the address alone does not tell which one a pointer at their border belongs to.) The bounds that are declared for the
     pointer in its own record must lie in that object, by the values lent; in a terminated one the upper end at most at its last cell.
   - limit: how many steps the run may take. 0 is a limit too: the run is then done at once, in a table without statements, or spent.

   What a run leaves. cells and values are written, nothing else; a refused run writes neither. After a run that is done, spent or stopped, values holds each
   variable as it is then, and cells the memory; a stopping statement has changed nothing. Origins are not given back: a pointer keeps its object when it is
   moved (p = p + k), takes that of q by p = q + k, that of o by p = o, and has none (0) after p = NULL.

   Running again. A call always begins with the first statement, and with the bounds of each pointer's own record: rows of kind 14 are in force only while a run
   goes on. What a done run left may be lent to the next run, with the origins of its pointers as they are then, where those bounds are true of it; so a
   routine that registers one boat is run once for each boat. So may what a stopped run left; but a stop inside a bundle may leave bounds untrue, and lent
   again they are refused with 12.
   Going on after a spent run. No call begins in the middle, so the values that a spent run left are not where the next call would go on: lent again, they begin
   another run at the first statement, and where the run was spent inside a bundle that is refused with 12 if the bounds are untrue there. To go on, keep a
   copy of cells and values from before the run, and run that copy again with a greater limit: the run takes the same steps, passes the point where it was spent
   (inside a bundle or not) and goes on from there. A run is the same each time: it depends on nothing but what it is lent.

   Several routines in turn. mizzengrape_dispatch runs 1 to 8 routines over one memory: each has a table, a list, a directory, values and origins of its own,
   and objects that share no cell with another's; they may touch. It goes round by number, skips those that ended, and gives each a turn of quantum steps, 1
   to 1,000, until all have ended or the total is used. A turn that ends early gives its rest to nobody. So of n routines one that waits is served again
   after at most (n - 1) times quantum steps of the others, unless the total runs out; and each ends, with its values and its cells, as a run of it alone
   with the steps that it received. All that is said of a run above holds of each of them. To go on after the total is used, run a copy of cells and values
   from before again, with a greater total: the turns are the same up to there.

   Editing. mizzengrape_edit_start takes a table that passes refusals 1 to 6, in a buffer with room behind it; mizzengrape_edit then inserts, replaces or
   removes one statement outside of all blocks, with its own blocks, in that buffer. There is no list of loop facts. Each call answers the verdict on the
   table as it then is, and what it answers equals a check of that table from nothing, but need not walk all of it:
   - The caller lends a store of places. A place holds what is known before one statement outside of all blocks. Each call names positions to keep, numbers
     of such statements in the new table; those that the walk comes to are stored, lowest first, while a place is free. Numbers that name no such statement,
     one that is stored already or one before the walk's start are passed over.
   - An edit drops the places behind its position, and walks from the last one at or before it, else from the start. So a position kept at each 16th statement
     lets an edit near the end walk little more than the end. An edit writes the statements' part of the table, the pairs of its directory that name their
     length and the rows' offset, and the rows behind them; the words of the buffer behind the new table stay.
   - An edit that is refused (18; 5 or 6 for its text) changes neither table nor store. An edit whose verdict is a refusal (8, 9, 13, 19) is made all the same.
   - Between the calls nobody else may write the table or the store, else the verdict says nothing; the calls end and answer all the same, and write nothing
     but table, store and answer. To begin anew call mizzengrape_edit_start.

   Routines that call each other. A set is 1 to 8 tables, numbered in their order; a statement of kind 15 calls a routine with a lower number than its own: its
   words are 15, the callee, the integer variable that takes the result or -1, then four argument variables, unused ones -1 at the end. The callee's first
   variables take the arguments; its other integers are 0 and its other pointers null, anew at each call. The result is the value of its last variable, which
   has to be an integer. Only table 0 lists objects, and all routines name those; the other tables have none. The bounds of a variable that takes an argument
   may name only variables that take one too, and have to be shown for the arguments at the call; else it is refused with 20. A run begins in the last
   routine, and values and origins are that routine's. A step in a callee is a step of the run, and the step that ends the callee's table hands the result
   over. In a routine by itself, for every other call here, a statement of kind 15 is refused with 19. */
#ifndef MIZZENGRAPE_H
#define MIZZENGRAPE_H

#include <stdbool.h>
#include <stddef.h>
#include <stdint.h>

/* The version of this header, and as one number. */
#define MIZZENGRAPE_VERSION_MAJOR 0
#define MIZZENGRAPE_VERSION_MINOR 2
#define MIZZENGRAPE_VERSION_PATCH 0
#define MIZZENGRAPE_VERSION "0.2.0"
#define MIZZENGRAPE_VERSION_NUMBER (MIZZENGRAPE_VERSION_MAJOR * 10000u + MIZZENGRAPE_VERSION_MINOR * 100u + MIZZENGRAPE_VERSION_PATCH)

/* The stack of a thread that is enough for each call. */
#define MIZZENGRAPE_STACK_BYTES 131072

/* The words that a report has room for: a table has at most so many statements. */
#define MIZZENGRAPE_REPORT_WORDS 1024

/* The room that a dispatch is lent, in elements, and the words of its answer. */
#define MIZZENGRAPE_DISPATCH_ENDS 4096
#define MIZZENGRAPE_DISPATCH_SUCCESSORS 16384
#define MIZZENGRAPE_DISPATCH_ANSWER_WORDS 37

/* A store of places, in elements of 64 bits: a word of how many places are kept now, then the places, lowest position first. The first word of a place is its
   position; what the others hold is the library's. MIZZENGRAPE_STORE_WORDS(n) is the room for n places; a store has as many as fit, one of no word none. */
#define MIZZENGRAPE_STORE_HEADER_WORDS 1
#define MIZZENGRAPE_PLACE_WORDS 307
#define MIZZENGRAPE_STORE_WORDS(n) (MIZZENGRAPE_STORE_HEADER_WORDS + (size_t)(n) * MIZZENGRAPE_PLACE_WORDS)

/* The words of the answer of an editing call. */
#define MIZZENGRAPE_EDIT_ANSWER_WORDS 6

/* The room that the calls for sets are lent, in elements. */
#define MIZZENGRAPE_SET_MEMBER_WORDS 7720
#define MIZZENGRAPE_SET_ENDS MIZZENGRAPE_DISPATCH_ENDS
#define MIZZENGRAPE_SET_SUCCESSORS MIZZENGRAPE_DISPATCH_SUCCESSORS

#ifdef __cplusplus
extern "C" {
#endif

/* The version of the library that the program is linked with. Where it is not MIZZENGRAPE_VERSION_NUMBER, header and library come from two releases. */
uint32_t mizzengrape_version(void);

/* Refusals, with the paper's numbers: answer[0] of a check or an edit, answer[1] of a run or a dispatch that is refused. In brackets their place. */
typedef enum mizzengrape_refusal {
    MIZZENGRAPE_ACCEPTED = 0,
    MIZZENGRAPE_REFUSED_LENGTH = 1,      /* [0] the table has fewer than 6 or more than 7,318 words; 7,704 where its first word is 8 */
    MIZZENGRAPE_REFUSED_DIRECTORY = 2,   /* [0] its sections do not lie one behind the other, or hold too many or too few records */
    MIZZENGRAPE_REFUSED_OBJECT = 3,      /* [object] its length, without its sign, is not 1 to 1,000,000; [0] a routine of a set but the first lists one */
    MIZZENGRAPE_REFUSED_VARIABLE = 4,    /* [variable, or number of variables plus row] its record is wrong */
    MIZZENGRAPE_REFUSED_STATEMENT = 5,   /* [statement] its record is wrong: kind, a field, what a field names */
    MIZZENGRAPE_REFUSED_BLOCK = 6,       /* [statement] a block past its parent's end, too deep, or a bundle's count or contents */
    /* 7 is unused. */
    MIZZENGRAPE_REFUSED_BOUNDS = 8,      /* [statement] declared bounds are not shown after it, or a kind 14's row at it; the answer's last word is the
                                            lowest such pointer, of a kind 14 its own */
    MIZZENGRAPE_REFUSED_ACCESS = 9,      /* [statement] an access in a bundle whose pointer's bounds are not shown there */
    MIZZENGRAPE_REFUSED_MEMORY = 10,     /* [pair or 0] the memory is too large, or the directory does not fit it or the table */
    MIZZENGRAPE_REFUSED_VALUES = 11,     /* [0] not one value and one origin for each variable */
    MIZZENGRAPE_REFUSED_ENTRY = 12,      /* [variable] an origin is wrong, or the bounds are untrue at entry */
    MIZZENGRAPE_REFUSED_ROWS = 13,       /* [if or while] its two sides, or head and end of its body, leave different rows in force */
    MIZZENGRAPE_REFUSED_OVERLAP = 14,    /* [routine] of a dispatch: the first that has an object with a cell in common with an earlier routine's */
    MIZZENGRAPE_REFUSED_TURNS = 15,      /* [0] of a dispatch or a set: not 1 to 8 routines, or turns of other than 1 to 1,000 steps */
    MIZZENGRAPE_REFUSED_TERMINATOR = 16, /* [object] the last cell of a terminated object is not 0 at entry */
    MIZZENGRAPE_REFUSED_FACT = 17,       /* [entry] of the list of loop facts: it is cut short, unsorted or names wrongly, or its fact is not shown before
                                            the loop or at the body's end; 256 where there are more entries */
    MIZZENGRAPE_REFUSED_EDIT = 18,       /* [position] of an edit: no statement outside of all blocks has it (an insertion may follow the last), the table
                                            would have more than 1,024 statements or more words than its buffer, or no such operation */
    MIZZENGRAPE_REFUSED_CALLEE = 19,     /* [statement] a call of a routine whose number is not below its caller's; a routine by itself has none to call */
    MIZZENGRAPE_REFUSED_ARGUMENTS = 20   /* [statement] a call whose arguments do not fit the callee's first variables or are not shown in their bounds, or
                                            of a callee whose last variable is no integer */
} mizzengrape_refusal;

/* What mizzengrape_edit does at a position, the number of a statement in the table. */
typedef enum mizzengrape_operation {
    MIZZENGRAPE_INSERT = 0,  /* the text comes before the statement, or behind the last where the position is the number of statements */
    MIZZENGRAPE_REPLACE = 1, /* the text takes the place of the statement and its blocks */
    MIZZENGRAPE_REMOVE = 2   /* the statement and its blocks go; the text is not looked at */
} mizzengrape_operation;

/* How a run ended: answer[0] of a run; of a dispatch DONE where it ran, or REFUSED, and behind it a word for each routine. */
typedef enum mizzengrape_outcome {
    MIZZENGRAPE_DONE = 0,    /* no statement is due any more */
    MIZZENGRAPE_SPENT = 1,   /* the limit is used and a statement is due */
    MIZZENGRAPE_STOPPED = 2, /* a check failed at the statement due */
    MIZZENGRAPE_REFUSED = 3  /* nothing was begun and nothing changed */
} mizzengrape_outcome;

/* The check at which a run stopped: answer[3] of a stopped run. */
typedef enum mizzengrape_stop {
    MIZZENGRAPE_STOP_CONDITION = 1,  /* a dynamic check is false */
    MIZZENGRAPE_STOP_NULL = 2,       /* an access through null */
    MIZZENGRAPE_STOP_BOUNDS = 3,     /* an access outside of the declared bounds */
    MIZZENGRAPE_STOP_ARITHMETIC = 4, /* arithmetic on null */
    MIZZENGRAPE_STOP_ADDRESS = 5,    /* a pointer would leave 1 to 4,294,967,295 */
    MIZZENGRAPE_STOP_TERMINATOR = 6  /* a number other than 0 stored at the upper end of a pointer of kind 2 */
} mizzengrape_stop;

/* What a refusal's number means, in a line; "refused" for a number that is none. */
static inline const char *mizzengrape_refusal_text(uint32_t number)
{
    switch (number) {
    case MIZZENGRAPE_ACCEPTED: return "accepted";
    case MIZZENGRAPE_REFUSED_LENGTH: return "the table has too few or too many words";
    case MIZZENGRAPE_REFUSED_DIRECTORY: return "its sections do not fit, or hold too many or too few records";
    case MIZZENGRAPE_REFUSED_OBJECT: return "an object's length is not 1 to 1,000,000 cells";
    case MIZZENGRAPE_REFUSED_VARIABLE: return "a variable's record or a bounds row is wrong";
    case MIZZENGRAPE_REFUSED_STATEMENT: return "a statement's record is wrong";
    case MIZZENGRAPE_REFUSED_BLOCK: return "a block does not fit, is too deep, or is no bundle";
    case MIZZENGRAPE_REFUSED_BOUNDS: return "declared bounds are not shown";
    case MIZZENGRAPE_REFUSED_ACCESS: return "an access in a bundle before the bounds are right";
    case MIZZENGRAPE_REFUSED_MEMORY: return "the memory or its directory does not fit";
    case MIZZENGRAPE_REFUSED_VALUES: return "not one value and one origin for each variable";
    case MIZZENGRAPE_REFUSED_ENTRY: return "an origin is wrong, or bounds are untrue at entry";
    case MIZZENGRAPE_REFUSED_ROWS: return "bounds that depend on the way";
    case MIZZENGRAPE_REFUSED_OVERLAP: return "an object has a cell in common with an earlier routine's";
    case MIZZENGRAPE_REFUSED_TURNS: return "not 1 to 8 routines, or turns of other than 1 to 1,000 steps";
    case MIZZENGRAPE_REFUSED_TERMINATOR: return "the last cell of a terminated object is not 0";
    case MIZZENGRAPE_REFUSED_FACT: return "a loop fact that is not shown or does not fit";
    case MIZZENGRAPE_REFUSED_EDIT: return "an edit that has no such place, or no room";
    case MIZZENGRAPE_REFUSED_CALLEE: return "a call of a routine that is not before its caller";
    case MIZZENGRAPE_REFUSED_ARGUMENTS: return "the arguments of a call do not fit the routine it calls";
    default: return "refused";
    }
}

/* What the check of a stopped run means, in a line; "stopped" for a number that is none. */
static inline const char *mizzengrape_stop_text(uint32_t number)
{
    switch (number) {
    case MIZZENGRAPE_STOP_CONDITION: return "a dynamic check is false";
    case MIZZENGRAPE_STOP_NULL: return "an access through null";
    case MIZZENGRAPE_STOP_BOUNDS: return "an access outside of the declared bounds";
    case MIZZENGRAPE_STOP_ARITHMETIC: return "arithmetic on null";
    case MIZZENGRAPE_STOP_ADDRESS: return "no address";
    case MIZZENGRAPE_STOP_TERMINATOR: return "a letter where only 0 may stand";
    default: return "stopped";
    }
}

/* Checks a routine table. The answer's words, the others stay:
     answer[0]  0 accepted, else the number of the refusal, 1 to 9 (7 is unused), 13 or 19
     answer[1]  0 accepted, else the refusal's place
     answer[2]  for refusal 8 the lowest pointer variable whose declared bounds are not shown there, of a kind 14 its own; else 0
   True; or false, and nothing written, where answer_len is below 3. */
bool mizzengrape_check(const int32_t *table, size_t table_len, uint32_t *answer, size_t answer_len);

/* Runs a routine table on lent cells and values, limit steps at most. The answer's words, the others stay:
     answer[0]       0 done    1 spent     2 stopped    3 refused
     answer[1]       steps     steps       steps        number of the refusal, 1 to 13, 16 or 19
     answer[2]       0         statement   statement    its place
     answer[3]       0         0           check 1..6   for refusal 8 the pointer variable as for a check, else 0
   Each statement begun is a step; a while is one at each test, a bundle's head is one, and so is a statement that stops the run. The statement of a spent
   run is the one due next.
   True; or false, and nothing written, where answer_len is below 4. */
bool mizzengrape_run(const int32_t *table, size_t table_len, const uint32_t *directory, size_t directory_len, uint32_t *cells, size_t cells_len,
                     uint32_t *values, size_t values_len, const uint32_t *origins, size_t origins_len, uint32_t limit, uint32_t *answer,
                     size_t answer_len);

/* mizzengrape_check with a list of loop facts beside the table; an empty one adds nothing. It also reports the accesses that cannot fail. The answer's
   words, the others stay:
     answer[0]  0 accepted, else the number of the refusal, as above or 17
     answer[1]  0 accepted, else the refusal's place; of 17 the entry
     answer[2]  for refusal 8 the pointer as above, else 0
     answer[3]  the number of reported accesses; 0 where refused
   report[0] up to report[answer[3]], that one not included: the statements of the reported accesses, ascending; the words behind them stay. A reported
   access is one for which the facts before it show that its pointer is not null and its address lies within the bounds in force: in no run with this table
   and list does it stop at check 2 or 3. Where the routine is refused nothing is written there.
   True; or false, and nothing written, where answer_len is below 4 or report_len below MIZZENGRAPE_REPORT_WORDS. */
bool mizzengrape_check_with_facts(const int32_t *table, size_t table_len, const int32_t *facts, size_t facts_len, uint32_t *report, size_t report_len,
                                  uint32_t *answer, size_t answer_len);

/* mizzengrape_run with a list of loop facts beside the table. The list decides whether the routine is refused (17 comes with the table's own refusals); it
   changes nothing in a run. */
bool mizzengrape_run_with_facts(const int32_t *table, size_t table_len, const int32_t *facts, size_t facts_len, const uint32_t *directory,
                                size_t directory_len, uint32_t *cells, size_t cells_len, uint32_t *values, size_t values_len, const uint32_t *origins,
                                size_t origins_len, uint32_t limit, uint32_t *answer, size_t answer_len);

/* The room that a dispatch works in, 96 KB, as one object: lent, so that the stated stack is enough. Nobody has to set its contents, and nobody may rely on
   them. */
typedef struct mizzengrape_dispatch_room {
    uint64_t ends[MIZZENGRAPE_DISPATCH_ENDS];
    uint32_t successors[MIZZENGRAPE_DISPATCH_SUCCESSORS];
} mizzengrape_dispatch_room;

/* Runs several routines in turn on lent cells, quantum steps a turn, total steps in all. Their parts lie one behind the other in tables, facts, directories,
   values and origins; lengths has five words a routine: of its table, list, directory, values and origins. A length of lengths that is no multiple of five
   is a wrong number of routines (15). A part that reaches past its slice is cut there, and the routine is judged by what is left of it. ends and successors
   are the room above. The answer's words, the others stay:
                                 ran                      refused
     answer[0]                   0                        3
     answer[1]                   number of routines       number of the refusal
     answer[2]                   0                        routine; of 15 0
     answer[3]                   0                        place; of 14 the routine again, of 15 0
     answer[4]                   0                        for refusal 8 the pointer variable as for a check, else 0
     answer[5 + 4 r] and 3 more  routine r's four words   stay
                                 as mizzengrape_run
                                 answers them
   15 comes before all else. Then the first routine is named whose run alone would be refused, with that refusal; 14 comes last. A refusal changes no cell
   and no value.
   True; or false, and nothing written, where answer_len is below MIZZENGRAPE_DISPATCH_ANSWER_WORDS, ends_len below MIZZENGRAPE_DISPATCH_ENDS or
   successors_len below MIZZENGRAPE_DISPATCH_SUCCESSORS. */
bool mizzengrape_dispatch(const int32_t *tables, size_t tables_len, const int32_t *facts, size_t facts_len, const uint32_t *directories,
                          size_t directories_len, uint32_t *cells, size_t cells_len, uint32_t *values, size_t values_len, const uint32_t *origins,
                          size_t origins_len, const uint32_t *lengths, size_t lengths_len, uint32_t quantum, uint32_t total, uint64_t *ends,
                          size_t ends_len, uint32_t *successors, size_t successors_len, uint32_t *answer, size_t answer_len);

/* Takes the table of length words at the beginning of a buffer of table_len words (a length beyond the buffer counts as the buffer's), so that it can be
   edited there, and walks all of it. What the store held is dropped; the positions of keep are stored as the walk comes to them. The buffer is only read.
   The answer's words, the others stay:
     answer[0]  0 accepted, else the number of the verdict's refusal, 8, 9, 13 or 19; or 1 to 6, and the table is not taken
     answer[1]  0 accepted, else the refusal's place
     answer[2]  for refusal 8 the pointer as for a check, else 0
     answer[3]  statements walked, those of blocks too, up to the last begun; 0 where the table is not taken
     answer[4]  the words of the table; of one that is not taken at most 4294967295
     answer[5]  1 where the table is taken; 0 where it is not, and then nothing is written to the store
   True; or false, and nothing written, where answer_len is below MIZZENGRAPE_EDIT_ANSWER_WORDS. */
bool mizzengrape_edit_start(const int32_t *table, size_t table_len, size_t length, uint64_t *store, size_t store_len, const uint32_t *keep,
                            size_t keep_len, uint32_t *answer, size_t answer_len);

/* Edits the table in the buffer at a position; its length is read from its directory. The text is the new statement with its blocks, seven words a record.
   Store and keep as above; the store is the one that the call before left. The answer's words, the others stay:
                 edited                                       not edited: table and store stay
     answer[0]   verdict on the new table: 0, 8, 9, 13 or 19  18; or of a text 5 (a record is wrong) or 6 (not one statement with its blocks)
     answer[1]   0 accepted, else the refusal's place         position
     answer[2]   for refusal 8 the pointer, else 0            0
     answer[3]   statements walked                            0
     answer[4]   words of the table now                       words of the table
     answer[5]   1                                            0
   18 comes before 5, and 5 before 6. A buffer that holds no table answers 18, and 0 for the words of the table.
   True; or false, and nothing written, where answer_len is below MIZZENGRAPE_EDIT_ANSWER_WORDS. */
bool mizzengrape_edit(int32_t *table, size_t table_len, uint32_t operation, uint32_t position, const int32_t *text, size_t text_len, uint64_t *store,
                      size_t store_len, const uint32_t *keep, size_t keep_len, uint32_t *answer, size_t answer_len);

/* The room that the calls for sets work in, 127 KB, as one object: a check needs member alone. Nobody has to set its contents, and nobody may rely on them. */
typedef struct mizzengrape_set_room {
    uint64_t ends[MIZZENGRAPE_SET_ENDS];
    uint32_t successors[MIZZENGRAPE_SET_SUCCESSORS];
    int32_t member[MIZZENGRAPE_SET_MEMBER_WORDS];
} mizzengrape_set_room;

/* Checks a set of routines. Their tables lie one behind the other in tables; lengths has one word a routine, the length of its table. A table that reaches past
   the slice is cut there, and judged by what is left of it. The answer's words, the others stay:
     answer[0]  0 accepted, else the number of the refusal: as for a check, 19 or 20, of the first routine that is refused; or 15, which comes before all else
     answer[1]  0 accepted, else the refusal's place
     answer[2]  for refusal 8 the pointer variable as for a check, else 0
     answer[3]  the routine that is refused; of 15 and where accepted 0
   True; or false, and nothing written, where answer_len is below 4 or member_len below MIZZENGRAPE_SET_MEMBER_WORDS. */
bool mizzengrape_check_set(const int32_t *tables, size_t tables_len, const uint32_t *lengths, size_t lengths_len, int32_t *member, size_t member_len,
                           uint32_t *answer, size_t answer_len);

/* Runs a set of routines from its last one on, limit steps at most; directory is of table 0's objects, values and origins are of the last routine's
   variables. The answer's words, the others stay:
     answer[0..3]  as mizzengrape_run answers them, of the routine that runs then
     answer[4]     the routine of a spent, stopped or refused run (of 10, 11, 12 and 16 the last one); 0 where it is done or refused with 15
   values holds the last routine's variables then, also where a callee is running.
   True; or false, and nothing written, where answer_len is below 5, member_len below MIZZENGRAPE_SET_MEMBER_WORDS, ends_len below MIZZENGRAPE_SET_ENDS or
   successors_len below MIZZENGRAPE_SET_SUCCESSORS. */
bool mizzengrape_run_set(const int32_t *tables, size_t tables_len, const uint32_t *lengths, size_t lengths_len, const uint32_t *directory,
                         size_t directory_len, uint32_t *cells, size_t cells_len, uint32_t *values, size_t values_len, const uint32_t *origins,
                         size_t origins_len, uint32_t limit, int32_t *member, size_t member_len, uint64_t *ends, size_t ends_len,
                         uint32_t *successors, size_t successors_len, uint32_t *answer, size_t answer_len);

/* What a guarded call says. Unless it says ANSWERED nothing has been written. */
typedef enum mizzengrape_call {
    MIZZENGRAPE_ANSWERED = 0,
    MIZZENGRAPE_NO_ROOM = 1,   /* the answer, the report or the lent room has too few elements */
    MIZZENGRAPE_BAD_SLICE = 2, /* null with a length above 0, not aligned as its elements are, or past the end of the address space */
    MIZZENGRAPE_OVERLAP = 3    /* a slice that is written overlaps another */
} mizzengrape_call;

/* Whether a pointer and a length can be a slice of 32-bit words. Null is one of length 0. */
static inline bool mizzengrape_is_slice(const void *start, size_t len)
{
    uintptr_t address = (uintptr_t)start;
    if (start == NULL)
        return len == 0;
    return address % sizeof(uint32_t) == 0 && len <= PTRDIFF_MAX / sizeof(uint32_t) && len * sizeof(uint32_t) <= UINTPTR_MAX - address;
}

/* Whether two slices have a word in common. */
static inline bool mizzengrape_overlap(const void *a, size_t a_len, const void *b, size_t b_len)
{
    uintptr_t x = (uintptr_t)a, y = (uintptr_t)b;
    return a_len > 0 && b_len > 0 && x < y + b_len * sizeof(uint32_t) && y < x + a_len * sizeof(uint32_t);
}

/* A word that stands for the start of every slice of length 0, so that no null pointer is passed on. */
static inline const void *mizzengrape_start(const void *start, size_t len)
{
    static const uint64_t empty = 0;
    return len == 0 ? &empty : start;
}

/* What is wrong with the slices of a call, where something is; those that are written come first. */
static inline mizzengrape_call mizzengrape_guard(const void *const *start, const size_t *len, int slices, int written)
{
    for (int i = 0; i < slices; i++)
        if (!mizzengrape_is_slice(start[i], len[i]))
            return MIZZENGRAPE_BAD_SLICE;
    for (int i = 0; i < written; i++)
        for (int j = i + 1; j < slices; j++)
            if (mizzengrape_overlap(start[i], len[i], start[j], len[j]))
                return MIZZENGRAPE_OVERLAP;
    return MIZZENGRAPE_ANSWERED;
}

/* mizzengrape_check, guarded. It has no report, so that its caller needs no room for one. */
static inline mizzengrape_call mizzengrape_try_check(const int32_t *table, size_t table_len, uint32_t *answer, size_t answer_len)
{
    const void *const start[2] = {answer, table};
    const size_t len[2] = {answer_len, table_len};
    const mizzengrape_call call = mizzengrape_guard(start, len, 2, 1);
    if (call != MIZZENGRAPE_ANSWERED)
        return call;
    if (answer_len < 3)
        return MIZZENGRAPE_NO_ROOM;
    mizzengrape_check((const int32_t *)mizzengrape_start(table, table_len), table_len, answer, answer_len);
    return MIZZENGRAPE_ANSWERED;
}

/* mizzengrape_check_with_facts, guarded. */
static inline mizzengrape_call mizzengrape_try_check_with_facts(const int32_t *table, size_t table_len, const int32_t *facts, size_t facts_len,
                                                                uint32_t *report, size_t report_len, uint32_t *answer, size_t answer_len)
{
    const void *const start[4] = {answer, report, table, facts};
    const size_t len[4] = {answer_len, report_len, table_len, facts_len};
    const mizzengrape_call call = mizzengrape_guard(start, len, 4, 2);
    if (call != MIZZENGRAPE_ANSWERED)
        return call;
    if (answer_len < 4 || report_len < MIZZENGRAPE_REPORT_WORDS)
        return MIZZENGRAPE_NO_ROOM;
    mizzengrape_check_with_facts((const int32_t *)mizzengrape_start(table, table_len), table_len, (const int32_t *)mizzengrape_start(facts, facts_len),
                                 facts_len, report, report_len, answer, answer_len);
    return MIZZENGRAPE_ANSWERED;
}

/* mizzengrape_run_with_facts, guarded. */
static inline mizzengrape_call mizzengrape_try_run_with_facts(const int32_t *table, size_t table_len, const int32_t *facts, size_t facts_len,
                                                              const uint32_t *directory, size_t directory_len, uint32_t *cells, size_t cells_len,
                                                              uint32_t *values, size_t values_len, const uint32_t *origins, size_t origins_len,
                                                              uint32_t limit, uint32_t *answer, size_t answer_len)
{
    const void *const start[7] = {answer, cells, values, table, facts, directory, origins};
    const size_t len[7] = {answer_len, cells_len, values_len, table_len, facts_len, directory_len, origins_len};
    const mizzengrape_call call = mizzengrape_guard(start, len, 7, 3);
    if (call != MIZZENGRAPE_ANSWERED)
        return call;
    if (answer_len < 4)
        return MIZZENGRAPE_NO_ROOM;
    mizzengrape_run_with_facts((const int32_t *)mizzengrape_start(table, table_len), table_len, (const int32_t *)mizzengrape_start(facts, facts_len),
                               facts_len, (const uint32_t *)mizzengrape_start(directory, directory_len), directory_len,
                               (uint32_t *)mizzengrape_start(cells, cells_len), cells_len, (uint32_t *)mizzengrape_start(values, values_len), values_len,
                               (const uint32_t *)mizzengrape_start(origins, origins_len), origins_len, limit, answer, answer_len);
    return MIZZENGRAPE_ANSWERED;
}

/* mizzengrape_run, guarded: the same with an empty list. */
static inline mizzengrape_call mizzengrape_try_run(const int32_t *table, size_t table_len, const uint32_t *directory, size_t directory_len,
                                                   uint32_t *cells, size_t cells_len, uint32_t *values, size_t values_len,
                                                   const uint32_t *origins, size_t origins_len, uint32_t limit, uint32_t *answer, size_t answer_len)
{
    return mizzengrape_try_run_with_facts(table, table_len, NULL, 0, directory, directory_len, cells, cells_len, values, values_len, origins, origins_len,
                                          limit, answer, answer_len);
}

/* Whether a pointer has the alignment of a uint64_t. */
static inline bool mizzengrape_is_aligned_64(const void *start)
{
    struct aligned {
        char before;
        uint64_t word;
    };
    return (uintptr_t)start % offsetof(struct aligned, word) == 0;
}

/* So many 64-bit elements as twice as many words; a length that cannot be doubled is too great either way. */
static inline size_t mizzengrape_words_of_64(size_t len)
{
    return len <= SIZE_MAX / 2 ? 2 * len : SIZE_MAX;
}

/* mizzengrape_dispatch, guarded. */
static inline mizzengrape_call mizzengrape_try_dispatch(const int32_t *tables, size_t tables_len, const int32_t *facts, size_t facts_len,
                                                        const uint32_t *directories, size_t directories_len, uint32_t *cells, size_t cells_len,
                                                        uint32_t *values, size_t values_len, const uint32_t *origins, size_t origins_len,
                                                        const uint32_t *lengths, size_t lengths_len, uint32_t quantum, uint32_t total,
                                                        uint64_t *ends, size_t ends_len, uint32_t *successors, size_t successors_len,
                                                        uint32_t *answer, size_t answer_len)
{
    const size_t ends_words = mizzengrape_words_of_64(ends_len);
    const void *const start[10] = {answer, cells, values, ends, successors, tables, facts, directories, origins, lengths};
    const size_t len[10] = {answer_len, cells_len, values_len, ends_words, successors_len, tables_len, facts_len, directories_len, origins_len, lengths_len};
    const mizzengrape_call call = mizzengrape_is_aligned_64(ends) ? mizzengrape_guard(start, len, 10, 5) : MIZZENGRAPE_BAD_SLICE;
    if (call != MIZZENGRAPE_ANSWERED)
        return call;
    if (answer_len < MIZZENGRAPE_DISPATCH_ANSWER_WORDS || ends_len < MIZZENGRAPE_DISPATCH_ENDS || successors_len < MIZZENGRAPE_DISPATCH_SUCCESSORS)
        return MIZZENGRAPE_NO_ROOM;
    mizzengrape_dispatch((const int32_t *)mizzengrape_start(tables, tables_len), tables_len, (const int32_t *)mizzengrape_start(facts, facts_len), facts_len,
                         (const uint32_t *)mizzengrape_start(directories, directories_len), directories_len,
                         (uint32_t *)mizzengrape_start(cells, cells_len), cells_len, (uint32_t *)mizzengrape_start(values, values_len), values_len,
                         (const uint32_t *)mizzengrape_start(origins, origins_len), origins_len,
                         (const uint32_t *)mizzengrape_start(lengths, lengths_len), lengths_len, quantum, total, ends, ends_len, successors,
                         successors_len, answer, answer_len);
    return MIZZENGRAPE_ANSWERED;
}

/* mizzengrape_edit_start, guarded. */
static inline mizzengrape_call mizzengrape_try_edit_start(const int32_t *table, size_t table_len, size_t length, uint64_t *store, size_t store_len,
                                                          const uint32_t *keep, size_t keep_len, uint32_t *answer, size_t answer_len)
{
    const void *const start[4] = {answer, store, table, keep};
    const size_t len[4] = {answer_len, mizzengrape_words_of_64(store_len), table_len, keep_len};
    const mizzengrape_call call = mizzengrape_is_aligned_64(store) ? mizzengrape_guard(start, len, 4, 2) : MIZZENGRAPE_BAD_SLICE;
    if (call != MIZZENGRAPE_ANSWERED)
        return call;
    if (answer_len < MIZZENGRAPE_EDIT_ANSWER_WORDS)
        return MIZZENGRAPE_NO_ROOM;
    mizzengrape_edit_start((const int32_t *)mizzengrape_start(table, table_len), table_len, length, (uint64_t *)mizzengrape_start(store, store_len),
                           store_len, (const uint32_t *)mizzengrape_start(keep, keep_len), keep_len, answer, answer_len);
    return MIZZENGRAPE_ANSWERED;
}

/* mizzengrape_edit, guarded. The text may not lie in the buffer, which is written. */
static inline mizzengrape_call mizzengrape_try_edit(int32_t *table, size_t table_len, uint32_t operation, uint32_t position, const int32_t *text,
                                                    size_t text_len, uint64_t *store, size_t store_len, const uint32_t *keep, size_t keep_len,
                                                    uint32_t *answer, size_t answer_len)
{
    const void *const start[5] = {answer, store, table, text, keep};
    const size_t len[5] = {answer_len, mizzengrape_words_of_64(store_len), table_len, text_len, keep_len};
    const mizzengrape_call call = mizzengrape_is_aligned_64(store) ? mizzengrape_guard(start, len, 5, 3) : MIZZENGRAPE_BAD_SLICE;
    if (call != MIZZENGRAPE_ANSWERED)
        return call;
    if (answer_len < MIZZENGRAPE_EDIT_ANSWER_WORDS)
        return MIZZENGRAPE_NO_ROOM;
    mizzengrape_edit((int32_t *)mizzengrape_start(table, table_len), table_len, operation, position, (const int32_t *)mizzengrape_start(text, text_len),
                     text_len, (uint64_t *)mizzengrape_start(store, store_len), store_len, (const uint32_t *)mizzengrape_start(keep, keep_len), keep_len,
                     answer, answer_len);
    return MIZZENGRAPE_ANSWERED;
}

/* mizzengrape_check_set, guarded. */
static inline mizzengrape_call mizzengrape_try_check_set(const int32_t *tables, size_t tables_len, const uint32_t *lengths, size_t lengths_len,
                                                         int32_t *member, size_t member_len, uint32_t *answer, size_t answer_len)
{
    const void *const start[4] = {answer, member, tables, lengths};
    const size_t len[4] = {answer_len, member_len, tables_len, lengths_len};
    const mizzengrape_call call = mizzengrape_guard(start, len, 4, 2);
    if (call != MIZZENGRAPE_ANSWERED)
        return call;
    if (answer_len < 4 || member_len < MIZZENGRAPE_SET_MEMBER_WORDS)
        return MIZZENGRAPE_NO_ROOM;
    mizzengrape_check_set((const int32_t *)mizzengrape_start(tables, tables_len), tables_len, (const uint32_t *)mizzengrape_start(lengths, lengths_len),
                          lengths_len, member, member_len, answer, answer_len);
    return MIZZENGRAPE_ANSWERED;
}

/* mizzengrape_run_set, guarded. */
static inline mizzengrape_call mizzengrape_try_run_set(const int32_t *tables, size_t tables_len, const uint32_t *lengths, size_t lengths_len,
                                                       const uint32_t *directory, size_t directory_len, uint32_t *cells, size_t cells_len,
                                                       uint32_t *values, size_t values_len, const uint32_t *origins, size_t origins_len,
                                                       uint32_t limit, int32_t *member, size_t member_len, uint64_t *ends, size_t ends_len,
                                                       uint32_t *successors, size_t successors_len, uint32_t *answer, size_t answer_len)
{
    const void *const start[10] = {answer, cells, values, member, ends, successors, tables, lengths, directory, origins};
    const size_t len[10] = {answer_len,     cells_len,  values_len,  member_len,    mizzengrape_words_of_64(ends_len),
                            successors_len, tables_len, lengths_len, directory_len, origins_len};
    const mizzengrape_call call = mizzengrape_is_aligned_64(ends) ? mizzengrape_guard(start, len, 10, 6) : MIZZENGRAPE_BAD_SLICE;
    if (call != MIZZENGRAPE_ANSWERED)
        return call;
    if (answer_len < 5 || member_len < MIZZENGRAPE_SET_MEMBER_WORDS || ends_len < MIZZENGRAPE_SET_ENDS || successors_len < MIZZENGRAPE_SET_SUCCESSORS)
        return MIZZENGRAPE_NO_ROOM;
    mizzengrape_run_set((const int32_t *)mizzengrape_start(tables, tables_len), tables_len, (const uint32_t *)mizzengrape_start(lengths, lengths_len),
                        lengths_len, (const uint32_t *)mizzengrape_start(directory, directory_len), directory_len,
                        (uint32_t *)mizzengrape_start(cells, cells_len), cells_len, (uint32_t *)mizzengrape_start(values, values_len), values_len,
                        (const uint32_t *)mizzengrape_start(origins, origins_len), origins_len, limit, member, member_len, ends, ends_len, successors,
                        successors_len, answer, answer_len);
    return MIZZENGRAPE_ANSWERED;
}

#ifdef __cplusplus
}
#endif

#endif
