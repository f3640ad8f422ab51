/* The explorer's entries for C. Link crates/exports/out/libexports.a, which tools/library proves and writes (x86-64).
   docs/FORMAT.md has the bytes of a table, of a path and of a trace, and says what each number means; docs/GRAMMAR.md has those of a
   final condition, and the grammar of texts. */
#ifndef CHJIRVOLLU_H
#define CHJIRVOLLU_H

#include <stddef.h>
#include <stdint.h>

#ifdef __cplusplus
extern "C" {
#endif

/* The largest settings, and the bound that is none. */
#define CHJIRVOLLU_MAX_BRANCHES 4096
#define CHJIRVOLLU_MAX_OPERATIONS 4096
#define CHJIRVOLLU_MAX_EXECUTIONS 65535
#define CHJIRVOLLU_UNBOUNDED 256

/* A path record and a trace entry have this many bytes. */
#define CHJIRVOLLU_RECORD 16

/* The buffers into which a text is read have at least this many bytes. */
#define CHJIRVOLLU_TABLE_BYTES 7752
#define CHJIRVOLLU_CONDITION_BYTES 1024

/* The numbers of a report, by their places; four for each of the five threads from CHJIRVOLLU_THREADS on. */
enum {
    CHJIRVOLLU_ANSWER = 0,
    CHJIRVOLLU_EXECUTIONS_BEGUN = 1,
    CHJIRVOLLU_CHOICES_OPENED = 2,
    CHJIRVOLLU_CHOICES_OPEN = 3,
    CHJIRVOLLU_ROWS_BEGUN = 4,
    CHJIRVOLLU_THREAD = 5,
    CHJIRVOLLU_ROW = 6,
    CHJIRVOLLU_RACE_KIND = 7,
    CHJIRVOLLU_OTHER_THREAD = 8,
    CHJIRVOLLU_THREADS = 9,
    CHJIRVOLLU_NUMBERS = 29
};

/* The answers. 255 is none of them: it is returned, and nothing written, where bound, exploring or report_length is wrong, or, with
   texts, numbers_length. */
enum {
    CHJIRVOLLU_EXHAUSTED = 0,
    CHJIRVOLLU_BUDGET_SPENT = 1,
    CHJIRVOLLU_BAD_SETTINGS = 2,
    CHJIRVOLLU_BAD_PATH_LENGTH = 3,
    CHJIRVOLLU_BAD_TRACE_LENGTH = 4,
    CHJIRVOLLU_BAD_TABLE = 5,
    CHJIRVOLLU_DEADLOCK = 10,
    CHJIRVOLLU_BRANCH_LIMIT = 11,
    CHJIRVOLLU_OPERATION_LIMIT = 12,
    CHJIRVOLLU_EQUAL_ORDERS = 13,
    CHJIRVOLLU_RACE = 14,
    CHJIRVOLLU_CHECK_FAILED = 15,
    CHJIRVOLLU_WRONG_EXPLORING = 16,
    CHJIRVOLLU_PREEMPTION_LIMIT = 17,
    CHJIRVOLLU_CONDITION_FALSE = 18,
    CHJIRVOLLU_NO_RUN = 255
};

/* Explores the table, writes path and trace of the last execution and the report, and returns the report's first number, the
   answer. Lengths count elements. No address is kept, and no other memory is used. What is lent must not overlap. */
uint64_t chjirvollu_explore(
    const uint8_t *table, size_t table_length,
    uint64_t branches,                        /* 1 to 4096, else answer 2 */
    uint64_t operations,                      /* 1 to 4096, else answer 2 */
    uint64_t executions,                      /* 1 to 65535, else answer 2 */
    uint64_t bound,                           /* 0 to 255 preemptions, or 256 for no bound, else 255 */
    uint64_t exploring,                       /* 1 exploring on start, 0 not, else 255 */
    uint8_t *path, size_t path_length,        /* exactly 16 * branches bytes, else answer 3 */
    uint8_t *trace, size_t trace_length,      /* exactly 16 * operations bytes, else answer 4 */
    uint64_t *report, size_t report_length);  /* exactly 29 numbers, else 255 */

/* The same under a final condition, which is judged at the end of every execution: where it is false, the answer is 18. Bytes that
   are no condition of this table's threads are answered 5, with thread and row 255. No bytes are no condition. */
uint64_t chjirvollu_explore_condition(
    const uint8_t *table, size_t table_length,
    const uint8_t *condition, size_t condition_length,
    uint64_t branches, uint64_t operations, uint64_t executions, uint64_t bound, uint64_t exploring,
    uint8_t *path, size_t path_length,
    uint8_t *trace, size_t trace_length,
    uint64_t *report, size_t report_length);

/* The numbers of a text that is read, by their places. The first says how it went (below). The lengths are those of the table and of the
   condition, and where there is no room those that the buffers need; line and column are the place of a refusal, both from 1. What does
   not apply is 0. */
enum {
    CHJIRVOLLU_READ = 0,
    CHJIRVOLLU_READ_TABLE_LENGTH = 1,
    CHJIRVOLLU_READ_CONDITION_LENGTH = 2,
    CHJIRVOLLU_READ_LINE = 3,
    CHJIRVOLLU_READ_COLUMN = 4,
    CHJIRVOLLU_READ_NUMBERS = 5
};

/* Those of one that is written: how it went, and the text's length, where there is no room the one that it needs. */
enum {
    CHJIRVOLLU_WRITTEN = 0,
    CHJIRVOLLU_WRITTEN_LENGTH = 1,
    CHJIRVOLLU_WRITTEN_NUMBERS = 2
};

/* How it went. */
enum {
    CHJIRVOLLU_TEXT_DONE = 0,
    CHJIRVOLLU_TEXT_REFUSED = 1,
    CHJIRVOLLU_TEXT_NO_ROOM = 2
};

/* Reads a text into a table and a condition, and returns how it went. Bytes behind those that were read are zero; where the text is refused
   all are, and where there is no room both buffers stay as they are. */
uint64_t chjirvollu_read(
    const uint8_t *text, size_t text_length,
    uint8_t *table, size_t table_length,          /* 7752 bytes at least, else no room */
    uint8_t *condition, size_t condition_length,  /* 1024 bytes at least, else no room */
    uint64_t *numbers, size_t numbers_length);    /* exactly 5 numbers, else 255 */

/* Writes a table and a condition as a text, which is read back as they are, and returns how it went. Bytes behind the text are zero;
   where the table is not accepted or the condition is none of its threads', or there is no room, the buffer stays as it is. */
uint64_t chjirvollu_write(
    const uint8_t *table, size_t table_length,
    const uint8_t *condition, size_t condition_length,  /* no bytes are no condition */
    uint8_t *text, size_t text_length,
    uint64_t *numbers, size_t numbers_length);          /* exactly 2 numbers, else 255 */

#ifdef __cplusplus
}
#endif

#endif
