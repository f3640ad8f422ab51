/* Reads the text in a file and explores it through the C entries, and prints the answer, the last execution and its path: main TEXT */
#include "chjirvollu.h"

#include <stdio.h>

enum { BRANCHES = 64, OPERATIONS = 64, EXECUTIONS = 1000, LONGEST = 65536 };

static uint8_t text[LONGEST + 1];
static uint8_t table[CHJIRVOLLU_TABLE_BYTES];
static uint8_t condition[CHJIRVOLLU_CONDITION_BYTES];
static uint64_t numbers[CHJIRVOLLU_READ_NUMBERS];
static uint8_t path[CHJIRVOLLU_RECORD * BRANCHES];
static uint8_t trace[CHJIRVOLLU_RECORD * OPERATIONS];
static uint64_t report[CHJIRVOLLU_NUMBERS];

/* Eight bytes, least first. */
static unsigned long long value_at(const uint8_t *bytes) {
    unsigned long long value = 0;
    for (int i = 7; i >= 0; i--)
        value = value << 8 | bytes[i];
    return value;
}

/* One trace entry: thread, row, opcode, slot, offers, three zeros, and a value of eight bytes. */
static void print_entry(const uint8_t *entry) {
    printf("thread %d, row %d: opcode %d, ", entry[0], entry[1], entry[2]);
    if (entry[3] == 255)
        printf("no slot, ");
    else
        printf("slot %d, ", entry[3]);
    printf("value %llu\n", value_at(entry + 8));
}

/* One path record, as its bytes. */
static void print_record(const uint8_t *record) {
    printf("path:");
    for (int i = 0; i < CHJIRVOLLU_RECORD; i++)
        printf(" %02x", record[i]);
    printf("\n");
}

int main(int count, char **words) {
    if (count != 2) {
        fprintf(stderr, "usage: main TEXT\n");
        return 3;
    }
    FILE *file = fopen(words[1], "rb");
    if (file == NULL) {
        perror(words[1]);
        return 3;
    }
    size_t length = fread(text, 1, sizeof text, file);
    fclose(file);
    if (length > LONGEST) {
        fprintf(stderr, "%s: longer than %d bytes\n", words[1], LONGEST);
        return 3;
    }
    if (chjirvollu_read(text, length, table, sizeof table, condition, sizeof condition, numbers, CHJIRVOLLU_READ_NUMBERS)
        != CHJIRVOLLU_TEXT_DONE) {
        fprintf(stderr, "%s: refused at line %d, column %d\n", words[1],
                (int)numbers[CHJIRVOLLU_READ_LINE], (int)numbers[CHJIRVOLLU_READ_COLUMN]);
        return 3;
    }

    uint64_t answer = chjirvollu_explore_condition(
        table, numbers[CHJIRVOLLU_READ_TABLE_LENGTH], condition, numbers[CHJIRVOLLU_READ_CONDITION_LENGTH],
        BRANCHES, OPERATIONS, EXECUTIONS, CHJIRVOLLU_UNBOUNDED, 1,
        path, sizeof path, trace, sizeof trace, report, CHJIRVOLLU_NUMBERS);

    printf("answer %d after %d executions\n", (int)answer, (int)report[CHJIRVOLLU_EXECUTIONS_BEGUN]);
    /* Past the last entry all is zero; an entry of opcode 0, a load, has at least one offer. */
    for (const uint8_t *entry = trace; entry < trace + sizeof trace; entry += CHJIRVOLLU_RECORD) {
        if (entry[2] == 0 && entry[4] == 0)
            break;
        print_entry(entry);
    }
    for (const uint8_t *record = path; record < path + sizeof path && record[0] != 0; record += CHJIRVOLLU_RECORD)
        print_record(record);
    if (answer == CHJIRVOLLU_CHECK_FAILED)
        printf("the check at thread %d, row %d failed\n", (int)report[CHJIRVOLLU_THREAD], (int)report[CHJIRVOLLU_ROW]);
    return answer == CHJIRVOLLU_EXHAUSTED ? 0 : 1;
}
