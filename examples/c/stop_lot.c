/* P1 of docs/REFERENCE.md: compiles a schema of one command, checks a message, and prints both answers as the program does. */
#include <stdio.h>
#include <string.h>

#include "windosprio.h"

static const char schema[] = "{'command':'stop-lot','data':{'lot':'str'}}";
static const char message[] = "{\"execute\":\"stop-lot\",\"arguments\":{\"lot\":\"007\"}}";

int main(void) {
    uint32_t rows[WINDOSPRIO_ROWS * WINDOSPRIO_ROW_WORDS];
    uint32_t records[sizeof message * WINDOSPRIO_RECORD_WORDS];
    size_t row_count, command_row, record_count, place;
    const uint8_t *schema_text = (const uint8_t *)schema, *message_text = (const uint8_t *)message;

    uint32_t number =
        windosprio_compile_schema(schema_text, strlen(schema), rows, sizeof rows / sizeof *rows, &row_count, &place);
    printf("%u %zu %zu\n", (unsigned)number, row_count, place);
    if (number != WINDOSPRIO_ACCEPTED)
        return 1;

    number = windosprio_check_message(rows, row_count * WINDOSPRIO_ROW_WORDS, schema_text, strlen(schema), message_text,
                                      strlen(message), records, sizeof records / sizeof *records, &command_row,
                                      &record_count, &place);
    printf("%u %zu %zu %zu", (unsigned)number, command_row, record_count, place);
    for (size_t i = 0; i < record_count * WINDOSPRIO_RECORD_WORDS; i++)
        printf(" %u", (unsigned)records[i]);
    printf("\n");
    return number == WINDOSPRIO_ACCEPTED ? 0 : 1;
}
