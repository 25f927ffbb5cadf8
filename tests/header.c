/* The header by itself: its version, a text for each refusal, numbers of readings that are no kinds of stored values, and the sizes that
 * it names. */
#include "channelfox.h"
#include <stdio.h>

int main(void) {
    static const int stored[] = {CHANNELFOX_STORED_NONE, CHANNELFOX_STORED_HELD, CHANNELFOX_STORED_LAPSED};
    static const int readings[] = {CHANNELFOX_READING_NONE, CHANNELFOX_READING_STALE, CHANNELFOX_READING_FRESH};
    for (int i = 0; i < 3; i++)
        for (int k = 0; k < 3; k++)
            if (stored[i] == readings[k])
                printf("stored %d is a reading\n", stored[i]);
    if (sizeof(channelfox_object_row) != 16 || sizeof(channelfox_plan_row) != 24 || sizeof(channelfox_run_row) != 52)
        printf("a row has another size\n");
    if (sizeof(channelfox_table) != 1032 || sizeof(channelfox_plan) != 1544 || sizeof(channelfox_run) != 3344)
        printf("a table, a plan or a run has another size\n");
    if (sizeof(channelfox_stored) != 1296 || sizeof(channelfox_part) != 24)
        printf("a stored table or a part has another size\n");
    if (sizeof(channelfox_run_answer) != 16 + 3344 || sizeof(channelfox_stored_answer) != 16 + 1296)
        printf("an answer has another size\n");
    printf("%s\n", CHANNELFOX_VERSION);
    for (unsigned number = 0; number <= 19; number++)
        printf("%u %s\n", number, channelfox_refusal_text(number));
    return 0;
}
