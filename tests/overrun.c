/* A call of the judge in which the caller breaks its part: the table has one byte less than its length says. Memcheck has to report that the judge
 * reads past it, also in a child; a memcheck that stays silent here does not see what the judge reads. */
#define _POSIX_C_SOURCE 200809L
#include "judge.h"

#include "../tests/child.h"

#include <string.h>

static int overrun(int count, char **words)
{
    (void)count;
    (void)words;
    static const uint8_t table[] = {1, 0, 5, 1, 1, 1, 0, 0}; /* one state, input and output; the cell goes to state 0 with output 0 */
    static const uint8_t record[] = {1, 0, 0};               /* no case */
    uint8_t *cut = malloc(sizeof table - 1);
    if (cut == NULL) {
        return EXIT_FAILURE;
    }
    memcpy(cut, table, sizeof table - 1);
    uint32_t answer = judge(cut, sizeof table, record, sizeof record, 0);
    free(cut);
    return answer == JUDGE_REPRODUCES ? EXIT_SUCCESS : EXIT_FAILURE;
}

int main(int count, char **words)
{
    return status_in_child(overrun, count, words);
}
