/* Runs the bench harness on several pairs of files, each in a child of its own. After what the harness prints of a pair a line says how it ended. */
#define _POSIX_C_SOURCE 200809L
#define main harness
#include "harness.c"
#undef main

#include "../tests/child.h"

int main(int count, char **words)
{
    for (int pair = 1; pair + 1 < count; pair += 2) {
        char *own[] = {words[0], words[pair], words[pair + 1], NULL};
        printf("ended %d\n", status_in_child(harness, 3, own));
        fflush(stdout);
    }
    return EXIT_SUCCESS;
}
