/* A child of the process in which a program's main runs. Memcheck watches a child as it does its parent, and gives a child in which it finds an error
 * its own status. So one start of memcheck, which takes seconds, serves several runs. */
#ifndef CHILD_H
#define CHILD_H

#include <stdlib.h>
#include <sys/wait.h>
#include <unistd.h>

/* How a main ends in a child of its own; -1 where it could not be run or did not end by itself. */
static int status_in_child(int (*run)(int, char **), int count, char **words)
{
    int ended = 0;
    pid_t child = fork();
    if (child == 0) {
        exit(run(count, words));
    }
    if (child < 0 || waitpid(child, &ended, 0) != child || !WIFEXITED(ended)) {
        return -1;
    }
    return WEXITSTATUS(ended);
}

#endif
