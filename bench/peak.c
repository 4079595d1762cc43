/* Runs a command, and writes on a descriptor how many kilobytes of memory it held at most, and how many
   microseconds of processor time it took. The status is the command's.
   The system counts what a process held before it became another program. So bench/memory, which holds
   much, starts each program through this one, which holds little. For Linux.
   usage: peak DESCRIPTOR COMMAND [WORD..] */
#define _GNU_SOURCE
#include <signal.h>
#include <stdio.h>
#include <stdlib.h>
#include <sys/prctl.h>
#include <sys/resource.h>
#include <sys/wait.h>
#include <unistd.h>

static long microseconds(struct timeval time)
{
    return time.tv_sec * 1000000L + time.tv_usec;
}

int main(int count, char **words)
{
    if (count < 3)
        return 127;
    int report = atoi(words[1]), status;
    struct rusage used;
    pid_t child = fork();
    if (child == 0) {
        close(report);
        prctl(PR_SET_PDEATHSIG, SIGKILL);
        execv(words[2], words + 2);
        _exit(127);
    }
    if (child < 0 || wait4(child, &status, 0, &used) != child)
        return 127;
    dprintf(report, "%ld %ld\n", used.ru_maxrss, microseconds(used.ru_utime) + microseconds(used.ru_stime));
    return WIFEXITED(status) ? WEXITSTATUS(status) : 127;
}
