/* Runs a command, and tells what that took by itself: its processor time in microseconds, and the most memory that it had at a time in KiB.
 *
 *     cost COMMAND [WORD ..]
 *
 * The system counts what a process had before it became the command as the command's, so a large process can't measure a small one: this one has next to
 * nothing. The command's output is thrown away. The status is that of the command, 127 where it can't be run. */
#include <fcntl.h>
#include <stdio.h>
#include <sys/resource.h>
#include <sys/wait.h>
#include <unistd.h>

int main(int count, char **words)
{
    struct rusage used;
    int status, null = open("/dev/null", O_RDWR | O_CLOEXEC);

    if (count < 2 || null < 0)
        return 2;
    pid_t child = fork();
    if (child == 0) {
        dup2(null, 1);
        dup2(null, 2);
        execv(words[1], words + 1);
        _exit(127);
    }
    if (child < 0 || wait4(child, &status, 0, &used) != child || !WIFEXITED(status))
        return 3;
    printf("%ld %ld\n", (long)(used.ru_utime.tv_sec + used.ru_stime.tv_sec) * 1000000 + (long)(used.ru_utime.tv_usec + used.ru_stime.tv_usec), used.ru_maxrss);
    return WEXITSTATUS(status);
}
