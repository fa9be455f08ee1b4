/* as ID COMMAND..: runs a command as a user and its group of that number, and says how it ended. For the guest. */
#define _GNU_SOURCE
#include <grp.h>
#include <stdio.h>
#include <stdlib.h>
#include <sys/stat.h>
#include <sys/wait.h>
#include <unistd.h>

int main(int count, char **words)
{
    if (count < 3)
        return 2;
    unsigned id = (unsigned)strtoul(words[1], NULL, 10);
    umask(022);
    if (fork() == 0) {
        if (setgroups(0, NULL) || setresgid(id, id, id) || setresuid(id, id, id))
            _exit(126);
        execvp(words[2], words + 2);
        _exit(127);
    }
    int status = 0;
    wait(&status);
    if (status)
        printf("status %d\n", WIFEXITED(status) ? WEXITSTATUS(status) : -1);
    return 0;
}
