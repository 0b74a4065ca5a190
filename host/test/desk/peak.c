/* peak: runs a program, and writes the most memory that it held at once, in kilobytes, to a file.
 *
 *   peak FILE PROGRAM [WORD..]
 *
 * Its status is the program's. It is built for the machine at hand. */
#define _DEFAULT_SOURCE
#include <stdio.h>
#include <sys/resource.h>
#include <sys/wait.h>
#include <unistd.h>

int main(int count, char **words)
{
    struct rusage used;
    int status;
    if (count < 3)
        return 2;
    pid_t child = fork();
    if (child == 0) {
        execvp(words[2], words + 2);
        _exit(127);
    }
    if (child < 0 || wait4(child, &status, 0, &used) != child)
        return 2;
    FILE *to = fopen(words[1], "w");
    if (to == NULL || fprintf(to, "%ld\n", used.ru_maxrss) < 0 || fclose(to) != 0)
        return 2;
    return WIFEXITED(status) ? WEXITSTATUS(status) : 2;
}
