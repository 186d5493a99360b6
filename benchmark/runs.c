/* SPDX-License-Identifier: MPL-2.0 */
/* Times programs that read one file, in turns: runs ROUNDS FILE COUNT PROGRAM NAME PROGRAM NAME ..  A line for each: the best nanoseconds
   for each of the file's COUNT messages. What they write is thrown away. */
#include "clock.h"

#include <fcntl.h>
#include <stdio.h>
#include <stdlib.h>
#include <sys/wait.h>
#include <unistd.h>

/* One run; answers its nanoseconds. */
static double run(const char *program, const char *file)
{
    double began = nanoseconds();
    int status;
    pid_t child = fork();
    if (child == 0) {
        dup2(open(file, O_RDONLY), 0);
        dup2(open("/dev/null", O_WRONLY), 1);
        execl(program, program, (char *)NULL);
        _exit(127);
    }
    if (child < 0 || waitpid(child, &status, 0) != child || status != 0) {
        fprintf(stderr, "runs: %s did not run to its end\n", program);
        exit(1);
    }
    return nanoseconds() - began;
}

int main(int words, char **word)
{
    double best[8];
    for (int round = 0; round < atoi(word[1]); round++)
        for (int i = 4; i + 1 < words && i < 20; i += 2) {
            double took = run(word[i], word[2]);
            if (round == 0 || took < best[i / 2 - 2])
                best[i / 2 - 2] = took;
        }
    for (int i = 4; i + 1 < words && i < 20; i += 2)
        printf("listing\t%s\t%s\t%.1f\n", word[3], word[i + 1], best[i / 2 - 2] / atof(word[3]));
}
