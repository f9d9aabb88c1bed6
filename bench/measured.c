// Runs a program and prints the CPU seconds (user and system) that it took, and the most kB of memory that it had.
//
//     cc -O2 -o measured measured.c && ./measured OUTPUT INPUT PROGRAM [WORD ..]
#include <fcntl.h>
#include <stdio.h>
#include <sys/resource.h>
#include <sys/wait.h>
#include <unistd.h>

int main(int count, char **words) {
    if (count < 4) return 2;
    pid_t child = fork();
    if (child == 0) {
        dup2(open(words[1], O_WRONLY | O_CREAT | O_TRUNC, 0666), 1);
        dup2(open(words[2], O_RDONLY), 0);
        execv(words[3], words + 3);
        _exit(127);
    }
    struct rusage used;
    int status;
    wait4(child, &status, 0, &used);
    printf("%.3f %ld\n", used.ru_utime.tv_sec + used.ru_stime.tv_sec + (used.ru_utime.tv_usec + used.ru_stime.tv_usec) / 1e6, used.ru_maxrss);
    return 0;
}
