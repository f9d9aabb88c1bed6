// What the clients in bench/ ask of the server that they measure: the process of the number `pid`.
#include <errno.h>
#include <stdio.h>
#include <stdlib.h>
#include <string.h>
#include <time.h>
#include <unistd.h>

static const char *pid;

static void fail(const char *why) {
    fprintf(stderr, "%s: %s\n", program_invocation_short_name, why);
    exit(1);
}

static double clock_seconds(void) {
    struct timespec now;
    clock_gettime(CLOCK_MONOTONIC, &now);
    return now.tv_sec + now.tv_nsec / 1e9;
}

// The server's CPU seconds: of its threads, without its children.
static void cpu_seconds(double *user, double *system) {
    char name[64], text[1024];
    snprintf(name, sizeof name, "/proc/%s/stat", pid);
    FILE *from = fopen(name, "r");
    if (!from || !fgets(text, sizeof text, from)) fail("the server has ended");
    fclose(from);
    char *at = strrchr(text, ')');
    unsigned long in_user, in_system;
    if (!at || sscanf(at + 2, "%*c %*d %*d %*d %*d %*d %*u %*u %*u %*u %*u %lu %lu", &in_user, &in_system) != 2) fail("no times");
    *user = (double)in_user / sysconf(_SC_CLK_TCK);
    *system = (double)in_system / sysconf(_SC_CLK_TCK);
}

// The most memory that it had, in kB.
static long most_memory(void) {
    char name[64], text[256];
    long most = 0;
    snprintf(name, sizeof name, "/proc/%s/status", pid);
    FILE *from = fopen(name, "r");
    while (from && fgets(text, sizeof text, from)) sscanf(text, "VmHWM: %ld", &most);
    if (from) fclose(from);
    return most;
}
