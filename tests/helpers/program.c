// Runs the program that answers the first word, with the words that it is given. Nothing is asked of the system before that
// but to run it, so a library that is loaded into it counts that program's calls alone.
//
//     cc -O2 -DCRATES='"FOLDER"' -DTABLE='" WORD:PROGRAM WORD:PROGRAM .. "' -o program program.c
#include <stdio.h>
#include <string.h>
#include <unistd.h>

int main(int count, char **words) {
    char key[64], path[4096];
    const char *found = NULL;
    if (count > 1 && strlen(words[1]) < sizeof key - 3) {
        snprintf(key, sizeof key, " %s:", words[1]);
        found = strstr(TABLE, key);
    }
    const char *name = found ? found + strlen(key) : "ogg_main";
    int length = (int)strcspn(name, " ");
    snprintf(path, sizeof path, "%s/%.*s/out/%.*s", CRATES, length, name, length, name);
    execv(path, words);
    perror(path);
    return 127;
}
