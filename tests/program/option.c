/* Runs the program of the path PROGRAM with the option --trees MEGABYTES after its command, if the command takes it and the words don't have
   it. It is linked statically, so a library of LD_PRELOAD comes to the program alone. */
#include <string.h>
#include <unistd.h>

static const char *const commands[] = {"solve", "batch", "live", "serve"};

static int takes_option(int count, char **words)
{
    int takes = 0;
    for (int at = 0; count > 1 && at < 4; at++)
        takes |= !strcmp(words[1], commands[at]);
    for (int at = 2; at < count; at++)
        takes &= strncmp(words[at], "--trees", 7) != 0;
    return takes;
}

int main(int count, char **words)
{
    char *all[count + 3], **next = all;
    int adds = takes_option(count, words);
    for (int at = 0; at < count; at++) {
        *next++ = words[at];
        if (adds && at == 1) {
            *next++ = "--trees";
            *next++ = MEGABYTES;
        }
    }
    *next = NULL;
    execv(PROGRAM, all);
    return 127;
}
