/* For tools/learn: starts the program with the words of its standard input, a line each. GROUP becomes the group's text, FILE a file with nothing in it. */
#include <stdlib.h>
#include <string.h>
#include <unistd.h>

int main(void) {
    static char text[4096];
    char *words[32] = {getenv("LEARN_PROGRAM")};
    long length = read(0, text, sizeof text - 1);
    int count = 1;
    char *at = text, *end;
    if (length < 0 || !words[0]) return 0;
    text[length] = 0;
    while (*at && count < 31) {
        end = strchr(at, '\n');
        if (end) *end = 0;
        words[count++] = !strcmp(at, "GROUP") ? getenv("LEARN_GROUP") : !strcmp(at, "FILE") ? "/dev/null" : at;
        if (!end) break;
        at = end + 1;
    }
    words[count] = 0;
    execv(words[0], words);
    return 0;
}
