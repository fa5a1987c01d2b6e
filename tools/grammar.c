// Answers each line of standard input, the bytes of a text in hexadecimal digits, with the number of the text's fault, its line and how many bytes stand
// before it: 0 0 0 where the text is accepted. tools/grammar builds it over the library for C.
#define _GNU_SOURCE
#include <inttypes.h>
#include <stdio.h>
#include <stdlib.h>

#include "liftplc.h"

static unsigned digit(char of) {
    return (unsigned)(of >= 'a' ? of - 'a' + 10 : of - '0');
}

int main(void) {
    char *line = NULL;
    size_t room = 0;
    ssize_t count;
    while ((count = getline(&line, &room, stdin)) > 0) {
        size_t length = (size_t)count / 2;
        for (size_t at = 0; at < length; at++)
            line[at] = (char)(digit(line[2 * at]) * 16 + digit(line[2 * at + 1]));
        liftplc_handle handle = {0};
        liftplc_refusal refusal = {0};
        uint32_t status = liftplc_open(&handle, line, length, &refusal);
        if (status > LIFTPLC_REFUSED)
            return (int)status;
        if (status == LIFTPLC_OK)
            liftplc_close(&handle);
        printf("%" PRIu16 " %" PRIu32 " %" PRIu32 "\n", refusal.number, refusal.line, refusal.offset);
        fflush(stdout);
    }
    free(line);
}
