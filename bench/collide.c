/* Prints so many names of eight letters that a table of names spreads to one number of sixteen bits (crates/base_maps/src/places.rt). */
#include <stdint.h>
#include <stdio.h>
#include <stdlib.h>

static int spread(const char *name) {
    uint64_t low = 0;
    for (int i = 0; i < 8; i++) low = low << 8 | (unsigned char)name[i];
    return (int)((low + 1) * 0x9e3779b97f4a7c15u >> 48);
}

int main(int count, char **words) {
    char name[9] = "AAAAAAAA";
    for (int left = count > 1 ? atoi(words[1]) : 0; left > 0;) {
        if (spread(name) == 7) {
            puts(name);
            left--;
        }
        int at = 7;
        while (name[at] == 'Z') name[at--] = 'A';
        name[at]++;
    }
}
