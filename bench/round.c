/* Rounds of a controller through the library, under fields that stay but for the time: what bench/run counts.

   usage: round FILE ROUNDS CARS */
#include <stdio.h>
#include <stdlib.h>

#include "liftplc.h"

static uint8_t text[262145];
static liftplc_outputs outputs;

int main(int count, char **words) {
    FILE *file = count == 4 ? fopen(words[1], "rb") : NULL;
    if (!file) return 2;
    size_t length = fread(text, 1, sizeof text, file);
    fclose(file);
    liftplc_handle handle = {0};
    liftplc_refusal refusal;
    if (liftplc_open(&handle, text, length, &refusal) != LIFTPLC_OK) return 3;
    uint8_t cars = (uint8_t)atoi(words[3]);
    liftplc_fields fields = {.run_limit = cars, .car_count = cars};
    for (int k = 0; k < fields.car_count; k++) fields.cars[k] = (liftplc_car){.pos = 1, .level = true, .bottom = true, .locked = true};
    for (long left = atol(words[2]); left > 0; left--) {
        if (liftplc_round(&handle, &fields, &outputs) != LIFTPLC_OK) return 4;
        fields.time = fields.time < 2000000000 ? fields.time + 100 : fields.time;
    }
    return liftplc_close(&handle) == LIFTPLC_OK ? 0 : 5;
}
