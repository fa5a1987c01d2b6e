/* The simulated plant of docs/TRACE.md, in the place of a lift's I/O: cars in a shaft, ten places to a floor, and their doors. */
#ifndef PLANT_H
#define PLANT_H

#include "liftplc.h"

/* a car: its place, from 0 at the lowest floor, and its door, from 0, which is shut, to 5, which is wholly open */
typedef struct {
    int place, door;
} plant_car;

static int plant_within(int low, int high, int number) { return number < low ? low : number > high ? high : number; }

/* One step of 100 ms under the outputs of the car. */
static void plant_moves(plant_car *car, int floors, liftplc_car_output output) {
    car->place = plant_within(-10, 10 * floors, car->place + output.motor);
    car->door = plant_within(0, 5, car->door + (output.opens ? 1 : -1));
}

/* What its sensors say. */
static liftplc_car plant_reports(plant_car car, int floors) {
    liftplc_car fields = {
        .pos = (uint8_t)plant_within(1, floors, (car.place + 5) / 10 + 1),
        .level = car.place % 10 == 0,
        .top = car.place >= 10 * (floors - 1),
        .bottom = car.place <= 0,
        .locked = car.door == 0,
        .opened = car.door == 5,
    };
    return fields;
}

#endif
