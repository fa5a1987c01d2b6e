(* An idle car.

   The body is empty, so a scan has one step, the return at END_PROGRAM, and
   stores nothing: OPEN keeps its committed value, FALSE from the opening on.
   The car stays at floor 1 with its door shut.
   Use it to try out `check` and `sim`. *)

PROGRAM IDLE
END_PROGRAM

CONFIGURATION SHAFT
VAR_GLOBAL CONSTANT CARS : INT := 1; FLOORS : INT := 2; SLOTS : INT := 1; END_VAR
RESOURCE CABINET ON PLC
TASK CAR1 (INTERVAL := T#100ms, PRIORITY := 1);
PROGRAM P1 WITH CAR1 : IDLE;
END_RESOURCE
END_CONFIGURATION
