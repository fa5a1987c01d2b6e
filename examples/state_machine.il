(* A state machine in jumps: a car that goes up and down for ever and opens its
   door at both ends.

   STEP is the state: 0 opens the door, 1 shuts it, 2 travels. Each state has a
   part of the body of its own; a jump leads there, and RET ends the scan. Jumps
   go forward only, so a scan takes no more steps than its body has.
   A conditional jump keeps the result. Behind a jump without condition, and
   behind RET, there is none. *)

PROGRAM SHUTTLE
VAR
  STEP : INT (0..2);
  DIRECTION : INT (-1..1) := -1;
END_VAR
LD STEP
EQ 1
JMPC SHUTS
LD STEP
EQ 2
JMPC TRAVELS

(* 0: open until the door is wholly open *)
LD TRUE
ST OPEN
LD OPENED
RETCN
LD 1
ST STEP
RET

SHUTS:
LD FALSE
ST OPEN
LD LOCKED
RETCN
(* it turns round at both ends *)
LD 0
SUB DIRECTION
ST DIRECTION
ST MOTOR
LD 2
ST STEP
RET

TRAVELS:
LD LEVEL
AND( DIRECTION
  GT 0
  AND TOP
  OR( DIRECTION
    LT 0
    AND BOTTOM
  )
)
RETCN
LD 0
ST MOTOR
ST STEP
END_PROGRAM

CONFIGURATION SHAFT
VAR_GLOBAL CONSTANT CARS : INT := 1; FLOORS : INT := 2; SLOTS : INT := 1; END_VAR
RESOURCE CABINET ON PLC
TASK CAR1 (INTERVAL := T#100ms, PRIORITY := 1);
PROGRAM P1 WITH CAR1 : SHUTTLE;
END_RESOURCE
END_CONFIGURATION
