(* Destination control for one car: GROUP tells car 1 the first waiting call, and
   the car fetches the passenger and brings him to his floor.

   The call slots are seen by both. GROUP looks at one slot a scan, in turn, and
   tells a call that waits there to car 1. The car looks for a slot that was told
   to it, one a scan too. It travels to CALLFROM, opens, then to CALLTO, opens
   again, and SERVE frees the slot; then it looks for the next. A motor wish
   stays until another is stored.
   Try `sim first_call.il 80 1:3:2`: a call from floor 3 to floor 2. *)

PROGRAM FETCHES
VAR
  SLOT : INT (1..4);       (* the slot looked at, and served while busy *)
  BUSY : BOOL;
  ABOARD : BOOL;
  GOAL : INT (0..4);
END_VAR
LD BUSY
JMPC WORKS

(* the next slot: is it told to this car? *)
LD SLOT
MOD 4
ADD 1
ST SLOT
LD CALLCAR[SLOT]
EQ CARNO
ST BUSY
RET

(* where to *)
WORKS:
LD ABOARD
SEL CALLFROM[SLOT], CALLTO[SLOT]
ST GOAL
EQ POS
AND LEVEL
JMPC ARRIVED

(* shut the door, and run once it is LOCKED *)
LD FALSE
ST OPEN
LD POS
LT GOAL
JMPC UP
LD POS
GT GOAL
RETCN            (* at the floor, and not yet level: run on *)
LD -1
ST MOTOR
RET
UP:
LD 1
ST MOTOR
RET

(* stop and open; aboard, or out, once the door is wholly open *)
ARRIVED:
LD 0
ST MOTOR
LD TRUE
ST OPEN
LD OPENED
RETCN
LD ABOARD
JMPC OUT
LD TRUE
ST ABOARD
RET
OUT:
LD SLOT
ST SERVE
LD FALSE
ST OPEN
ST ABOARD
ST BUSY
END_PROGRAM

PROGRAM TELLS
VAR
  SLOT : INT (1..4);
END_VAR
LD SLOT
MOD 4
ADD 1
ST SLOT
LD CALLWAITS[SLOT]
SEL 0, 1
ST ASSIGN[SLOT]
END_PROGRAM

CONFIGURATION SHAFT
VAR_GLOBAL CONSTANT CARS : INT := 1; FLOORS : INT := 4; SLOTS : INT := 4; END_VAR
RESOURCE CABINET ON PLC
TASK CAR1 (INTERVAL := T#100ms, PRIORITY := 1);
TASK GROUP (INTERVAL := T#500ms, PRIORITY := 2);
PROGRAM P1 WITH CAR1 : FETCHES;
PROGRAM P2 WITH GROUP : TELLS;
END_RESOURCE
END_CONFIGURATION
