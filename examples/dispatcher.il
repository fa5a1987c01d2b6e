(* Destination control for three cars: GROUP tells each waiting call the nearest
   car; of cars equally near, the one with the lowest number.

   All cars run one program, each with variables of its own; examples/first_call.il
   explains it. DISTANCE is a function of two floors. GROUP looks at one slot a
   scan: CPOS[k] is where car k is, CALLFROM[SLOT] where the passenger waits, and
   ASSIGN[SLOT] tells the call to a car at the commit.
   Try `sim dispatcher.il 120 1:5:1 45:2:6`: two calls for two cars. *)

FUNCTION DISTANCE : INT (0..6)
VAR_INPUT
  A : INT (1..6);
  B : INT (0..6);
END_VAR
LD A
SUB B            (* -5..6 *)
ABS
ST DISTANCE
END_FUNCTION

PROGRAM FETCHES
VAR
  SLOT : INT (1..6);       (* the slot looked at, and served while busy *)
  BUSY : BOOL;
  ABOARD : BOOL;
  GOAL : INT (0..6);
END_VAR
LD BUSY
JMPC WORKS

(* the next slot: is it told to this car? *)
LD SLOT
MOD 6
ADD 1
ST SLOT
LD CALLCAR[SLOT]
EQ CARNO
ST BUSY
RET

(* where to *)
WORKS:
LD ABOARD
SEL CALLFROM[SLOT], CALLTO[SLOT]
ST GOAL
EQ POS
AND LEVEL
JMPC ARRIVED

(* shut the door, and run once it is LOCKED *)
LD FALSE
ST OPEN
LD POS
LT GOAL
JMPC UP
LD POS
GT GOAL
RETCN            (* at the floor, and not yet level: run on *)
LD -1
ST MOTOR
RET
UP:
LD 1
ST MOTOR
RET

(* stop and open; aboard, or out, once the door is wholly open *)
ARRIVED:
LD 0
ST MOTOR
LD TRUE
ST OPEN
LD OPENED
RETCN
LD ABOARD
JMPC OUT
LD TRUE
ST ABOARD
RET
OUT:
LD SLOT
ST SERVE
LD FALSE
ST OPEN
ST ABOARD
ST BUSY
END_PROGRAM

PROGRAM NEAREST
VAR
  SLOT : INT (1..6);
  LEAST : INT (0..6);      (* how far the nearest car so far is *)
  NEXT : INT (0..6);
  CAR : INT (1..3);
END_VAR
LD SLOT
MOD 6
ADD 1
ST SLOT
LD CALLWAITS[SLOT]
RETCN

(* car 1 so far *)
LD 1
ST CAR
LD CPOS[1]
DISTANCE CALLFROM[SLOT]
ST LEAST

(* is car 2 nearer? *)
LD CPOS[2]
DISTANCE CALLFROM[SLOT]
ST NEXT
LT LEAST
SEL CAR, 2
ST CAR
LD NEXT
MIN LEAST
ST LEAST

(* and car 3? *)
LD CPOS[3]
DISTANCE CALLFROM[SLOT]
LT LEAST
SEL CAR, 3
ST CAR
ST ASSIGN[SLOT]
END_PROGRAM

CONFIGURATION TOWER
VAR_GLOBAL CONSTANT CARS : INT := 3; FLOORS : INT := 6; SLOTS : INT := 6; END_VAR
RESOURCE CABINET ON PLC
TASK CAR1 (INTERVAL := T#100ms, PRIORITY := 1);
TASK CAR2 (INTERVAL := T#100ms, PRIORITY := 1);
TASK CAR3 (INTERVAL := T#100ms, PRIORITY := 1);
TASK GROUP (INTERVAL := T#500ms, PRIORITY := 2);
PROGRAM P1 WITH CAR1 : FETCHES;
PROGRAM P2 WITH CAR2 : FETCHES;
PROGRAM P3 WITH CAR3 : FETCHES;
PROGRAM P4 WITH GROUP : NEAREST;
END_RESOURCE
END_CONFIGURATION
