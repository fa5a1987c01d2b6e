(* Destination dispatch for two cars: calls to one destination go to one car.

   A passenger enters the destination at the landing. The call waits in a call slot
   until GROUP assigns it to a car, by a store into ASSIGN. The car finds it in CALLCAR,
   fetches the passenger, and frees the slot by SERVE.
   Try `sim same_destination.il 600 1:3:5 200:1:5`: car 1 is at floor 5 by the second
   call, and car 2 is nearer; but car 1 got the last call to floor 5. *)

(* The car program. Both cars run it, each with variables of its own. A car carries one
   call at a time: it fetches the passenger at the landing and takes them to their floor.
   After a start between two landings it first goes to the next one, and opens its door. *)
PROGRAM LIFT_CAR
VAR
  SLOT : INT (1..16);      (* the call slot that is looked at; while BUSY, that of the car's call *)
  BUSY : BOOL;             (* the car has a call *)
  ABOARD : BOOL;           (* the passenger of this call is in the car *)
  TARGET : INT (0..8);     (* the floor to which the car drives *)
  READY : BOOL;            (* it takes calls: it was level at its first scan, or has opened since *)
  ASTRAY : BOOL;           (* at its first scan it was between two landings *)
END_VAR

(* A car with a call goes on with it. *)
LD BUSY
JMPC DRIVE

(* A car that is between two landings at its first scan runs to the next one: down, or up
   from below floor 1. *)
LD READY
JMPC LOOK
LD LEVEL
JMPC LANDED
LD TRUE
ST ASTRAY
LD BOTTOM
SEL -1, 1
ST MOTOR
RET

(* There it stops and opens its door once, since somebody may be aboard. A car that is level
   with a landing at its first scan is ready at once. *)
LANDED:
LD 0
ST MOTOR
LD OPENED
ORN ASTRAY
ST READY
STN OPEN
RETCN

(* Without a call it looks at the next call slot; after slot 16 it is slot 1 again. *)
LOOK:
LD SLOT
MOD 16
ADD 1
ST SLOT

(* Is the call of this slot assigned to this car? Then the car is busy with it, and the
   passenger still waits at the landing. *)
LD CALLCAR[SLOT]
EQ CARNO
ST BUSY
RETCN
LD FALSE
ST ABOARD
RET

(* The target is the landing of the passenger; with the passenger aboard, the destination. *)
DRIVE:
LD ABOARD
SEL CALLFROM[SLOT], CALLTO[SLOT]
ST TARGET

(* Is the car level with the target floor? *)
LD POS
EQ TARGET
AND LEVEL
JMPC ARRIVED

(* Elsewhere the door is asked to shut. Until it is locked, the interlock lets no motor run. *)
LD FALSE
ST OPEN

(* Below the target the car runs up, above it the car runs down. *)
LD POS
LT TARGET
JMPC UP
LD POS
GT TARGET
JMPC DOWN

(* At the target floor and not level: a running car runs on, a car that stands runs up. *)
LD MOTOR
NE 0
RETC
UP:
LD 1
ST MOTOR
RET
DOWN:
LD -1
ST MOTOR
RET

(* At the target: stop and open, and wait until the door is wholly open. *)
ARRIVED:
LD 0
ST MOTOR
LD TRUE
ST OPEN
LD OPENED
RETCN

(* The door is wholly open: now the passenger gets in, or has got out. *)
LD ABOARD
JMPC SERVED
LD TRUE
ST ABOARD
RET

(* The call is served: its slot becomes free, and the door shuts. *)
SERVED:
LD SLOT
ST SERVE
LD FALSE
ST BUSY
ST OPEN
END_PROGRAM

(* The group program: a waiting call is assigned to the car that last got a call to the
   same destination. Where there is none yet, it is assigned to the nearest car. *)
PROGRAM SAME_DESTINATION
VAR
  SLOT : INT (1..16);      (* the call slot that is looked at *)
  DESTINATION : INT (1..8);  (* the destination of the call *)
  CHOSEN : INT (0..2);     (* the car that gets the call; 0 as long as none is chosen *)
  DISTANCE1 : INT (0..8);  (* how many floors car 1 is away from the landing *)
  DISTANCE2 : INT (0..8);  (* the same of car 2 *)
  LASTCAR : ARRAY [1..8] OF INT (0..2);  (* for each floor: the car that last got a call
                                            to it; 0 for none *)
END_VAR

(* Each scan handles the next call slot; after slot 16 it is slot 1 again. *)
LD SLOT
MOD 16
ADD 1
ST SLOT

(* Nothing to do where no call waits in this slot. *)
LD CALLWAITS[SLOT]
RETCN

(* The destination of the call. CALLTO is 0 in a free slot only, and this slot has a
   call; MAX 1 makes the range 1..8, which fits DESTINATION. *)
LD CALLTO[SLOT]
MAX 1
ST DESTINATION

(* Has a car got a call to this floor before? Then it gets this call too. *)
LD LASTCAR[DESTINATION]
ST CHOSEN
NE 0
JMPC GIVE

(* How many floors is each car away from the landing of the call? *)
LD CPOS[1]
SUB CALLFROM[SLOT]
ABS
ST DISTANCE1
LD CPOS[2]
SUB CALLFROM[SLOT]
ABS
ST DISTANCE2

(* The nearest car is car 2 where that is nearer; at a tie it is car 1. *)
LD DISTANCE2
LT DISTANCE1
SEL 1, 2
ST CHOSEN

(* The call is assigned to this car, which is remembered for the destination. *)
GIVE:
LD CHOSEN
ST ASSIGN[SLOT]
ST LASTCAR[DESTINATION]
END_PROGRAM

(* The group: two cars, eight floors, sixteen call slots; a task for each car and one for
   the group. *)
CONFIGURATION BUILDING
VAR_GLOBAL CONSTANT CARS : INT := 2; FLOORS : INT := 8; SLOTS : INT := 16; END_VAR
RESOURCE CABINET ON PLC
TASK CAR1 (INTERVAL := T#100ms, PRIORITY := 1);
TASK CAR2 (INTERVAL := T#100ms, PRIORITY := 1);
TASK GROUP (INTERVAL := T#100ms, PRIORITY := 2);
PROGRAM P1 WITH CAR1 : LIFT_CAR;
PROGRAM P2 WITH CAR2 : LIFT_CAR;
PROGRAM P3 WITH GROUP : SAME_DESTINATION;
END_RESOURCE
END_CONFIGURATION
