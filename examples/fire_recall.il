(* Destination dispatch for two cars with fire recall.

   Without fire it is examples/nearest_car.il: each call goes to the nearest car. While
   FIRE holds, each car drives to floor 1 and stands there with its door open, and GROUP
   assigns no call. Interlock rule 6 lets no car run up while FIRE holds, whatever a
   program asks for; these programs ask for down only. After the recall the cars go on
   with their calls. A car without one that is between two landings then goes to the next
   one, and opens its door.
   Try `sim fire_recall.il 300 1:3:5 --fire 50`: fire from round 50 on. *)

(* The car program. Both cars run it, each with variables of its own. Without fire a car
   carries one call at a time: it fetches the passenger at the landing and takes them to
   their floor. While FIRE holds, SLOT, BUSY and ABOARD stay as they are: so a car keeps
   its call, and goes on with it after the recall. *)
PROGRAM RECALLED_CAR
VAR
  SLOT : INT (1..16);      (* the call slot that is looked at; while BUSY, that of the car's call *)
  BUSY : BOOL;             (* the car has a call *)
  ABOARD : BOOL;           (* the passenger of this call is in the car *)
  TARGET : INT (0..8);     (* the floor to which the car drives *)
  ASTRAY : BOOL;           (* a start or a recall has left the car, without a call, on its way *)
END_VAR

(* Fire recall goes before all calls. *)
LD FIRE
JMPC RECALL

(* A car with a call goes on with it. *)
LD BUSY
JMPC DRIVE

(* Without a call a car that a start or a recall has left between two landings runs to the
   next one: down, or up from below floor 1. *)
LD LEVEL
JMPC LANDED
LD TRUE
ST ASTRAY
LD BOTTOM
SEL -1, 1
ST MOTOR
RET

(* There it stops and opens its door once, since somebody may be aboard. *)
LANDED:
LD ASTRAY
JMPCN STANDS
LD 0
ST MOTOR
LD OPENED
STN ASTRAY
STN OPEN
RETCN

(* Otherwise it stands already, and its door is asked to shut. *)
STANDS:
LD FALSE
ST OPEN

(* Without a call it looks at the next call slot; after slot 16 it is slot 1 again. *)
LD SLOT
MOD 16
ADD 1
ST SLOT

(* Is the call of this slot assigned to this car? Then the car is busy with it, and the
   passenger still waits at the landing. *)
LD CALLCAR[SLOT]
EQ CARNO
ST BUSY
RETCN
LD FALSE
ST ABOARD
RET

(* The target is the landing of the passenger; with the passenger aboard, the destination. *)
DRIVE:
LD ABOARD
SEL CALLFROM[SLOT], CALLTO[SLOT]
ST TARGET

(* Is the car level with the target floor? *)
LD POS
EQ TARGET
AND LEVEL
JMPC ARRIVED

(* Elsewhere the door is asked to shut. Until it is locked, the interlock lets no motor run. *)
LD FALSE
ST OPEN

(* Below the target the car runs up, above it the car runs down. *)
LD POS
LT TARGET
JMPC UP
LD POS
GT TARGET
JMPC DOWN

(* At the target floor and not level: a running car runs on, a car that stands runs up. *)
LD MOTOR
NE 0
RETC
UP:
LD 1
ST MOTOR
RET
DOWN:
LD -1
ST MOTOR
RET

(* At the target: stop and open, and wait until the door is wholly open. *)
ARRIVED:
LD 0
ST MOTOR
LD TRUE
ST OPEN
LD OPENED
RETCN

(* The door is wholly open: now the passenger gets in, or has got out. *)
LD ABOARD
JMPC SERVED
LD TRUE
ST ABOARD
RET

(* The call is served: its slot becomes free, and the door shuts. *)
SERVED:
LD SLOT
ST SERVE
LD FALSE
ST BUSY
ST OPEN
RET

(* Fire: is the car level with floor 1? *)
RECALL:
LD POS
EQ 1
AND LEVEL
JMPC AT_FLOOR_1

(* Elsewhere the door is asked to shut, and the car runs down. If the recall ends on the way,
   a car without a call opens its door at the next landing. *)
LD FALSE
ST OPEN
LDN BUSY
ST ASTRAY
LD -1
ST MOTOR
RET

(* At floor 1 the car stands with its door open, as long as FIRE holds. *)
AT_FLOOR_1:
LD 0
ST MOTOR
LD TRUE
ST OPEN
END_PROGRAM

(* The group program: a waiting call is assigned to the nearest car. *)
PROGRAM NEAREST_CAR
VAR
  SLOT : INT (1..16);      (* the call slot that is looked at *)
  DISTANCE1 : INT (0..8);  (* how many floors car 1 is away from the landing *)
  DISTANCE2 : INT (0..8);  (* the same of car 2 *)
END_VAR

(* Each scan handles the next call slot; after slot 16 it is slot 1 again. *)
LD SLOT
MOD 16
ADD 1
ST SLOT

(* Nothing to do where no call waits in this slot. While FIRE holds no call is assigned:
   calls wait in their slots until the recall is over. *)
LD CALLWAITS[SLOT]
ANDN FIRE
RETCN

(* How many floors is each car away from the landing of the call? *)
LD CPOS[1]
SUB CALLFROM[SLOT]
ABS
ST DISTANCE1
LD CPOS[2]
SUB CALLFROM[SLOT]
ABS
ST DISTANCE2

(* The call is assigned to car 2 where that is nearer; at a tie to car 1. *)
LD DISTANCE2
LT DISTANCE1
SEL 1, 2
ST ASSIGN[SLOT]
END_PROGRAM

(* The group: two cars, eight floors, sixteen call slots; a task for each car and one for
   the group. *)
CONFIGURATION BUILDING
VAR_GLOBAL CONSTANT CARS : INT := 2; FLOORS : INT := 8; SLOTS : INT := 16; END_VAR
RESOURCE CABINET ON PLC
TASK CAR1 (INTERVAL := T#100ms, PRIORITY := 1);
TASK CAR2 (INTERVAL := T#100ms, PRIORITY := 1);
TASK GROUP (INTERVAL := T#100ms, PRIORITY := 2);
PROGRAM P1 WITH CAR1 : RECALLED_CAR;
PROGRAM P2 WITH CAR2 : RECALLED_CAR;
PROGRAM P3 WITH GROUP : NEAREST_CAR;
END_RESOURCE
END_CONFIGURATION
