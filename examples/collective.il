(* Collective destination control for 2 cars, 8 floors and 16 call slots, made by

     tools/group 2 8 16 --dispatch nearest

   Passengers enter their destination at the landing. The call waits in a call slot until
   GROUP assigns it to a car, by a store into ASSIGN. The car collects the calls that are
   assigned to it, up to CAPACITY passengers at a time, and frees the slot of a call by SERVE
   once its passenger is out. docs/GROUPS.md says more.
   Try `sim FILE 600 1:1:8 1:8:1`: calls from the lowest floor to the highest, and back. *)
(* WAY is INT (-1..1): DOWN is -1, STILL is 0, UP is 1 *)  (* of a motor, and of a car *)

(* The calls of one car. In each scan the car program calls this block for each call slot,
   from slot 1 on. After the last slot its outputs say where the car has work. *)
(* LONG_WAIT is 9999 *)  (* scans *)
FUNCTION_BLOCK CALLS_OF_CAR
VAR_INPUT
  CAR : INT (1..2);  (* the number of the car *)
  FLOOR : INT (1..8);  (* the floor at which it is *)
  OPENED_HERE : BOOL;  (* it stands level with this floor, its door wholly open *)
  SHUT : BOOL;  (* its door is wholly shut *)
  ADMITS : BOOL;  (* passengers may get in *)
  IS_OUT : BOOL;  (* it is out: it gives back the calls of those who are not in the car *)
  SLOT : INT (1..16);  (* the call slot that is looked at *)
  ASSIGNED : INT (0..2);  (* the car that its call is assigned to; 0 for none *)
  GETS_ON : INT (0..8);  (* the floors of the call; 0 in a free slot *)
  GETS_OFF : INT (0..8);
END_VAR
VAR_OUTPUT
  ABOVE : BOOL;  (* there is work above, or a passenger at this floor goes up *)
  BELOW : BOOL;  (* there is work below, or a passenger at this floor goes down *)
  UP_HERE : BOOL;  (* a passenger waits at this floor and goes up *)
  DOWN_HERE : BOOL;  (* a passenger waits at this floor and goes down *)
  OUT_HERE : BOOL;  (* a passenger in the car gets out at this floor *)
  MOVED : BOOL;  (* somebody got in or out in this scan *)
  SERVED : INT (0..16);  (* the slot of the passenger who got out in this scan, or that is given back; 0 for none *)
  LOAD : INT (0..8);  (* how many passengers are in the car *)
  PASSING : TIME;  (* how long the door has to be open for all who pass it at this stop *)
END_VAR
VAR
  ABOARD : ARRAY [1..16] OF BOOL;  (* for each slot: its passenger is in the car *)
  WAITED : ARRAY [1..16] OF INT (0..9999);  (* for how many scans they have waited for it *)
  LONGEST : INT (0..9999);  (* the longest wait of those who wait at this floor in this scan *)
  FIRST : INT (0..9999);  (* and in the scan before: who has waited that long gets in first *)
  GOING_ON : INT (0..8);  (* how many are in the car and go on from this floor *)
  KEPT : INT (0..8);  (* and in the scan before: if that is all, nobody else has room *)
END_VAR

(* Slot 1 begins anew. *)
LD SLOT
EQ 1
JMPCN ELSE_54
LD FALSE
ST ABOVE
ST BELOW
ST UP_HERE
ST DOWN_HERE
ST OUT_HERE
ST MOVED
LD LONGEST
ST FIRST
LD GOING_ON
ST KEPT
LD 0
ST LONGEST
ST GOING_ON
ST SERVED
LD SHUT
SEL PASSING, T#0s
ST PASSING
ELSE_54:

(* Is the call assigned to this car? If not, nobody in the car belongs to it. *)
LD ASSIGNED
NE CAR
JMPCN ELSE_72
LD FALSE
ST ABOARD[SLOT]
LD 0
ST WAITED[SLOT]
RET
ELSE_72:

LD ABOARD[SLOT]
JMPC END_IF_104
(* A car that is out gives the call back, one a scan. The passenger presses again, and another car
   gets the new call. *)
LD IS_OUT
JMPCN ELSE_81
LD 0
ST WAITED[SLOT]
LD SERVED
EQ 0
SEL SERVED, SLOT
ST SERVED
RET
ELSE_81:

(* The passenger waits at the landing: there is the work. *)
LD WAITED[SLOT]
MIN 9998
ADD 1
ST WAITED[SLOT]
LD GETS_ON
GT FLOOR
JMPCN ELSE_91
LD TRUE
ST ABOVE
RET
ELSE_91:
LD GETS_ON
LT FLOOR
JMPCN ELSE_94
LD TRUE
ST BELOW
RET
ELSE_94:
LD ADMITS
RETCN
(* A car that has to leave doesn't take them now. *)

(* Nor does a full one from which nobody gets out here. Who has waited longest gets in first, so
   nobody is left behind again and again. *)
LD LOAD
LT 8
JMPCN ELSE_104
LD WAITED[SLOT]
GE FIRST
AND OPENED_HERE
JMPCN ELSE_104
(* The door is wholly open: they get in, and from now on the work is at their destination. *)
LD LOAD
ADD 1
ST LOAD
LD TRUE
ST ABOARD[SLOT]
ST MOVED
LD PASSING
MIN T#1m
ADD T#1s
ST PASSING
JMP END_IF_104
ELSE_104:
LD WAITED[SLOT]
MAX LONGEST
ST LONGEST
LD KEPT
LT 8
RETCN
LD GETS_OFF
LT FLOOR
JMPCN ELSE_113
LD TRUE
ST DOWN_HERE
ST BELOW
RET
ELSE_113:
LD TRUE
ST UP_HERE
ST ABOVE
RET
END_IF_104:

(* The passenger is in the car. *)
LD GETS_OFF
NE FLOOR
SEL 0, 1
ADD GOING_ON
MIN 8
ST GOING_ON
LD GETS_OFF
GT FLOOR
JMPCN ELSE_127
LD TRUE
ST ABOVE
RET
ELSE_127:
LD GETS_OFF
LT FLOOR
JMPCN ELSE_129
LD TRUE
ST BELOW
RET
ELSE_129:
LD TRUE
ST OUT_HERE

(* They are at their destination. With the door wholly open they get out: one passenger a scan,
   since a car serves one call slot a scan. *)
LD SERVED
EQ 0
AND OPENED_HERE
RETCN
LD SLOT
ST SERVED
LD LOAD
MAX 1
SUB 1
ST LOAD
LD FALSE
ST ABOARD[SLOT]
LD TRUE
ST MOVED
LD PASSING
MIN T#1m
ADD T#1s
ST PASSING
END_FUNCTION_BLOCK

(* The car program: collective control. All cars run it, each with variables of its own.
   A car stops on its way for each passenger who gets out, and for each who waits and goes the
   same way. It keeps its direction as long as it has work that way, and then turns. *)
PROGRAM COLLECTIVE_CAR
VAR
  CALLS : CALLS_OF_CAR;  (* the calls that are assigned to this car *)
  DIRECTION : INT (-1..1);  (* the way of the car *)
  ABOVE : BOOL;  (* the car has to go up, for a call or to its home floor *)
  BELOW : BOOL;  (* the car has to go down *)
  AHEAD : BOOL;  (* the car has to go on in its direction *)
  HERE : BOOL;  (* a passenger wants to get in or out at this floor *)
  CAME_FROM : INT (0..8);  (* the landing that the car has left; 0 for none *)
  STANDS_OPEN : BOOL;  (* the door is wholly open *)
  OVER : BOOL;  (* the door has been open long enough *)
  OPENS : BOOL;  (* the door is to be open, also while LEVEL is lost at an open door *)
  RECALLED : BOOL;  (* there was a fire recall in the scan before *)
  DWELL : TON;  (* how long nobody has passed the open door *)
  PASSAGE : TON;  (* how long the door has been open *)
  HELD : TON;  (* how long the car has stood though it has work *)
  LET_OUT : BOOL;  (* the door has been open for whoever was in the car at the start *)
  WAS_OUT : BOOL;  (* the car was out in the scan before *)
  STUCK : TON;  (* how long the car has not left a landing though its motor runs *)
  LOST : TON;  (* how long the car has found no landing *)
  REST : TP;  (* then it stands for a while before it tries again *)
  IDLE : TON;  (* how long the car has had no call *)
  HOME : INT (1..8);  (* the floor where it waits then *)
  STARTED : BOOL;  (* its first opening of the door is over *)
END_VAR
VAR_EXTERNAL
  OUT : ARRAY [0..2] OF BOOL;  (* for each car: it is out; GROUP says so *)
END_VAR

(* Fire: each car goes down to floor 1. Interlock rule 6 lets no car run up. The calls stay as
   they are, and the car goes on with them after the recall. *)
LD FIRE
JMPCN ELSE_181
LD TRUE
ST RECALLED
CAL DWELL(IN := FALSE)
CAL PASSAGE(IN := FALSE)
CAL HELD(IN := FALSE)
CAL STUCK(IN := FALSE)
CAL LOST(IN := FALSE)
CAL IDLE(IN := FALSE)
LD 0
ST DIRECTION
ST CAME_FROM
LD POS
EQ 1
AND LEVEL
JMPCN ELSE_191
(* At floor 1 it stands with its door open, as long as FIRE holds. *)
LD 0
ST MOTOR
LD TRUE
ST OPENS
JMP END_IF_191
ELSE_191:
LD FALSE
ST OPENS
LD LOCKED
ANDN BOTTOM
SEL 0, -1
ST MOTOR
END_IF_191:
LD OPENS
ST OPEN
RET
ELSE_181:

(* A switch that sticks opens no door: OPENED counts only while the door isn't shut. *)
LD OPENED
ANDN LOCKED
ST STANDS_OPEN

(* Where is work? The block looks at all call slots. A passenger gets in or out where the car
   stands level with a floor, its door wholly open; not yet in the first scan after a recall,
   since the block then has to find out who has waited longest. *)
AND LEVEL
ANDN RECALLED
ST CALLS.OPENED_HERE
LD FALSE
ST RECALLED
LD CARNO
ST CALLS.CAR
LD POS
ST CALLS.FLOOR
LD LOCKED
ST CALLS.SHUT
LDN HELD.Q
ST CALLS.ADMITS
LD OUT[CARNO]
ST CALLS.IS_OUT
CAL CALLS(SLOT := 1, ASSIGNED := CALLCAR[1], GETS_ON := CALLFROM[1], GETS_OFF := CALLTO[1])
CAL CALLS(SLOT := 2, ASSIGNED := CALLCAR[2], GETS_ON := CALLFROM[2], GETS_OFF := CALLTO[2])
CAL CALLS(SLOT := 3, ASSIGNED := CALLCAR[3], GETS_ON := CALLFROM[3], GETS_OFF := CALLTO[3])
CAL CALLS(SLOT := 4, ASSIGNED := CALLCAR[4], GETS_ON := CALLFROM[4], GETS_OFF := CALLTO[4])
CAL CALLS(SLOT := 5, ASSIGNED := CALLCAR[5], GETS_ON := CALLFROM[5], GETS_OFF := CALLTO[5])
CAL CALLS(SLOT := 6, ASSIGNED := CALLCAR[6], GETS_ON := CALLFROM[6], GETS_OFF := CALLTO[6])
CAL CALLS(SLOT := 7, ASSIGNED := CALLCAR[7], GETS_ON := CALLFROM[7], GETS_OFF := CALLTO[7])
CAL CALLS(SLOT := 8, ASSIGNED := CALLCAR[8], GETS_ON := CALLFROM[8], GETS_OFF := CALLTO[8])
CAL CALLS(SLOT := 9, ASSIGNED := CALLCAR[9], GETS_ON := CALLFROM[9], GETS_OFF := CALLTO[9])
CAL CALLS(SLOT := 10, ASSIGNED := CALLCAR[10], GETS_ON := CALLFROM[10], GETS_OFF := CALLTO[10])
CAL CALLS(SLOT := 11, ASSIGNED := CALLCAR[11], GETS_ON := CALLFROM[11], GETS_OFF := CALLTO[11])
CAL CALLS(SLOT := 12, ASSIGNED := CALLCAR[12], GETS_ON := CALLFROM[12], GETS_OFF := CALLTO[12])
CAL CALLS(SLOT := 13, ASSIGNED := CALLCAR[13], GETS_ON := CALLFROM[13], GETS_OFF := CALLTO[13])
CAL CALLS(SLOT := 14, ASSIGNED := CALLCAR[14], GETS_ON := CALLFROM[14], GETS_OFF := CALLTO[14])
CAL CALLS(SLOT := 15, ASSIGNED := CALLCAR[15], GETS_ON := CALLFROM[15], GETS_OFF := CALLTO[15])
CAL CALLS(SLOT := 16, ASSIGNED := CALLCAR[16], GETS_ON := CALLFROM[16], GETS_OFF := CALLTO[16])
LD CALLS.ABOVE
ST ABOVE
LD CALLS.BELOW
ST BELOW

(* The call of the passenger who got out is served, or a call is given back: its slot becomes free. *)
LD CALLS.SERVED
ST SERVE

(* The door stays open until nobody has passed it for the dwell time, and as long as all who pass
   it at this stop need. *)
LD STANDS_OPEN
ANDN CALLS.MOVED
ST DWELL.IN
CAL DWELL(PT := T#3s)
CAL PASSAGE(IN := STANDS_OPEN, PT := CALLS.PASSING)
LD DWELL.Q
AND PASSAGE.Q
ST OVER

(* A car that has work doesn't stand for ever: after this time it takes no more passengers, until
   it has left. *)
LD MOTOR
EQ 0
AND( ABOVE
OR BELOW
)
ST HELD.IN
CAL HELD(PT := T#20s)

(* After a start of the controller nobody knows who is in the car. So it goes to the next landing, if
   it is at none, and opens its door there once for the dwell time; then it works as always. So does a
   car that comes back after it was out, and one that doesn't leave a landing though its motor runs. *)
LD MOTOR
NE 0
AND LEVEL
AND( POS
EQ CAME_FROM
)
ST STUCK.IN
CAL STUCK(PT := T#30s)
LD LET_OUT
OR OVER
ANDN STUCK.Q
ANDN( WAS_OUT
ANDN OUT[CARNO]
)
ST LET_OUT
LD OUT[CARNO]
ST WAS_OUT

(* A car that finds no landing for some time has lost its drive or its sensors. It stands for a while,
   so that GROUP takes it out, and then tries again. *)
LDN LEVEL
ANDN REST.Q
AND( MOTOR
NE 0
OR TOP
OR BOTTOM
)
ST LOST.IN
CAL LOST(PT := T#30s)
CAL REST(IN := LOST.Q, PT := T#1m23s)

(* A car without a call goes to its home floor after some time. The homes are spread over the
   building: the lowest floor in each of as many parts as there are cars. The first opening of the
   door is no call. *)
LD LET_OUT
AND LOCKED
S STARTED
LD ABOVE
OR BELOW
OR CALLS.OUT_HERE
OR( STARTED
ANDN LOCKED
)
STN IDLE.IN
CAL IDLE(PT := T#15s)
LD IDLE.Q
JMPCN ELSE_252
LD CARNO
SUB 1
MUL 8
DIV 2
ADD 1
ST HOME
LD POS
LT HOME
ST ABOVE
LD POS
GT HOME
ST BELOW
ELSE_252:

(* A car that is out and has no call goes to another landing: once it has moved, it is back. *)
LD OUT[CARNO]
ANDN ABOVE
ANDN BELOW
ANDN CALLS.OUT_HERE
JMPCN ELSE_259
LD POS
LT 8
ST ABOVE
LDN ABOVE
ST BELOW
ELSE_259:

LD REST.Q
ANDN LEVEL
JMPCN ELSE_264
LD 0
ST MOTOR
RET
ELSE_264:
LD MOTOR
NE 0
JMPCN ELSE_266
(* It runs. Between two landings it runs on, and at the landing from which it comes. *)
LD MOTOR
ST DIRECTION
LD POS
EQ CAME_FROM
AND LET_OUT
ORN LEVEL
RETC

(* It is level with a floor. It stops where somebody gets out, or waits and goes the same way,
   and where no work is ahead. *)
LD DIRECTION
EQ 1
SEL BELOW, ABOVE
ST AHEAD
LD DIRECTION
EQ 1
SEL CALLS.DOWN_HERE, CALLS.UP_HERE
OR CALLS.OUT_HERE
ORN LET_OUT
ST HERE
ORN AHEAD
RETCN
LD 0
ST MOTOR
LD HERE
ST OPENS
ST OPEN
RET
ELSE_266:
LD LEVEL
JMPCN ELSE_282
(* It stands. At a landing it keeps its direction as long as there is work that way. *)
LD DIRECTION
EQ -1
ORN ABOVE
AND BELOW
JMPCN ELSE_284
LD -1
ST DIRECTION
JMP END_IF_284
ELSE_284:
LD ABOVE
SEL 0, 1
ST DIRECTION
END_IF_284:

(* The door opens for those who get in or out, and stays open until its time is over. While LEVEL
   is lost the interlock takes the open command away: OPENS keeps the wish. *)
LD DIRECTION
EQ 1
SEL CALLS.DOWN_HERE, CALLS.UP_HERE
OR CALLS.OUT_HERE
ORN LET_OUT
ST HERE
LD OPENS
ANDN OVER
OR HERE
ST OPENS
ST OPEN

(* Then the door shuts. Once it is locked the car runs, if it has work. *)
LDN OPENS
AND LOCKED
RETCN
LD POS
ST CAME_FROM
LD DIRECTION
ST MOTOR
RET
ELSE_282:
LD LOCKED
RETCN
(* It stands between two landings, after a start, a fire recall or a limit of running cars. It runs
   on as it has run, after a start or a recall down; from beyond an end of the shaft it runs back. *)
LD 0
ST CAME_FROM
LD FALSE
ST OPENS
LD DIRECTION
EQ 0
SEL DIRECTION, -1
ST DIRECTION
LD BOTTOM
SEL DIRECTION, 1
ST DIRECTION
LD TOP
SEL DIRECTION, -1
ST DIRECTION
ST MOTOR
END_PROGRAM

(* Whether a car is out. GROUP calls this block for each car in each scan. A car with a call is out if it
   has not come to another floor for some time; once it has, it is back. *)
FUNCTION_BLOCK WATCH_OF_CAR
VAR_INPUT
  FLOOR : INT (1..8);  (* the floor at which it is *)
  RUNS : INT (-1..1);  (* its motor *)
  WORKS : BOOL;  (* it has a call, and neither a fire recall nor a limit keeps it *)
END_VAR
VAR_OUTPUT
  IS_OUT : BOOL;
END_VAR
VAR
  WAS_AT : INT (1..8);  (* the floor at which it was in the scan before *)
  MOVED : BOOL;  (* it is at another floor now *)
  RUNNING : TON;  (* how long its motor has run without that *)
  STANDING : TON;  (* how long it has had calls without that *)
END_VAR

LD FLOOR
NE WAS_AT
ST MOVED
LD FLOOR
ST WAS_AT
LD RUNS
NE 0
AND WORKS
ANDN MOVED
ST RUNNING.IN
CAL RUNNING(PT := T#30s)
LD WORKS
ANDN MOVED
ST STANDING.IN
CAL STANDING(PT := T#53s)
LD IS_OUT
OR RUNNING.Q
OR STANDING.Q
ANDN MOVED
ST IS_OUT
END_FUNCTION_BLOCK

(* The group program: a waiting call is assigned to the nearest car. *)
PROGRAM NEAREST_CAR
VAR
  WAITING : INT (0..16);  (* the call slot that is handled; 0 for none *)
  CHOSEN : INT (0..2);  (* the car that gets the call *)
  LANDING : INT (0..8);  (* the landing of the call *)
  DISTANCE : INT (0..8);  (* how many floors a car is away from it *)
  LEAST : INT (0..8);  (* the same of the nearest car *)
  WORKS : ARRAY [0..2] OF BOOL;  (* for each car: it has a call; at 0 for the slots without a car *)
  WATCH1 : WATCH_OF_CAR;  (* whether car 1 is out *)
  WATCH2 : WATCH_OF_CAR;  (* whether car 2 is out *)
  HELD1 : INT;
END_VAR
VAR_EXTERNAL
  OUT : ARRAY [0..2] OF BOOL;  (* for each car: it is out; the cars see it *)
END_VAR

(* Which cars are out? They get no call. *)
LD FALSE
ST WORKS[0]
ST WORKS[1]
ST WORKS[2]
LD RUNLIMIT
GT 0
ANDN FIRE
JMPCN ELSE_366
LD CALLCAR[1]
ST HELD1
LD TRUE
ST WORKS[HELD1]
LD CALLCAR[2]
ST HELD1
LD TRUE
ST WORKS[HELD1]
LD CALLCAR[3]
ST HELD1
LD TRUE
ST WORKS[HELD1]
LD CALLCAR[4]
ST HELD1
LD TRUE
ST WORKS[HELD1]
LD CALLCAR[5]
ST HELD1
LD TRUE
ST WORKS[HELD1]
LD CALLCAR[6]
ST HELD1
LD TRUE
ST WORKS[HELD1]
LD CALLCAR[7]
ST HELD1
LD TRUE
ST WORKS[HELD1]
LD CALLCAR[8]
ST HELD1
LD TRUE
ST WORKS[HELD1]
LD CALLCAR[9]
ST HELD1
LD TRUE
ST WORKS[HELD1]
LD CALLCAR[10]
ST HELD1
LD TRUE
ST WORKS[HELD1]
LD CALLCAR[11]
ST HELD1
LD TRUE
ST WORKS[HELD1]
LD CALLCAR[12]
ST HELD1
LD TRUE
ST WORKS[HELD1]
LD CALLCAR[13]
ST HELD1
LD TRUE
ST WORKS[HELD1]
LD CALLCAR[14]
ST HELD1
LD TRUE
ST WORKS[HELD1]
LD CALLCAR[15]
ST HELD1
LD TRUE
ST WORKS[HELD1]
LD CALLCAR[16]
ST HELD1
LD TRUE
ST WORKS[HELD1]
ELSE_366:
CAL WATCH1(FLOOR := CPOS[1], RUNS := CMOTOR[1], WORKS := WORKS[1])
LD WATCH1.IS_OUT
ST OUT[1]
CAL WATCH2(FLOOR := CPOS[2], RUNS := CMOTOR[2], WORKS := WORKS[2])
LD WATCH2.IS_OUT
ST OUT[2]

(* Which call slot waits? Each scan handles one, the lowest. *)
LD 0
ST WAITING
LD CALLWAITS[16]
SEL WAITING, 16
ST WAITING
LD CALLWAITS[15]
SEL WAITING, 15
ST WAITING
LD CALLWAITS[14]
SEL WAITING, 14
ST WAITING
LD CALLWAITS[13]
SEL WAITING, 13
ST WAITING
LD CALLWAITS[12]
SEL WAITING, 12
ST WAITING
LD CALLWAITS[11]
SEL WAITING, 11
ST WAITING
LD CALLWAITS[10]
SEL WAITING, 10
ST WAITING
LD CALLWAITS[9]
SEL WAITING, 9
ST WAITING
LD CALLWAITS[8]
SEL WAITING, 8
ST WAITING
LD CALLWAITS[7]
SEL WAITING, 7
ST WAITING
LD CALLWAITS[6]
SEL WAITING, 6
ST WAITING
LD CALLWAITS[5]
SEL WAITING, 5
ST WAITING
LD CALLWAITS[4]
SEL WAITING, 4
ST WAITING
LD CALLWAITS[3]
SEL WAITING, 3
ST WAITING
LD CALLWAITS[2]
SEL WAITING, 2
ST WAITING
LD CALLWAITS[1]
SEL WAITING, 1
ST WAITING

(* Nothing to do where none waits. While FIRE holds no call is assigned: calls wait in their
   slots until the recall is over. *)
LD WAITING
EQ 0
JMPC PAST_382
LD FIRE
JMPCN ELSE_382
PAST_382:
RET
ELSE_382:

(* Which car is nearest to the landing? At a tie it is the one with the lowest number. *)
LD CALLFROM[WAITING]
ST LANDING
LD 8
ST LEAST
LD 0
ST CHOSEN
LD CPOS[1]
SUB LANDING
ABS
ST DISTANCE
LT LEAST
ANDN OUT[1]
JMPCN ELSE_392
LD 1
ST CHOSEN
LD DISTANCE
ST LEAST
ELSE_392:
LD CPOS[2]
SUB LANDING
ABS
ST DISTANCE
LT LEAST
ANDN OUT[2]
JMPCN ELSE_392_2
LD 2
ST CHOSEN
LD DISTANCE
ST LEAST
ELSE_392_2:

(* It gets the call. If all cars are out, none does, and the call waits. *)
LD CHOSEN
ST ASSIGN[WAITING]
END_PROGRAM

(* The group: 2 cars, 8 floors, 16 call slots; a task for each car and one for
   the group. *)
(* CAPACITY is 8 *)  (* how many passengers a car takes at a time *)
(* DWELL_TIME is T#3s *)  (* how long a door stays open after the last passenger *)
(* TRANSFER_TIME is T#1s *)  (* how long it stays open for each who gets in or out *)
(* HOLD_TIME is T#20s *)  (* how long a car with work takes passengers at a stop *)
(* OUT_TIME is T#30s *)  (* after how long a car that doesn't move is out *)
(* STAND_TIME is T#53s *)  (* the same of one that may make a stop: more than the longest stop *)
(* REST_TIME is T#1m23s *)  (* how long a car that finds no landing stands before it tries again *)
(* PARK_TIME is T#15s *)  (* after how long an idle car goes to its home floor *)
CONFIGURATION BUILDING
VAR_GLOBAL CONSTANT CARS : INT := 2; FLOORS : INT := 8; SLOTS : INT := 16; END_VAR
VAR_GLOBAL
  OUT : ARRAY [0..2] OF BOOL;  (* for each car: it is out *)
END_VAR
RESOURCE CABINET ON PLC
TASK CAR1 (INTERVAL := T#100ms, PRIORITY := 1);
TASK CAR2 (INTERVAL := T#100ms, PRIORITY := 1);
TASK GROUP (INTERVAL := T#100ms, PRIORITY := 1);
PROGRAM P1 WITH CAR1 : COLLECTIVE_CAR;
PROGRAM P2 WITH CAR2 : COLLECTIVE_CAR;
PROGRAM P3 WITH GROUP : NEAREST_CAR;
END_RESOURCE
END_CONFIGURATION
