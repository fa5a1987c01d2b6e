(* Collective destination control for 4 cars, 16 floors and 32 call slots, made by

     tools/group 4 16 32 --dispatch estimated

   Passengers enter their destination at the landing. The call waits in a call slot until
   GROUP assigns it to a car, by a store into ASSIGN. The car collects the calls that are
   assigned to it, up to CAPACITY passengers at a time, and frees the slot of a call by SERVE
   once its passenger is out. docs/GROUPS.md says more.
   Try `sim FILE 600 1:1:16 1:16:1`: calls from the lowest floor to the highest, and back. *)
(* WAY is INT (-1..1): DOWN is -1, STILL is 0, UP is 1 *)  (* of a motor, and of a car *)

(* The calls of one car. In each scan the car program calls this block for each call slot,
   from slot 1 on. After the last slot its outputs say where the car has work. *)
(* LONG_WAIT is 9999 *)  (* scans *)
FUNCTION_BLOCK CALLS_OF_CAR
VAR_INPUT
  CAR : INT (1..4);  (* the number of the car *)
  FLOOR : INT (1..16);  (* the floor at which it is *)
  OPENED_HERE : BOOL;  (* it stands level with this floor, its door wholly open *)
  SHUT : BOOL;  (* its door is wholly shut *)
  ADMITS : BOOL;  (* passengers may get in *)
  IS_OUT : BOOL;  (* it is out: it gives back the calls of those who are not in the car *)
  SLOT : INT (1..32);  (* the call slot that is looked at *)
  ASSIGNED : INT (0..4);  (* the car that its call is assigned to; 0 for none *)
  GETS_ON : INT (0..16);  (* the floors of the call; 0 in a free slot *)
  GETS_OFF : INT (0..16);
END_VAR
VAR_OUTPUT
  ABOVE : BOOL;  (* there is work above, or a passenger at this floor goes up *)
  BELOW : BOOL;  (* there is work below, or a passenger at this floor goes down *)
  UP_HERE : BOOL;  (* a passenger waits at this floor and goes up *)
  DOWN_HERE : BOOL;  (* a passenger waits at this floor and goes down *)
  OUT_HERE : BOOL;  (* a passenger in the car gets out at this floor *)
  MOVED : BOOL;  (* somebody got in or out in this scan *)
  SERVED : INT (0..32);  (* the slot of the passenger who got out in this scan, or that is given back; 0 for none *)
  LOAD : INT (0..8);  (* how many passengers are in the car *)
  PASSING : TIME;  (* how long the door has to be open for all who pass it at this stop *)
END_VAR
VAR
  ABOARD : ARRAY [1..32] OF BOOL;  (* for each slot: its passenger is in the car *)
  WAITED : ARRAY [1..32] OF INT (0..9999);  (* for how many scans they have waited for it *)
  LONGEST : INT (0..9999);  (* the longest wait of those who wait at this floor in this scan *)
  FIRST : INT (0..9999);  (* and in the scan before: who has waited that long gets in first *)
  GOING_ON : INT (0..8);  (* how many are in the car and go on from this floor *)
  KEPT : INT (0..8);  (* and in the scan before: if that is all, nobody else has room *)
END_VAR

(* Slot 1 begins anew. *)
LD SLOT
EQ 1
JMPCN ELSE_54
LD FALSE
ST ABOVE
ST BELOW
ST UP_HERE
ST DOWN_HERE
ST OUT_HERE
ST MOVED
LD LONGEST
ST FIRST
LD GOING_ON
ST KEPT
LD 0
ST LONGEST
ST GOING_ON
ST SERVED
LD SHUT
SEL PASSING, T#0s
ST PASSING
ELSE_54:

(* Is the call assigned to this car? If not, nobody in the car belongs to it. *)
LD ASSIGNED
NE CAR
JMPCN ELSE_72
LD FALSE
ST ABOARD[SLOT]
LD 0
ST WAITED[SLOT]
RET
ELSE_72:

LD ABOARD[SLOT]
JMPC END_IF_104
(* A car that is out gives the call back, one a scan. The passenger presses again, and another car
   gets the new call. *)
LD IS_OUT
JMPCN ELSE_81
LD 0
ST WAITED[SLOT]
LD SERVED
EQ 0
SEL SERVED, SLOT
ST SERVED
RET
ELSE_81:

(* The passenger waits at the landing: there is the work. *)
LD WAITED[SLOT]
MIN 9998
ADD 1
ST WAITED[SLOT]
LD GETS_ON
GT FLOOR
JMPCN ELSE_91
LD TRUE
ST ABOVE
RET
ELSE_91:
LD GETS_ON
LT FLOOR
JMPCN ELSE_94
LD TRUE
ST BELOW
RET
ELSE_94:
LD ADMITS
RETCN
(* A car that has to leave doesn't take them now. *)

(* Nor does a full one from which nobody gets out here. Who has waited longest gets in first, so
   nobody is left behind again and again. *)
LD LOAD
LT 8
JMPCN ELSE_104
LD WAITED[SLOT]
GE FIRST
AND OPENED_HERE
JMPCN ELSE_104
(* The door is wholly open: they get in, and from now on the work is at their destination. *)
LD LOAD
ADD 1
ST LOAD
LD TRUE
ST ABOARD[SLOT]
ST MOVED
LD PASSING
MIN T#1m
ADD T#1s
ST PASSING
JMP END_IF_104
ELSE_104:
LD WAITED[SLOT]
MAX LONGEST
ST LONGEST
LD KEPT
LT 8
RETCN
LD GETS_OFF
LT FLOOR
JMPCN ELSE_113
LD TRUE
ST DOWN_HERE
ST BELOW
RET
ELSE_113:
LD TRUE
ST UP_HERE
ST ABOVE
RET
END_IF_104:

(* The passenger is in the car. *)
LD GETS_OFF
NE FLOOR
SEL 0, 1
ADD GOING_ON
MIN 8
ST GOING_ON
LD GETS_OFF
GT FLOOR
JMPCN ELSE_127
LD TRUE
ST ABOVE
RET
ELSE_127:
LD GETS_OFF
LT FLOOR
JMPCN ELSE_129
LD TRUE
ST BELOW
RET
ELSE_129:
LD TRUE
ST OUT_HERE

(* They are at their destination. With the door wholly open they get out: one passenger a scan,
   since a car serves one call slot a scan. *)
LD SERVED
EQ 0
AND OPENED_HERE
RETCN
LD SLOT
ST SERVED
LD LOAD
MAX 1
SUB 1
ST LOAD
LD FALSE
ST ABOARD[SLOT]
LD TRUE
ST MOVED
LD PASSING
MIN T#1m
ADD T#1s
ST PASSING
END_FUNCTION_BLOCK

(* The car program: collective control. All cars run it, each with variables of its own.
   A car stops on its way for each passenger who gets out, and for each who waits and goes the
   same way. It keeps its direction as long as it has work that way, and then turns. *)
PROGRAM COLLECTIVE_CAR
VAR
  CALLS : CALLS_OF_CAR;  (* the calls that are assigned to this car *)
  DIRECTION : INT (-1..1);  (* the way of the car *)
  ABOVE : BOOL;  (* the car has to go up, for a call or to its home floor *)
  BELOW : BOOL;  (* the car has to go down *)
  AHEAD : BOOL;  (* the car has to go on in its direction *)
  HERE : BOOL;  (* a passenger wants to get in or out at this floor *)
  CAME_FROM : INT (0..16);  (* the landing that the car has left; 0 for none *)
  STANDS_OPEN : BOOL;  (* the door is wholly open *)
  OVER : BOOL;  (* the door has been open long enough *)
  OPENS : BOOL;  (* the door is to be open, also while LEVEL is lost at an open door *)
  RECALLED : BOOL;  (* there was a fire recall in the scan before *)
  DWELL : TON;  (* how long nobody has passed the open door *)
  PASSAGE : TON;  (* how long the door has been open *)
  HELD : TON;  (* how long the car has stood though it has work *)
  LET_OUT : BOOL;  (* the door has been open for whoever was in the car at the start *)
  WAS_OUT : BOOL;  (* the car was out in the scan before *)
  STUCK : TON;  (* how long the car has not left a landing though its motor runs *)
  LOST : TON;  (* how long the car has found no landing *)
  REST : TP;  (* then it stands for a while before it tries again *)
  IDLE : TON;  (* how long the car has had no call *)
  HOME : INT (1..16);  (* the floor where it waits then *)
  STARTED : BOOL;  (* its first opening of the door is over *)
END_VAR
VAR_EXTERNAL
  OUT : ARRAY [0..4] OF BOOL;  (* for each car: it is out; GROUP says so *)
  UP_PEAK : BOOL;  (* most calls come from floor 1; GROUP says so *)
END_VAR

(* Fire: each car goes down to floor 1. Interlock rule 6 lets no car run up. The calls stay as
   they are, and the car goes on with them after the recall. *)
LD FIRE
JMPCN ELSE_182
LD TRUE
ST RECALLED
CAL DWELL(IN := FALSE)
CAL PASSAGE(IN := FALSE)
CAL HELD(IN := FALSE)
CAL STUCK(IN := FALSE)
CAL LOST(IN := FALSE)
CAL IDLE(IN := FALSE)
LD 0
ST DIRECTION
ST CAME_FROM
LD POS
EQ 1
AND LEVEL
JMPCN ELSE_192
(* At floor 1 it stands with its door open, as long as FIRE holds. *)
LD 0
ST MOTOR
LD TRUE
ST OPENS
JMP END_IF_192
ELSE_192:
LD FALSE
ST OPENS
LD LOCKED
ANDN BOTTOM
SEL 0, -1
ST MOTOR
END_IF_192:
LD OPENS
ST OPEN
RET
ELSE_182:

(* A switch that sticks opens no door: OPENED counts only while the door isn't shut. *)
LD OPENED
ANDN LOCKED
ST STANDS_OPEN

(* Where is work? The block looks at all call slots. A passenger gets in or out where the car
   stands level with a floor, its door wholly open; not yet in the first scan after a recall,
   since the block then has to find out who has waited longest. *)
AND LEVEL
ANDN RECALLED
ST CALLS.OPENED_HERE
LD FALSE
ST RECALLED
LD CARNO
ST CALLS.CAR
LD POS
ST CALLS.FLOOR
LD LOCKED
ST CALLS.SHUT
LDN HELD.Q
ST CALLS.ADMITS
LD OUT[CARNO]
ST CALLS.IS_OUT
CAL CALLS(SLOT := 1, ASSIGNED := CALLCAR[1], GETS_ON := CALLFROM[1], GETS_OFF := CALLTO[1])
CAL CALLS(SLOT := 2, ASSIGNED := CALLCAR[2], GETS_ON := CALLFROM[2], GETS_OFF := CALLTO[2])
CAL CALLS(SLOT := 3, ASSIGNED := CALLCAR[3], GETS_ON := CALLFROM[3], GETS_OFF := CALLTO[3])
CAL CALLS(SLOT := 4, ASSIGNED := CALLCAR[4], GETS_ON := CALLFROM[4], GETS_OFF := CALLTO[4])
CAL CALLS(SLOT := 5, ASSIGNED := CALLCAR[5], GETS_ON := CALLFROM[5], GETS_OFF := CALLTO[5])
CAL CALLS(SLOT := 6, ASSIGNED := CALLCAR[6], GETS_ON := CALLFROM[6], GETS_OFF := CALLTO[6])
CAL CALLS(SLOT := 7, ASSIGNED := CALLCAR[7], GETS_ON := CALLFROM[7], GETS_OFF := CALLTO[7])
CAL CALLS(SLOT := 8, ASSIGNED := CALLCAR[8], GETS_ON := CALLFROM[8], GETS_OFF := CALLTO[8])
CAL CALLS(SLOT := 9, ASSIGNED := CALLCAR[9], GETS_ON := CALLFROM[9], GETS_OFF := CALLTO[9])
CAL CALLS(SLOT := 10, ASSIGNED := CALLCAR[10], GETS_ON := CALLFROM[10], GETS_OFF := CALLTO[10])
CAL CALLS(SLOT := 11, ASSIGNED := CALLCAR[11], GETS_ON := CALLFROM[11], GETS_OFF := CALLTO[11])
CAL CALLS(SLOT := 12, ASSIGNED := CALLCAR[12], GETS_ON := CALLFROM[12], GETS_OFF := CALLTO[12])
CAL CALLS(SLOT := 13, ASSIGNED := CALLCAR[13], GETS_ON := CALLFROM[13], GETS_OFF := CALLTO[13])
CAL CALLS(SLOT := 14, ASSIGNED := CALLCAR[14], GETS_ON := CALLFROM[14], GETS_OFF := CALLTO[14])
CAL CALLS(SLOT := 15, ASSIGNED := CALLCAR[15], GETS_ON := CALLFROM[15], GETS_OFF := CALLTO[15])
CAL CALLS(SLOT := 16, ASSIGNED := CALLCAR[16], GETS_ON := CALLFROM[16], GETS_OFF := CALLTO[16])
CAL CALLS(SLOT := 17, ASSIGNED := CALLCAR[17], GETS_ON := CALLFROM[17], GETS_OFF := CALLTO[17])
CAL CALLS(SLOT := 18, ASSIGNED := CALLCAR[18], GETS_ON := CALLFROM[18], GETS_OFF := CALLTO[18])
CAL CALLS(SLOT := 19, ASSIGNED := CALLCAR[19], GETS_ON := CALLFROM[19], GETS_OFF := CALLTO[19])
CAL CALLS(SLOT := 20, ASSIGNED := CALLCAR[20], GETS_ON := CALLFROM[20], GETS_OFF := CALLTO[20])
CAL CALLS(SLOT := 21, ASSIGNED := CALLCAR[21], GETS_ON := CALLFROM[21], GETS_OFF := CALLTO[21])
CAL CALLS(SLOT := 22, ASSIGNED := CALLCAR[22], GETS_ON := CALLFROM[22], GETS_OFF := CALLTO[22])
CAL CALLS(SLOT := 23, ASSIGNED := CALLCAR[23], GETS_ON := CALLFROM[23], GETS_OFF := CALLTO[23])
CAL CALLS(SLOT := 24, ASSIGNED := CALLCAR[24], GETS_ON := CALLFROM[24], GETS_OFF := CALLTO[24])
CAL CALLS(SLOT := 25, ASSIGNED := CALLCAR[25], GETS_ON := CALLFROM[25], GETS_OFF := CALLTO[25])
CAL CALLS(SLOT := 26, ASSIGNED := CALLCAR[26], GETS_ON := CALLFROM[26], GETS_OFF := CALLTO[26])
CAL CALLS(SLOT := 27, ASSIGNED := CALLCAR[27], GETS_ON := CALLFROM[27], GETS_OFF := CALLTO[27])
CAL CALLS(SLOT := 28, ASSIGNED := CALLCAR[28], GETS_ON := CALLFROM[28], GETS_OFF := CALLTO[28])
CAL CALLS(SLOT := 29, ASSIGNED := CALLCAR[29], GETS_ON := CALLFROM[29], GETS_OFF := CALLTO[29])
CAL CALLS(SLOT := 30, ASSIGNED := CALLCAR[30], GETS_ON := CALLFROM[30], GETS_OFF := CALLTO[30])
CAL CALLS(SLOT := 31, ASSIGNED := CALLCAR[31], GETS_ON := CALLFROM[31], GETS_OFF := CALLTO[31])
CAL CALLS(SLOT := 32, ASSIGNED := CALLCAR[32], GETS_ON := CALLFROM[32], GETS_OFF := CALLTO[32])
LD CALLS.ABOVE
ST ABOVE
LD CALLS.BELOW
ST BELOW

(* The call of the passenger who got out is served, or a call is given back: its slot becomes free. *)
LD CALLS.SERVED
ST SERVE

(* The door stays open until nobody has passed it for the dwell time, and as long as all who pass
   it at this stop need. *)
LD STANDS_OPEN
ANDN CALLS.MOVED
ST DWELL.IN
CAL DWELL(PT := T#3s)
CAL PASSAGE(IN := STANDS_OPEN, PT := CALLS.PASSING)
LD DWELL.Q
AND PASSAGE.Q
ST OVER

(* A car that has work doesn't stand for ever: after this time it takes no more passengers, until
   it has left. *)
LD MOTOR
EQ 0
AND( ABOVE
OR BELOW
)
ST HELD.IN
CAL HELD(PT := T#20s)

(* After a start of the controller nobody knows who is in the car. So it goes to the next landing, if
   it is at none, and opens its door there once for the dwell time; then it works as always. So does a
   car that comes back after it was out, and one that doesn't leave a landing though its motor runs. *)
LD MOTOR
NE 0
AND LEVEL
AND( POS
EQ CAME_FROM
)
ST STUCK.IN
CAL STUCK(PT := T#30s)
LD LET_OUT
OR OVER
ANDN STUCK.Q
ANDN( WAS_OUT
ANDN OUT[CARNO]
)
ST LET_OUT
LD OUT[CARNO]
ST WAS_OUT

(* A car that finds no landing for some time has lost its drive or its sensors. It stands for a while,
   so that GROUP takes it out, and then tries again. *)
LDN LEVEL
ANDN REST.Q
AND( MOTOR
NE 0
OR TOP
OR BOTTOM
)
ST LOST.IN
CAL LOST(PT := T#30s)
CAL REST(IN := LOST.Q, PT := T#1m23s)

(* A car without a call goes to its home floor after some time. The homes are spread over the
   building: the lowest floor in each of as many parts as there are cars. The first opening of the
   door is no call. *)
LD LET_OUT
AND LOCKED
S STARTED
LD UP_PEAK
SEL T#15s, T#1s
ST IDLE.PT
LD ABOVE
OR BELOW
OR CALLS.OUT_HERE
OR( STARTED
ANDN LOCKED
)
STN IDLE.IN
CAL IDLE
LD IDLE.Q
JMPCN ELSE_254
LD CARNO
SUB 1
MUL 16
DIV 4
ADD 1
ST HOME
(* In an up-peak it goes to floor 1 instead. *)
LD UP_PEAK
SEL HOME, 1
ST HOME
LD POS
LT HOME
ST ABOVE
LD POS
GT HOME
ST BELOW
ELSE_254:

(* A car that is out and has no call goes to another landing: once it has moved, it is back. *)
LD OUT[CARNO]
ANDN ABOVE
ANDN BELOW
ANDN CALLS.OUT_HERE
JMPCN ELSE_263
LD POS
LT 16
ST ABOVE
LDN ABOVE
ST BELOW
ELSE_263:

LD REST.Q
ANDN LEVEL
JMPCN ELSE_268
LD 0
ST MOTOR
RET
ELSE_268:
LD MOTOR
NE 0
JMPCN ELSE_270
(* It runs. Between two landings it runs on, and at the landing from which it comes. *)
LD MOTOR
ST DIRECTION
LD POS
EQ CAME_FROM
AND LET_OUT
ORN LEVEL
RETC

(* It is level with a floor. It stops where somebody gets out, or waits and goes the same way,
   and where no work is ahead. *)
LD DIRECTION
EQ 1
SEL BELOW, ABOVE
ST AHEAD
LD DIRECTION
EQ 1
SEL CALLS.DOWN_HERE, CALLS.UP_HERE
OR CALLS.OUT_HERE
ORN LET_OUT
ST HERE
ORN AHEAD
RETCN
LD 0
ST MOTOR
LD HERE
ST OPENS
ST OPEN
RET
ELSE_270:
LD LEVEL
JMPCN ELSE_286
(* It stands. At a landing it keeps its direction as long as there is work that way. *)
LD DIRECTION
EQ -1
ORN ABOVE
AND BELOW
JMPCN ELSE_288
LD -1
ST DIRECTION
JMP END_IF_288
ELSE_288:
LD ABOVE
SEL 0, 1
ST DIRECTION
END_IF_288:

(* The door opens for those who get in or out, and stays open until its time is over. While LEVEL
   is lost the interlock takes the open command away: OPENS keeps the wish. *)
LD DIRECTION
EQ 1
SEL CALLS.DOWN_HERE, CALLS.UP_HERE
OR CALLS.OUT_HERE
ORN LET_OUT
ST HERE
LD OPENS
ANDN OVER
OR HERE
ST OPENS
ST OPEN

(* Then the door shuts. Once it is locked the car runs, if it has work. *)
LDN OPENS
AND LOCKED
RETCN
LD POS
ST CAME_FROM
LD DIRECTION
ST MOTOR
RET
ELSE_286:
LD LOCKED
RETCN
(* It stands between two landings, after a start, a fire recall or a limit of running cars. It runs
   on as it has run, after a start or a recall down; from beyond an end of the shaft it runs back. *)
LD 0
ST CAME_FROM
LD FALSE
ST OPENS
LD DIRECTION
EQ 0
SEL DIRECTION, -1
ST DIRECTION
LD BOTTOM
SEL DIRECTION, 1
ST DIRECTION
LD TOP
SEL DIRECTION, -1
ST DIRECTION
ST MOTOR
END_PROGRAM

(* The stops of a route lie in a circle of twice as many places as floors: the floors from 1 to
   FLOORS, where the car stops on its way up, and back from FLOORS to 1, where it stops on its
   way down. *)
FUNCTION PLACE_OF : INT (1..32)
VAR_INPUT
  FLOOR : INT (0..16);
  IS_UP : BOOL;  (* on the way up *)
END_VAR

LD IS_UP
JMPCN ELSE_332
LD FLOOR
MAX 1
ST PLACE_OF
RET
ELSE_332:
LD 33
SUB FLOOR
MIN 32
ST PLACE_OF
END_FUNCTION

(* The stops of a car, as a new call meets them. This block is called for each stop of each
   passenger. *)
FUNCTION_BLOCK STOPS_OF_ROUTE
VAR_INPUT
  ANEW : BOOL;  (* forget all stops *)
  PLACE : INT (1..32);  (* the place of the stop in the circle *)
  AHEAD : INT (0..48);  (* how many places it is ahead of the car *)
  IN_PLACE : INT (1..32);  (* where the new passenger would get in, *)
  IN_AHEAD : INT (0..48);  (* and how many places ahead of the car that is *)
  OUT_PLACE : INT (1..32);  (* where they would get out, *)
  OUT_AHEAD : INT (0..48);  (* and how many places ahead of the car that is *)
END_VAR
VAR_OUTPUT
  BEFORE : INT (0..32);  (* how many stops the car makes before they get in, *)
  BETWEEN : INT (0..32);  (* and from then on, before they get out *)
  LATER_IN : INT (0..64);  (* how many get in or out after the stop where they get in, *)
  LATER_OUT : INT (0..64);  (* and after the one where they get out *)
  SHARES_IN : BOOL;  (* the car stops anyway where they get in, *)
  SHARES_OUT : BOOL;  (* and where they get out *)
END_VAR
VAR
  STOP : ARRAY [1..32] OF BOOL;  (* for each place: the car stops there *)
END_VAR

(* A new call: nothing is counted yet. *)
LD ANEW
JMPCN ELSE_365
LD 0
ST BEFORE
ST BETWEEN
ST LATER_IN
ST LATER_OUT
LD FALSE
ST SHARES_IN
ST SHARES_OUT
ST STOP[1]
ST STOP[2]
ST STOP[3]
ST STOP[4]
ST STOP[5]
ST STOP[6]
ST STOP[7]
ST STOP[8]
ST STOP[9]
ST STOP[10]
ST STOP[11]
ST STOP[12]
ST STOP[13]
ST STOP[14]
ST STOP[15]
ST STOP[16]
ST STOP[17]
ST STOP[18]
ST STOP[19]
ST STOP[20]
ST STOP[21]
ST STOP[22]
ST STOP[23]
ST STOP[24]
ST STOP[25]
ST STOP[26]
ST STOP[27]
ST STOP[28]
ST STOP[29]
ST STOP[30]
ST STOP[31]
ST STOP[32]
RET
ELSE_365:

(* Is this passenger delayed where the car stops for the new one? *)
LD AHEAD
GT IN_AHEAD
SEL 0, 1
ADD LATER_IN
MIN 64
ST LATER_IN
LD AHEAD
GT OUT_AHEAD
SEL 0, 1
ADD LATER_OUT
MIN 64
ST LATER_OUT

(* Several passengers at one place make one stop. *)
LD STOP[PLACE]
RETC
LD TRUE
ST STOP[PLACE]
LD PLACE
EQ IN_PLACE
S SHARES_IN
LD PLACE
EQ OUT_PLACE
S SHARES_OUT

(* Is it before the new passenger gets in, or before they get out? *)
LD AHEAD
LT IN_AHEAD
SEL 0, 1
ADD BEFORE
MIN 32
ST BEFORE
LD AHEAD
GT IN_AHEAD
AND( AHEAD
LT OUT_AHEAD
)
SEL 0, 1
ADD BETWEEN
MIN 32
ST BETWEEN
END_FUNCTION_BLOCK

(* The route of one car, as GROUP sees it, and what a new call would cost there. In each scan GROUP
   calls this block for each call slot, from slot 1 on. After the last slot COST is there. All
   times are counted in scans. *)
(* MOST_MEASURED is 20000 *)  (* scans, floors or stops; from half of it on they are halved *)
(* LONG_STOP is 600 *)  (* a longer one is no stop for passengers *)
(* SHORT_STOP is 10 *)  (* nor is a shorter one *)
(* LONG is 8000 *)  (* all times are cut to this *)
FUNCTION_BLOCK ROUTE_OF_CAR
VAR_INPUT
  CAR : INT (1..4);  (* the number of the car *)
  FLOOR : INT (1..16);  (* the floor at which it is *)
  RUNS : INT (-1..1);  (* its motor *)
  ASKED : BOOL;  (* there is a new call *)
  NEW_FROM : INT (0..16);  (* the floors of the new call *)
  NEW_TO : INT (0..16);
  CROWD : INT (0..32);  (* how many calls each car has, on average *)
  SLOT : INT (1..32);  (* the call slot that is looked at *)
  ASSIGNED : INT (0..4);  (* the car that its call is assigned to; 0 for none *)
  GETS_ON : INT (0..16);  (* the floors of the call; 0 in a free slot *)
  GETS_OFF : INT (0..16);
END_VAR
VAR_OUTPUT
  COST : INT (0..32767);  (* what the new call would cost in this car *)
  CALLS : INT (0..32);  (* how many calls are assigned to this car *)
END_VAR
VAR
  DIRECTION : INT (-1..1);  (* the way of the car *)
  ABOVE : BOOL;  (* it has work above *)
  BELOW : BOOL;  (* it has work below *)
  PLACE : INT (1..32);  (* its place in the circle of stops *)
  STOPS : STOPS_OF_ROUTE;  (* its stops, as the new call meets them *)
  ABOARD : ARRAY [1..32] OF BOOL;  (* for each slot: its passenger is in the car *)
  LOAD : INT (0..32);  (* how many are in the car, as far as the slots have been looked at *)
  FILLED : INT (0..32);  (* how many are in the car in all *)
  BESIDE : INT (0..32);  (* how many would be in the car where the new passenger gets in *)
  HIGHEST : INT (0..16);  (* of the floors of its calls *)
  LOWEST : INT (0..16);
  IN_PLACE : INT (1..32);  (* where in the circle the new passenger gets in, *)
  IN_AHEAD : INT (0..48);  (* and how many places ahead of the car *)
  OUT_PLACE : INT (1..32);  (* where they get out, *)
  OUT_AHEAD : INT (0..48);  (* and how many places ahead of the car *)
  THERE : INT (1..32);  (* the place of a stop *)
  FIRST_AHEAD : INT (0..48);  (* how many places ahead of the car a passenger gets in, *)
  SECOND_AHEAD : INT (0..48);  (* and gets out *)
  DISTANCE : INT (0..48);  (* how many floors the car runs until the new passenger gets in *)
  LONGER : INT (0..16);  (* by how many floors their call makes its way longer *)
  STOP_IN : INT (0..600);  (* the stop that it makes for them to get in; 0 where it stops anyway *)
  STOP_OUT : INT (0..2000);  (* and to get out, with the longer way *)
  WAITING : INT (0..8000);  (* how long they wait *)
  RIDING : INT (0..8000);  (* how long they are in the car *)
  DELAYING : INT (0..8000);  (* by how much the others of this car are delayed, together *)
  CROWDING : INT (0..8000);  (* by how much those who come later are delayed, together *)
  FLOOR_TIME : INT (1..100);  (* how long the car runs for a floor *)
  STOP_TIME : INT (1..600);  (* how long a stop lasts *)
  RUN_TIME : INT (0..20000) := 240;  (* how long it has run, *)
  RUN_FLOORS : INT (0..20000) := 16;  (* and how many floors *)
  STOOD : INT (0..601);  (* how long it has stood at its present stop *)
  STOOD_TIME : INT (0..20000) := 240;  (* how long it has stood at its stops, *)
  STOPS_MADE : INT (0..20000) := 4;  (* and how many stops that were *)
  WAS_AT : INT (1..16);  (* the floor at which it was in the scan before *)
  HELD1 : BOOL;
END_VAR

(* Slot 1 begins anew. *)
LD SLOT
EQ 1
JMPCN ELSE_514
(* How long does the car take for a floor, and for a stop? It is measured, so that nothing has to
   be known of its drive and door. Halved now and then, the sums forget. *)
LD RUNS
ABS
ADD RUN_TIME
MIN 20000
ST RUN_TIME
LD FLOOR
SUB WAS_AT
ABS
ADD RUN_FLOORS
MIN 20000
ST RUN_FLOORS
LD FLOOR
ST WAS_AT
LD RUN_TIME
GE 10000
JMPCN ELSE_466
LD RUN_TIME
DIV 2
ST RUN_TIME
LD RUN_FLOORS
DIV 2
ST RUN_FLOORS
ELSE_466:
LD RUN_FLOORS
MAX 1
ST RUN_FLOORS
LD RUN_TIME
DIV RUN_FLOORS
MAX 1
MIN 100
ST FLOOR_TIME

(* A stop counts once the car has left it, unless it was very short or long: a car that only
   turns, or has had no call, makes no stop. *)
LD RUNS
EQ 0
AND( CALLS
NE 0
)
JMPCN ELSE_475
LD STOOD
MIN 600
ADD 1
ST STOOD
JMP END_IF_475
ELSE_475:
LD STOOD
GE 10
JMPCN ELSE_481
LD STOOD
LE 600
JMPCN ELSE_481
LD RUNS
NE 0
JMPCN ELSE_481
LD STOOD_TIME
ADD STOOD
MIN 20000
ST STOOD_TIME
LD STOPS_MADE
MIN 19999
ADD 1
ST STOPS_MADE
LD STOOD_TIME
GE 10000
JMPCN ELSE_481
LD STOOD_TIME
DIV 2
ST STOOD_TIME
LD STOPS_MADE
DIV 2
ST STOPS_MADE
ELSE_481:
LD 0
ST STOOD
END_IF_475:
LD STOPS_MADE
MAX 1
ST STOPS_MADE
LD STOOD_TIME
DIV STOPS_MADE
MAX 1
MIN 600
ST STOP_TIME

(* Which way does the car go? A car that stands goes on in its direction as long as it has work
   there. ABOVE and BELOW are those of the scan before. *)
LD RUNS
NE 0
JMPCN ELSE_493
LD RUNS
ST DIRECTION
JMP END_IF_493
ELSE_493:
LD DIRECTION
EQ -1
ORN ABOVE
AND BELOW
JMPCN ELSE_495
LD -1
ST DIRECTION
JMP END_IF_493
ELSE_495:
LD ABOVE
SEL 0, 1
ST DIRECTION
END_IF_493:
LD DIRECTION
NE -1
ST HELD1
LD FLOOR
PLACE_OF HELD1
ST PLACE

(* Nothing is known of its calls yet. *)
LD LOAD
ST FILLED
LD 0
ST LOAD
ST CALLS
ST BESIDE
LD FALSE
ST ABOVE
ST BELOW
LD FLOOR
ST HIGHEST
ST LOWEST

(* Where in the circle are the floors of the new call, and how far ahead of the car? A car that
   runs is too late for the floor at which it is: DISTANCE is 1 then. *)
LD ASKED
JMPCN ELSE_514
LD NEW_TO
GT NEW_FROM
ST HELD1
LD NEW_FROM
PLACE_OF HELD1
ST IN_PLACE
LD NEW_TO
GT NEW_FROM
ST HELD1
LD NEW_TO
PLACE_OF HELD1
ST OUT_PLACE
LD RUNS
ABS
ST DISTANCE
LD IN_PLACE
SUB PLACE
SUB DISTANCE
ADD 32
MOD 32
ADD DISTANCE
ST IN_AHEAD
LD NEW_TO
SUB NEW_FROM
ABS
ADD IN_AHEAD
MIN 48
ST OUT_AHEAD
CAL STOPS(ANEW := TRUE, IN_PLACE := IN_PLACE, IN_AHEAD := IN_AHEAD, OUT_PLACE := OUT_PLACE,
  OUT_AHEAD := OUT_AHEAD)
ELSE_514:

(* Is the call of this slot assigned to this car? *)
LD ASSIGNED
NE CAR
JMPCN ELSE_525
LD FALSE
ST ABOARD[SLOT]
JMP ELSE_560
ELSE_525:
LD CALLS
MIN 31
ADD 1
ST CALLS

(* Is its passenger in the car? They are from the scan on in which it stands at their landing, goes
   their way and has room. GROUP sees no doors, so it can't know better. *)
LD GETS_ON
EQ FLOOR
ANDN ABOARD[SLOT]
AND( RUNS
EQ 0
)
JMPCN ELSE_532
LD FILLED
LT 8
JMPCN ELSE_532
LD GETS_OFF
GT GETS_ON
SEL 1, -1
NE DIRECTION
JMPCN ELSE_532
LD TRUE
ST ABOARD[SLOT]
LD FILLED
MIN 31
ADD 1
ST FILLED
ELSE_532:

LD ABOARD[SLOT]
JMPCN ELSE_538
(* They are in the car: it has work at their destination, and stops there. *)
LD LOAD
MIN 31
ADD 1
ST LOAD
LD GETS_OFF
GT FLOOR
S ABOVE
LD GETS_OFF
LT FLOOR
S BELOW
LD GETS_OFF
MAX HIGHEST
ST HIGHEST
LD GETS_OFF
MIN LOWEST
ST LOWEST
LD ASKED
JMPCN ELSE_560
LD GETS_OFF
GT FLOOR
ST HELD1
LD GETS_OFF
PLACE_OF HELD1
ST THERE
LD GETS_OFF
EQ FLOOR
SEL THERE, PLACE
ST THERE
SUB PLACE
ADD 32
MOD 32
ST SECOND_AHEAD
GT IN_AHEAD
SEL 0, 1
ADD BESIDE
MIN 32
ST BESIDE
CAL STOPS(ANEW := FALSE, PLACE := THERE, AHEAD := SECOND_AHEAD)
JMP ELSE_560
ELSE_538:
(* They wait: the car has work at their landing. *)
LD GETS_ON
GT FLOOR
OR ABOVE
OR( GETS_ON
EQ FLOOR
AND( GETS_OFF
GT GETS_ON
)
)
ST ABOVE
LD GETS_ON
LT FLOOR
OR BELOW
OR( GETS_ON
EQ FLOOR
AND( GETS_OFF
LT GETS_ON
)
)
ST BELOW
LD GETS_ON
MAX GETS_OFF
MAX HIGHEST
ST HIGHEST
LD GETS_ON
MIN GETS_OFF
MIN LOWEST
ST LOWEST
LD ASKED
JMPCN ELSE_560
(* It stops there for them, *)
LD GETS_OFF
GT GETS_ON
ST HELD1
LD GETS_ON
PLACE_OF HELD1
ST THERE
SUB PLACE
ADD 32
MOD 32
ST FIRST_AHEAD
CAL STOPS(ANEW := FALSE, PLACE := THERE, AHEAD := FIRST_AHEAD)

(* and at their destination. *)
LD GETS_OFF
SUB GETS_ON
ABS
ADD FIRST_AHEAD
MIN 48
ST SECOND_AHEAD
LD GETS_OFF
GT GETS_ON
ST HELD1
LD GETS_OFF
PLACE_OF HELD1
ST THERE
CAL STOPS(PLACE := THERE, AHEAD := SECOND_AHEAD)

(* Are they in the car where the new passenger gets in? *)
LD FIRST_AHEAD
LE IN_AHEAD
AND( SECOND_AHEAD
GT IN_AHEAD
)
SEL 0, 1
ADD BESIDE
MIN 32
ST BESIDE
ELSE_560:

(* After the last slot all stops are known. *)
LD SLOT
LT 32
ORN ASKED
RETC

(* By how many floors does the new call make the way of the car longer? *)
LD NEW_FROM
MAX NEW_TO
SUB HIGHEST
MAX 0
ST LONGER
LD LOWEST
SUB( NEW_FROM
MIN NEW_TO
)
MAX 0
ADD LONGER
MIN 16
ST LONGER

(* How many floors does the car run until they get in? The circle turns at the top and the bottom
   of the building; the car turns earlier where it has nothing to do there. *)
LD NEW_FROM
MAX HIGHEST
ST HIGHEST
LD NEW_FROM
MIN LOWEST
ST LOWEST
LD IN_AHEAD
ST DISTANCE
LD PLACE
LE 16
JMPCN PAST_591_2
LD PLACE
ADD IN_AHEAD
GT 16
JMPC PAST_591
PAST_591_2:
LD PLACE
ADD IN_AHEAD
GT 48
JMPCN ELSE_591
PAST_591:
LD HIGHEST
SUB 16
MUL 2
SUB 1
ADD DISTANCE
MAX 0
ST DISTANCE
ELSE_591:
LD PLACE
ADD IN_AHEAD
GT 32
JMPCN ELSE_594
LD LOWEST
MUL -2
ADD 1
ADD DISTANCE
MAX 0
MIN 48
ST DISTANCE
ELSE_594:

(* A car without calls runs straight there. *)
LD CALLS
EQ 0
JMPCN ELSE_599
LD FLOOR
SUB NEW_FROM
ABS
ST DISTANCE
ELSE_599:

(* How long do they wait? For the run, the stops before, and the rest of the present stop. *)
LD DISTANCE
MUL FLOOR_TIME
ADD( STOPS.BEFORE
MUL STOP_TIME
)
MIN 8000
ST WAITING
LD RUNS
EQ 0
AND( CALLS
NE 0
)
AND( IN_AHEAD
NE 0
)
JMPCN ELSE_605
LD STOP_TIME
SUB STOOD
MAX 0
ADD WAITING
MIN 8000
ST WAITING
ELSE_605:

(* If the car is full then, they wait for its next round trip as well. *)
LD BESIDE
GE 8
JMPCN ELSE_610
LD FLOOR_TIME
MUL 32
ADD( STOP_TIME
MUL 4
)
ADD WAITING
MIN 8000
ST WAITING
ELSE_610:

(* How long are they in the car? *)
LD NEW_TO
SUB NEW_FROM
ABS
MUL FLOOR_TIME
ADD( STOPS.BETWEEN
ADD 1
MUL STOP_TIME
)
MIN 8000
ST RIDING

(* What does the call cost the others in the car? Each new stop delays those after it, and so
   does a longer way. Where the car stands already they make no new stop. *)
LD IN_AHEAD
EQ 0
OR STOPS.SHARES_IN
SEL STOP_TIME, 0
ST STOP_IN
LD STOPS.SHARES_OUT
SEL STOP_TIME, 0
ADD( LONGER
MUL FLOOR_TIME
MIN 700
MUL 2
)
MIN 2000
ST STOP_OUT
LD STOPS.LATER_IN
MIN 12
MUL STOP_IN
ADD( STOPS.LATER_OUT
MIN 12
MUL STOP_OUT
)
MIN 8000
ST DELAYING

(* And what does it cost those who come later? The more calls each car has, the more does a longer
   round trip. So in a rush each car goes to few floors. *)
LD STOP_IN
ADD STOP_OUT
MUL( CROWD
MIN 12
)
DIV 16
MIN 8000
ST CROWDING

(* All together. What the others in the car lose counts for a part. *)
LD DELAYING
MUL 3
DIV 4
ADD WAITING
ADD RIDING
ADD CROWDING
ST COST
END_FUNCTION_BLOCK

(* Whether a car is out. GROUP calls this block for each car in each scan. A car with a call is out if it
   has not come to another floor for some time; once it has, it is back. *)
FUNCTION_BLOCK WATCH_OF_CAR
VAR_INPUT
  FLOOR : INT (1..16);  (* the floor at which it is *)
  RUNS : INT (-1..1);  (* its motor *)
  WORKS : BOOL;  (* it has a call, and neither a fire recall nor a limit keeps it *)
END_VAR
VAR_OUTPUT
  IS_OUT : BOOL;
END_VAR
VAR
  WAS_AT : INT (1..16);  (* the floor at which it was in the scan before *)
  MOVED : BOOL;  (* it is at another floor now *)
  RUNNING : TON;  (* how long its motor has run without that *)
  STANDING : TON;  (* how long it has had calls without that *)
END_VAR

LD FLOOR
NE WAS_AT
ST MOVED
LD FLOOR
ST WAS_AT
LD RUNS
NE 0
AND WORKS
ANDN MOVED
ST RUNNING.IN
CAL RUNNING(PT := T#30s)
LD WORKS
ANDN MOVED
ST STANDING.IN
CAL STANDING(PT := T#53s)
LD IS_OUT
OR RUNNING.Q
OR STANDING.Q
ANDN MOVED
ST IS_OUT
END_FUNCTION_BLOCK

(* The group program: a waiting call is assigned to the car in which it costs least time, of its
   passenger and of the others. *)
PROGRAM ESTIMATED
VAR
  WAITING : INT (0..32);  (* the call slot that is handled; 0 for none *)
  ASKED : BOOL;  (* there is a call to be assigned *)
  NEW : INT (1..32);  (* its slot *)
  ALL : INT (0..128);  (* how many calls the cars have together *)
  CROWD : INT (0..32);  (* and each of them, on average *)
  ROUTE1 : ROUTE_OF_CAR;  (* the route of car 1 *)
  ROUTE2 : ROUTE_OF_CAR;  (* the route of car 2 *)
  ROUTE3 : ROUTE_OF_CAR;  (* the route of car 3 *)
  ROUTE4 : ROUTE_OF_CAR;  (* the route of car 4 *)
  LEAST : INT (0..32767);  (* the least cost *)
  CHOSEN : INT (0..4);  (* the car that gets the call *)
  FROM_MAIN : INT (0..100);  (* how many of the last calls came from floor 1, of 100 *)
  WORKS : ARRAY [0..4] OF BOOL;  (* for each car: it has a call; at 0 for the slots without a car *)
  WATCH1 : WATCH_OF_CAR;  (* whether car 1 is out *)
  WATCH2 : WATCH_OF_CAR;  (* whether car 2 is out *)
  WATCH3 : WATCH_OF_CAR;  (* whether car 3 is out *)
  WATCH4 : WATCH_OF_CAR;  (* whether car 4 is out *)
  HELD1 : INT;
END_VAR
VAR_EXTERNAL
  OUT : ARRAY [0..4] OF BOOL;  (* for each car: it is out; the cars see it *)
  UP_PEAK : BOOL;  (* most calls come from floor 1; the cars see it *)
END_VAR

(* Which cars are out? They get no call. *)
LD FALSE
ST WORKS[0]
ST WORKS[1]
ST WORKS[2]
ST WORKS[3]
ST WORKS[4]
LD RUNLIMIT
GT 0
ANDN FIRE
JMPCN ELSE_688
LD CALLCAR[1]
ST HELD1
LD TRUE
ST WORKS[HELD1]
LD CALLCAR[2]
ST HELD1
LD TRUE
ST WORKS[HELD1]
LD CALLCAR[3]
ST HELD1
LD TRUE
ST WORKS[HELD1]
LD CALLCAR[4]
ST HELD1
LD TRUE
ST WORKS[HELD1]
LD CALLCAR[5]
ST HELD1
LD TRUE
ST WORKS[HELD1]
LD CALLCAR[6]
ST HELD1
LD TRUE
ST WORKS[HELD1]
LD CALLCAR[7]
ST HELD1
LD TRUE
ST WORKS[HELD1]
LD CALLCAR[8]
ST HELD1
LD TRUE
ST WORKS[HELD1]
LD CALLCAR[9]
ST HELD1
LD TRUE
ST WORKS[HELD1]
LD CALLCAR[10]
ST HELD1
LD TRUE
ST WORKS[HELD1]
LD CALLCAR[11]
ST HELD1
LD TRUE
ST WORKS[HELD1]
LD CALLCAR[12]
ST HELD1
LD TRUE
ST WORKS[HELD1]
LD CALLCAR[13]
ST HELD1
LD TRUE
ST WORKS[HELD1]
LD CALLCAR[14]
ST HELD1
LD TRUE
ST WORKS[HELD1]
LD CALLCAR[15]
ST HELD1
LD TRUE
ST WORKS[HELD1]
LD CALLCAR[16]
ST HELD1
LD TRUE
ST WORKS[HELD1]
LD CALLCAR[17]
ST HELD1
LD TRUE
ST WORKS[HELD1]
LD CALLCAR[18]
ST HELD1
LD TRUE
ST WORKS[HELD1]
LD CALLCAR[19]
ST HELD1
LD TRUE
ST WORKS[HELD1]
LD CALLCAR[20]
ST HELD1
LD TRUE
ST WORKS[HELD1]
LD CALLCAR[21]
ST HELD1
LD TRUE
ST WORKS[HELD1]
LD CALLCAR[22]
ST HELD1
LD TRUE
ST WORKS[HELD1]
LD CALLCAR[23]
ST HELD1
LD TRUE
ST WORKS[HELD1]
LD CALLCAR[24]
ST HELD1
LD TRUE
ST WORKS[HELD1]
LD CALLCAR[25]
ST HELD1
LD TRUE
ST WORKS[HELD1]
LD CALLCAR[26]
ST HELD1
LD TRUE
ST WORKS[HELD1]
LD CALLCAR[27]
ST HELD1
LD TRUE
ST WORKS[HELD1]
LD CALLCAR[28]
ST HELD1
LD TRUE
ST WORKS[HELD1]
LD CALLCAR[29]
ST HELD1
LD TRUE
ST WORKS[HELD1]
LD CALLCAR[30]
ST HELD1
LD TRUE
ST WORKS[HELD1]
LD CALLCAR[31]
ST HELD1
LD TRUE
ST WORKS[HELD1]
LD CALLCAR[32]
ST HELD1
LD TRUE
ST WORKS[HELD1]
ELSE_688:
CAL WATCH1(FLOOR := CPOS[1], RUNS := CMOTOR[1], WORKS := WORKS[1])
LD WATCH1.IS_OUT
ST OUT[1]
CAL WATCH2(FLOOR := CPOS[2], RUNS := CMOTOR[2], WORKS := WORKS[2])
LD WATCH2.IS_OUT
ST OUT[2]
CAL WATCH3(FLOOR := CPOS[3], RUNS := CMOTOR[3], WORKS := WORKS[3])
LD WATCH3.IS_OUT
ST OUT[3]
CAL WATCH4(FLOOR := CPOS[4], RUNS := CMOTOR[4], WORKS := WORKS[4])
LD WATCH4.IS_OUT
ST OUT[4]

(* Which call slot waits? Each scan handles one, the lowest. While FIRE holds no call is assigned:
   calls wait in their slots until the recall is over. *)
LD 0
ST WAITING
LD CALLWAITS[32]
SEL WAITING, 32
ST WAITING
LD CALLWAITS[31]
SEL WAITING, 31
ST WAITING
LD CALLWAITS[30]
SEL WAITING, 30
ST WAITING
LD CALLWAITS[29]
SEL WAITING, 29
ST WAITING
LD CALLWAITS[28]
SEL WAITING, 28
ST WAITING
LD CALLWAITS[27]
SEL WAITING, 27
ST WAITING
LD CALLWAITS[26]
SEL WAITING, 26
ST WAITING
LD CALLWAITS[25]
SEL WAITING, 25
ST WAITING
LD CALLWAITS[24]
SEL WAITING, 24
ST WAITING
LD CALLWAITS[23]
SEL WAITING, 23
ST WAITING
LD CALLWAITS[22]
SEL WAITING, 22
ST WAITING
LD CALLWAITS[21]
SEL WAITING, 21
ST WAITING
LD CALLWAITS[20]
SEL WAITING, 20
ST WAITING
LD CALLWAITS[19]
SEL WAITING, 19
ST WAITING
LD CALLWAITS[18]
SEL WAITING, 18
ST WAITING
LD CALLWAITS[17]
SEL WAITING, 17
ST WAITING
LD CALLWAITS[16]
SEL WAITING, 16
ST WAITING
LD CALLWAITS[15]
SEL WAITING, 15
ST WAITING
LD CALLWAITS[14]
SEL WAITING, 14
ST WAITING
LD CALLWAITS[13]
SEL WAITING, 13
ST WAITING
LD CALLWAITS[12]
SEL WAITING, 12
ST WAITING
LD CALLWAITS[11]
SEL WAITING, 11
ST WAITING
LD CALLWAITS[10]
SEL WAITING, 10
ST WAITING
LD CALLWAITS[9]
SEL WAITING, 9
ST WAITING
LD CALLWAITS[8]
SEL WAITING, 8
ST WAITING
LD CALLWAITS[7]
SEL WAITING, 7
ST WAITING
LD CALLWAITS[6]
SEL WAITING, 6
ST WAITING
LD CALLWAITS[5]
SEL WAITING, 5
ST WAITING
LD CALLWAITS[4]
SEL WAITING, 4
ST WAITING
LD CALLWAITS[3]
SEL WAITING, 3
ST WAITING
LD CALLWAITS[2]
SEL WAITING, 2
ST WAITING
LD CALLWAITS[1]
SEL WAITING, 1
ST WAITING
NE 0
ANDN FIRE
ST ASKED
LD WAITING
MAX 1
ST NEW

(* How many calls has each car, on average? *)
LD 0
ST ALL
ADD ROUTE1.CALLS
ST ALL
ADD ROUTE2.CALLS
ST ALL
ADD ROUTE3.CALLS
ST ALL
ADD ROUTE4.CALLS
ST ALL
LD ALL
DIV 4
ST CROWD

(* The route of car 1. *)
CAL ROUTE1(CAR := 1, FLOOR := CPOS[1], RUNS := CMOTOR[1], CROWD := CROWD, ASKED := ASKED,
  NEW_FROM := CALLFROM[NEW], NEW_TO := CALLTO[NEW], SLOT := 1, ASSIGNED := CALLCAR[1],
  GETS_ON := CALLFROM[1], GETS_OFF := CALLTO[1])
CAL ROUTE1(SLOT := 2, ASSIGNED := CALLCAR[2], GETS_ON := CALLFROM[2], GETS_OFF := CALLTO[2])
CAL ROUTE1(SLOT := 3, ASSIGNED := CALLCAR[3], GETS_ON := CALLFROM[3], GETS_OFF := CALLTO[3])
CAL ROUTE1(SLOT := 4, ASSIGNED := CALLCAR[4], GETS_ON := CALLFROM[4], GETS_OFF := CALLTO[4])
CAL ROUTE1(SLOT := 5, ASSIGNED := CALLCAR[5], GETS_ON := CALLFROM[5], GETS_OFF := CALLTO[5])
CAL ROUTE1(SLOT := 6, ASSIGNED := CALLCAR[6], GETS_ON := CALLFROM[6], GETS_OFF := CALLTO[6])
CAL ROUTE1(SLOT := 7, ASSIGNED := CALLCAR[7], GETS_ON := CALLFROM[7], GETS_OFF := CALLTO[7])
CAL ROUTE1(SLOT := 8, ASSIGNED := CALLCAR[8], GETS_ON := CALLFROM[8], GETS_OFF := CALLTO[8])
CAL ROUTE1(SLOT := 9, ASSIGNED := CALLCAR[9], GETS_ON := CALLFROM[9], GETS_OFF := CALLTO[9])
CAL ROUTE1(SLOT := 10, ASSIGNED := CALLCAR[10], GETS_ON := CALLFROM[10], GETS_OFF := CALLTO[10])
CAL ROUTE1(SLOT := 11, ASSIGNED := CALLCAR[11], GETS_ON := CALLFROM[11], GETS_OFF := CALLTO[11])
CAL ROUTE1(SLOT := 12, ASSIGNED := CALLCAR[12], GETS_ON := CALLFROM[12], GETS_OFF := CALLTO[12])
CAL ROUTE1(SLOT := 13, ASSIGNED := CALLCAR[13], GETS_ON := CALLFROM[13], GETS_OFF := CALLTO[13])
CAL ROUTE1(SLOT := 14, ASSIGNED := CALLCAR[14], GETS_ON := CALLFROM[14], GETS_OFF := CALLTO[14])
CAL ROUTE1(SLOT := 15, ASSIGNED := CALLCAR[15], GETS_ON := CALLFROM[15], GETS_OFF := CALLTO[15])
CAL ROUTE1(SLOT := 16, ASSIGNED := CALLCAR[16], GETS_ON := CALLFROM[16], GETS_OFF := CALLTO[16])
CAL ROUTE1(SLOT := 17, ASSIGNED := CALLCAR[17], GETS_ON := CALLFROM[17], GETS_OFF := CALLTO[17])
CAL ROUTE1(SLOT := 18, ASSIGNED := CALLCAR[18], GETS_ON := CALLFROM[18], GETS_OFF := CALLTO[18])
CAL ROUTE1(SLOT := 19, ASSIGNED := CALLCAR[19], GETS_ON := CALLFROM[19], GETS_OFF := CALLTO[19])
CAL ROUTE1(SLOT := 20, ASSIGNED := CALLCAR[20], GETS_ON := CALLFROM[20], GETS_OFF := CALLTO[20])
CAL ROUTE1(SLOT := 21, ASSIGNED := CALLCAR[21], GETS_ON := CALLFROM[21], GETS_OFF := CALLTO[21])
CAL ROUTE1(SLOT := 22, ASSIGNED := CALLCAR[22], GETS_ON := CALLFROM[22], GETS_OFF := CALLTO[22])
CAL ROUTE1(SLOT := 23, ASSIGNED := CALLCAR[23], GETS_ON := CALLFROM[23], GETS_OFF := CALLTO[23])
CAL ROUTE1(SLOT := 24, ASSIGNED := CALLCAR[24], GETS_ON := CALLFROM[24], GETS_OFF := CALLTO[24])
CAL ROUTE1(SLOT := 25, ASSIGNED := CALLCAR[25], GETS_ON := CALLFROM[25], GETS_OFF := CALLTO[25])
CAL ROUTE1(SLOT := 26, ASSIGNED := CALLCAR[26], GETS_ON := CALLFROM[26], GETS_OFF := CALLTO[26])
CAL ROUTE1(SLOT := 27, ASSIGNED := CALLCAR[27], GETS_ON := CALLFROM[27], GETS_OFF := CALLTO[27])
CAL ROUTE1(SLOT := 28, ASSIGNED := CALLCAR[28], GETS_ON := CALLFROM[28], GETS_OFF := CALLTO[28])
CAL ROUTE1(SLOT := 29, ASSIGNED := CALLCAR[29], GETS_ON := CALLFROM[29], GETS_OFF := CALLTO[29])
CAL ROUTE1(SLOT := 30, ASSIGNED := CALLCAR[30], GETS_ON := CALLFROM[30], GETS_OFF := CALLTO[30])
CAL ROUTE1(SLOT := 31, ASSIGNED := CALLCAR[31], GETS_ON := CALLFROM[31], GETS_OFF := CALLTO[31])
CAL ROUTE1(SLOT := 32, ASSIGNED := CALLCAR[32], GETS_ON := CALLFROM[32], GETS_OFF := CALLTO[32])

(* The route of car 2. *)
CAL ROUTE2(CAR := 2, FLOOR := CPOS[2], RUNS := CMOTOR[2], CROWD := CROWD, ASKED := ASKED,
  NEW_FROM := CALLFROM[NEW], NEW_TO := CALLTO[NEW], SLOT := 1, ASSIGNED := CALLCAR[1],
  GETS_ON := CALLFROM[1], GETS_OFF := CALLTO[1])
CAL ROUTE2(SLOT := 2, ASSIGNED := CALLCAR[2], GETS_ON := CALLFROM[2], GETS_OFF := CALLTO[2])
CAL ROUTE2(SLOT := 3, ASSIGNED := CALLCAR[3], GETS_ON := CALLFROM[3], GETS_OFF := CALLTO[3])
CAL ROUTE2(SLOT := 4, ASSIGNED := CALLCAR[4], GETS_ON := CALLFROM[4], GETS_OFF := CALLTO[4])
CAL ROUTE2(SLOT := 5, ASSIGNED := CALLCAR[5], GETS_ON := CALLFROM[5], GETS_OFF := CALLTO[5])
CAL ROUTE2(SLOT := 6, ASSIGNED := CALLCAR[6], GETS_ON := CALLFROM[6], GETS_OFF := CALLTO[6])
CAL ROUTE2(SLOT := 7, ASSIGNED := CALLCAR[7], GETS_ON := CALLFROM[7], GETS_OFF := CALLTO[7])
CAL ROUTE2(SLOT := 8, ASSIGNED := CALLCAR[8], GETS_ON := CALLFROM[8], GETS_OFF := CALLTO[8])
CAL ROUTE2(SLOT := 9, ASSIGNED := CALLCAR[9], GETS_ON := CALLFROM[9], GETS_OFF := CALLTO[9])
CAL ROUTE2(SLOT := 10, ASSIGNED := CALLCAR[10], GETS_ON := CALLFROM[10], GETS_OFF := CALLTO[10])
CAL ROUTE2(SLOT := 11, ASSIGNED := CALLCAR[11], GETS_ON := CALLFROM[11], GETS_OFF := CALLTO[11])
CAL ROUTE2(SLOT := 12, ASSIGNED := CALLCAR[12], GETS_ON := CALLFROM[12], GETS_OFF := CALLTO[12])
CAL ROUTE2(SLOT := 13, ASSIGNED := CALLCAR[13], GETS_ON := CALLFROM[13], GETS_OFF := CALLTO[13])
CAL ROUTE2(SLOT := 14, ASSIGNED := CALLCAR[14], GETS_ON := CALLFROM[14], GETS_OFF := CALLTO[14])
CAL ROUTE2(SLOT := 15, ASSIGNED := CALLCAR[15], GETS_ON := CALLFROM[15], GETS_OFF := CALLTO[15])
CAL ROUTE2(SLOT := 16, ASSIGNED := CALLCAR[16], GETS_ON := CALLFROM[16], GETS_OFF := CALLTO[16])
CAL ROUTE2(SLOT := 17, ASSIGNED := CALLCAR[17], GETS_ON := CALLFROM[17], GETS_OFF := CALLTO[17])
CAL ROUTE2(SLOT := 18, ASSIGNED := CALLCAR[18], GETS_ON := CALLFROM[18], GETS_OFF := CALLTO[18])
CAL ROUTE2(SLOT := 19, ASSIGNED := CALLCAR[19], GETS_ON := CALLFROM[19], GETS_OFF := CALLTO[19])
CAL ROUTE2(SLOT := 20, ASSIGNED := CALLCAR[20], GETS_ON := CALLFROM[20], GETS_OFF := CALLTO[20])
CAL ROUTE2(SLOT := 21, ASSIGNED := CALLCAR[21], GETS_ON := CALLFROM[21], GETS_OFF := CALLTO[21])
CAL ROUTE2(SLOT := 22, ASSIGNED := CALLCAR[22], GETS_ON := CALLFROM[22], GETS_OFF := CALLTO[22])
CAL ROUTE2(SLOT := 23, ASSIGNED := CALLCAR[23], GETS_ON := CALLFROM[23], GETS_OFF := CALLTO[23])
CAL ROUTE2(SLOT := 24, ASSIGNED := CALLCAR[24], GETS_ON := CALLFROM[24], GETS_OFF := CALLTO[24])
CAL ROUTE2(SLOT := 25, ASSIGNED := CALLCAR[25], GETS_ON := CALLFROM[25], GETS_OFF := CALLTO[25])
CAL ROUTE2(SLOT := 26, ASSIGNED := CALLCAR[26], GETS_ON := CALLFROM[26], GETS_OFF := CALLTO[26])
CAL ROUTE2(SLOT := 27, ASSIGNED := CALLCAR[27], GETS_ON := CALLFROM[27], GETS_OFF := CALLTO[27])
CAL ROUTE2(SLOT := 28, ASSIGNED := CALLCAR[28], GETS_ON := CALLFROM[28], GETS_OFF := CALLTO[28])
CAL ROUTE2(SLOT := 29, ASSIGNED := CALLCAR[29], GETS_ON := CALLFROM[29], GETS_OFF := CALLTO[29])
CAL ROUTE2(SLOT := 30, ASSIGNED := CALLCAR[30], GETS_ON := CALLFROM[30], GETS_OFF := CALLTO[30])
CAL ROUTE2(SLOT := 31, ASSIGNED := CALLCAR[31], GETS_ON := CALLFROM[31], GETS_OFF := CALLTO[31])
CAL ROUTE2(SLOT := 32, ASSIGNED := CALLCAR[32], GETS_ON := CALLFROM[32], GETS_OFF := CALLTO[32])

(* The route of car 3. *)
CAL ROUTE3(CAR := 3, FLOOR := CPOS[3], RUNS := CMOTOR[3], CROWD := CROWD, ASKED := ASKED,
  NEW_FROM := CALLFROM[NEW], NEW_TO := CALLTO[NEW], SLOT := 1, ASSIGNED := CALLCAR[1],
  GETS_ON := CALLFROM[1], GETS_OFF := CALLTO[1])
CAL ROUTE3(SLOT := 2, ASSIGNED := CALLCAR[2], GETS_ON := CALLFROM[2], GETS_OFF := CALLTO[2])
CAL ROUTE3(SLOT := 3, ASSIGNED := CALLCAR[3], GETS_ON := CALLFROM[3], GETS_OFF := CALLTO[3])
CAL ROUTE3(SLOT := 4, ASSIGNED := CALLCAR[4], GETS_ON := CALLFROM[4], GETS_OFF := CALLTO[4])
CAL ROUTE3(SLOT := 5, ASSIGNED := CALLCAR[5], GETS_ON := CALLFROM[5], GETS_OFF := CALLTO[5])
CAL ROUTE3(SLOT := 6, ASSIGNED := CALLCAR[6], GETS_ON := CALLFROM[6], GETS_OFF := CALLTO[6])
CAL ROUTE3(SLOT := 7, ASSIGNED := CALLCAR[7], GETS_ON := CALLFROM[7], GETS_OFF := CALLTO[7])
CAL ROUTE3(SLOT := 8, ASSIGNED := CALLCAR[8], GETS_ON := CALLFROM[8], GETS_OFF := CALLTO[8])
CAL ROUTE3(SLOT := 9, ASSIGNED := CALLCAR[9], GETS_ON := CALLFROM[9], GETS_OFF := CALLTO[9])
CAL ROUTE3(SLOT := 10, ASSIGNED := CALLCAR[10], GETS_ON := CALLFROM[10], GETS_OFF := CALLTO[10])
CAL ROUTE3(SLOT := 11, ASSIGNED := CALLCAR[11], GETS_ON := CALLFROM[11], GETS_OFF := CALLTO[11])
CAL ROUTE3(SLOT := 12, ASSIGNED := CALLCAR[12], GETS_ON := CALLFROM[12], GETS_OFF := CALLTO[12])
CAL ROUTE3(SLOT := 13, ASSIGNED := CALLCAR[13], GETS_ON := CALLFROM[13], GETS_OFF := CALLTO[13])
CAL ROUTE3(SLOT := 14, ASSIGNED := CALLCAR[14], GETS_ON := CALLFROM[14], GETS_OFF := CALLTO[14])
CAL ROUTE3(SLOT := 15, ASSIGNED := CALLCAR[15], GETS_ON := CALLFROM[15], GETS_OFF := CALLTO[15])
CAL ROUTE3(SLOT := 16, ASSIGNED := CALLCAR[16], GETS_ON := CALLFROM[16], GETS_OFF := CALLTO[16])
CAL ROUTE3(SLOT := 17, ASSIGNED := CALLCAR[17], GETS_ON := CALLFROM[17], GETS_OFF := CALLTO[17])
CAL ROUTE3(SLOT := 18, ASSIGNED := CALLCAR[18], GETS_ON := CALLFROM[18], GETS_OFF := CALLTO[18])
CAL ROUTE3(SLOT := 19, ASSIGNED := CALLCAR[19], GETS_ON := CALLFROM[19], GETS_OFF := CALLTO[19])
CAL ROUTE3(SLOT := 20, ASSIGNED := CALLCAR[20], GETS_ON := CALLFROM[20], GETS_OFF := CALLTO[20])
CAL ROUTE3(SLOT := 21, ASSIGNED := CALLCAR[21], GETS_ON := CALLFROM[21], GETS_OFF := CALLTO[21])
CAL ROUTE3(SLOT := 22, ASSIGNED := CALLCAR[22], GETS_ON := CALLFROM[22], GETS_OFF := CALLTO[22])
CAL ROUTE3(SLOT := 23, ASSIGNED := CALLCAR[23], GETS_ON := CALLFROM[23], GETS_OFF := CALLTO[23])
CAL ROUTE3(SLOT := 24, ASSIGNED := CALLCAR[24], GETS_ON := CALLFROM[24], GETS_OFF := CALLTO[24])
CAL ROUTE3(SLOT := 25, ASSIGNED := CALLCAR[25], GETS_ON := CALLFROM[25], GETS_OFF := CALLTO[25])
CAL ROUTE3(SLOT := 26, ASSIGNED := CALLCAR[26], GETS_ON := CALLFROM[26], GETS_OFF := CALLTO[26])
CAL ROUTE3(SLOT := 27, ASSIGNED := CALLCAR[27], GETS_ON := CALLFROM[27], GETS_OFF := CALLTO[27])
CAL ROUTE3(SLOT := 28, ASSIGNED := CALLCAR[28], GETS_ON := CALLFROM[28], GETS_OFF := CALLTO[28])
CAL ROUTE3(SLOT := 29, ASSIGNED := CALLCAR[29], GETS_ON := CALLFROM[29], GETS_OFF := CALLTO[29])
CAL ROUTE3(SLOT := 30, ASSIGNED := CALLCAR[30], GETS_ON := CALLFROM[30], GETS_OFF := CALLTO[30])
CAL ROUTE3(SLOT := 31, ASSIGNED := CALLCAR[31], GETS_ON := CALLFROM[31], GETS_OFF := CALLTO[31])
CAL ROUTE3(SLOT := 32, ASSIGNED := CALLCAR[32], GETS_ON := CALLFROM[32], GETS_OFF := CALLTO[32])

(* The route of car 4. *)
CAL ROUTE4(CAR := 4, FLOOR := CPOS[4], RUNS := CMOTOR[4], CROWD := CROWD, ASKED := ASKED,
  NEW_FROM := CALLFROM[NEW], NEW_TO := CALLTO[NEW], SLOT := 1, ASSIGNED := CALLCAR[1],
  GETS_ON := CALLFROM[1], GETS_OFF := CALLTO[1])
CAL ROUTE4(SLOT := 2, ASSIGNED := CALLCAR[2], GETS_ON := CALLFROM[2], GETS_OFF := CALLTO[2])
CAL ROUTE4(SLOT := 3, ASSIGNED := CALLCAR[3], GETS_ON := CALLFROM[3], GETS_OFF := CALLTO[3])
CAL ROUTE4(SLOT := 4, ASSIGNED := CALLCAR[4], GETS_ON := CALLFROM[4], GETS_OFF := CALLTO[4])
CAL ROUTE4(SLOT := 5, ASSIGNED := CALLCAR[5], GETS_ON := CALLFROM[5], GETS_OFF := CALLTO[5])
CAL ROUTE4(SLOT := 6, ASSIGNED := CALLCAR[6], GETS_ON := CALLFROM[6], GETS_OFF := CALLTO[6])
CAL ROUTE4(SLOT := 7, ASSIGNED := CALLCAR[7], GETS_ON := CALLFROM[7], GETS_OFF := CALLTO[7])
CAL ROUTE4(SLOT := 8, ASSIGNED := CALLCAR[8], GETS_ON := CALLFROM[8], GETS_OFF := CALLTO[8])
CAL ROUTE4(SLOT := 9, ASSIGNED := CALLCAR[9], GETS_ON := CALLFROM[9], GETS_OFF := CALLTO[9])
CAL ROUTE4(SLOT := 10, ASSIGNED := CALLCAR[10], GETS_ON := CALLFROM[10], GETS_OFF := CALLTO[10])
CAL ROUTE4(SLOT := 11, ASSIGNED := CALLCAR[11], GETS_ON := CALLFROM[11], GETS_OFF := CALLTO[11])
CAL ROUTE4(SLOT := 12, ASSIGNED := CALLCAR[12], GETS_ON := CALLFROM[12], GETS_OFF := CALLTO[12])
CAL ROUTE4(SLOT := 13, ASSIGNED := CALLCAR[13], GETS_ON := CALLFROM[13], GETS_OFF := CALLTO[13])
CAL ROUTE4(SLOT := 14, ASSIGNED := CALLCAR[14], GETS_ON := CALLFROM[14], GETS_OFF := CALLTO[14])
CAL ROUTE4(SLOT := 15, ASSIGNED := CALLCAR[15], GETS_ON := CALLFROM[15], GETS_OFF := CALLTO[15])
CAL ROUTE4(SLOT := 16, ASSIGNED := CALLCAR[16], GETS_ON := CALLFROM[16], GETS_OFF := CALLTO[16])
CAL ROUTE4(SLOT := 17, ASSIGNED := CALLCAR[17], GETS_ON := CALLFROM[17], GETS_OFF := CALLTO[17])
CAL ROUTE4(SLOT := 18, ASSIGNED := CALLCAR[18], GETS_ON := CALLFROM[18], GETS_OFF := CALLTO[18])
CAL ROUTE4(SLOT := 19, ASSIGNED := CALLCAR[19], GETS_ON := CALLFROM[19], GETS_OFF := CALLTO[19])
CAL ROUTE4(SLOT := 20, ASSIGNED := CALLCAR[20], GETS_ON := CALLFROM[20], GETS_OFF := CALLTO[20])
CAL ROUTE4(SLOT := 21, ASSIGNED := CALLCAR[21], GETS_ON := CALLFROM[21], GETS_OFF := CALLTO[21])
CAL ROUTE4(SLOT := 22, ASSIGNED := CALLCAR[22], GETS_ON := CALLFROM[22], GETS_OFF := CALLTO[22])
CAL ROUTE4(SLOT := 23, ASSIGNED := CALLCAR[23], GETS_ON := CALLFROM[23], GETS_OFF := CALLTO[23])
CAL ROUTE4(SLOT := 24, ASSIGNED := CALLCAR[24], GETS_ON := CALLFROM[24], GETS_OFF := CALLTO[24])
CAL ROUTE4(SLOT := 25, ASSIGNED := CALLCAR[25], GETS_ON := CALLFROM[25], GETS_OFF := CALLTO[25])
CAL ROUTE4(SLOT := 26, ASSIGNED := CALLCAR[26], GETS_ON := CALLFROM[26], GETS_OFF := CALLTO[26])
CAL ROUTE4(SLOT := 27, ASSIGNED := CALLCAR[27], GETS_ON := CALLFROM[27], GETS_OFF := CALLTO[27])
CAL ROUTE4(SLOT := 28, ASSIGNED := CALLCAR[28], GETS_ON := CALLFROM[28], GETS_OFF := CALLTO[28])
CAL ROUTE4(SLOT := 29, ASSIGNED := CALLCAR[29], GETS_ON := CALLFROM[29], GETS_OFF := CALLTO[29])
CAL ROUTE4(SLOT := 30, ASSIGNED := CALLCAR[30], GETS_ON := CALLFROM[30], GETS_OFF := CALLTO[30])
CAL ROUTE4(SLOT := 31, ASSIGNED := CALLCAR[31], GETS_ON := CALLFROM[31], GETS_OFF := CALLTO[31])
CAL ROUTE4(SLOT := 32, ASSIGNED := CALLCAR[32], GETS_ON := CALLFROM[32], GETS_OFF := CALLTO[32])

LD ASKED
RETCN

(* Is it an up-peak? It is while most calls come from floor 1; the last call counts for a tenth.
   Then cars without calls go back to floor 1 at once. *)
LD CALLFROM[NEW]
EQ 1
SEL 0, 100
ADD( FROM_MAIN
MUL 9
)
DIV 10
ST FROM_MAIN
GE 70
ST UP_PEAK

(* In which car does the call cost least? At a tie it is the one with the lowest number. *)
LD 32767
ST LEAST
LD 0
ST CHOSEN
LD ROUTE1.COST
LT LEAST
ANDN OUT[1]
JMPCN ELSE_755
LD 1
ST CHOSEN
LD ROUTE1.COST
ST LEAST
ELSE_755:
LD ROUTE2.COST
LT LEAST
ANDN OUT[2]
JMPCN ELSE_759
LD 2
ST CHOSEN
LD ROUTE2.COST
ST LEAST
ELSE_759:
LD ROUTE3.COST
LT LEAST
ANDN OUT[3]
JMPCN ELSE_763
LD 3
ST CHOSEN
LD ROUTE3.COST
ST LEAST
ELSE_763:
LD ROUTE4.COST
LT LEAST
ANDN OUT[4]
JMPCN ELSE_767
LD 4
ST CHOSEN
LD ROUTE4.COST
ST LEAST
ELSE_767:

(* It gets the call. If all cars are out, none does, and the call waits. *)
LD CHOSEN
ST ASSIGN[NEW]
END_PROGRAM

(* The group: 4 cars, 16 floors, 32 call slots; a task for each car and one for
   the group. *)
(* CAPACITY is 8 *)  (* how many passengers a car takes at a time *)
(* DWELL_TIME is T#3s *)  (* how long a door stays open after the last passenger *)
(* TRANSFER_TIME is T#1s *)  (* how long it stays open for each who gets in or out *)
(* HOLD_TIME is T#20s *)  (* how long a car with work takes passengers at a stop *)
(* OUT_TIME is T#30s *)  (* after how long a car that doesn't move is out *)
(* STAND_TIME is T#53s *)  (* the same of one that may make a stop: more than the longest stop *)
(* REST_TIME is T#1m23s *)  (* how long a car that finds no landing stands before it tries again *)
(* PARK_TIME is T#15s *)  (* after how long an idle car goes to its home floor *)
(* CIRCLE is 32 *)
(* FARTHEST is 48 *)  (* places *)
(* STOPS_MOST is 64 *)
(* FIRST_FLOOR_TIME is 15 *)  (* scans that a car is taken to need for a floor before it is measured *)
(* FIRST_STOP_TIME is 60 *)  (* and for a stop *)
(* DELAY_QUARTERS is 3 *)  (* what the others in the car lose, as a part of the cost *)
(* CROWD_DIVISOR is 16 *)  (* the same of those who come later, divided by this *)
(* UP_PEAK_FROM is 70 *)  (* of 100 calls: as many come from floor 1 *)
(* PARK_IN_UP_PEAK is T#1s *)  (* and in an up-peak to floor 1 *)
CONFIGURATION BUILDING
VAR_GLOBAL CONSTANT CARS : INT := 4; FLOORS : INT := 16; SLOTS : INT := 32; END_VAR
VAR_GLOBAL
  OUT : ARRAY [0..4] OF BOOL;  (* for each car: it is out *)
  UP_PEAK : BOOL;  (* most calls come from floor 1 *)
END_VAR
RESOURCE CABINET ON PLC
TASK CAR1 (INTERVAL := T#100ms, PRIORITY := 1);
TASK CAR2 (INTERVAL := T#100ms, PRIORITY := 1);
TASK CAR3 (INTERVAL := T#100ms, PRIORITY := 1);
TASK CAR4 (INTERVAL := T#100ms, PRIORITY := 1);
TASK GROUP (INTERVAL := T#100ms, PRIORITY := 1);
PROGRAM P1 WITH CAR1 : COLLECTIVE_CAR;
PROGRAM P2 WITH CAR2 : COLLECTIVE_CAR;
PROGRAM P3 WITH CAR3 : COLLECTIVE_CAR;
PROGRAM P4 WITH CAR4 : COLLECTIVE_CAR;
PROGRAM P5 WITH GROUP : ESTIMATED;
END_RESOURCE
END_CONFIGURATION
