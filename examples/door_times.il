(* A car with a door time for each floor, and a counter that tasks share.

   SCANS[f] is how many scans the door stays wholly open at floor f. An array has
   no initial value: its elements start at the least value of their type, here 5.
   The first scan gives floor 1, the main landing, 20.
   OPENINGS is a global: the program lists it as external, with the same type.
   One task at most stores into a global; others may read it. *)

PROGRAM WAITS
VAR
  SCANS : ARRAY [1..4] OF INT (5..50);
  SET : BOOL;
  LEFT : INT (0..50);
  WAS : BOOL;              (* the door was wholly open in the scan before *)
  OVER : BOOL;             (* the time at this landing is over *)
END_VAR
VAR_EXTERNAL
  OPENINGS : INT (0..9999);
END_VAR
LD SET
JMPC GOES
LD 20
ST SCANS[1]
LD TRUE
ST SET

(* the door has just become wholly open: its time at this floor begins *)
GOES:
LD OPENED
ANDN WAS
JMPCN COUNTS
LD SCANS[POS]
ST LEFT
LD OPENINGS
ADD 1
MIN 9999
ST OPENINGS

(* and runs while it is *)
COUNTS:
LD OPENED
ST WAS
JMPCN ASKS
LD LEFT
SUB 1
MAX 0
ST LEFT
EQ 0
S OVER

(* until it is over, once at each landing *)
ASKS:
LDN LEVEL
R OVER
LDN OVER
AND LEVEL
ST OPEN
END_PROGRAM

CONFIGURATION SHAFT
VAR_GLOBAL CONSTANT CARS : INT := 1; FLOORS : INT := 4; SLOTS : INT := 1; END_VAR
VAR_GLOBAL OPENINGS : INT (0..9999); END_VAR
RESOURCE CABINET ON PLC
TASK CAR1 (INTERVAL := T#100ms, PRIORITY := 1);
PROGRAM P1 WITH CAR1 : WAITS;
END_RESOURCE
END_CONFIGURATION
