(* An own function block, declared twice.

   HOLD keeps its output TRUE for so many scans from the last one in which its
   input was TRUE. Each instance has variables of its own: OPENING and SHUTTING
   don't know of each other. A block doesn't store into its own inputs, and from
   outside only inputs and outputs can be named.
   A call costs 1 and what the body costs: HOLD's most expensive path has eleven
   instructions with its return. *)

FUNCTION_BLOCK HOLD
VAR_INPUT
  SEEN : BOOL;
  SCANS : INT (1..50);
END_VAR
VAR_OUTPUT
  STANDS : BOOL;
END_VAR
VAR
  LEFT : INT (0..50);     (* how many scans it still stands *)
END_VAR
LD SEEN
JMPC FRESH

(* one scan fewer, at least 0 *)
LD LEFT
SUB 1
MAX 0
ST LEFT
JMP TELL

FRESH:
LD SCANS
ST LEFT

TELL:
LD LEFT
GT 0
ST STANDS
END_FUNCTION_BLOCK

PROGRAM DOORS
VAR
  OPENING : HOLD;     (* the door was shut a short while ago: it opens *)
  SHUTTING : HOLD;    (* it was wholly open just now: it shuts *)
END_VAR
CAL OPENING(SEEN := LOCKED, SCANS := 8)
CAL SHUTTING(SEEN := OPENED, SCANS := 3)

(* so the door opens and shuts, again and again *)
LD OPENING.STANDS
ANDN SHUTTING.STANDS
AND LEVEL
ST OPEN
END_PROGRAM

CONFIGURATION SHAFT
VAR_GLOBAL CONSTANT CARS : INT := 1; FLOORS : INT := 2; SLOTS : INT := 1; END_VAR
RESOURCE CABINET ON PLC
TASK CAR1 (INTERVAL := T#100ms, PRIORITY := 1);
PROGRAM P1 WITH CAR1 : DOORS;
END_RESOURCE
END_CONFIGURATION
