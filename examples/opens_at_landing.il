(* A car that keeps its door open whenever it is at a landing.

   LEVEL is TRUE while the car floor is flush with a landing. OPEN is the open
   command: it is a wish until the commit, where interlock rule 4 grants it only
   at LEVEL. This program asks for nothing that rule 4 would deny, so its
   commits report no denial as long as LEVEL at the commit is still the LEVEL
   of the scan's start. *)

PROGRAM LANDING
LD LEVEL      (* flush with a landing *)
ST OPEN       (* then ask for the door *)
END_PROGRAM

CONFIGURATION SHAFT
VAR_GLOBAL CONSTANT CARS : INT := 1; FLOORS : INT := 8; SLOTS : INT := 4; END_VAR
RESOURCE CABINET ON PLC
TASK CAR1 (INTERVAL := T#100ms, PRIORITY := 1);
PROGRAM P1 WITH CAR1 : LANDING;
END_RESOURCE
END_CONFIGURATION
