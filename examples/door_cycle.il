(* One door cycle at a landing, in Boolean instructions.

   The door is asked to open where the car is at LEVEL and its doors are
   LOCKED. The wish is remembered in ASKED, because LOCKED falls as soon as
   the door leaves its closed end. Once the door has been fully open (OPENED),
   the cycle is over: DONE stays TRUE and the door is left to close.
   A scan has eighteen instructions and the return: its budget is 19, one for each
   instruction line below and one for END_PROGRAM. *)

PROGRAM DOORCYCLE
VAR
  ASKED : BOOL;   (* a wish to open is standing *)
  DONE : BOOL;    (* the door has been fully open once *)
  MAYGO : BOOL;   (* no wish to open stands: the inverse of ASKED *)
END_VAR

(* the cycle is over once the door has been seen fully open *)
LD OPENED
OR DONE
ST DONE

(* a new wish needs a landing and locked doors; a standing one is kept *)
LD LEVEL
AND LOCKED
OR ASKED
ST ASKED

(* no wish stands once the cycle is over *)
LDN DONE
AND ASKED
ST ASKED

(* STN stores the negated result and leaves the result as it was *)
STN MAYGO

(* away from a landing nothing is asked for: interlock rule 4 would deny it *)
AND LEVEL
ST OPEN

(* NOT negates the result: no open command, doors locked, no wish *)
LD OPEN
NOT
AND LOCKED
AND MAYGO
ST MAYGO
END_PROGRAM

CONFIGURATION SHAFT
VAR_GLOBAL CONSTANT CARS : INT := 1; FLOORS : INT := 8; SLOTS : INT := 4; END_VAR
RESOURCE CABINET ON PLC
TASK CAR1 (INTERVAL := T#100ms, PRIORITY := 1);
PROGRAM P1 WITH CAR1 : DOORCYCLE;
END_RESOURCE
END_CONFIGURATION
