(* A door that stays wholly open for two seconds and then shuts for good.

   TON counts how long its input has been TRUE: Q is TRUE once that is PT. The
   timer is a variable, an instance of the block TON, and keeps its state from
   one scan to the next. Its time is NOW as the scan saw it at its start.
   CAL gives the inputs in the written order; Q => OVER takes the output.
   A call of a standard block is one step, so a scan has seven. *)

PROGRAM DOORTIMER
VAR
  DWELL : TON;       (* how long the door has been wholly open *)
  OVER : BOOL;       (* that has been long enough *)
  DONE : BOOL;       (* once, and from then on *)
END_VAR
CAL DWELL(IN := OPENED, PT := T#2s, Q => OVER)

(* S sets its variable where the result is TRUE, and otherwise leaves it *)
LD OVER
S DONE

(* until then the door is asked to open at a landing *)
LDN DONE
AND LEVEL
ST OPEN
END_PROGRAM

CONFIGURATION SHAFT
VAR_GLOBAL CONSTANT CARS : INT := 1; FLOORS : INT := 4; SLOTS : INT := 1; END_VAR
RESOURCE CABINET ON PLC
TASK CAR1 (INTERVAL := T#100ms, PRIORITY := 1);
PROGRAM P1 WITH CAR1 : DOORTIMER;
END_RESOURCE
END_CONFIGURATION
