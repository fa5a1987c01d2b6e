(* A car that counts the floors below and above it, and keeps the highest one.

   POS is the car's floor and has the range 1..FLOORS, FLOORS the range of its
   one value; here these are 1..8 and 8..8. The ranges that follow each
   instruction show that no sum or difference leaves INT and no stored value its
   variable, which is what `check` finds before anything runs.
   A scan has eleven instructions and the return: its budget is 12. *)

PROGRAM COUNTS
VAR
  BELOW : INT (0..7);        (* floors below the car; starts at 0 *)
  ABOVE : INT (0..7) := 7;   (* floors above it: the car starts at floor 1 *)
  HIGHEST : INT (1..8);      (* the highest floor so far; starts at 1, its least value *)
END_VAR

(* POS - 1 floors are below the car *)
LD POS           (* 1..8 *)
SUB 1            (* 0..7: fits BELOW *)
ST BELOW

(* FLOORS - POS floors are above it *)
LD FLOORS        (* 8..8 *)
SUB POS          (* 0..7: fits ABOVE *)
ST ABOVE

(* LIMIT(MN, IN, MX) is the smaller of MX and the greater of IN and MN. The current
   result is MN: so this is the greater of HIGHEST and POS, at most FLOORS *)
LD POS                    (* 1..8 *)
LIMIT HIGHEST, FLOORS     (* 1..8: fits HIGHEST *)
ST HIGHEST

(* the door is asked to open at a landing *)
LD LEVEL
ST OPEN
END_PROGRAM

CONFIGURATION SHAFT
VAR_GLOBAL CONSTANT CARS : INT := 1; FLOORS : INT := 8; SLOTS : INT := 4; END_VAR
RESOURCE CABINET ON PLC
TASK CAR1 (INTERVAL := T#100ms, PRIORITY := 1);
PROGRAM P1 WITH CAR1 : COUNTS;
END_RESOURCE
END_CONFIGURATION
