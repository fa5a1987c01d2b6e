(* An own function: how many floors are between two.

   A function takes the current result as its first argument and the operands
   as the others. Its value is what its body leaves in the variable of its own
   name. The type INT (0..7) is a promise that the verifier checks at the store
   into FAR, and that each caller can rely on. The variables of a function begin
   anew at each call.
   The car goes up to floor 4 and stays there: where it is more than 0 floors
   away, the motor is asked to run. *)

FUNCTION FAR : INT (0..7)
VAR_INPUT
  A : INT (1..8);
  B : INT (1..8);
END_VAR
LD A
SUB B          (* -7..7 *)
ABS            (* 0..7 *)
ST FAR
END_FUNCTION

PROGRAM TOFOUR
VAR
  AWAY : INT (0..7);
END_VAR
LD POS
FAR 4          (* FAR(POS, 4) *)
ST AWAY

(* up while it is below floor 4, or there and not yet level *)
LD AWAY
GT 0
ORN LEVEL
SEL 0, 1
ST MOTOR
END_PROGRAM

CONFIGURATION SHAFT
VAR_GLOBAL CONSTANT CARS : INT := 1; FLOORS : INT := 8; SLOTS : INT := 1; END_VAR
RESOURCE CABINET ON PLC
TASK CAR1 (INTERVAL := T#100ms, PRIORITY := 1);
PROGRAM P1 WITH CAR1 : TOFOUR;
END_RESOURCE
END_CONFIGURATION
