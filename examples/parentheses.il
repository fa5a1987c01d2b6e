(* Parentheses.

   `AND(` sets the result and the operator aside, and its `)` does the operation
   with the result inside as the operand. `OR( X` loads X in the same step. A `)`
   costs 1 like any instruction.
   The door opens at a landing where it is shut or has just begun to open, and
   not at the ends of the shaft unless the car is asked to serve them:
     OPEN := LEVEL AND (LOCKED OR (OPEN AND NOT OPENED)) AND NOT (TOP OR BOTTOM AND NOT HOME) *)

PROGRAM WELLPUT
VAR
  HOME : BOOL := TRUE;   (* the lowest floor is served *)
END_VAR
LD LEVEL
AND( LOCKED
  OR( OPEN
    ANDN OPENED
  )
)
ANDN( BOTTOM
  ANDN HOME
  OR TOP
)
ST OPEN
END_PROGRAM

CONFIGURATION SHAFT
VAR_GLOBAL CONSTANT CARS : INT := 1; FLOORS : INT := 5; SLOTS : INT := 1; END_VAR
RESOURCE CABINET ON PLC
TASK CAR1 (INTERVAL := T#100ms, PRIORITY := 1);
PROGRAM P1 WITH CAR1 : WELLPUT;
END_RESOURCE
END_CONFIGURATION
