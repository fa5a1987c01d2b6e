(* Two cars that share a run limit.

   Both are asked to go up. RUNLIMIT says how many cars may run at once, and the
   interlock holds to it whatever programs ask for (rule 5). Car 2 asks for no
   more than it may get: it runs beside car 1 where two may run, and otherwise
   waits until car 1 has arrived, which it learns from the global ARRIVED. Car 1
   stores into it; car 2 only reads it. MIN 1 makes the limit 1 here, since the
   plant's RUNLIMIT is the number of cars. *)

PROGRAM FIRST
VAR_EXTERNAL
  ARRIVED : BOOL;
END_VAR
LD TOP
ST ARRIVED
NOT
SEL 0, 1
ST MOTOR
END_PROGRAM

PROGRAM SECOND
VAR
  MAYRUN : INT (0..2);
END_VAR
VAR_EXTERNAL
  ARRIVED : BOOL;
END_VAR
(* how many may run, at most 1 *)
LD RUNLIMIT
MIN 1
ST MAYRUN

(* car 1 has arrived, or two may run *)
LD MAYRUN
GE 2
OR ARRIVED
ANDN TOP
SEL 0, 1
ST MOTOR
END_PROGRAM

CONFIGURATION SHAFT
VAR_GLOBAL CONSTANT CARS : INT := 2; FLOORS : INT := 2; SLOTS : INT := 1; END_VAR
VAR_GLOBAL ARRIVED : BOOL; END_VAR
RESOURCE CABINET ON PLC
TASK CAR1 (INTERVAL := T#100ms, PRIORITY := 1);
TASK CAR2 (INTERVAL := T#100ms, PRIORITY := 1);
PROGRAM P1 WITH CAR1 : FIRST;
PROGRAM P2 WITH CAR2 : SECOND;
END_RESOURCE
END_CONFIGURATION
