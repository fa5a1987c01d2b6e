(* Counts the calls of the day.

   There is one call slot. CALLWAITS[1] is TRUE while a call waits in it, until
   GROUP tells it its car: so each call is one rising edge, and CTU adds 1 to CV
   at each. Q is TRUE once CV has reached PV. CV stays within INT, since CTU
   stops at 32767.
   Try `sim call_counter.il 9 1:1:2 1:2:1 5:3:1`: three calls, one slot. *)

PROGRAM SERVES
(* the car serves at once what it is told: SEL gives 1 where the result is TRUE *)
LD CALLCAR[1]
EQ CARNO
SEL 0, 1
ST SERVE
END_PROGRAM

PROGRAM COUNTS
VAR
  CALLS : CTU;
  MANY : BOOL;      (* there have been three calls *)
END_VAR
CAL CALLS(CU := CALLWAITS[1], R := FALSE, PV := 3, Q => MANY)

(* a waiting call is told to car 1 *)
LD CALLWAITS[1]
SEL 0, 1
ST ASSIGN[1]
END_PROGRAM

CONFIGURATION SHAFT
VAR_GLOBAL CONSTANT CARS : INT := 1; FLOORS : INT := 3; SLOTS : INT := 1; END_VAR
RESOURCE CABINET ON PLC
TASK CAR1 (INTERVAL := T#100ms, PRIORITY := 1);
TASK GROUP (INTERVAL := T#200ms, PRIORITY := 2);
PROGRAM P1 WITH CAR1 : SERVES;
PROGRAM P2 WITH GROUP : COUNTS;
END_RESOURCE
END_CONFIGURATION
