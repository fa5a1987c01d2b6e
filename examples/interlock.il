(* Wishes that the interlock denies.

   Two cars run one program. In each scan it asks for the motor, the door or both, whatever
   the plant reports, and the interlock grants or denies that at the commit, the C line of
   the trace. The R line of a round has what the plant reports. `replay` of a trace of N
   rounds prints CAR 1, and at the end of the line its motor (1 up, -1 down, 0 still) and
   whether its door is asked to open (1):

     `sim interlock.il N >t` and `replay interlock.il t`

   N  R line   asks for     CAR 1 ends in   why
   1  10110    down         0 0             rule 3: the car is at BOTTOM
   2  10110    up, open     0 1             rule 2: the door is asked to open
   3  10100    up           0 0             rule 2: the door is not LOCKED
   4  10110    up           1 0             granted
   5  00010    down, open   0 0             rule 1: the car runs up; rule 4: not at LEVEL
   6  00010    up           1 0             granted
   7  00010    up           0 0             rule 6, with `--fire 7`

   A running car is stopped at an R line. In round 7 FIRE stops it there by rule 6, before
   its scan asks for up again. Without fire it runs on to floor 2; there the R line of
   round 15 has TOP, and rule 3 stops it.

   Rule 5 needs another RUNLIMIT than the plant's. Write 1 for the 2 of the R lines into a
   trace of 4 rounds, by `sed 's/^R \([0-9]*\) 2/R \1 1/' t`. Both cars ask for up in round 4;
   `replay` ends CAR 1 in 1 0, and CAR 2, which commits behind it, in 0 0. *)

PROGRAM WISHES
VAR
  SCAN : INT (0..9);     (* which scan this is; from the ninth on 9 *)
END_VAR
LD SCAN
ADD 1
MIN 9
ST SCAN

(* the first scan asks for down *)
EQ 1
JMPC DOWN

(* the fifth asks for down too, and for the door *)
LD SCAN
EQ 5
JMPC BACK

(* each other one asks for up, and the second for the door too *)
LD SCAN
EQ 2
ST OPEN
LD 1
ST MOTOR
RET

BACK:
LD TRUE
ST OPEN

DOWN:
LD -1
ST MOTOR
END_PROGRAM

CONFIGURATION SHAFT
VAR_GLOBAL CONSTANT CARS : INT := 2; FLOORS : INT := 2; SLOTS : INT := 1; END_VAR
RESOURCE CABINET ON PLC
TASK CAR1 (INTERVAL := T#100ms, PRIORITY := 1);
TASK CAR2 (INTERVAL := T#100ms, PRIORITY := 1);
PROGRAM P1 WITH CAR1 : WISHES;
PROGRAM P2 WITH CAR2 : WISHES;
END_RESOURCE
END_CONFIGURATION
