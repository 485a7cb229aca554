* Two products share two machines.
NAME two products
OBJSENSE
 MAX
ROWS
 N PROFIT
 L SAW
 L PRESS
COLUMNS
 M1 'MARKER' 'INTORG'
 chair PROFIT 3 SAW 1
 chair PRESS 3
 table PROFIT 5 SAW 2
 table PRESS 2
 M2 'MARKER' 'INTEND'
RHS
 RHS SAW 12 PRESS 18
BOUNDS
 UP B chair 20
 UP B table 20
ENDATA
