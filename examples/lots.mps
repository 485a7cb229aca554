* Three months need 30, 45 and 20. A month makes nothing, or a lot from 40 to 90, at 2 a piece, in the third at 4;
* what is kept for the next month costs 1 a piece.
NAME lots
ROWS
 N COST
 E NEED1
 E NEED2
 E NEED3
COLUMNS
 make1 COST 2 NEED1 1
 make2 COST 2 NEED2 1
 make3 COST 4 NEED3 1
 keep1 COST 1 NEED1 -1
 keep1 NEED2 1
 keep2 COST 1 NEED2 -1
 keep2 NEED3 1
RHS
 RHS NEED1 30 NEED2 45
 RHS NEED3 20
BOUNDS
 LO B make1 40
 SC B make1 90
 LO B make2 40
 SC B make2 90
 LO B make3 40
 SC B make3 90
ENDATA
