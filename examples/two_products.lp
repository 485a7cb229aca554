\ Two products share two machines.
Maximize
 PROFIT: 3 chair + 5 table
Subject To
 SAW: chair + 2 table <= 12
 PRESS: 3 chair + 2 table <= 18
Bounds
 chair <= 20
 table <= 20
Generals
 chair table
End
