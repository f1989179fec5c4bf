coupling
V1 in 0 1
C1 in g 1n
C2 g 0 1n
R1 in 0 1k
.end
