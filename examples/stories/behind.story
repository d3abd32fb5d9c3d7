# A task that fell behind goes on, or is stopped at once.
#
# Task 4 reads variable 40; task 5 changes it. From then on task 4 is behind: it can't commit anything that it writes.
# The eager layer stops it at its next access instead of letting it work in vain.

B 4
R 4 40         # 0
B 5
W 5 40 9       # locking refuses: task 4 has the variable locked
C 5
W 4 41 1       # granted to a task that is behind, unless the eager layer is there
R 4 41         # its own pending value, 1
C 4            # refused: it has written, and what it read is no longer so
B 4            # what it wrote was never shared:
R 4 41         # 0, unless locking let the first one through
C 4
