# A technician's snapshot.
#
# A technician (task 7) asks for three readings at once, while the tuner (task 1) is at work on two of them.
# A snapshot is begin, reads and commit with no other call between; in a schedule it is written out.

B 1            # the tuner begins,
W 1 20 -12     # and has one of two readings renewed
B 7            # the snapshot
R 7 20         # locking refuses, for the tuner is at it. The others answer the reading that is shared
R 7 21
R 7 22
C 7            # all three stood together: the commit is granted
W 1 21 -11     # the tuner goes on
C 1
B 7            # the next snapshot shows both new readings, under every policy
R 7 20
R 7 21
R 7 22
C 7
