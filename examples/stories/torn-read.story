# A torn read, and who refuses it.
#
# Variable 10 is a sum over variables 11 and 12, and the level task (2) keeps it so. A status task (3) reads all three.
# Between its reads the level task commits a change. To go on reading would mix values of two moments.

B 3            # the status task begins
R 3 11         # 0, as long as nothing was shared
B 2            # the level task changes a part and the sum in one transaction
W 2 11 4       # locking refuses the writer: task 3 has the variable locked. The others let it write
W 2 10 4
C 2            # granted, or told that its transaction is over
R 3 12         # TL2 answers: 12 was not written since task 3 began. DSTM refuses: what task 3 read is no longer so,
               # and so does TL2 under the eager layer
R 3 10         # TL2 refuses too: 10 is newer than task 3's beginning. Locking answers: nothing was changed
C 3
