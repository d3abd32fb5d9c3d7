# Two tasks count errors in one variable.
#
# Both read 0 and want to write 1. If both could commit, one of the two errors would be lost.

B 0
R 0 30         # 0
B 1
R 1 30         # locking refuses the second reader; the others let it read
W 0 30 1
W 1 30 1       # DSTM refuses the second writer: task 0 owns the variable. TL2 decides at the commit
C 0            # the first one counts
C 1            # TL2 refuses: what task 1 read was written since
B 1            # task 1 tries again,
R 1 30         # sees the first error,
W 1 30 2       # and counts the second
C 1
