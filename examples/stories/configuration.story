# A configuration task against a web page.
#
# Task 0 changes the upstream channel: its frequency (variable 5) and its power (variable 6) belong together.
# Task 1 shows both on the modem's web page. On a quiet line the page is drawn before or after the change.
# Here noise on the line lets it begin in the middle of it.

B 0            # the configuration begins
W 0 5 37       # the new frequency, pending: nobody else may see it yet
B 1            # the page begins
R 1 5          # locking refuses: task 0 has the variable locked. The others answer the old value, 0
W 0 6 44       # the new power
C 0            # both values are shared in one step
R 1 6          # the old frequency and the new power don't stand together: whoever answered 0 above refuses now
C 1            # the page's transaction is over already
B 1            # it tries again,
R 1 5          # and sees the new frequency
R 1 6          # and the new power
C 1
