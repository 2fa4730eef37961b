"""The passes of adapt, in the order of their work.

command      the arguments, the limits of time and memory, the messages
report       what is told: changes, notes and refusals
preprocess   the text after the system's preprocessor, with our headers
parsing      its syntax tree, by pycparser
types        C's types, and their sizes
names        which variable each name means, and every place that sets it
constants    what is known before the run
handles      datatypes and operations, which the language has not
pointers     what each pointer is: an array, an index into one, a place
places       what an assignment or a reference means
values       a value in the making: its text and how tightly it binds
expressions  values, with calls and assignments pulled out before them
statements   blocks, branches, loops, switches
functions    the program's own functions, and those written out in place
library      functions of the C library
printing     printf and its kin
mpi_table    the calls of MPI and what their arguments are
mpi_calls    calls that are made otherwise, or as they are
persistent   persistent requests
output       lines, names and the layout of the text
translator   all passes together
"""
