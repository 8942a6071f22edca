"""Compares pgshard with the model on random cases, each made from a seed and a number.

A case consists of a catalog and what one command reads with it: rows of a table, certificates, or a script. Its text is
one input of the program, except for `make`, whose certificates are passed to `check` in a second run. Each line of each
output is compared. No answer may say that memory, the input or the output failed, unless the system refused the program
something.
"""
