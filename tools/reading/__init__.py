"""How the tools read the files of a run: with the line and the column of everything in them.

It is a second reading, beside the program's: none of it is proved, and where the two differ, the program is
right. docs/FORMATS.md, QUERIES.md and SCRIPTS.md say what is read.
"""
