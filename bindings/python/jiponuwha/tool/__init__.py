"""The command line tool `jip`: lists, copies, changes and compares Amiga floppy images, one or many.

`cli` reads the command line, each module of `commands` has one command or a few, and the other modules are shared by them.
"""
