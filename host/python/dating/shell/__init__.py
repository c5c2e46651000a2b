"""The shell: typed requests on a terminal or from a pipe, answered in words. `help` lists them.

`words`     the words of a typed line, and what is wrong with them
`help`      how each request is typed, with an example
`answers`   the questions, and what is said to them
`changes`   the requests that change the register, or take files
`session`   what is open, and a line from its reading to its answer
`terminal`  typed lines, and how much of an answer is a screenful
`main`      the command
"""
