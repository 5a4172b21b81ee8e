"""Fowlcredenza's library and scenes, from python3 with its standard library alone.

    from fowlcredenza.library import Library
    answer = Library().decide_scene(open("samples/spend.scene", "rb").read())
    print(answer.number, answer.line())

library       the exported functions; a refusal is an exception with number, name and words
declarations  their types and the sizes of their buffers, as include/fowlcredenza.h has them
readings      what readers hand out and writers take: a format's fields by their names
answer        what the lock answers, and the line that the program prints
scene         a scene's lines as objects, read and written
state         an account's state in words
state_fault   where a refused state is at fault: its entry and its byte
since         a waiting period in words
requests      the requests of all proofs of a scene, and the list that is filed
explanation   why the lock answers as it does
numbers       what a number is called and when it is given: docs/NUMBERS.md's words
protocol      names of algorithms, operations, capabilities, flags and verdicts
command       tools/fowlcredenza; each file in verbs/ is one of its verbs
"""
