#!/usr/bin/python3
"""python-socketio's own client of the quiz.

    quiz.py PORT [WORD]     WORD: only the checks whose names hold it
"""
from python_client import cases_in, main

QUESTION = '["question","How much is six times seven?"]'
CHECKS = cases_in(f"""
a wrong answer and a right one
a b enter []; a answers ["41","42"]; a emits ["play"]; a gets {QUESTION}; a gets {QUESTION}; a b hear ["solved"]

an event that asks for an acknowledgement
a enters []; a answers ["42"]; a calls ["play"]; a gets {QUESTION}; a hears ["solved"]; a calls ["other"]; a rests
""")

if __name__ == '__main__':
    main(CHECKS, __doc__)
