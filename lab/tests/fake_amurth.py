"""Stands for the core program where a test needs a certain end of it: `fake_amurth.py BEHAVIOUR COMMAND`.

`good` answers that the first leaf of each start is best; `slow` does so after half a second; `unsure` has each
certificate rejected; a number ends with this status; `killed` is killed, and `killing` kills who runs it;
`refusing` refuses the tenth byte.
"""

import os
import re
import signal
import sys
import time


def answer(problem: str) -> str:
    """A certificate that the first leaves are best."""
    starts = re.search(r"^start (.*)$", problem, re.MULTILINE)
    assert starts is not None
    terms = "".join("term 0\n" for _ in starts.group(1).split())
    return f"certificate 2\n{problem}answer best\n{terms}log sound\nchain 1 2 3\nlog best\nchain 1 2 3\nend\n"


def main() -> int:
    """Does as the behaviour says."""
    behaviour, command = sys.argv[1:3]
    text = sys.stdin.read()
    if behaviour.isdigit():
        return int(behaviour)
    if behaviour in ("killed", "killing"):
        os.kill(os.getpid() if behaviour == "killed" else os.getppid(), signal.SIGKILL)
    if behaviour == "refusing":
        print("refused Number 15")
        return 6
    if command == "check":
        print("rejected NotEmpty 0" if behaviour == "unsure" else "accepted")
        return 9 if behaviour == "unsure" else 0
    if behaviour == "slow":
        time.sleep(0.5)
    print(answer(text), end="")
    return 0


sys.exit(main())
