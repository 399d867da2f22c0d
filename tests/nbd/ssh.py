"""Replaces ssh: runs the command in its last argument as another host would, in a session of its own. As with sshd, when this program is
killed only the command's pipes end, and the command goes on. Writes the host as a line of the file that HOSTS names in the environment."""

import os
import select
import subprocess
import sys
from contextlib import suppress

host, command = sys.argv[sys.argv.index("--") + 1 :]
with open(os.environ["HOSTS"], "a", encoding="ascii") as hosts:
    hosts.write(f"{host}\n")
with subprocess.Popen(["sh", "-c", command], stdin=subprocess.PIPE, stdout=subprocess.PIPE, bufsize=0, start_new_session=True) as remote:
    goes_to = {0: remote.stdin.fileno(), remote.stdout.fileno(): 1}
    while goes_to:
        for at in select.select(goes_to, [], [])[0]:
            more = os.read(at, 4096)
            if more and at == 0:
                with suppress(BrokenPipeError):  # the command ends
                    os.write(goes_to[at], more)
            elif more:
                os.write(goes_to[at], more)
            elif at == 0:
                goes_to.pop(0)
                remote.stdin.close()
            else:
                goes_to.clear()
sys.exit(remote.returncode)
