"""Runs a command on a terminal of its own, types the first word into it, and prints all that it shows. What stands behind `later:`
is typed a second after the command has shown something."""
import os
import pty
import signal
import sys
import time

typed = sys.argv[1].encode().decode("unicode_escape").encode("latin-1")
later = typed.startswith(b"later:")
pid, terminal = pty.fork()
if pid == 0:
    # where the tests were begun in the background, signals of the keyboard are ignored, and a shell can't trap what is
    for it in (signal.SIGINT, signal.SIGQUIT):
        signal.signal(it, signal.SIG_DFL)
    os.execvp(sys.argv[2], sys.argv[2:])
if typed and not later:
    os.write(terminal, typed)
shown = b""
while True:
    try:
        piece = os.read(terminal, 65536)
    except OSError:
        break
    if not piece:
        break
    shown += piece
    if later:
        later = False
        time.sleep(1)
        os.write(terminal, typed[6:])
sys.stdout.buffer.write(shown.replace(b"\r\n", b"\n"))
sys.stdout.flush()
status = os.waitpid(pid, 0)[1]
sys.exit(os.WEXITSTATUS(status) if os.WIFEXITED(status) else 128)
