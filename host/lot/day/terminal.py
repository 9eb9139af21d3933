"""terminal.py ANSWERS WORD..: runs a command with standard error on a terminal and standard output in the file
ANSWERS, and says whether something was drawn on the terminal, again and again, and cleared at the end. With `-` for
ANSWERS standard output is the terminal too: then what stands there at the end is printed, which must be the answers.
Status 4: it was over too soon for a bar."""
import os
import pty
import re
import sys
import time


def run(words, answers):
    """What came on the terminal, and the exit status."""
    process, terminal = pty.fork()
    if process == 0:
        if answers != "-":
            os.dup2(os.open(answers, os.O_WRONLY | os.O_CREAT | os.O_TRUNC, 0o644), 1)
        os.execvp(words[0], words)
    drawn = b""
    try:
        while some := os.read(terminal, 65536):
            drawn += some
    except OSError:
        pass  # the other side is closed
    return drawn, os.waitstatus_to_exitcode(os.waitpid(process, 0)[1])


def screen(drawn):
    """The lines that stand on the terminal at the end, as far as it needs to know controls."""
    lines, column = [""], 0
    for part in re.findall(r"\x1b\[[0-9;?]*[A-Za-z]|[^\x1b]", drawn.decode()):
        if part == "\r":
            column = 0
        elif part == "\n":
            lines.append("")
        elif part.startswith("\x1b") and part[-1] == "K":
            lines[-1] = "" if part == "\x1b[2K" else lines[-1][:column]
        elif not part.startswith("\x1b"):
            lines[-1] = lines[-1][:column].ljust(column) + part + lines[-1][column + 1 :]
            column += 1
    return lines


def main(answers, *words):
    began = time.monotonic()
    drawn, status = run(words, answers)
    quick = time.monotonic() - began < 1.2
    if status != 0:
        sys.exit(f"status {status}: {drawn!r}")
    lines = [line for line in screen(drawn) if line.strip()]
    if answers == "-":
        print("\n".join(lines))
        return
    if not drawn and quick:
        sys.exit(4)
    if drawn.count(b"\r") < 2:
        sys.exit(f"no bar is drawn: {drawn[:200]!r}")
    if lines:
        sys.exit(f"the bar is not cleared: {lines!r} from {drawn[-200:]!r}")


main(*sys.argv[1:])
