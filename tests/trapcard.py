"""Runs bin/trapcard, the program with its exit status, over pipes: lines sent one at a time and a byte at a time with pauses, a read
that a signal interrupts, an input that ends without LF; and where the output fails: a full device, a closed pipe, a closed
descriptor. The status is 0 with nothing on standard error, or 1 with one line there."""
import os
import signal
import subprocess
import tempfile
import time
from pathlib import Path

ROOT = Path(__file__).resolve().parent.parent
COMMAND = ROOT / "bin/trapcard"
PROGRAM = ROOT / "crates/trapcard/out/trapcard"
PAUSE = 0.05
LIMIT = 20
SCRIPT = (ROOT / "examples/scripts/cut-101.script").read_bytes()
ANSWERS = (ROOT / "examples/scripts/cut-101.out").read_bytes()

# A handler that does not have reads restarted: a read that waits is interrupted then (EINTR).
HANDLER = """
#include <signal.h>
#include <string.h>
static void caught(int number) { (void)number; }
__attribute__((constructor)) static void handle(void) {
    struct sigaction action;
    memset(&action, 0, sizeof action);
    action.sa_handler = caught;
    sigaction(SIGUSR1, &action, 0);
}
"""


def fail(name, why):
    raise SystemExit("trapcard: %s: %s" % (name, why))


def started(command=COMMAND, **more):
    return subprocess.Popen([command], stdin=subprocess.PIPE, stdout=subprocess.PIPE, stderr=subprocess.PIPE, bufsize=0, **more)


def send(name, program, piece):
    try:
        program.stdin.write(piece)
    except BrokenPipeError:
        fail(name, "ended before its input did")


def late(number, frame):
    fail("an answer", "did not come before the next line was sent")


def answer(name, program, expected):
    """Reads as many bytes as are expected, and nothing else: they must be there before anything more is sent."""
    signal.alarm(LIMIT)
    got = b""
    while len(got) < len(expected):
        piece = program.stdout.read(len(expected) - len(got))
        if not piece:
            break
        got += piece
    signal.alarm(0)
    if got != expected:
        fail(name, "printed %r, not %r" % (got, expected))


def ended(name, program, status=0, error=b""):
    """The input is closed; nothing more is printed, and the status and standard error are as they must be."""
    out, err = program.communicate(timeout=LIMIT)
    if out:
        fail(name, "printed %r at the end" % out)
    if program.returncode != status:
        fail(name, "ended with status %d" % program.returncode)
    if (err != b"") != (status != 0) or err.count(b"\n") != (1 if status else 0) or error not in err:
        fail(name, "wrote %r to standard error" % err)


def line_by_line(name, pieces):
    """Each line in pieces with pauses; its answer comes before the next line is sent."""
    program = started()
    for line, expected in zip(SCRIPT.splitlines(True), ANSWERS.splitlines(True)):
        for piece in pieces(line):
            send(name, program, piece)
            time.sleep(PAUSE)
        answer(name, program, expected)
    ended(name, program)


def without_lf():
    program = started()
    program.stdin.write(b"format\nget\t40")
    answer("no LF", program, b"format\t0\t0\n")
    time.sleep(PAUSE)
    out, err = program.communicate(timeout=LIMIT)
    if out != b"get\t0\t0\n" or err or program.returncode:
        fail("no LF", "printed %r, wrote %r, status %d" % (out, err, program.returncode))


def interrupted():
    """A signal while the program waits in a read, with half a line sent before: the read fails with EINTR and is made again."""
    with tempfile.TemporaryDirectory() as folder:
        source, library = Path(folder, "handler.c"), Path(folder, "handler.so")
        source.write_text(HANDLER)
        subprocess.run(["gcc", "-shared", "-fPIC", "-o", library, source], check=True)
        program = started(PROGRAM, env=dict(os.environ, LD_PRELOAD=str(library)))
        for line, expected in zip(SCRIPT.splitlines(True), ANSWERS.splitlines(True)):
            send("an interrupted read", program, line[:3])
            time.sleep(PAUSE)
            program.send_signal(signal.SIGUSR1)
            time.sleep(PAUSE)
            program.send_signal(signal.SIGSTOP)
            program.send_signal(signal.SIGCONT)
            send("an interrupted read", program, line[3:])
            answer("an interrupted read", program, expected)
        ended("an interrupted read", program)


def full_device(name, script):
    with open("/dev/full", "wb") as full:
        program = subprocess.Popen([COMMAND], stdin=subprocess.PIPE, stdout=full, stderr=subprocess.PIPE)
        out, err = program.communicate(script, timeout=LIMIT)
    if program.returncode != 1 or err != b"trapcard: standard output: No space left on device\n":
        fail(name, "status %d, standard error %r" % (program.returncode, err))


def closed_pipe(name, ignored, error):
    """Nobody reads the output any more: the write fails. Today's runtime ignores SIGPIPE, as Rust's does, whatever it was before."""
    action = signal.SIG_IGN if ignored else signal.SIG_DFL
    program = started(preexec_fn=lambda: signal.signal(signal.SIGPIPE, action), restore_signals=False)
    program.stdout.close()
    program.stdout = None
    program.stdin.write(b"format\n")
    ended(name, program, 1, error)


def closed_descriptors():
    program = subprocess.Popen(["sh", "-c", 'exec "$0" >&-', PROGRAM], stdin=subprocess.PIPE, stderr=subprocess.PIPE)
    _, err = program.communicate(b"format\n", timeout=LIMIT)
    if program.returncode != 1 or not err.startswith(b"Error: StandardOutput(") or b'"Bad file descriptor"' not in err or err.count(b"\n") != 1:
        fail("a closed output", "standard error %r" % err)
    program = subprocess.Popen(["sh", "-c", 'exec "$0" <&-', COMMAND], stdout=subprocess.PIPE, stderr=subprocess.PIPE)
    out, err = program.communicate(timeout=LIMIT)
    if out or program.returncode != 1 or err != b"trapcard: standard input: Bad file descriptor\n":
        fail("a closed input", "status %d, standard error %r" % (program.returncode, err))


signal.signal(signal.SIGALRM, late)
line_by_line("a line a write", lambda line: [line])
line_by_line("a byte a write", lambda line: [line[i:i + 1] for i in range(len(line))])
without_lf()
interrupted()
full_device("a full device", SCRIPT)
full_device("a full device, no LF", b"format")
closed_pipe("a closed pipe", False, b"trapcard: standard output: Broken pipe")
closed_pipe("a closed pipe, its signal ignored", True, b"trapcard: standard output: Broken pipe")
closed_descriptors()
print("trapcard: a line and a byte a write, an interrupted read, a full device and closed pipes end as they must")
