"""Dialogues with the program in live mode: over pipes, on a terminal, and with callers that close their end.

Each function named in `DIALOGUES` has one dialogue, and returns whether the program kept to docs/SCRIPT.md.
"""
import os
import pathlib
import pty
import re
import select
import subprocess
import tempfile

LIBRARY = pathlib.Path(__file__).resolve().parent.parent / 'examples/library.json'
LONGEST = 16_777_216  # bytes of a line
ROUNDS = 200  # of a thousand refused commands
SLACK = 256  # KB that a program may take for nothing that it keeps
SECONDS = 60  # the longest wait for an answer
STOPPED = 'run stopped: {}\n'.format


def started(program, stdin=subprocess.PIPE, options=()):
    """Starts the program in live mode over the library, with pipes."""
    words = [program, '--meta', LIBRARY, '--live', *options]
    return subprocess.Popen(words, stdin=stdin, stdout=subprocess.PIPE, stderr=subprocess.PIPE, bufsize=0)


def received(stream, count):
    """The next bytes of a stream: `count` of them, or fewer if the stream ends or is silent for SECONDS."""
    text = b''
    while len(text) < count and select.select([stream], [], [], SECONDS)[0]:
        piece = os.read(stream.fileno(), count - len(text))
        if not piece:
            break
        text += piece
    return text


def is_silent(stream):
    """Whether nothing comes on a stream for 0.2 seconds."""
    return not select.select([stream], [], [], 0.2)[0]


def answers(running, line, answer):
    """Whether the program answers a line, or the rest of a line, with exactly this answer, and then waits."""
    running.stdin.write(line)
    return received(running.stdout, len(answer)) == answer and is_silent(running.stdout)


def ends(running, status, said, printed=b''):
    """Whether a program whose input has ended prints the rest, prints this on standard error, and ends with this status."""
    out, err = running.communicate(timeout=SECONDS)
    return (running.returncode, err.decode(), out) == (status, said, printed)


def each_line_is_answered(program):
    """Each line is answered before the next is sent; an answer includes the lines of notified and released adapters."""
    running = started(program)
    told = b'ok\ntold A9 SET #0.pages 100 5 -1\n\n'
    released = b'ok\ntold A9 REMOVING_ADAPTER #0 A9 null 0\nreleased A9 told 2 kept 0\n\n'
    dialogue = [(b'new Book\n', b'#0\n\n'), (b'\n', b'\n'), (b'attach A9 #0 flat\n', b'ok\n\n')]
    dialogue += [(b'set #0 pages 5\n', told), (b'frob\n', b'bad line\n\n'), (b'detach A9\n', released)]
    return all(answers(running, line, answer) for line, answer in dialogue) and ends(running, 0, '')


def half_a_line_waits(program):
    """Whole lines are answered while the rest of a line is still missing; a line may come in pieces."""
    running = started(program)
    pieces = [(b'new Book\nnew B', b'#0\n\n'), (b'oo', b''), (b'k\nnew Book\nget #0', b'#1\n\n#2\n\n'), (b' pages\n', b'100\n\n')]
    return all(answers(running, piece, answer) for piece, answer in pieces) and ends(running, 0, '')


def last_line_needs_no_newline(program):
    """The end of the input ends the last line, and the run."""
    running = started(program)
    return answers(running, b'new Book\nnew Book', b'#0\n\n') and ends(running, 0, '', b'#1\n\n')


def caller_stops_listening(program):
    """If the caller closes its end of the output, the program stops at its next answer."""
    running = started(program)
    if not answers(running, b'new Book\n', b'#0\n\n'):
        return False
    running.stdout.close()
    running.stdin.write(b'new Book\n')
    return running.wait(SECONDS) == 3 and running.stderr.read().decode() == STOPPED('WRITE')


def caller_takes_one_line(program):
    """The program stops if a caller reads only the first of many answers."""
    words = f'yes "new Book" | {{ "{program}" --meta "{LIBRARY}" --live; echo $? >&2; }} | head -n 1'
    done = subprocess.run(['bash', '-c', words], stdout=subprocess.PIPE, stderr=subprocess.PIPE, timeout=SECONDS)
    return done.stdout == b'#0\n' and done.stderr.decode().endswith(STOPPED('WRITE') + '3\n')


def line_never_ends(program):
    """A line without an end is read only to the longest length of a line; the lines before it were answered."""
    running = started(program)
    if not answers(running, b'new Book\n', b'#0\n\n'):
        return False
    piece, sent = b' ' * 65_536, 0
    try:
        while sent < 2 * LONGEST:
            sent += running.stdin.write(piece)
    except BrokenPipeError:
        pass
    is_stopped = running.wait(SECONDS) == 3 and running.stderr.read().decode() == STOPPED('TOO_LONG')
    running.stdin.close()
    return is_stopped and sent < LONGEST + 1_000_000


def terminal_is_prompted(program):
    """On a terminal there is a prompt on standard error whenever the program waits for a line."""
    master, slave = pty.openpty()
    running = started(program, slave)
    os.close(slave)
    is_asked = received(running.stderr, 2) == b'> '
    os.write(master, b'new Book\n')
    is_answered = received(running.stdout, 4) == b'#0\n\n' and received(running.stderr, 2) == b'> '
    os.write(master, b'\x04')
    ended = running.communicate(timeout=SECONDS) == (b'', b'\n') and running.returncode == 0
    os.close(master)
    return is_asked and is_answered and ended


def examples_are_answered_alike(program):
    """Live mode answers a script as a batch does, with one empty line more for each line of the script."""
    for file in LIBRARY.parent.glob('*.txt'):
        script = file.read_bytes()
        done = subprocess.run([program, '--meta', LIBRARY, '--live'], input=script, stdout=subprocess.PIPE, timeout=SECONDS)
        lines = done.stdout.splitlines(keepends=True)
        if b''.join(line for line in lines if line != b'\n') != file.with_suffix('.out').read_bytes():
            return False
        if lines.count(b'\n') != len(script.splitlines()):
            return False
    return True


def journal_comes_back(program):
    """With a journal each line is answered before the next is sent, and the next start has all that was answered."""
    with tempfile.TemporaryDirectory() as room:
        options = ('--journal', f'{room}/journal')
        running = started(program, options=options)
        dialogue = [(b'new Book\n', b'#0\n\n'), (b'set #0 pa', b''), (b'ges 5\n', b'ok\n\n'), (b'get #0 pages\n', b'5\n\n')]
        is_answered = all(answers(running, line, answer) for line, answer in dialogue)
        running.kill()
        running.communicate()
        running = started(program, options=options)
        return is_answered and answers(running, b'get #0 pages\nnew Book\n', b'5\n\n#1\n\n') and ends(running, 0, '')


def resident(running):
    """The resident memory of a running program, in KB."""
    return int(re.search(r'^VmRSS:\s+(\d+) kB$', pathlib.Path(f'/proc/{running.pid}/status').read_text(), re.M)[1])


def is_refused(running, line, answer):
    """Whether a line that is sent a thousand times gets the same answer each time."""
    running.stdin.write(line * 1_000)
    return received(running.stdout, 1_000 * len(answer)) == answer * 1_000


def refused_commands_keep_no_memory(program):
    """A command that is refused again and again takes no more memory. It would replace a link, and a full adapter would be notified."""
    running = started(program)
    made = b'new Person\nnew Book\nnew Book\nset #0 favourite #1\nattach A8 #0 flat\nset #0 favourite #1\n'
    if not answers(running, made, b'#0\n\n#1\n\n#2\n\nok\n\nok\n\nok\ntold A8 SET #0.favourite #1 #1 -1\n\n'):
        return False
    words = b'set #0 favourite #2\n', b'refused 27 ADAPTER_FULL\n\n'
    holds, before = is_refused(running, *words), resident(running)
    holds = holds and all(is_refused(running, *words) for _ in range(ROUNDS))
    return holds and resident(running) < before + SLACK and ends(running, 0, '')


DIALOGUES = (
    each_line_is_answered,
    half_a_line_waits,
    last_line_needs_no_newline,
    caller_stops_listening,
    caller_takes_one_line,
    line_never_ends,
    terminal_is_prompted,
    journal_comes_back,
    examples_are_answered_alike,
    refused_commands_keep_no_memory,
)


def hold(program):
    """Runs each dialogue; returns by its name whether it held."""
    return {talk.__name__: program.exists() and talk(program) for talk in DIALOGUES}
