"""Which contents a file may have on the disk after a crash, given the system calls that the program made."""

import re
import subprocess
from typing import NamedTuple

from journaled import SECONDS, command

CALL = re.compile(r'^\d+ +(\w+)\((.*)\) += (-?\d+)')
SECTORS = (512, 16, 1)  # bytes that a disk writes at once; a sector of one byte is the worst case


class Write(NamedTuple):
    """Bytes were written at an offset."""

    at: int
    data: bytes


class Cut(NamedTuple):
    """The file was truncated to a length."""

    length: int


class Sync(NamedTuple):
    """The file was synced: its content is on the disk."""


class Answer(NamedTuple):
    """Bytes were written to standard output."""

    data: bytes


def recorded(strace, room, journal, lines, together):
    """Runs the program over lines under strace, `together` of them at a time, and returns its calls on the journal and on standard output.
    """
    log = room / 'log'
    names = 'openat,pwrite64,ftruncate,fsync,fdatasync,write'
    words = [strace, '-f', '-qq', '-xx', '-s', '1000000', '-o', log, '-e', f'trace={names}']
    running = subprocess.Popen([*words, *command(journal)], stdin=subprocess.PIPE, stdout=subprocess.PIPE, bufsize=0)
    for first in range(0, len(lines), together):
        some = lines[first:first + together]
        running.stdin.write(b''.join(line + b'\n' for line in some))
        ended = 0
        while ended < len(some):
            piece = running.stdout.readline()
            if not piece:
                break
            ended += piece == b'\n'
    running.communicate(timeout=SECONDS)
    return list(calls_of(log.read_text(), str(journal)))


def calls_of(log, journal):
    """The calls of a log of strace."""
    number = None
    for line in log.splitlines():
        found = CALL.match(line)
        if not found:
            continue
        name, words, result = found.group(1), found.group(2).split(', '), int(found.group(3))
        if name == 'openat' and data_of(words[1]).decode() == journal:
            number = words[0] if number else str(result)
        elif name == 'write' and words[0] == '1':
            yield Answer(data_of(words[1])[:result])
        elif number is not None and words[0] == number:
            if name == 'pwrite64':
                data = data_of(words[1])
                assert result == len(data), line
                yield Write(int(words[3]), data)
            elif name == 'ftruncate':
                yield Cut(int(words[1]))
            else:
                yield Sync()


def data_of(word):
    """The bytes of a string that strace has written as hexadecimal escapes"""
    return bytes.fromhex(word.strip('"').replace('\\x', ''))


def written(file, call):
    """The content of a file after a call."""
    if isinstance(call, Write):
        return file[:call.at].ljust(call.at, b'\0') + call.data + file[call.at + len(call.data):]
    if isinstance(call, Cut):
        return file[:call.length]
    return file


def torn(chance, file, call):
    """A content that a crash may leave of a call that was not synced: some sectors are old, new or garbage, and the length is anything
    between the old and the new one."""
    if isinstance(call, Cut):
        return file[:chance.randint(min(call.length, len(file)), len(file))]
    whole = bytearray(written(file, call))
    end = call.at + len(call.data)
    old = file.ljust(end, b'\0')
    kind, size = chance.randrange(5), chance.choice(SECTORS)
    for first in range(call.at - call.at % size, end, size):
        place = slice(max(first, call.at), min(first + size, end))
        if kind == 0 or kind < 4 and chance.randrange(2):
            whole[place] = old[place]
        elif kind > 2:
            whole[place] = garbage(chance, place.stop - place.start)
    if end > len(file):
        whole = whole[:chance.choice((len(whole), chance.randint(len(file), len(whole))))]
    return bytes(whole)


def garbage(chance, count):
    """Random bytes, of which some look like lines of a journal."""
    if chance.randrange(2):
        return bytes(chance.choice(b' \n ' + bytes([chance.randrange(256)])) for _ in range(count))
    return (b'\n new Book\n set #0 name "of nobody"\n' * (1 + count // 30))[chance.randrange(9):][:count].ljust(count)


def after_crash(chance, start, calls):
    """A content that a crash after some calls may leave."""
    durable, waiting = start, []
    for call in calls:
        if isinstance(call, Sync):
            for one in waiting:
                durable = written(durable, one)
            waiting = []
        elif not isinstance(call, Answer):
            waiting.append(call)
    for call in waiting:
        durable = torn(chance, durable, call)
    return durable
