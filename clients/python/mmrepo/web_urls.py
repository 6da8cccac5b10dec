"""URLs of http and https as the URL Standard reads, joins and writes them. The fragment is cut off beforehand."""

from __future__ import annotations

import re
import unicodedata
from typing import List, NamedTuple, Optional, Tuple
from urllib.parse import unquote_to_bytes

PORTS = {'http': '80', 'https': '443'}
SCHEME = re.compile(r'([A-Za-z][A-Za-z0-9+.-]*):(.*)', re.S)
QUERY_SET = ' "#<>\''
PATH_SET = ' "#<>?^`{}'
USER_SET = ' "#<>?^`{}/:;=@[\\]|'
FORBIDDEN = re.compile('[\0-\x20#/:<>?@\\[\\\\\\]^|%\x7f]')
DOT = ('.', '%2e')
DOTS = ('..', '.%2e', '%2e.', '%2e%2e')
KEPT = 'ßς\u200c\u200d'  # characters that a host keeps, and that folding would replace or drop
DROPPED = re.compile('[\u00ad\u034f\u180b-\u180d\u200b\u2060\u2064\ufe00-\ufe0f\ufeff]')


class Url(NamedTuple):
    """The parts of a URL. `before` is the user and the password, with the `@` after them."""

    scheme: str
    before: str
    host: str
    port: str
    path: List[str]
    query: Optional[str]

    def text(self) -> str:
        """The URL as it is written."""
        port = f':{self.port}' if self.port else ''
        query = '' if self.query is None else f'?{self.query}'
        return f'{self.scheme}://{self.before}{self.host}{port}/{"/".join(self.path)}{query}'


def escaped(text: str, marks: str) -> str:
    """The text with certain characters escaped: those of `marks`, control characters, and all that are not ASCII."""
    return ''.join(
        char if ' ' <= char <= '~' and char not in marks else ''.join(f'%{byte:02X}' for byte in char.encode('utf-8', 'replace'))
        for char in text
    )


def parse(text: str, base: Optional[Url]) -> Optional[Url]:
    """The URL of a text, read alone or joined with a base. Returns None if the result is no URL of http or https."""
    text = re.sub('[\t\n\r]', '', text.strip(''.join(map(chr, range(33)))))
    found = SCHEME.fullmatch(text)
    if found is None:
        return relative(text, base) if base is not None else None
    scheme, rest = found.group(1).lower(), found.group(2)
    if scheme not in PORTS:
        return None
    made = with_authority(scheme, rest.lstrip('/\\'))
    if made is None and base is not None and base.scheme == scheme and not re.match(r'[/\\]{2}', rest):
        return relative(rest, base)
    return made


def with_authority(scheme: str, text: str) -> Optional[Url]:
    """The URL of the text after the slashes of its scheme."""
    authority, rest = cut(text, '/\\?')
    user, at, place = authority.rpartition('@')
    found = re.fullmatch(r'(\[[^\]]*\]|[^:]*)(?::([0-9]*))?', place)
    if found is None:
        return None
    host, port = host_of(found.group(1)), (found.group(2) or '').lstrip('0') or ('0' if found.group(2) else '')
    if host is None or len(port) > 5 or int(port or '0') > 65535:
        return None
    path, query = cut(rest, '?')
    name, colon, word = user.partition(':')
    before = escaped(name, USER_SET) + (f':{escaped(word, USER_SET)}' if word else '')
    return Url(
        scheme, f'{before}@' if before else '', host, '' if port == PORTS[scheme] else port, segments([], path), query_of(query)
    )


def relative(text: str, base: Url) -> Optional[Url]:
    """The URL of a text without a scheme."""
    if re.match(r'[/\\]{2}', text):
        return with_authority(base.scheme, text.lstrip('/\\'))
    path, query = cut(text, '?')
    if not path:
        return base._replace(query=query_of(query)) if query else base
    above = [] if path[0] in '/\\' else base.path[:-1]
    return base._replace(path=segments(above, path), query=query_of(query))


def cut(text: str, marks: str) -> Tuple[str, str]:
    """The text before the first of some characters, and the text from there on."""
    place = next((place for place, char in enumerate(text) if char in marks), len(text))
    return text[:place], text[place:]


def query_of(text: str) -> Optional[str]:
    """The query of a text that begins with `?`."""
    return escaped(text[1:], QUERY_SET) if text else None


def segments(above: List[str], text: str) -> List[str]:
    """The segments of the path `text`, joined with the segments `above`."""
    made = list(above)
    words = re.split(r'[/\\]', text[1:] if text[:1] in ('/', '\\') else text)
    for place, word in enumerate(words):
        is_last = place == len(words) - 1
        if word.lower() in DOTS:
            made = made[:-1] + [''] * is_last
        elif word.lower() in DOT:
            made += [''] * is_last
        else:
            made.append(escaped(word, PATH_SET))
    return made


def host_of(text: str) -> Optional[str]:
    """The host as it is written: a name, an IPv4 address or an IPv6 address."""
    if text.startswith('['):
        return eight_numbers(text[1:-1]) if text.endswith(']') else None
    name = ascii_name(unquote_to_bytes(text).decode('utf-8', 'replace'))
    if not name or FORBIDDEN.search(name):
        return None
    words = name.split('.')
    last = words[-2] if not words[-1] and len(words) > 1 else words[-1]
    if re.fullmatch(r'[0-9]+|0x[0-9a-f]*', last):
        return four_numbers(words[:-1] if not words[-1] else words)
    return name


def ascii_name(name: str) -> Optional[str]:
    """The name of a host in ASCII: lower case, and Punycode for a label with other characters. Returns None if it is not valid."""
    if name.isascii():
        return name.lower()
    folded = ''.join(char if char in KEPT else unicodedata.normalize('NFKC', char).casefold() for char in DROPPED.sub('', name))
    folded = unicodedata.normalize('NFC', unicodedata.normalize('NFKC', folded) if not set(KEPT) & set(folded) else folded)
    labels = []
    for label in re.split('[.\u3002]', folded):
        if not label.isascii():
            if not is_plain_label(label):
                return None
            label = 'xn--' + label.encode('punycode').decode('ascii')
        labels.append(label)
    return '.'.join(labels)


def is_plain_label(label: str) -> bool:
    """Whether a label has only characters of words, begins with no combining mark, and reads in one direction."""
    kinds = [unicodedata.category(char) for char in label]
    ways = {unicodedata.bidirectional(char) for char in label}
    if kinds[0][0] == 'M' or not all(kind[0] in 'LMNPS' or char in KEPT for kind, char in zip(kinds, label)):
        return False
    return not ways & {'R', 'AL', 'AN'} or 'L' not in ways and unicodedata.bidirectional(label[0]) in ('R', 'AL')


def four_numbers(words: List[str]) -> Optional[str]:
    """An IPv4 address of up to four numbers: decimal, octal or hexadecimal, the last one for all remaining bytes."""
    numbers = [number_of(word) for word in words]
    if len(words) > 4 or any(it is None for it in numbers):
        return None
    found = [it for it in numbers if it is not None]
    if any(it > 255 for it in found[:-1]) or found[-1] >= 256 ** (5 - len(found)):
        return None
    whole = found[-1] + sum(it << 8 * (3 - place) for place, it in enumerate(found[:-1]))
    return '.'.join(str(whole >> shift & 255) for shift in (24, 16, 8, 0))


def number_of(word: str) -> Optional[int]:
    """A number of an address."""
    for pattern, base in ((r'0x([0-9a-f]*)', 16), (r'0([0-7]+)', 8), (r'([0-9]+)', 10)):
        found = re.fullmatch(pattern, word)
        if found is not None:
            return None if base == 10 and len(word) > 1 and word[0] == '0' else int(found.group(1) or '0', base)
    return None


def eight_numbers(text: str) -> Optional[str]:
    """An IPv6 address; the longest run of zeros is left out."""
    found = re.fullmatch(r'(.*?)([0-9]+)\.([0-9]+)\.([0-9]+)\.([0-9]+)', text)
    if found is not None:
        parts = found.groups()[1:]
        if any(int(it) > 255 or len(it) > 1 and it[0] == '0' for it in parts):
            return None
        text = '%s%x:%x' % (found.group(1), int(parts[0]) << 8 | int(parts[1]), int(parts[2]) << 8 | int(parts[3]))
    halves = text.split('::')
    pieces = [half.split(':') if half else [] for half in halves]
    count = sum(map(len, pieces))
    if len(halves) > 2 or not all(re.fullmatch('[0-9A-Fa-f]{1,4}', it) for half in pieces for it in half):
        return None
    if count != 8 if len(halves) == 1 else count > 7:
        return None
    numbers = [f'{int(it, 16):x}' for it in pieces[0] + ['0'] * (8 - count) + (pieces[1] if len(halves) == 2 else [])]
    runs = [(length, -start) for start in range(8) for length in range(2, 9 - start) if set(numbers[start:start + length]) == {'0'}]
    if not runs:
        return f'[{":".join(numbers)}]'
    length, start = max(runs)
    return f'[{":".join(numbers[:-start])}::{":".join(numbers[length - start:])}]'
