"""INI text, its content, and how it is printed: docs/rules/ini_text.md. Names, keys and values are bytes."""
import re
from dataclasses import dataclass, field
from typing import Dict, List, Optional, Tuple
from .faults import BAD_BYTE, RANGE, refuse_unless
from .values import number

LONGEST_LINE, LONGEST_TEXT = 4_096, 1_048_576
BYTE_ORDER_MARK, BLANKS = b"\xEF\xBB\xBF", b" \t\r"
CONTROL_CHARACTER = re.compile(rb"[^\t\n\r\x20-\xFF]")

@dataclass
class Section:
    """A name as it was first spelled, and pairs of key and value in the order of their first lines."""
    name: bytes
    pairs: Dict[bytes, Tuple[bytes, bytes]] = field(default_factory=dict)      # by the key in lower case

    def value_at(self, key) -> Optional[bytes]:
        return self.pairs.get(key.lower(), (key, None))[1]

    def put(self, key, value):
        """In the place of the key's value, under its first spelling; a new key goes last."""
        first_spelling, _ = self.pairs.get(key.lower(), (key, None))
        self.pairs[key.lower()] = first_spelling, value

    def remove(self, key):
        self.pairs.pop(key.lower(), None)

@dataclass
class Content:
    """The sections of a text in the order of their first headers, and the numbers of the lines that are warned of."""
    sections: Dict[bytes, Section] = field(default_factory=dict)               # by the name in lower case
    warnings: List[int] = field(default_factory=list)

    def section(self, name) -> Optional[Section]:
        return self.sections.get(name.lower())

    def section_or_new(self, name) -> Section:
        return self.sections.setdefault(name.lower(), Section(name))

    def copy(self):
        return Content({name: Section(section.name, dict(section.pairs)) for name, section in self.sections.items()})

    def text(self):
        return b"".join(b"[%s]\n" % section.name + b"".join(b"%s=%s\n" % pair for pair in section.pairs.values())
                        for section in self.sections.values())

def lines_of(text, goes_on=False):
    """Without the CRs at their ends. What stands behind the last LF is none where it is empty, or the text goes on."""
    lines = text.split(b"\n")
    return [line.rstrip(b"\r") for line in (lines[:-1] if goes_on or not lines[-1] else lines)]

def header_name(line):
    """What stands between the [ that a trimmed line begins with and its first ], unless that is blank; else None."""
    name, bracket, _ = line[1:].partition(b"]")
    return (name.strip(BLANKS) or None) if line.startswith(b"[") and bracket else None

def key_value(line):
    """The key and the value of a trimmed line with a key before its first =, else None."""
    key, equals, value = line.partition(b"=")
    return (key.strip(BLANKS), value.strip(BLANKS)) if equals and key.strip(BLANKS) else None

def content_of(text):
    """The content of a text that isn't refused."""
    lines = lines_of(text)
    refuse_unless(len(text) <= LONGEST_TEXT and all(len(line) <= LONGEST_LINE for line in lines), RANGE)
    refuse_unless(not CONTROL_CHARACTER.search(text), BAD_BYTE)
    if text.startswith(BYTE_ORDER_MARK):
        lines[0] = lines[0][len(BYTE_ORDER_MARK):]
    content, current = Content(), None
    for line_number, line in enumerate(lines, 1):
        line = line.strip(BLANKS)
        name = header_name(line)
        if name is not None:
            current = content.section_or_new(name)
        elif line and not line.startswith(b";") and not is_taken(current, line):
            content.warnings.append(line_number)
    return content

def is_taken(section, line):
    """Puts the pair of a line where the section hasn't its key; gives whether there is nothing to warn of."""
    pair = key_value(line)
    if section is None or pair is None or section.value_at(pair[0]) is not None:
        return False
    section.put(*pair)
    return pair[0].lower() != b"compactpdo" or number(pair[1]) == 0
