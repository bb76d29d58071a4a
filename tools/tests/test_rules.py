"""The rules that the tools repeat, held to cobench: what each module says of commands, numbers, values, lines and messages.

Each session asks cobench of many cases at once; the replies are kept, as those of the other tests.
"""
import os
import re
import sys

from helper import ROOT, put, recorded
from odd_scripts import odd_script

from cobench_tools import concise, data_types, forms, ini, limits, pdo_values, script, tool, values
from cobench_tools import session as sessions
from cobench_tools.evidence import Evidence
from cobench_tools.pdo_writes import writes_of
from cobench_tools.project import Project

sys.path.append(os.path.join(ROOT, "reference"))
import generators  # noqa: E402

# A right word of each kind, those at its limits and beyond, and words of other forms.
WORDS = {
    "VERSION": ("1", "2", "3", "0", "4"), "RATE": ("500", "10", "0500", "9", "1000", "1001"), "US": ("0", "10000000", "10000001", "0000000005", "999", "1000"),
    "ID": ("5", "1", "127", "128", "0"), "SYNC_US": ("0", "1000", "999", "1", "10000000", "10000001"), "HB_MS": ("0", "65535", "65536"),
    "TIMEOUT_MS": ("1", "0", "65535", "65536"), "COUNTER": ("0", "1", "2", "240", "241"), "NAME": ("d", "x" * 32, "x" * 33, "a-b"),
    "EDS": ("d", "none"), "MESSAGE": ("m", "none"), "NEED": ("mandatory", "optional", "Optional"), "TPDO": ("1", "512", "513", "0"),
    "TYPE": ("0", "255", "256"), "INHIBIT": ("0", "65535", "65536"), "EVENT": ("0", "65535", "65536"),
    "COB": ("0", "7FF", "800", "7ff", "0185", "FFF"), "START": ("0", "240", "241"), "POS": ("1", "64", "65", "0"),
    "RPDO": ("0", "1", "512", "513"), "MS": ("0", "65535", "65536"), "DAYS": ("0", "65535", "65536"),
    "INDEX": ("2000", "13FF", "1400", "1bff", "1C00", "0x17", "1017h", "12345"), "SUB": ("0", "FF", "100", "g"),
    "TEXT": ("1", "a b", "x" * 4000, "x" * 4001), "K": ("1", "10000", "10001", "0"), "TIME": ("0", "10000000", "10000001"),
    "CMD": ("1", "2", "128", "129", "130", "3", "0"), "TO": ("0", "5", "128"), "ON_OFF": ("on", "off", "ON"), "LINES": ("0", "65537"),
    "set": ("set", "Set"), "power": ("power", "pow"), "nmt": ("nmt", ""),
}
ODD = ("-1", "+1", "1_0", "²", "0x5", "5h", "99999999999", "1e3", "#", "<x", ".")
# What would take away what the others name, ask for much, or isn't for cobench: comments, and files that are taken in.
LEFT_OUT = re.compile("(drop-(eds d|node 5|message m)|version [123]|diag|trace|project|c?dcf 5|eds d 0)|eds .* <.*|#.*")
SHEET = b"eds d 4\n[1017]\nDataType=6\n[2000]\nDataType=7\n"


def commands_of_all_forms():
    """Commands that are right, and ones in which one word is another, is missing, or is one too many."""
    for name, form in [*forms.FORMS.items(), *(("event", each) for each in forms.EVENTS.values())]:
        kinds = form.split()
        right = [WORDS[kind][0] for kind in kinds]
        yield [name, *right]
        yield [name, *right, "more"]
        for place, kind in enumerate(kinds):
            yield [name, *right[:place]]
            for word in (*WORDS[kind][1:], *ODD):
                yield [name, *right[:place], word, *right[place + 1:]]
    for name in ("Bitrate", "bitrates", "help", "[1017]", "a=b", "//", ";"):
        yield [name, "500"]


def text_of_all_forms():
    """The script of these, in which each command finds what it names, and none takes lines."""
    made = SHEET + b"node 5 pump d\nmessage m 5 1 1 0 0 0\n"
    lines = map(" ".join, commands_of_all_forms())
    return made + "".join(f"{line}\n" for line in lines if not LEFT_OUT.fullmatch(line)).encode()


def text_of_version_3():
    """The same in version 3, of the commands that are other there."""
    text = text_of_all_forms()
    lines = re.findall(rb"(?m)^(?:need|message|drop-message|receive|unreceive|param|time-period) .*\n", text)
    return b"version 3\n" + SHEET + b"node 5 pump d\nmessage m 5 1 1 0 0 0\nreceive m 5 0 0\n" + b"".join(lines)


def answered(text):
    """The commands of a script, each with cobench's reply."""
    put("net.txt", text)
    return sessions.run("net.txt", recorded()).pairs


def test_the_forms_are_those_of_cobench():
    """forms.py: a command is refused with 2 Syntax where bad_syntax says why, and there alone."""
    pairs = answered(text_of_all_forms()) + answered(text_of_version_3())
    assert len(pairs) > 500
    wrong = [(tool.shown(command.line)[:80], reply.refused, forms.bad_syntax(command)) for command, reply in pairs
             if (reply.refused == "2 Syntax") != (forms.bad_syntax(command) is not None)]
    assert not wrong, wrong[:5]
    assert sum(reply.refused == "2 Syntax" for _, reply in pairs) > 200


def test_the_limits_are_those_of_cobench():
    """limits.py: a command of the right form is refused with 3 Range where out_of_range says why, and there alone."""
    for text in (text_of_all_forms(), text_of_version_3()):
        pairs, project, wrong, count = answered(text), Project(), [], 0
        for command, reply in pairs:
            if reply.refused != "2 Syntax":
                why = limits.out_of_range(command, project)
                wrong += [(tool.shown(command.line), reply.refused, why)] if (reply.refused == "3 Range") != (why is not None) else []
                count += why is not None
            if reply.is_accepted():
                project.take(command)
        assert not wrong and count > 10, (count, wrong[:5])


TEXTS = ("", "0", "1", "2", "-1", "-0", "127", "128", "255", "256", "0x7F", "0x80", "0xFF", "0x100", "017", "08", "-017", "0xffff", "65536", "-32768",
         "-32769", "0xFFFFFFFF", "4294967296", "0x8000000000000000", "-9223372036854775808", "-9223372036854775809", "18446744073709551615",
         "18446744073709551616", "9" * 40, "0" * 60 + "7", "$NODEID", "$nodeid+1", "1 + $NODEID", "$NODEID+0x80", "$NODEID+-1", "$NODEID + $NODEID",
         "$NODEID+250", "-$NODEID", "1_0", "+5", "0x", "1 2", "5h", "TRUE", "1e2", "1.0", "00 11", "0011", "001", "aF", "text with blanks")
KINDS = (1, 2, 3, 4, 0x15, 5, 6, 7, 0x1B, 9, 0x0A, 0x0F, 8)
# Of version 3: numbers at the ends of integers of 24 to 56 bits; of REALs spellings, ties and what lies beside them, least and greatest.
KINDS_OF_VERSION_3 = (0x10, 0x12, 0x13, 0x14, 0x16, 0x18, 0x19, 0x1A, 0x08, 0x11)
TEXTS_OF_VERSION_3 = (*(str(number) for bits in (23, 24, 39, 40, 47, 48, 55, 56) for number in (2**bits - 1, 2**bits, -2**bits, -2**bits - 1)),
                      *(f"0x{number:X}" for bits in (24, 40, 48, 56) for number in (2**bits - 1, 2**bits, 2**(bits - 1))),
                      "2.5", "-2.5", "+.5", "5.", ".", "-", "e5", "1e", "1e+", "1E-3", "1e+07", "0.1", "-0.0", "1e-400", "-1e-400", "1e400", "0e9999999999999999999",
                      "1e9999999999999999999", "inf", "NaN", "1,5", "1.2.3", "--1", "16777217", "16777217.00000000000000000000000000000001", "16777219",
                      "3.4028235e38", "340282356779733661637539395458142568447", "340282356779733661637539395458142568448", "1.401298464324817e-45",
                      "7.006492321624085e-46", "7.0064923216240853607e-46", "7.0064923216240853608e-46", "1.1754943e-38", "2.2250738585072011e-308", "4.9406564584124654e-324",
                      "2.4703282292062327e-324", "2.4703282292062328e-324", "1.7976931348623157e308", "1.7976931348623158e308", "1.7976931348623159e308",
                      "9007199254740993", "9007199254740993.0000000000000000001", "0" * 90 + "1.5", "0." + "0" * 90 + "15e91")


def values_apart(version, kinds, texts):
    """Where the values of these texts aren't those that the concise DCF has, each type with each text; and how many are values."""
    cases = [(0x2000 + place, kind, text) for place, (kind, text) in enumerate((kind, text) for kind in kinds for text in texts if text)]
    sheet = "".join(f"[{index:04X}]\nDataType={kind:#x}\nAccessType=rw\n" for index, kind, _ in cases).encode()
    text = b"version %d\n" % version if version > 1 else b""
    text += b"eds d %d\n%snode 5 pump d\n" % (sheet.count(b"\n"), sheet)
    text += "".join(f"param 5 {index:04X} 0 {value}\n" for index, _, value in cases).encode()
    put("net.txt", text)
    made = sessions.run("net.txt", recorded(), ("cdcf", "diag"))
    assert all(reply.is_accepted() for _, reply in made.pairs)
    written = {key[0]: data for key, data in concise.values_of(made.lines("cdcf", 5)).items() if key[1] == 0 and key[0] >= 0x2000}
    wrong = []
    for index, kind, value in cases:
        ours = values.data_of(kind, value, 5) if data_types.is_modelled(kind, version) else None
        wrong += [(hex(kind), value, ours, written.get(index))] if ours != written.get(index) else []
    return wrong, len(written)


def test_values_are_those_of_cobench():
    """values.py and device.py: the bytes that the concise DCF has of each text that is a value of its type, and no others."""
    wrong, count = values_apart(1, KINDS, TEXTS)
    assert not wrong and count > 100, (count, wrong[:8])


def test_values_of_version_3_are_those_of_cobench():
    """The same of the types that version 3 has besides; in version 2 none of these is written."""
    wrong, count = values_apart(3, KINDS_OF_VERSION_3, TEXTS + TEXTS_OF_VERSION_3)
    assert not wrong and count > 300, (count, wrong[:8])
    assert values_apart(2, KINDS_OF_VERSION_3, ("1", "2.5")) == ([], 0)


LINES = (b"", b";x", b"[a]", b"[a] behind", b"[]", b"[ ] = 5", b"[=x", b"x=1", b"X = 2", b"=3", b" = 4", b"key", b"[b", b"[b]\r", b"x=1\r", b"\t[A]\t",
         b"x=", b"x=2", b"CompactPDO=0", b"compactpdo=0x0", b"CompactPDO=1", b"[c]", b"CompactPDO=x", b"[d]", b"COMPACTPDO=", b"[e]", b"CompactPDO=-00", b"[h]", b"CompactPDO=0X00", b"[i]", b"CompactPDO=0x",
         b"[f]", b"y=1;2", b"\xb2=\xb2", b"Y=3", b"]", b"[\xe4]", b"[g]=5", b"[x]y]=3")


def test_lines_that_are_not_used_are_those_of_cobench():
    """ini.py: `diag` warns of the lines of data sheets of which unused_lines says why."""
    texts = {"a": LINES, "b": (b"\xef\xbb\xbf[a]",) + LINES, "c": LINES[7:] + LINES[:7], "d": LINES + LINES}
    put("net.txt", b"".join(script.block_of(name.encode(), [line.rstrip(b"\r") for line in lines]) for name, lines in texts.items()))
    made = sessions.run("net.txt", recorded(), ("diag",))
    ours = [f"W20 eds {name} {number}" for name, lines in sorted(made.project.texts.items()) for number in sorted(ini.unused_lines(lines))]
    assert [tool.shown(line) for line in made.lines("diag")] == ours and len(ours) > 20, ours


def edits_of(text):
    """A script without its queries, and without what makes its run long."""
    return b"\n".join(line for line in text.split(b"\n") if not re.match(b"(trace|c?dcf|project|diag|horizon)", line))


def plans_of_version_3(kind, seeds):
    """How many faults `diag` has in generated scripts of a kind, all of which the plan finds, and how many writes of PDOs `cdcf` has,
    all of which it plans."""
    faults = writes = 0
    for seed in seeds:
        put("net.txt", edits_of(generators.script(kind, seed)))
        made = sessions.run("net.txt", recorded(), ("diag", "cdcf"))
        plan = Evidence(made).plan
        told = sorted(tool.shown(line) for line in made.lines("diag") if re.match(b"E.. message", line))
        ours = sorted({f"{fault.code} message {name}" for name, each in plan.messages.items() for fault in each.faults})
        assert ours == told, (seed, ours, told)
        for node in made.project.nodes:
            found = concise.writes_of(concise.bytes_of(made.lines("cdcf", node)))
            written = [((index, sub), int.from_bytes(data, "little")) for index, sub, data in found if pdo_values.is_of_pdos(index)]
            planned = [each for several in writes_of(plan, node).values() for each in several]
            assert planned == written, (seed, node, planned, written)
            writes += len(written)
        faults += len(told)
    return faults, writes


def test_pdos_as_vendors_make_them_are_as_cobench_has_them():
    """plan.py and vendor_pdo.py, in generated scripts of version 3."""
    faults, writes = plans_of_version_3("vendors", range(16))
    assert faults > 10 and writes > 100, (faults, writes)


def test_pdos_of_all_data_types_are_as_cobench_has_them():
    """The same with integers of 24 to 56 bits and REALs among the sources and sinks; in scripts without a controller."""
    faults, writes = plans_of_version_3("version3", (1, 2, 3, 16, 17, 18, 26, 27, 29, 37, 38))
    assert faults > 10 and writes > 100, (faults, writes)


def test_plans_with_a_controller_are_as_cobench_has_them():
    """The same where the manager runs in a node; some of the scripts have its 1017h:00 in a PDO."""
    faults, writes = plans_of_version_3("version3", (4, 6, 8, 10, 14, 15, 20, 24, 30, 31, 35))
    assert faults > 10 and writes > 100, (faults, writes)


def test_faults_of_messages_are_those_of_cobench():
    """plan.py: `diag` has the faults of messages that the plan finds, in generated networks of which a third is damaged."""
    count = 0
    for seed in range(1, 40, 3):
        put("net.txt", edits_of(odd_script(seed)))
        try:
            made = sessions.run("net.txt", recorded(), ("diag",))
        except tool.Fault as fault:
            assert "the script ends" in str(fault), (seed, fault)
            continue
        told = sorted(tool.shown(line) for line in made.lines("diag") if re.match(b"E.. message", line))
        planned = Evidence(made).plan.messages
        ours = sorted({f"{fault.code} message {name}" for name, each in planned.items() for fault in each.faults})
        assert ours == told, (seed, ours[:5], told[:5])
        count += len(told)
    assert count > 5, count
