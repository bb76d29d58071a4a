"""Command lines of all forms, right and wrong."""

WORDS = [b"0", b"1", b"2", b"5", b"6", b"7", b"9", b"64", b"65", b"127", b"128", b"129", b"130", b"240", b"241",
         b"512", b"513", b"1000", b"65535", b"65536", b"10000000", b"10000001", b"4294967296",
         b"00000000005", b"0000000005", b"-1", b"0x5", b"1400", b"1BFF", b"1c00", b"13ff", b"2000", b"7FF",
         b"800", b"7ff", b"181", b"a", b"b", b"m", b"n", b"p", b"q", b"a-b", b"x" * 32, b"x" * 33, b"on", b"off",
         b"set", b"power", b"nmt", b"mandatory", b"optional", b"\x7f", b"\xE4", b"\x0b", b"a\rb"]
FIRST = [b"bitrate", b"horizon", b"manager", b"drop-eds", b"node", b"node", b"drop-node", b"param",
         b"param", b"unparam", b"message", b"message", b"drop-message", b"source", b"source",
         b"unsource", b"sink", b"sink", b"unsink", b"event", b"event", b"drop-event", b"sync-counter", b"time-period",
         b"start", b"version", b"need", b"dcf", b"cdcf", b"diag", b"project", b"Hello", b"EDS"]
GOOD = {b"node": [[b"5", b"6", b"7", b"127"], [b"p", b"q", b"n"], [b"a", b"b"]],
        b"param": [[b"5", b"6"], [b"2000", b"1400"], [b"0", b"1"], [b"1", b"some  text "]],
        b"message": [[b"m", b"n"], [b"5", b"6"], [b"1", b"2"], [b"1", b"255"], [b"0"], [b"0"], [b"0", b"181"]],
        b"source": [[b"m", b"n"], [b"1", b"2"], [b"2000"], [b"0"]],
        b"sink": [[b"m", b"n"], [b"1", b"2"], [b"5", b"6"], [b"2000"], [b"0"]],
        b"event": [[b"1", b"2"], [b"0", b"10"], [b"power", b"nmt"], [b"5", b"1"], [b"on", b"5"]],
        b"need": [[b"5", b"6"], [b"mandatory", b"optional"]], b"version": [[b"1", b"2", b"3"]],
        b"start": [[b"m", b"n"], [b"0", b"3"]], b"time-period": [[b"1000", b"0"], [b"0", b"65535"]]}


def script(r):
    """Sixty command lines, with odd `eds` lines between them."""
    out = [b"eds a 3", b"[2000]", b"DataType=5", b"PDOMapping=1", b"eds b 0"]
    for _ in range(60):
        first = r.choice(FIRST)
        if first in GOOD and r.random() < 0.7:
            words = [r.choice(choices) for choices in GOOD[first]]
            if r.random() < 0.3:
                words[r.randrange(len(words))] = r.choice(WORDS)
        else:
            words = r.choices(WORDS, k=r.randrange(8))
        line = r.choice([b" ", b" ", b"\t", b"  \t"]).join([first] + words)
        if r.random() < 0.1:
            line = r.choice([b" ", b"\t"]) + line + r.choice([b" ", b"\r", b"\r\r", b" \r", b"\r "])
        if r.random() < 0.02:
            line += r.choice([b" " * 4096, b"\x01"])
        out.append(line)
        if r.random() < 0.08:
            out.append(r.choice([b"", b"  ", b" " * 4096, b" " * 4097, b"\r", b"eds c 2\nx\n[2000]",
                                 b"eds c! 1\n[2000]", b"eds c 1 2", b"eds c", b"eds c 65537", b"eds c -1",
                                 b"eds c 0000000001\nq", b"eds c 00000000001", b"eds c 1\n" + b"y" * 4097,
                                 b"eds c 1\n" + b"y" * 4096 + b"\r\r", b"eds c 1\n\x00", b"eds c\x01 1\n\x00",
                                 b"eds " + b" " * 4096 + b"c 1\n[x]"]))
    out.append(b"project")
    if r.random() < 0.3:
        out.append(r.choice([b"eds c 2\nx", b"eds c 1\n\r", b"eds c! 3\nx", b"eds c 1", b"diag"]))
        return b"\n".join(out)
    return b"\n".join(out) + b"\n"
