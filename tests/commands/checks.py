"""Masters and certificates that `check` accepts or rejects."""
import itertools
from collections.abc import Iterator

from dsdarc_scripts.dsdiffs import dsdiff
from tests.commands.asking import CHECK, Case, Step, demand, done, refused, rejected
from tests.commands.small_files import (
    BACK,
    BOTH,
    BOTH_FREE,
    CERT,
    CUES,
    CUT_OFF,
    FILE,
    FIRST,
    FREE,
    MASTER,
    NAMED_CUES,
    RATE,
    THERE_AND_BACK,
    TITLED,
    WIDE,
    changed,
    mono,
    splice,
    stereo,
    to_check,
    to_cut,
    to_cut_both,
)
from tests.fuzz.bases import Cue
from tests.fuzz.bridging import verdict

# Bytes of the certificate of the first version: the head has the version at 4 to 5; the entry has its cue at 12 to 13, its
# length at 16 to 17, the row of level 0 from 18 on, that of level 1 from 34 on, and the cost at 50 to 57. The bound of state
# 0 at level 1 ends at 41: 5 is above the 4 that a step leads to it for, 3 is below the cost. The bound of state 0 at level 0
# ends at 25, and one above `2^63` is none; that of the start state ends at 33, and is 0.
CHANGED_WIDE = (
    (41, 5, "Cert 0 Step 1 0"),
    (41, 3, "Cert 0 End 0"),
    (5, 3, "CertHead Head"),
    (13, 1, "Cert 0 Head"),
    (17, 2, "Cert 0 Length"),
    (25, 1, "Cert 0 Bound"),
    (33, 1, "Cert 0 Start"),
    (57, 5, "Cert 0 Cost"),
)

# The same of the second version: the row of level 0 has its least value at 18 to 25, its width at 26 and its excesses at 27
# and 28, that of level 1 its least value at 29 to 36 and its width at 37, and the cost is at 38 to 45.
CHANGED_CERT = (
    (36, 5, "Cert 0 Step 1 0"),
    (36, 3, "Cert 0 End 0"),
    (5, 3, "CertHead Head"),
    (26, 9, "Cert 0 Row 0"),
    (28, 1, "Cert 0 Row 0"),
    (18, 128, "Cert 0 Bound"),
    (25, 1, "Cert 0 Start"),
    (45, 5, "Cert 0 Cost"),
)

# What is cut by the weights 1 and 1, its certificate, and masters with the first reason against them. Of one channel ff, 00
# is cut, whose bridge is the bit at place 8, which costs more as a 1; a bit of a cue differs at the place 0, and at 15; then
# it has a byte more, or a byte fewer; its sound is cut off, or it is no file; it has another rate; it has a mark for no
# title, or none for one. Of three cues ff, 3f is cut. Of two channels ff ff, 00 00 is cut, a byte of each in turn, of which
# the bit at place 8 is the bridge of each; a bit of a cue differs in one channel or in both; and it has one channel.
UNACCEPTED = (
    (
        to_cut(splice([1, 1])),
        FREE,
        (
            (mono(b"\xff\x80"), "Cert 0 Cost"),
            (mono(b"\x7f\0"), "CuedBit 0 0"),
            (mono(b"\xff\x01"), "CuedBit 0 15"),
            (mono(b"\xff\0\0"), "MasterLength"),
            (FILE, "MasterLength"),
            (CUT_OFF, "MasterUnread"),
            (b"\x01\x02\x03", "MasterUnread"),
            (b"", "MasterUnread"),
            (dsdiff(2 * RATE, 1, b"\xff\0"), "MasterShape"),
            (TITLED, "MasterMarks"),
        ),
    ),
    (to_cut(splice([1, 1], NAMED_CUES)), FREE, ((MASTER, "MasterMarks"),)),
    (
        to_cut(splice([1, 1], THERE_AND_BACK)),
        BACK,
        (
            (mono(b"\xff\xbf"), "Cert 0 Cost"),
            (mono(b"\xff\x1f"), "Cert 1 Cost"),
            (mono(b"\xff\x7f"), "CuedBit 0 9"),
        ),
    ),
    (
        to_cut_both([1, 1]),
        BOTH_FREE,
        (
            (stereo(b"\x7f\xff\0\0"), "CuedBit 0 0"),
            (stereo(b"\xff\xff\0\x01"), "CuedBit 1 15"),
            (stereo(b"\xff\x7f\x01\0"), "CuedBit 0 15"),
            (stereo(b"\xff\xff\x81\x01"), "CuedBit 0 15"),
            (stereo(b"\xff\xff\x80\0"), "Cert 0 Cost"),
            (stereo(b"\xff\xff\0\x80"), "Cert 1 Cost"),
            (stereo(b"\xff\xff\0\0\0\0"), "MasterLength"),
            (MASTER, "MasterShape"),
        ),
    ),
)

# The bits of the one byte in which the bound of a state that nothing reaches at level 0, 4, exceeds that of the other state,
# 0: it may as well be more, as long as it isn't 0, for which no byte is needed. That byte is 15 bytes after the start
# of an entry, at 12 or 46.
OTHER_BITS = (1, 2, 8, 16, 32, 64, 128)

# What is cut with its master and certificate, such places, and the number of channels and the cost.
FREE_BYTES = (
    (to_check(MASTER, CERT), (27,), 1, 4),
    (to_check(stereo(b"\xff\xff\0\0"), BOTH, to_cut_both([1, 0])), (27, 61), 2, 8),
)


def cut_certs() -> Iterator[tuple[bytes, str]]:
    """Certificates of both versions, cut off at each byte, in the head's 12 bytes first, and with one byte more."""
    for cert in (WIDE, CERT):
        for length in range(len(cert)):
            yield cert[:length], "CertHead Cut" if length < 12 else "Cert 0 Cut"
        yield cert + b"\0", "CertExtra"


def turned_certs(files: dict[str, bytes], places: tuple[int, ...], channels: int, total: int) -> Iterator[Case]:
    """The certificates that differ in one bit: just those are accepted with one of some bits turned over at some places."""
    takes = [[[bit] * 16] * channels for bit in (1, 0)]
    cues, master = [Cue(*cue) for cue in CUES], [[1] * 8 + [0] * 8] * channels
    cert = files["c.cert"]
    for place, bit in itertools.product(range(len(cert)), (1 << k for k in range(8))):
        turned = changed(cert, place, cert[place] ^ bit)
        line = f"accepted total {total}\n"
        if place not in places or bit not in OTHER_BITS:
            line = verdict([1, 0], takes, cues, master, turned)
            demand(line.startswith("rejected "), f"the bit {bit} of the byte {place} of a certificate is free")
        yield Case(files | {"c.cert": turned}, [Step(CHECK.split(), int(line[0] == "r"), line[:-1])])


def check_cases() -> Iterator[Case]:
    """The tables of masters and certificates that are accepted or rejected."""
    for cert in (FIRST, WIDE):
        yield Case(to_check(MASTER, cert), [done(CHECK, "accepted total 4")])
    certs = [(changed(WIDE, place, byte), line) for place, byte, line in CHANGED_WIDE]
    certs += [(changed(CERT, place, byte), line) for place, byte, line in CHANGED_CERT]
    for cert, line in (*certs, *cut_certs()):
        yield Case(to_check(MASTER, cert), [rejected(CHECK, line)])
    for files, cert, masters in UNACCEPTED:
        for master, line in masters:
            yield Case(to_check(master, cert, files), [rejected(CHECK, line)])
    yield Case(to_check(mono(b"\x7f\0"), CERT), [rejected(CHECK, "CuedBit 0 0")])
    # A certificate that isn't there is reported before a wrong master.
    yield Case(to_cut(splice([1, 0])) | {"m.dff": b""}, [refused(CHECK, "ReadFailed")])
    for row in FREE_BYTES:
        yield from turned_certs(*row)
