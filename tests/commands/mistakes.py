"""Mistakes that are easily made, and the line that explains each after its fault: what it was, and what would fit.

Each is asked twice: with `--explain`, and without, where the answer, the status and the files are the same and no line
follows. What needs more than small files is in tests/try_explained."""
import struct
from collections.abc import Iterator
from typing import Any

from dsdarc_scripts.dsdiffs import chunk, dsdiff, mark_data
from dsdarc_scripts.waves import head_of
from tests.commands.asking import CHECK, EDIT, Case, Step
from tests.commands.small_files import (
    CERT,
    DECIMATE,
    FILE,
    FREE,
    LEAST,
    MARKED,
    MASTER,
    MENDED,
    NINE,
    RATE,
    TITLED,
    TO_PLAY,
    TWICE,
    UNDIVIDED,
    WAVE,
    changed,
    dsf,
    mono,
    splice,
    stereo,
    to_check,
    to_cut,
)
from tests.commands.null_mistakes import null_mistakes
from tests.commands.sums import NOT_UTF_8, ONE
from tests.commands.sums import CHECK as JUDGE
from tests.fuzz.bases import decimate_text

# More than two megabytes of sound, of which the end is missing.
LONG_CUT = mono(bytes(2_153_286))[:2_000_000]

# Files that are no recordings, the fault of `info`, and what is seen. In `FILE` the type of compression is at 95, the
# sound's size ends at 125 and its only byte is at 126; in `LEAST` the tag's place is at 20, the version at 40, the rate
# at 56, and a byte of the sound at 92.
FILES = (
    (b"", "UnknownForm", "it is empty"),
    (FILE[:15], "UnknownForm", "it has only 15 bytes"),
    (b"fLaC".ljust(40, b"\0"), "UnknownForm", 'it begins with "fLaC": a FLAC file, not a DSDIFF or DSF file'),
    (WAVE, "UnknownForm", 'it begins with "RIFF": a WAVE file, not a DSDIFF or DSF file'),
    (CERT, "UnknownForm", 'it begins with "DSPC": a certificate, not a DSDIFF or DSF file'),
    (DECIMATE, "UnknownForm", 'it begins with "[dec": a text, not a DSDIFF or DSF file'),
    (bytes(40), "UnknownForm", "it begins with 00 00 00 00, which no DSDIFF or DSF file does"),
    (
        chunk(b"FRM8", b"DST " + bytes(8)),
        "UnknownForm",
        'it begins with "FRM8", but as a form of the type "DST ", not "DSD "',
    ),
    (FILE[:126], "Dsdiff FormCut", f"the file ends 2 bytes early, at byte 126: {MENDED}"),
    (LONG_CUT, "Dsdiff FormCut", f"the file ends 153 kB early, at byte 2,000,000: {MENDED}"),
    (
        changed(FILE, 125, 100),
        "Dsdiff Chunk DataCut 114",
        'the chunk "DSD " at byte 114 has 100 bytes by its size, past the end of what holds it: ' + MENDED,
    ),
    (
        changed(FILE, 96, ord("T")),
        "Dsdiff Compressed",
        "its sound is compressed by DST, as on many SACDs: unpack it to DSDIFF or DSF with another tool first, as "
        "sacd_extract -c does with a disc's image",
    ),
    (
        changed(FILE, 96, ord("X")),
        "Dsdiff Compressed",
        'its sound is compressed ("DSX "): unpack it with another tool first',
    ),
    (TWICE, "Dsdiff Twice 46532020", 'it has the chunk "FS  " twice'),
    (
        mono(b"\xf0", chunk(b"DIIN", chunk(b"MARK", bytes(21)))),
        "Dsdiff BadMark",
        "a mark (MARK) is shorter than its fields or the text that it names",
    ),
    (
        changed(FILE, 28, 2),
        "Dsdiff BadVersion",
        "its version is 2.5.0.0, and only 1 is known: write it anew as DSDIFF 1.5",
    ),
    (
        dsdiff(44_100, 1, b"\xf0"),
        "Dsdiff BadRate",
        "its rate is 44,100 Hz, and 1,000,000 to 50,000,000 Hz are supported",
    ),
    (
        stereo(b"\xf0"),
        "Dsdiff PartFrame",
        f"its sound has 1 byte for 2 channels, which leaves 1 byte: {MENDED}",
    ),
    (LEAST[:91], "Dsf HeadCut", "the file ends inside its headers, at byte 91: fetch it again"),
    (b"DSD ", "Dsf HeadCut", "the file ends inside its headers, at byte 4: fetch it again"),
    (changed(LEAST, 28, 0), "Dsf BadFormat", 'its second chunk is 00 6d 74 20 with 52 bytes, not "fmt " with 52'),
    (changed(LEAST, 40, 2), "Dsf BadVersion", "its version is 2, and only 1 is known: write it anew"),
    (changed(LEAST, 52, 8), "Dsf BadChannelNumber", "it has 8 channels, and 1 to 6 are supported"),
    (dsf(2, 1, b"\x0f"), "Dsf BadBits", "it has 2 bits per sample, and 1 and 8 are known"),
    (
        dsf(1, 1, b"\x0f", size=4095),
        "Dsf DataCut",
        "only the fill of the last block is missing (1 byte): dsdarc-mend IN OUT writes a copy that can be read",
    ),
    (
        dsf(1, 32_768, b"\x0f", size=4000),
        "Dsf DataCut",
        f'its chunk "data" says that it holds 4,000 bytes, and its bits need 4,096 bytes: {MENDED}',
    ),
    (
        LEAST[:20] + struct.pack("<Q", 5000) + LEAST[28:],
        "Dsf BadPointer",
        "its tag is said to begin at byte 5,000; the sound ends at 4,188, and the file at 4,188: dsdarc-mend IN OUT looks "
        "for it",
    ),
)

# Of these, the faults that `play` meets before it writes anything.
BEFORE = ("UnknownForm", "Compressed", "BadVersion", "BadRate", "HeadCut", "BadFormat", "BadChannelNumber", "BadBits")

# Project texts for `play`, and why.
FILTERS = (
    (b"# A filter.\n[decimate\n", "NotToml", "line 2: unclosed table, expected `]`"),
    (b"\xff", "NotToml", "it is not UTF-8"),
    (
        DECIMATE.replace(b"taps", b"tapz"),
        "UnknownKey",
        '"tapz" in line 2 is no key of the table "decimate"; did you mean "taps"?',
    ),
    (
        DECIMATE.replace(b"factor = 8", b"factor = 12"),
        "OutOfLimit factor",
        '"factor" in line 3 is 12, and has to be a multiple of 8, from 8 to 1024',
    ),
    (
        DECIMATE.replace(b"factor = 8", b"factor = '8'"),
        "WrongKind factor",
        '"factor" in line 3 is "8", and has to be a multiple of 8, from 8 to 1024',
    ),
    (
        DECIMATE.replace(b"width = 16\n", b""),
        "MissingKey width",
        'the table "decimate" in line 1 has no "width": 16 or 24',
    ),
    (FILE, "NotToml", "it is a recording; PROJECT comes before the recordings"),
    # Tables without a line of their own.
    (
        b"decimate = {taps = [1], factor = 8, delay = 0, shift = 0, width = 16}\nfactor = 1\n",
        "UnknownKey",
        '"factor" in line 2 is no key of the document; it belongs to the table "decimate"',
    ),
    (
        b"decimate = {taps = [1], factor = 12, delay = 0, shift = 0, width = 16}\n",
        "OutOfLimit factor",
        '"factor" in line 1 is 12, and has to be a multiple of 8, from 8 to 1024',
    ),
    (
        b"decimate.taps = [1]\ndecimate.delay = 0\ndecimate.factor = 12\ndecimate.shift = 0\ndecimate.width = 16\n",
        "OutOfLimit factor",
        '"factor" in line 3 is 12, and has to be a multiple of 8, from 8 to 1024',
    ),
    (
        b"shift = 1\n\n" + DECIMATE,
        "UnknownKey",
        '"shift" in line 1 is no key of the document; it belongs to the table "decimate"',
    ),
)

# A splice, line by line.
TEXT = b"""[splice]
weights = [1, 1]
takes = ["a.dff", "b.dff"]

[[splice.cue]]
take = 0
start = 0
stop = 8
bridge = 1

[[splice.cue]] # the second
take = 1
start = 2
stop = 9
"""

# What the reader of TOML says, and what is said beside it where a text has no quotation marks.
NO_VALUE = "invalid value, expected a string, number, boolean, date-time, array or inline table"
NO_COMMA = "missing comma between array elements, expected `,` or `]`"
QUOTES = '; a text is in quotation marks, as in takes = ["one.dff", "two.dff"]'

# What replaces what in it, and why.
SLIPS = (
    (b'["a.dff", "b.dff"]', b"[a.dff, b.dff]", "NotToml", f"line 3: {NO_VALUE}{QUOTES}"),
    (b'["a.dff", "b.dff"]', b'["a.dff, "b.dff"]', "NotToml", f"line 3: {NO_COMMA}{QUOTES}"),
    (b'["a.dff", "b.dff"]', b'[\n  "a.dff",\n  b.dff,\n]', "NotToml", f"line 5: {NO_VALUE}{QUOTES}"),
    (b"bridge = 1", b"bridge = 1\ntitle = one", "NotToml", f"line 10: {NO_VALUE}{QUOTES}"),
    (b"bridge = 1", b'title = "one"\nbridge = one', "NotToml", f"line 10: {NO_VALUE}"),
    (
        b"weights",
        b"weigths",
        "UnknownKey",
        '"weigths" in line 2 is no key of the table "splice"; did you mean "weights"?',
    ),
    (
        b"weights =",
        b"taps = 1\nweights =",
        "UnknownKey",
        '"taps" in line 2 is no key of the table "splice"; it belongs to the table "decimate"',
    ),
    (
        b"weights =",
        b"gain = 1\nweights =",
        "UnknownKey",
        '"gain" in line 2 is no key of the table "splice"; its keys are weights, takes, cue',
    ),
    (
        b"[splice]",
        b"[splices]",
        "UnknownKey",
        '"splices" in line 1 is no key of the document; did you mean "splice"?',
    ),
    (
        b"start = 2",
        b"begin = 2",
        "UnknownKey",
        '"begin" in line 13 is no key of a cue; its keys are take, start, stop, bridge, target, line, title',
    ),
    (
        b"start = 2\n",
        b"",
        "MissingKey start",
        'cue 1 in line 11 has no "start": a whole number from 0 to 68,719,476,736',
    ),
    (
        b"start = 2",
        b"start = 2.0",
        "WrongKind start",
        '"start" in line 13 is of the kind float, and has to be a whole number from 0 to 68,719,476,736',
    ),
    (
        b"bridge = 1",
        b"bridge = 4097",
        "OutOfLimit bridge",
        '"bridge" in line 9 is 4097, and has to be a whole number from 0 to 4096',
    ),
    (
        b"[1, 1]",
        b"[4096, 1]",
        "OutOfLimit weights",
        '"weights" in line 2 is an array of 2, and has to be 2 to 12 whole numbers, with an absolute sum of at '
        "most 4096",
    ),
    (
        b"bridge = 1",
        b'bridge = 1\ntarget = "Line"',
        "OutOfLimit target",
        '"target" in line 10 is "Line", and has to be "fade" or "line"',
    ),
    (
        b"bridge = 1",
        b"bridge = 1\nline = [1, 0]",
        "OutOfLimit line",
        '"line" in line 10 is an array of 2, and has to be two whole numbers from -4096 to 4096, and only with '
        'target = "line"',
    ),
    (b"take = 1", b"take = 2", "NoTake 1", "cue 1 names take 2 in line 12; there are 2, counted from 0"),
    (
        b"stop = 9",
        b"stop = 2",
        "ShortCue 1",
        "cue 1 in line 11 is from 2 to 2, 0 bits long; with 2 weights it needs 1 or more",
    ),
    (
        b"stop = 9",
        b"stop = 9\nbridge = 7",
        "LastBridge",
        '"bridge" in line 15 is 7, but cue 1 is the last: take it out',
    ),
)

# Folders, command lines, faults, and the lines that explain them.
OTHERS: tuple[Any, ...] = (
    ({}, "info nope.dff", "ReadFailed", "nope.dff (FILE): No such file or directory"),
    ({}, "info none/nope", "ReadFailed", "none/nope (FILE): No such file or directory; there is no folder none"),
    ({}, "info .", "ReadFailed", ". (FILE): it is a folder"),
    ({"a": FILE}, "info a/b", "ReadFailed", "a/b (FILE): Not a directory"),
    (TO_PLAY, "play nope.toml in.dff out", "ReadFailed", "nope.toml (PROJECT): No such file or directory"),
    (TO_PLAY, "play p.toml out.wav in.dff", "ReadFailed", "out.wav (IN): No such file or directory"),
    (
        {"e.toml": TEXT, "a.dff": FILE},
        EDIT,
        "ReadFailed",
        "b.dff (take 1 of e.toml): No such file or directory; takes are looked up in {folder}",
    ),
    (to_cut(TEXT), CHECK, "ReadFailed", "m.dff (MASTER): No such file or directory"),
    (to_cut(TEXT) | {"m.dff": MASTER}, CHECK, "ReadFailed", "c.cert (CERT): No such file or directory"),
    (
        TO_PLAY,
        "play p.toml in.dff none/out",
        "WriteFailed",
        "none/out (OUT): No such file or directory; there is no folder none",
    ),
    (TO_PLAY, "convert dsf in.dff .", "WriteFailed", ". (OUT): Is a directory; name a file in it"),
    (TO_PLAY, "play p.toml in.dff .", "WriteFailed", ". (OUT): Is a directory; name a file in it"),
    (TO_PLAY, "play p.toml in.dff /dev/full", "WriteFailed", "/dev/full (OUT): No space left on device"),
    (
        TO_PLAY,
        "play --from @0 p.toml in.dff /dev/full",
        "WriteFailed",
        "/dev/full (OUT): No space left on device",
    ),
    (
        TO_PLAY,
        "play --from #0 p.toml - out",
        "ReadFailed",
        "the standard stream (IN) is read once, and marks come after the sound: name times or frames, or write it to a "
        "file first",
    ),
    (TO_PLAY, "play --to #0 nope.toml - out", "ReadFailed", "nope.toml (PROJECT): No such file or directory"),
    (TO_PLAY, "convert dsf in.dff /dev/full", "WriteFailed", "/dev/full (OUT): No space left on device"),
    (
        {"p.toml": DECIMATE, "in.dsf": NINE},
        "convert dsdiff in.dsf out",
        "NotWholeBytes",
        "in.dsf (IN) has 9 bits per channel, 1 more than whole bytes: convert it to dsf or dsf8",
    ),
    (
        TO_PLAY,
        "convert --speakers dsf in.dff out",
        "NoChannelType",
        "in.dff (IN) has IDs whose loudspeakers no channel type of DSF has; dsdarc info prints them: convert it without "
        "--speakers, or to dsdiff",
    ),
    ({"e.toml": b""}, EDIT, "NoSplice", "e.toml (PROJECT): it has no table at all"),
    (
        {"e.toml": DECIMATE},
        EDIT,
        "NoSplice",
        'e.toml (PROJECT): it is a filter, for play; edit and check want a table "splice"',
    ),
    (
        to_cut(TEXT, second=dsdiff(2 * RATE, 1, b"\0\0")),
        EDIT,
        "TakeMismatch 1",
        "e.toml (PROJECT): a.dff (take 0) has 1 channel at 2,822,400 Hz, and b.dff (take 1) has 1 channel at "
        "5,644,800 Hz: their rates differ, and all takes have to have the same",
    ),
    (
        to_cut(TEXT, second=stereo(bytes(4))),
        EDIT,
        "TakeMismatch 1",
        "e.toml (PROJECT): a.dff (take 0) has 1 channel at 2,822,400 Hz, and b.dff (take 1) has 2 channels at "
        "2,822,400 Hz: their channels differ, and all takes have to have as many",
    ),
    (
        to_cut(TEXT, second=dsdiff(2 * RATE, 2, bytes(4))),
        EDIT,
        "TakeMismatch 1",
        "e.toml (PROJECT): a.dff (take 0) has 1 channel at 2,822,400 Hz, and b.dff (take 1) has 2 channels at "
        "5,644,800 Hz: their rates and channels differ, and all takes have to have the same",
    ),
    (
        to_cut(TEXT, second=b"fLaC".ljust(16, b"\0")),
        EDIT,
        "TakeUnread 1 UnknownForm",
        'e.toml (PROJECT): b.dff (take 1): it begins with "fLaC": a FLAC file, not a DSDIFF or DSF file',
    ),
    (
        to_cut(TEXT.replace(b"stop = 9", b"stop = 17")),
        EDIT,
        "CueOutside 1",
        "e.toml (PROJECT): cue 1 in line 11 stops at 17; b.dff (take 1) has 16 samples",
    ),
    (
        to_cut(TEXT.replace(b"stop = 9", b"stop = 8")),
        EDIT,
        "NotWholeBytes",
        "e.toml (PROJECT): the cues and bridges have 15 bits together, 7 more than whole bytes: let the last "
        "cue stop 7 "
        "earlier or 1 later, or cut the master as dsf",
    ),
    (
        to_cut(TEXT.replace(b"start = 2\nstop = 9", b"start = 1\nstop = 8")),
        EDIT,
        "NoRoomBefore 0",
        "e.toml (PROJECT): cue 1 in line 11 starts at 1; the bridge before it has 1 bit and reads 2 before the "
        "cue: start "
        "it at 2 or later, or shorten the bridge",
    ),
    (
        to_cut(TEXT.replace(b"stop = 8", b"stop = 16")),
        EDIT,
        "NoRoomAfter 0",
        "e.toml (PROJECT): cue 0 in line 5 stops at 16; its bridge reads 1 bit after it, and a.dff (take 0) "
        "has 16: stop "
        "it at 15 or earlier, or shorten the bridge",
    ),
)

FLAC = b"fLaC".ljust(40, b"\0")
IS_FLAC = 'it begins with "fLaC": a FLAC file, not a DSDIFF or DSF file'
SUM_LINE = "a line has to be one that dsdarc sum prints of a file"

# What `sum` has no sums of and can't read as a list: files, arguments, the fault, why, and what is printed before.
SUMS: tuple[Any, ...] = (
    ({}, ["sum", "none"], "ReadFailed  none", "none (FILE): No such file or directory", ""),
    (
        {"in": FILE},
        ["sum", "in", "no/in"],
        "ReadFailed  no/in",
        "no/in (FILE): No such file or directory; there is no folder no",
        f"{ONE}  in\n",
    ),
    ({"in": FLAC}, ["sum", "in"], "FileUnread UnknownForm  in", f"in (FILE): {IS_FLAC}", ""),
    (
        {"in": FILE[:126]},
        ["sum", "in"],
        "FileUnread Dsdiff FormCut  in",
        f"in (FILE): the file ends 2 bytes early, at byte 126: {MENDED}",
        "",
    ),
    ({}, JUDGE, "ReadFailed  list", "list (LIST): No such file or directory", ""),
    ({"list": b""}, JUDGE, "ListRefused  list", "list (LIST): it has no line", ""),
    ({"list": b"\0\n"}, JUDGE, "ListRefused  list", "list (LIST): it is no text", ""),
    (
        {"list": b"\xff\n"},
        JUDGE,
        "ListRefused line 1  list",
        f'list (LIST): line 1 is "\\xff"; {SUM_LINE}',
        "",
    ),
    (
        {"in": FILE, "caf\udce9": FILE},
        ["sum", "in", b"caf\xe9"],
        "ReadFailed  caf\\xe9",
        f"caf\\xe9 (FILE){NOT_UTF_8}",
        f"{ONE}  in\n",
    ),
    ({}, ["sum", "--check", b"l\xff\n"], "ReadFailed  l\\xff\\n", f"l\\xff\\n (LIST){NOT_UTF_8}", ""),
    (
        {"list": f"{ONE}  caf".encode() + b"\xe9\n"},
        JUDGE,
        "ReadFailed  caf\\xe9",
        f"caf\\xe9 (line 1 of list){NOT_UTF_8}",
        "caf\\xe9: FAILED\n",
    ),
    ({"list": FILE}, JUDGE, "ListRefused  list", "list (LIST): it is a recording; without --check it is summed", ""),
    ({"list": b"no sums\n"}, JUDGE, "ListRefused line 1  list", f'list (LIST): line 1 is "no sums"; {SUM_LINE}', ""),
    ({"list": b"s" * 100}, JUDGE, "ListRefused line 1  list", f"list (LIST): line 1 is 100 bytes long; {SUM_LINE}", ""),
    (
        {"list": f"{ONE}  none\n".encode()},
        JUDGE,
        "ReadFailed  none",
        "none (line 1 of list): No such file or directory; names are looked up in {folder}",
        "none: FAILED\n",
    ),
    (
        {"in": FLAC, "list": f"{ONE}  in\n".encode()},
        JUDGE,
        "FileUnread UnknownForm  in",
        f"in (line 1 of list): {IS_FLAC}",
        "in: FAILED\n",
    ),
)

ALL_COMMANDS = "the commands are info, convert, play, edit, check, nulltest, sum; dsdarc --help prints the usage"

PLAY_USAGE = "; usage: dsdarc play [--from T] [--to T] [--previous FILE] [--next FILE] [--speakers] [--rf64] "
PLAY_USAGE += "[--plus6] PROJECT IN OUT, or dsdarc play --dop IN OUT"
DOP_USAGE = "; usage: dsdarc play --dop IN OUT"
SUM_USAGE = "; usage: dsdarc sum [--check] FILE.."
FROM_0_TO_59 = "; after a colon come minutes or seconds from 0 to 59"
A_PLACE = "takes a time (90, 1:30 or 1:02:03.5), a frame (@123456) or a mark of a DSDIFF file (#3)"

# Usage errors, and why.
WRONG_USES: tuple[Any, ...] = (
    ("", f"no command is named: {ALL_COMMANDS}"),
    ("plya p.toml in.dff out", '"plya" is no command; did you mean play?'),
    ("Info in.dff", '"Info" is no command; did you mean info?'),
    ("sums in.dff", '"sums" is no command; did you mean sum?'),
    ("record in.dff", f'"record" is no command: {ALL_COMMANDS}'),
    ("-- info in.dff", f'"--" is no command: {ALL_COMMANDS}'),
    ([""], f'"" is no command: {ALL_COMMANDS}'),
    ("info", "info takes 1 word and got 0; usage: dsdarc info FILE"),
    ("info in.dff out", "info takes 1 word and got 2; usage: dsdarc info FILE"),
    ("play in.dff out", f"play takes 3 words and got 2{PLAY_USAGE}"),
    ("play --from 0:10 in.dff out.wav", f"play takes 3 words and got 2{PLAY_USAGE}"),
    ("play p.toml -- in.dff out --to 5", f"play takes 3 words and got 5{PLAY_USAGE}"),
    ("edit dsdiff e.toml m.dff", "edit takes 4 words and got 3; usage: dsdarc edit FORM PROJECT MASTER CERT"),
    ("sum", f"sum takes 1 word or more and got 0{SUM_USAGE}"),
    ("sum --check --", f"sum takes 1 word or more and got 0{SUM_USAGE}"),
    ("sum --check --check list", f"--check is named twice{SUM_USAGE}"),
    ("sum --check=list", f"--check takes no value{SUM_USAGE}"),
    ("sum -c list", f"-c begins with -; as a name it is written ./-c{SUM_USAGE}"),
    ("info -in.dff", "-in.dff begins with -; as a name it is written ./-in.dff; usage: dsdarc info FILE"),
    ("info -h", "info has no -h; dsdarc --help prints what each command does; usage: dsdarc info FILE"),
    ("info --explain in.dff", "--explain comes before the command; usage: dsdarc info FILE"),
    ("info --from 1 in.dff", "--from is no option of info; it belongs to play; usage: dsdarc info FILE"),
    ("play --check p.toml in.dff out", f"--check is no option of play; it belongs to sum{PLAY_USAGE}"),
    ("play --form 1 p.toml in.dff out", "--form is no option of play; did you mean --from?"),
    ("play -from=1 p.toml in.dff out", "-from=1 is no option of play; did you mean --from?"),
    ("play --start 1 p.toml in.dff out", f"--start begins with -; as a name it is written ./--start{PLAY_USAGE}"),
    ("play --from 5x p.toml in.dff out", f'"5x" is no place: --from {A_PLACE}{PLAY_USAGE}'),
    ("play p.toml in.dff out --to=1:60", f'"1:60" is no place: --to {A_PLACE}{FROM_0_TO_59}{PLAY_USAGE}'),
    ("play --from 1:75 p.toml in.dff out", f'"1:75" is no place: --from {A_PLACE}{FROM_0_TO_59}{PLAY_USAGE}'),
    ("play --to 3,5 p.toml in.dff out", f'"3,5" is no place: --to {A_PLACE}; did you mean 3.5?{PLAY_USAGE}'),
    ("play --to 1:03,5 p.toml in.dff out", f'"1:03,5" is no place: --to {A_PLACE}; did you mean 1:03.5?{PLAY_USAGE}'),
    ("play --from -5 p.toml in.dff out", f'"-5" is no place: --from {A_PLACE}{PLAY_USAGE}'),
    ("play --from= p.toml in.dff out", f'"" is no place: --from {A_PLACE}{PLAY_USAGE}'),
    (["play", "--to", "", "p.toml", "in.dff", "out"], f'"" is no place: --to {A_PLACE}{PLAY_USAGE}'),
    ("play p.toml in.dff out --to", f"no place comes after --to, which {A_PLACE}{PLAY_USAGE}"),
    ("play --from --to 5 p.toml in.dff out", f"no place comes after --from, which {A_PLACE}{PLAY_USAGE}"),
    ("play --from -- p.toml in.dff out", f"no place comes after --from, which {A_PLACE}{PLAY_USAGE}"),
    ("play --from 1 --from=2 p.toml in.dff out", f"--from is named twice{PLAY_USAGE}"),
    ("play --dop p.toml in.dff out", f"play --dop takes 2 words and got 3{DOP_USAGE}"),
    ("play --dop in.dff", f"play --dop takes 2 words and got 1{DOP_USAGE}"),
    ("play --dop=1 in.dff out", f"--dop takes no value{PLAY_USAGE}"),
    ("play --dop in.dff out --dop", f"--dop is named twice{PLAY_USAGE}"),
    ("play --dop --from 1 in.dff out", f"--dop and --from can't be together{PLAY_USAGE}"),
    ("play --speakers --dop in.dff out", f"--dop and --speakers can't be together{PLAY_USAGE}"),
    ("play -dop in.dff out", "-dop is no option of play; did you mean --dop?"),
    (
        "convert --dop dsf in.wav",
        "convert takes 3 words and got 2; usage: dsdarc convert [--speakers] [--dop] FORM IN OUT",
    ),
    (
        "convert --dop --speakers dsf in.dff out",
        "--dop and --speakers can't be together; usage: dsdarc convert [--speakers] [--dop] FORM IN OUT",
    ),
    ("play --previous a --from 1 p.toml in.dff out", f"--from and --previous can't be together{PLAY_USAGE}"),
    ("play --next=a --dop in.dff out", f"--dop and --next can't be together{PLAY_USAGE}"),
    ("play --rf64 --next a --to 1 p.toml in.dff out", f"--to and --next can't be together{PLAY_USAGE}"),
    ("play --rf64 --dop in.dff out", f"--dop and --rf64 can't be together{PLAY_USAGE}"),
    ("play --rf64 p.toml in.dff out --rf64", f"--rf64 is named twice{PLAY_USAGE}"),
    ("play --rf46 p.toml in.dff out", "--rf46 is no option of play; did you mean --rf64?"),
    ("play p.toml in.dff out --next", f"no name of a file comes after --next{PLAY_USAGE}"),
    ("play --previous --next a p.toml in.dff out", f"no name of a file comes after --previous{PLAY_USAGE}"),
    ("play --previous=a --previous=b p.toml in.dff out", f"--previous is named twice{PLAY_USAGE}"),
    (
        "info --speakers in.dff",
        "--speakers is no option of info; it belongs to convert and play; usage: dsdarc info FILE",
    ),
    ("info --dop in.dff", "--dop is no option of info; it belongs to convert and play; usage: dsdarc info FILE"),
)

# Forms that aren't known, and why.
FORMS = (
    ("dff", "; did you mean dsdiff?"),
    ("DSF", "; did you mean dsf?"),
    ("dsf9", "; did you mean dsf?"),
    ("wav", "; play writes WAVE files"),
    ("in.dff", ""),
)

# Arguments of which one isn't UTF-8 or has what a terminal would act on.
ODD_ARGUMENTS: tuple[Any, ...] = (
    (["info", b"caf\xe9\n.dff"], 3, "WrongWords", "a name has to be UTF-8, and caf\\xe9\\n.dff is not"),
    (
        ["info", "a\nb\x1b[31m\u202ec"],
        2,
        "ReadFailed",
        "a\\nb\\u{1b}[31m\\u{202e}c (FILE): No such file or directory",
    ),
    (
        ["info", "-"],
        2,
        "FileUnread UnknownForm",
        "the standard stream (FILE): it is empty",
    ),
    (
        ["convert", "dsf", "-", "out"],
        2,
        "FileUnread UnknownForm",
        "the standard stream (IN): it is empty",
    ),
)

# Masters that are rejected: the project's files, the master, the certificate, the reason, and why.
REJECTED = (
    (
        splice([1, 1]),
        mono(b"\x7f\0"),
        FREE,
        "CuedBit 0 0",
        "m.dff (MASTER): bit 0 of channel 0 has to be bit 0 of a.dff (take 0), by cue 0 in line 5",
    ),
    (
        splice([1, 1]),
        mono(b"\xff\x01"),
        FREE,
        "CuedBit 0 15",
        "m.dff (MASTER): bit 15 of channel 0 has to be bit 8 of b.dff (take 1), by cue 1 in line 11",
    ),
    (
        splice([1, 1]),
        FILE,
        FREE,
        "MasterLength",
        "m.dff (MASTER) has 8 bits per channel; the cues and bridges have 16 together",
    ),
    (
        splice([1, 1]),
        dsdiff(2 * RATE, 1, b"\xff\0"),
        FREE,
        "MasterShape",
        "m.dff (MASTER) has 1 channel at 5,644,800 Hz, and a.dff (take 0) 1 channel at 2,822,400 Hz",
    ),
    (
        splice([1, 1]),
        TITLED,
        FREE,
        "MasterMarks",
        "m.dff (MASTER): its marks are not those of the 0 titles of the project; info prints its marks",
    ),
    (splice([1, 1]), b"", FREE, "MasterUnread", "m.dff (MASTER): it is empty"),
    (
        splice([1, 1]),
        FILE[:126],
        FREE,
        "MasterUnread",
        f"m.dff (MASTER): the file ends 2 bytes early, at byte 126: {MENDED}",
    ),
    (
        splice([1, 1]),
        mono(b"\xff\x80"),
        FREE,
        "Cert 0 Cost",
        "c.cert (CERT): entry 0 is for channel 0 of the bridge after cue 0 in line 5: the bridge was changed; "
        "edit again",
    ),
    (
        splice([1, 1]),
        MASTER,
        FREE[:30],
        "Cert 0 Cut",
        "c.cert (CERT): entry 0 is for channel 0 of the bridge after cue 0 in line 5, and the file ends inside "
        "it: fetch "
        "it again, or edit again",
    ),
    (
        splice([1, 1]),
        MASTER,
        changed(FREE, 7, 3),
        "CertHead Head",
        "c.cert (CERT): it is not for 2 weights and 1 bridge in 1 channel, which the project has, or of an unknown "
        "version: edit again",
    ),
    (
        splice([1, 1]),
        MASTER,
        FREE[:11],
        "CertHead Cut",
        "c.cert (CERT): it ends inside its head: fetch it again, or edit again",
    ),
    (
        splice([1, 1]),
        MASTER,
        FREE + b"\0",
        "CertExtra",
        "c.cert (CERT): something was added after its last entry",
    ),
)


# Arguments in the wrong places, what the command comes to, and why.
EXCHANGED = (
    (
        "check e.toml c.cert m.dff",
        1,
        "rejected MasterUnread",
        "c.cert (MASTER): it is a certificate; MASTER comes before CERT",
    ),
    ("check e.toml m.dff m.dff", 1, "rejected CertHead Head", "m.dff (CERT): it is a recording; CERT comes last"),
    (
        "check c.cert e.toml m.dff",
        2,
        "fault: Project NotToml",
        "c.cert (PROJECT): it is a certificate; PROJECT comes first",
    ),
    (
        "check m.dff e.toml c.cert",
        2,
        "fault: Project NotToml",
        "m.dff (PROJECT): it is a recording; PROJECT comes before the recordings",
    ),
)

# What is played of a byte, and parts of four: the frames, and what is said where they are all, where there are none, and
# where there are marks or not.
ONE_FRAME = "352800 Hz, 16 bits, 1 channel, 0:00:00.000"
FOUR = mono(bytes(4))
TWO_MARKS = mono(bytes(4), chunk(b"DIIN", chunk(b"MARK", bytes(22)) + chunk(b"EMID", b"m") + chunk(b"MARK", bytes(22))))
LASTS = "is after the end of in (IN), which lasts 0:00:00.000 (4 frames at 352,800 Hz)"
UNPLAYED = (
    (FOUR, "--from #0", "NoMark", "in (IN) has no marks: name a time or a frame"),
    (LEAST, "--from #0", "NoMark", "in (IN) has no marks: name a time or a frame"),
    (MARKED, "--to #1", "NoMark", "in (IN) has one mark, #0"),
    (TWO_MARKS, "--from #1 --to #2", "NoMark", "in (IN) has 2 marks, #0 to #1, which dsdarc info prints"),
    (FOUR, "--to @5", "PartOutside", f"what --to names {LASTS}"),
    (FOUR, "--from 100", "PartOutside", f"what --from names {LASTS}"),
    (FOUR, "--from 0.000000001 --to 0.00002", "PartOutside", f"what --to names {LASTS}"),
    (
        mono(bytes(4), chunk(b"DIIN", chunk(b"MARK", mark_data(b"", samples=64)))),
        "--to #0",
        "PartOutside",
        f"a mark of the part {LASTS}",
    ),
    (FOUR, "--from @3 --to @2", "PartReversed", "what --to names is before what --from names"),
)

# Commands that play a byte, and what is said of what they wrote; among their files a list of filters.
INDEX = b"# NAME RATES\n# p.toml 1\nother.toml 5644800 8 16 0\n"
IS_FOR = "; the filter p.toml is for 5644800{0} Hz, and the file has 2822400 Hz: filters/pick (installed: dsdarc-pick) "
IS_FOR += "finds the right one"
IS_WAVE = (
    " is a WAVE file, whatever its name: play writes no other, but a pipe from OUT - to another program makes them"
)
NO_SPEAKERS = "; no loudspeakers: an ID is none of theirs, or two channels have the same"
NO_MASK = "; with 16 bits and one or two channels a WAVE file can't name loudspeakers: players take the usual ones"
PLAYED: tuple[Any, ...] = (
    ({}, "play p.toml in.dff out", ONE_FRAME),
    ({}, "play p.toml in.dff out.wav", ONE_FRAME),
    ({}, "play p.toml in.dff out.flac", f"{ONE_FRAME}; out.flac (OUT){IS_WAVE}"),
    ({}, "play p.toml in.dff out.DSF", f"{ONE_FRAME}; out.DSF (OUT){IS_WAVE}"),
    ({"index.txt": INDEX}, "play p.toml in.dff out", ONE_FRAME),
    ({"index.txt": INDEX + b"p.toml 2822400 8 16 0\n"}, "play p.toml in.dff out", ONE_FRAME),
    ({"index.txt": INDEX + b"p.toml 5644800,2822400 8 16 0\n"}, "play p.toml in.dff out", ONE_FRAME),
    ({"index.txt": INDEX + b"p.toml 5644800 8 16 0\n"}, "play p.toml in.dff out", ONE_FRAME + IS_FOR.format("")),
    (
        {"index.txt": INDEX + b"p.toml 5644800,11289600 8 16 0"},
        "play --from @0 ./p.toml in.dff out.mp3",
        f"{ONE_FRAME}{IS_FOR.format(' or 11289600')}; out.mp3 (OUT){IS_WAVE}",
    ),
    ({}, "play --speakers p.toml in.dff out", ONE_FRAME + NO_SPEAKERS),
    ({"in.dsf": LEAST}, "play --speakers p.toml in.dsf out", ONE_FRAME + NO_MASK),
    ({"index.txt": b"p.toml"}, "play p.toml in.dff out", ONE_FRAME),
    ({"index.txt": b"\xff p.toml 5644800"}, "play p.toml in.dff out", ONE_FRAME),
)
EMPTY = "352800 Hz, 16 bits, 1 channel, 0:00:00.000; "


def asked(
    files: dict[str, bytes],
    arguments: Any,
    status: int,
    line: str,
    why: str,
    made: dict[str, bytes] | None = None,
    before: str = "",
) -> Iterator[Case]:
    """A command line with `--explain` and without."""
    arguments = arguments.split() if isinstance(arguments, str) else list(arguments)
    made = made or {}
    yield Case(files, [Step(["--explain", *arguments], status, line, made, why, before)])
    yield Case(files, [Step(arguments, status, line, made, "", before)])


def refusals() -> Iterator[tuple[dict[str, bytes], str, int, str, str, dict[str, bytes] | None]]:
    """All that comes to a fault: its files, arguments, status, fault, why, and the files that are made."""
    for data, line, why in FILES:
        yield {"in": data}, "info in", 2, f"FileUnread {line}", f"in (FILE): {why}", None
    for data, line, why in FILES:
        if line.endswith(BEFORE):
            files = {"in": data, "p.toml": DECIMATE}
            yield files, "play p.toml in out", 2, "FileRefused", f"in (IN): {why}", {"out": b""}
    for text, line, why in FILTERS:
        files, why = {"in": FILE, "p.toml": text}, f"p.toml (PROJECT): {why}"
        yield files, "play p.toml in out", 2, f"Project {line}", why, {"out": b""}
    for old, new, line, why in SLIPS:
        text = TEXT[::-1].replace(old[::-1], new[::-1], 1)[::-1] if old in LAST else TEXT.replace(old, new, 1)
        yield to_cut(text), EDIT, 2, f"Project {line}", f"e.toml (PROJECT): {why}", None
    for files, arguments, line, why in OTHERS:
        yield files, arguments, 2, line, why, None
    why = "p.toml (PROJECT): it is a cue list, for edit and check; the ready filters are in filters/"
    yield {"in": FILE, "p.toml": TEXT}, "play p.toml in out", 2, "NoDecimation", why, {"out": b""}
    why = "in (IN) has 2,822,400 Hz, which the factor 1024 of p.toml does not divide: "
    why += "filters/pick (installed: dsdarc-pick) prints the filter that fits a file"
    yield {"in": FILE, "p.toml": UNDIVIDED}, "play p.toml in out", 2, "RateNotDivided", why, {"out": b""}
    for data, arguments, line, why in UNPLAYED:
        yield {"in": data, "p.toml": DECIMATE}, f"play {arguments} p.toml in out", 2, line, why, None
    why = ". (IN): it is a folder; workflows/play_all plays the files of a folder"
    yield TO_PLAY, "play p.toml . out", 2, "ReadFailed", why, {"out": b""}
    yield TO_PLAY, "play --from #1 p.toml . out", 2, "ReadFailed", why, None
    why = "none/c (CERT): No such file or directory; there is no folder none"
    yield to_cut(TEXT), "edit dsdiff e.toml m.dff none/c", 2, "WriteFailed", why, {"m.dff": MASTER}
    for arguments, why in WRONG_USES:
        yield {"in.dff": FILE}, arguments, 3, "WrongWords", why, None
    for form, more in FORMS:
        why = f'"{form}" is no form: FORM is dsdiff, dsf or dsf8{more}'
        yield {"in.dff": FILE}, f"convert {form} in.dff out", 3, "UnknownFormName", why, None
        yield {"in.dff": FILE}, f"convert -- {form} in.dff out", 3, "UnknownFormName", why, None
    for arguments, status, line, why in ODD_ARGUMENTS:
        yield {"in.dff": FILE}, arguments, status, line, why, None


# What is changed in the last cue of the splice.
LAST = (b"start = 2", b"start = 2\n", b"take = 1", b"stop = 9")


def explained_cases() -> Iterator[Case]:
    """All mistakes, each as two command lines; and a command that is done, of which nothing is explained."""
    for files, arguments, status, line, why in null_mistakes():
        yield from asked(files, arguments, status, line, why)
    for files, arguments, status, line, why, made in refusals():
        yield from asked(files, arguments, status, f"fault: {line}", why, made)
    for project, master, cert, line, why in REJECTED:
        yield from asked(to_check(master, cert, to_cut(project)), CHECK, 1, f"rejected {line}", why)
    for files, arguments, line, why, before in SUMS:
        yield from asked(files, arguments, 2, f"fault: {line}", why, None, before)
    for arguments, status, line, why in EXCHANGED:
        yield from asked(to_check(MASTER, CERT), arguments, status, line, why)
    for more, arguments, why in PLAYED:
        yield from asked(TO_PLAY | more, arguments, 0, "played 46 bytes", why, {arguments.split()[-1]: WAVE})
    none = WAVE[:4] + b"\x24" + WAVE[5:40] + bytes(4)
    for data, arguments, why in (
        (FOUR, "--from @2 --to @2 ", "the part is empty: it begins where it ends"),
        (mono(b""), "", "in (IN) has no sound"),
    ):
        files, arguments = {"in": data, "p.toml": DECIMATE}, f"play {arguments}p.toml in out"
        yield from asked(files, arguments, 0, "played 44 bytes", EMPTY + why, {"out": none})
    # The mask of the channels is at 40, and each sample is 1 + 2 + 3 + 4.
    wide = changed(head_of(RATE // 8, 2, 24, 1), 40, 3) + b"\x0a\0\0" * 2
    why = "352800 Hz, 24 bits, 2 channels, 0:00:00.000; loudspeakers FL, FR"
    files = {"in": stereo(b"\xf0\xf0"), "p.toml": decimate_text([1, 2, 3, 4], 8, 3, 0, 24).encode()}
    yield from asked(files, "play --speakers p.toml in out", 0, "played 74 bytes", why, {"out": wide})
    # The option that asks to explain comes once, before the command.
    why = f'"--explain" is no command: {ALL_COMMANDS}'
    yield Case({"in.dff": FILE}, [Step(["--explain", "--explain", "info", "in.dff"], 3, "fault: WrongWords", {}, why)])
    yield Case({"in.dff": FILE}, [Step(["info", "--explain", "in.dff"], 3, "fault: WrongWords")])
