"""Tries the clients of the library, where their packages are installed: the player over ALSA by its device that writes a
file, the element for GStreamer, also in `gst-play-1.0`, which finds it by itself, and the plugin of mpv."""
import io
import os
import random
import re
import shutil
import struct
import subprocess
import zlib
from typing import Any

from dsdarc_scripts import waves
from dsdarc_scripts.dsdiffs import chunk, dsdiff
from tests.helpers.trials import ROOT, demand, get, put
from tests.helpers.trials import said as run
from tests.library.bitwise import wanted
from tests.library.playing import BUILT, PROGRAM, compiled, frames_of
from tests.library.stopped import MOST_SECONDS, try_stopped


def try_clients(folder: str, *last: Any) -> None:
    """The same by ALSA's device that writes a file, and by GStreamer, where their packages are installed."""
    if os.path.exists("/usr/include/alsa/asoundlib.h"):
        try_player(folder, *last)
        try_album(folder)
        try_lists(folder)
    else:
        print("left out: dsdarcplay, as libasound2-dev isn't installed")
    status, flags = run("pkg-config", "--cflags", "--libs", "gobject-2.0")
    if status == 0 and os.path.exists("/usr/include/gstreamer-1.0/gst/tag/tag.h"):
        libraries = ["-lgsttag-1.0", "-lgstreamer-1.0"]
        try_element(folder, ["-I/usr/include/gstreamer-1.0", *flags.split(), *libraries], *last)
        try_source(folder, ["-I/usr/include/gstreamer-1.0", *flags.split(), "-lgstapp-1.0", "-lgstreamer-1.0"])
    else:
        print("left out: dsdarcdec, as libgstreamer-plugins-base1.0-dev isn't installed")
    if os.path.exists("/usr/include/mpv/stream_cb.h"):
        try_stream(folder)
    if shutil.which("mpv") and os.path.exists("/usr/include/mpv/stream_cb.h"):
        try_mpv(folder)
    else:
        print("left out: mpv, as it isn't installed, or libmpv-dev")


def try_player(folder: str, dff: str, dsf: str, filter: str, frames: bytes, align: int) -> None:
    out, player = os.path.join(folder, "client.pcm"), os.path.join(folder, "dsdarcplay")
    compiled("clients/dsdarcplay.c", os.path.join(BUILT, "libdsdarc.a"), "-lasound", "-o", player)
    with open(os.path.join(folder, "asoundrc"), "w", encoding="utf-8") as file:
        file.write(f'pcm.n {{ type null }}\npcm.raw {{ type file slave.pcm n file "{out}" format "raw" }}\n')
    os.environ["ALSA_CONFIG_PATH"] = f"/usr/share/alsa/alsa.conf:{file.name}"
    factor = int(re.findall(rb"^factor = (\d+)", get(filter), re.MULTILINE)[0])
    at = len(frames) // align // 3
    second = f"{(at + 0.5) * factor / 2_822_400:.9f}"
    for name in (dff, dsf):
        status, said = run(player, "-D", "raw", filter, name)
        demand(status == 0 and get(out) == frames, f"dsdarcplay: other frames: {said}")
        status, said = run(player, "-D", "raw", "-s", second, filter, name)
        demand(status == 0 and get(out) == frames[at * align :], f"dsdarcplay: other frames from {second} s: {said}")
    wave = os.path.join(folder, "ready.wav")
    run(PROGRAM, "play", os.path.join(ROOT, "filters", "dsd64-to-88200-24.toml"), dsf, wave)
    status, said = run(player, "-D", "raw", "88200/24", dsf)
    demand(status == 0 and get(out) == frames_of(get(wave))[0], f"dsdarcplay: other frames by the ready filter: {said}")
    status, said = run(player, "-D", "raw", "--dop", dsf)
    demand(status == 0 and get(out) == wanted("dop", get(dsf))[0], f"dsdarcplay: other DoP samples: {said}")
    for other, is_warned in ((os.path.join(ROOT, "filters", "dsd128-to-88200-24.toml"), True), (filter, False)):
        status, said = run(player, "-D", "raw", other, dff)
        is_right = status == 0 and is_warned == ("is for files of 5644800 Hz, and this one has 2822400 Hz" in said)
        demand(is_right, f"dsdarcplay: the warning of {other}: status {status}, {said}")
    command = [player, "-D", "raw", "-s", second, filter, "/dev/stdin"]
    done = subprocess.run(command, input=get(dff), capture_output=True, check=False)
    is_reported = done.returncode == 1 and b"/dev/stdin: Illegal seek" in done.stderr
    demand(is_reported, f"dsdarcplay: a pipe from {second} s: {done}")
    try_arguments(folder, player, filter, dff)


def try_arguments(folder: str, player: str, filter: str, name: str) -> None:
    """Wrong arguments, a filter that is none and a device that isn't there have one line each."""
    usage = "dsdarcplay [-D DEVICE] [-s SECONDS] FILTER|--dop|--native FILE.."
    wrong: dict[str, list[list[str]]] = {
        "-s has no value": [[filter, name, "-s"]],
        "the filter is missing": [[], ["-D", "raw"]],
        "FILE is missing": [[filter], ["--dop"]],
        "--dop and --native don't go together": [["--dop", "--native", name], [filter, "--native", name, "--dop"]],
        "-s has no number of seconds": [
            ["-s", it, filter, name] for it in ("1:30", "abc", "", "-1", "nan", "inf", "1e300")
        ],
        **{f"{it} is no option": [[it, filter, name], [filter, name, it]] for it in ("--dsd", "-x", "--help")},
    }
    for why, all_given in wrong.items():
        for given in all_given:
            status, said = run(player, *given)
            is_line = status == 2 and said == f"dsdarcplay: {why}: {usage}\n"
            demand(is_line, f"dsdarcplay: {given}: status {status}, {said}")
    for words, line in (
        ([filter, folder], f"{folder}: Is a directory"),
        ([folder, name], f"{folder}: it can't be read"),
        ([name, name, name], f"{name}: it is no filter (NotToml)"),
    ):
        status, said = run(player, "-D", "raw", *words)
        demand((status, said) == (1, f"dsdarcplay: {line}\n"), f"dsdarcplay: {words}: {status}, {said}")
    for kind in (filter, "--dop", "--native"):
        status, said = run(player, "-D", "none", kind, name, name)
        is_line = re.fullmatch(r"dsdarcplay: none: [A-Z][^\n]+\n", said) is not None
        demand(status == 1 and is_line, f"dsdarcplay: no device, {kind}: {status}, {said}")


def album(folder: str) -> tuple[list[str], bytes]:
    """Three files that follow each other, in both forms, and one with the sound of all."""
    chance = random.Random(5)
    sounds = [chance.randbytes(2 * size) for size in (9001, 4096, 30_001)]
    files = [os.path.join(folder, f"album{k}.dff") for k in range(3)]
    for name, sound in zip(files, sounds):
        with open(name, "wb") as file:
            file.write(dsdiff(2_822_400, 2, sound))
    run(PROGRAM, "convert", "dsf", files[1], files[1].replace(".dff", ".dsf"))
    return [files[0], files[1].replace(".dff", ".dsf"), files[2]], dsdiff(2_822_400, 2, b"".join(sounds))


def shifted(samples: bytes) -> bytes:
    """DoP samples of 24 bits as the high ones of 32."""
    return b"".join(b"\0" + samples[at : at + 3] for at in range(0, len(samples), 3))


def try_album(folder: str) -> None:
    """Over ALSA, files that follow each other give the device the bits or the frames of one file."""
    files, whole = album(folder)
    out, player, page = (os.path.join(folder, it) for it in ("client.pcm", "dsdarcplay", "alsadop"))
    compiled("clients/alsadop.c", os.path.join(BUILT, "libdsdarc.a"), "-lasound", "-o", page)
    status, said = run(page, "raw", *files)
    demand(status == 0 and get(out) == shifted(wanted("dop", whole)[0]), f"alsadop: other samples: {status}, {said}")
    for kind in ("dop", "native"):
        status, said = run(player, "-D", "raw", f"--{kind}", *files)
        bits = wanted("dop", whole)[0] if kind == "dop" else native(whole)
        demand(status == 0 and get(out) == bits, f"dsdarcplay: other bits of files: {kind}, {status}, {said}")
    name, wave = os.path.join(folder, "album.dff"), os.path.join(folder, "album.wav")
    with open(name, "wb") as file:
        file.write(whole)
    filter = os.path.join(ROOT, "filters", "dsd64-to-88200-24.toml")
    run(PROGRAM, "play", filter, name, wave)
    for kind in (filter, "88200/24"):
        status, said = run(player, "-D", "raw", kind, *files)
        is_right = status == 0 and get(out) == frames_of(get(wave))[0]
        demand(is_right, f"dsdarcplay: other frames of files: {kind}, {status}, {said}")
    other = os.path.join(folder, "other.dff")
    with open(other, "wb") as file:
        file.write(dsdiff(2_822_400, 1, bytes(5000)))
    status, said = run(player, "-D", "raw", "--dop", files[0], other)
    demand(status == 0 and get(out) == wanted("dop", get(other))[0], f"dsdarcplay: a file of one channel: {said}")


def native(data: bytes) -> bytes:
    """The bits of a DSDIFF file as a device takes them, 32 of each channel at a time."""
    bits, align = wanted("msb", data)
    bits += bytes([0x69]) * (-len(bits) % (4 * align))
    frames = [bits[at : at + 4 * align] for at in range(0, len(bits), 4 * align)]
    return b"".join(frame[channel::align] for frame in frames for channel in range(align))


def samples_of(folder: str, kind: str, sounds: list[bytes]) -> bytes:
    """What a device gets of files with these sounds that are played as one recording."""
    whole = dsdiff(2_822_400, 2, b"".join(sounds))
    if not sounds or kind in ("--dop", "--native"):
        return b"" if not sounds else native(whole) if kind == "--native" else wanted("dop", whole)[0]
    name, wave = os.path.join(folder, "row.dff"), os.path.join(folder, "row.wav")
    put(name, whole)
    run(PROGRAM, "play", os.path.join(ROOT, "filters", "dsd64-to-88200-24.toml"), name, wave)
    return frames_of(get(wave))[0]


def try_lists(folder: str) -> None:
    """Of each file that can't be played a line says why. Those before it and those after it are played whole, each as a
    recording of their own."""
    player, out = os.path.join(folder, "dsdarcplay"), os.path.join(folder, "all.pcm")
    with open(os.path.join(folder, "asoundrc"), "a", encoding="utf-8") as config:
        config.write(f'pcm.all {{ type file slave.pcm n file "|cat >>{out}" format "raw" }}\n')
    chance = random.Random(8)
    sounds = [chance.randbytes(2 * size) for size in (9001, 20_002, 5003)]
    files = [os.path.join(folder, f"list{number}.dff") for number in range(3)]
    for name, sound in zip(files, sounds):
        put(name, dsdiff(2_822_400, 2, sound))
    first = get(files[0])
    bad = {"text": b"no recording " * 9, "head": first[:30], "empty": b"", "cut": first[:-4000], "none": None}
    refused = "it isn't a whole DSDIFF or DSF recording: dsdarc info says what is wrong"
    for kind in ("--dop", "--native", "88200/24", os.path.join(ROOT, "filters", "dsd64-to-88200-24.toml")):
        for which, data in bad.items():
            name = os.path.join(folder, f"{which}.dff")
            if data is not None:
                put(name, data)
            why = "it can't be read" if data is None else refused
            line = f"dsdarcplay: {name}: {why}\n"
            for before, count, after in ((1, 1, 2), (0, 1, 3), (2, 2, 1), (3, 1, 0)):
                put(out, b"")
                names = [*files[:before], *[name] * count, *files[3 - after :]]
                status, said = run(player, "-D", "all", kind, *names)
                demand((status, said) == (1, line * count), f"dsdarcplay: {kind}, {names}: {status}, {said}")
                rest, heard = samples_of(folder, kind, sounds[3 - after :]), get(out)
                front, whole = heard[: len(heard) - len(rest)], samples_of(folder, kind, sounds[:before])
                if which == "cut":  # what is there of it belongs to the recording
                    is_right = samples_of(folder, kind, [*sounds[:before], sounds[0]]).startswith(front[: len(whole)])
                    is_right &= len(front) >= len(whole)
                else:
                    is_right = front == whole
                demand(is_right and heard.endswith(rest), f"dsdarcplay: other samples of {kind}, {names}")


def try_source(folder: str, flags: list[str]) -> None:
    """The same by GStreamer."""
    files, whole = album(folder)
    out, page = os.path.join(folder, "client.pcm"), os.path.join(folder, "gstalbum")
    compiled("clients/gstalbum.c", os.path.join(BUILT, "libdsdarc.a"), *flags, "-o", page)
    status, said = run(page, f"filesink location={out}", *files)
    demand(status == 0 and get(out) == wanted("dop", whole)[0], f"gstalbum: other samples: {status}, {said}")


def try_element(folder: str, flags: list[str], dff: str, dsf: str, filter: str, frames: bytes, align: int) -> None:
    """The element plays all, goes to any frame, also while it plays, and is found by what plays files."""
    out, made = os.path.join(folder, "client.pcm"), os.path.join(folder, "libgstdsdarc.so")
    compiled("clients/gstdsdarcdec.c", "-shared", "-fPIC", os.path.join(BUILT, "libdsdarc.a"), *flags, "-o", made)
    os.environ |= {"GST_PLUGIN_PATH": folder, "GST_REGISTRY": os.path.join(folder, "registry")}
    os.environ["DSDARC_FILTERS"] = os.path.join(ROOT, "filters")
    for name in (dff, dsf):
        ways = ["filesrc", f"location={name}", "!", "dsdarcdec", f"filter={filter}", "!", "filesink", f"location={out}"]
        status, said = run("gst-launch-1.0", "-q", *ways)
        demand(status == 0 and get(out) == frames, f"dsdarcdec: other frames: {said}")
    six = os.path.join(folder, "six.dff")
    with open(six, "wb") as file:
        file.write(dsdiff(2822400, 6, bytes(6 * 35280)))
    ways = [
        "filesrc",
        f"location={six}",
        "!",
        "dsdarcdec",
        "!",
        "audioconvert",
        "!",
        "audio/x-raw,channels=2",
        "!",
        "fakesink",
    ]
    status, said = run("gst-launch-1.0", "-q", *ways)
    demand(status == 0, f"dsdarcdec: six channels aren't mixed to two: {said}")
    for name, right, mask in in_orders(folder):
        ways = ["filesrc", f"location={name}", "!", "dsdarcdec", "filter=88200/24", "!", "filesink", f"location={out}"]
        status, said = run("gst-launch-1.0", "-v", *ways)
        demand(status == 0 and get(out) == right, f"dsdarcdec: other channels of {name}: {said[-300:]}")
        is_named = f"channel-mask=(bitmask)0x{mask:016x}" in said
        demand(is_named or mask.bit_count() == 1, f"dsdarcdec: other loudspeakers of {name}: {said[-300:]}")
    seek = os.path.join(folder, "seek")
    compiled("tests/library/seek.c", *flags, "-o", seek)
    chance, long = random.Random(3), os.path.join(folder, "long.dff")
    with open(long, "wb") as file:
        file.write(dsdiff(2822400, 2, chance.randbytes(2 * 352_800 * 6)))
    run(PROGRAM, "convert", "dsf", long, long.replace(".dff", ".dsf"))
    wave, wish = os.path.join(folder, "long.wav"), os.path.join(ROOT, "filters", "dsd64-to-88200-24.toml")
    run(PROGRAM, "play", wish, long, wave)
    whole = frames_of(get(wave))[0]
    for turn in range(20):
        name = chance.choice([long, long.replace(".dff", ".dsf")])
        places = [str(chance.randrange(len(whole) // 6)) for _ in range(chance.randrange(1, 5))]
        pause = str(chance.choice([0, 100, 3000, 20000]))
        status, said = run(seek, "88200/24", name, out, pause, *places)
        part = whole[6 * int(places[-1]) :]
        demand(status == 0 and get(out) == part, f"dsdarcdec: other frames from {places} on, {pause} us: {said}")
    try_stopped(folder, flags, long, out, whole)
    try_tags(folder, long, out, whole)
    try_keys(folder, long, out, whole)


SPEAKERS = [b"MLFT", b"MRGT", b"C   ", b"LFE ", b"LS  ", b"RS  "]


def in_orders(folder: str) -> list[tuple[str, bytes, int]]:
    """Files whose channels come in other orders than the loudspeakers, with the frames that `play --speakers` writes and
    the mask that it names; and files whose channels have none, or two the same."""
    chance, found = random.Random(6), []
    filter, wave = os.path.join(ROOT, "filters", "dsd64-to-88200-24.toml"), os.path.join(folder, "speakers.wav")
    unusual = [b"RS  ", b"LFE ", b"MRGT", b"C   ", b"LS  ", b"MLFT"]
    orders = [unusual, SPEAKERS, [b"SRGT", b"SLFT"], [b"C   ", b"LFE ", b"MLFT"], [b"XXXX", b"MRGT", b"MLFT"]]
    orders += [chance.sample(SPEAKERS, count) for count in (1, 3, 4, 5, 6, 6)] + [[b"SLFT", b"MLFT", b"C   "]]
    for number, ids in enumerate(orders):
        name = os.path.join(folder, f"speakers{number}.dff")
        put(name, dsdiff(2_822_400, len(ids), chance.randbytes(20_001 * len(ids)), ids=ids))
        run(PROGRAM, "play", "--speakers", filter, name, wave)
        read = waves.read(get(wave))
        found.append((name, read.samples, read.mask or 0))
    return found


def picture() -> bytes:
    """A small picture, as PNG."""
    rows = b"".join(b"\0" + b"\xff\0\0" * 4 for _ in range(4))
    parts = (b"IHDR", struct.pack(">IIBBBBB", 4, 4, 8, 2, 0, 0, 0)), (b"IDAT", zlib.compress(rows)), (b"IEND", b"")
    chunks = [struct.pack(">I", len(it)) + name + it + struct.pack(">I", zlib.crc32(name + it)) for name, it in parts]
    return b"\x89PNG\r\n\x1a\n" + b"".join(chunks)


def tagged(folder: str, data: bytes) -> list[str]:
    """A DSDIFF and a DSF file of a DSDIFF file's bytes, with a tag; none where mutagen isn't installed."""
    try:
        from mutagen.id3 import APIC, ID3, TALB, TIT2, TLEN, TPE1
    except ImportError:
        print("left out: tags of clients, as python3-mutagen isn't installed")
        return []
    tag, written = ID3(), io.BytesIO()
    for kind, text in ((TIT2, "Título"), (TPE1, "Someone"), (TALB, "An album"), (TLEN, "1234567")):
        tag.add(kind(encoding=3, text=text))
    tag.add(APIC(encoding=3, mime="image/png", type=3, desc="", data=picture()))
    tag.save(written)
    dff, dsf, plain = (os.path.join(folder, f"tagged.{it}") for it in ("dff", "dsf", "plain"))
    with open(plain, "wb") as file:
        file.write(data)
    run(PROGRAM, "convert", "dsf", plain, dsf)
    held = bytearray(get(dsf))
    held[20:28] = len(held).to_bytes(8, "little")
    with open(dsf, "wb") as file:
        file.write(bytes(held) + written.getvalue())
    more = chunk(b"MORE", b"odd") + chunk(b"ID3 ", written.getvalue())
    with open(dff, "wb") as file:
        file.write(b"FRM8" + struct.pack(">Q", len(data) - 12 + len(more)) + data[12:] + more)
    return [dff, dsf]


def try_tags(folder: str, long: str, out: str, whole: bytes) -> None:
    """Each file has its length and its bits of a second as tags, and those of its ID3 tag, and the frames are the same. What
    comes from a pipe has the first two."""
    given = ["title: Título", "artist: Someone", "album: An album", "image: buffer of"]
    own = ["duration: 6000000000", "bitrate: 5644800"]
    for name in (long, *tagged(folder, get(long))):
        ways = ["!", "dsdarcdec", "filter=88200/24", "!", "filesink", f"location={out}"]
        status, said = run("gst-launch-1.0", "-t", "filesrc", f"location={name}", *ways)
        is_right = status == 0 and get(out) == whole and all(it in said for it in own)
        is_right &= all((it in said) == (name != long) for it in given)
        demand(is_right, f"dsdarcdec: the tags of {name}: {status}, {said[-900:]}")
        command = ["gst-launch-1.0", "-t", "fdsrc", *ways]
        with open(name, "rb") as file:
            done = subprocess.run(["cat"], stdin=file, stdout=subprocess.PIPE, check=False)
        done = subprocess.run(command, input=done.stdout, capture_output=True, check=False)
        is_right = done.returncode == 0 and get(out) == whole and all(it in done.stdout.decode() for it in own)
        demand(is_right and b"title" not in done.stdout, f"dsdarcdec: the tags of a pipe: {done.stdout[-500:]!r}")


def try_stream(folder: str) -> None:
    """The plugin of mpv gives a WAVE file with the frames of `play`, the same bytes from any place on; and changed files
    end no call but by what it returns, with AddressSanitizer."""
    made, out, wave = (os.path.join(folder, it) for it in ("stream", "stream.wav", "stream-right.wav"))
    flags = ["-O1", "-g", "-fsanitize=address,undefined", "-fno-sanitize-recover", "-Wall", "-Wextra", "-Werror"]
    compiled("tests/library/mpv.c", *flags, os.path.join(BUILT, "libdsdarc.a"), "-o", made)
    chance, filter = random.Random(9), os.path.join(ROOT, "filters", "dsd64-to-88200-24.toml")
    for channels in (2, 6):
        data = dsdiff(2822400, channels, chance.randbytes(20_001 * channels))
        plain = os.path.join(folder, "stream.dff")
        with open(plain, "wb") as file:
            file.write(data)
        run(PROGRAM, "play", filter, plain, wave)
        names = [plain, *tagged(folder, data)]
        for name in names:
            status, said = run(made, str(channels), "100", filter, out, name)
            is_right = (status, said) == (0, "") and get(out).endswith(
                b"data\xff\xff\xff\xff" + frames_of(get(wave))[0]
            )
            demand(is_right, f"mpvdsdarc.c: another stream of {name}: status {status}, {said[-500:]}")
        files = []
        for number in range(15):
            held = bytearray(get(chance.choice(names)))
            for _ in range(chance.randrange(1, 4)):
                at = chance.choice([chance.randrange(150), chance.randrange(len(held) - 400, len(held))])
                held[at] = chance.choice([0, 1, 0x7F, 0xFF, chance.randrange(256)])
            files.append(os.path.join(folder, f"stream-{number}"))
            with open(files[-1], "wb") as file:
                file.write(held[: chance.choice([len(held), chance.randrange(len(held))])])
        status, said = run(made, str(channels), "9", filter, out, *files)
        demand(status == 0, f"mpvdsdarc.c: changed files: status {status}, {said[-1500:]}")


def try_mpv(folder: str) -> None:
    """mpv plays the frames of `play`, from any place on, and shows the tag; what the library refuses is its own."""
    plugin, wave, heard = (os.path.join(folder, it) for it in ("dsdarc.so", "mpv-right.wav", "mpv.wav"))
    warnings = ("-Wall", "-Wextra", "-Werror")
    compiled("clients/mpvdsdarc.c", *warnings, "-shared", "-fPIC", os.path.join(BUILT, "libdsdarc.a"), "-o", plugin)
    chance, long = random.Random(4), os.path.join(folder, "mpv.dff")
    data = dsdiff(2822400, 2, chance.randbytes(2 * 352_800 * 6))
    with open(long, "wb") as file:
        file.write(data)
    environment = os.environ | {"DSDARC_FILTERS": os.path.join(ROOT, "filters"), "HOME": folder}
    environment.pop("DSDARC_FILTER", None)

    def played(name: str, *options: str, **more: str) -> tuple[bytes, str]:
        """The frames that mpv plays as it writes them, without the lowest byte of four that it adds; and what it prints."""
        with open(heard, "wb"):
            pass
        ways = ["--no-config", "--no-audio-display", f"--script={plugin}", "--ao=pcm", f"--ao-pcm-file={heard}"]
        command = ["timeout", str(MOST_SECONDS), "mpv", *ways]
        status, said = run(*command, *options, name, env=environment | more)
        is_played = status == 0 and os.path.getsize(heard) > 0
        demand(is_played, f"mpv: {name}: status {status}, {said[-300:]}")
        frames = frames_of(get(heard))[0] if is_played else b""
        if not re.search(r"AO: \[pcm\] .* s32", said):
            return frames, said
        return b"".join(frames[at + 1 : at + 4] for at in range(0, len(frames), 4)), said

    run(PROGRAM, "play", os.path.join(ROOT, "filters", "dsd64-to-88200-24.toml"), long, wave)
    whole = frames_of(get(wave))[0]
    for name in (long, *tagged(folder, data)):
        frames, said = played(name)
        is_tagged = all(it in said for it in ("Título", "Someone", "An album"))
        demand(frames == whole and is_tagged == (name != long), f"mpv: other frames or tags of {name}: {said[-500:]}")
        for second in ("0.5", f"{chance.uniform(0, 5):.6f}"):
            frames, _ = played(name, f"--start={second}", "--length=0.9")
            at = whole.find(frames) // 6
            is_part = len(frames) >= 6 * 79_000 and whole.find(frames) % 6 == 0
            is_right = is_part and abs(at - float(second) * 88200) <= 1
            demand(is_right, f"mpv: from {second} s on {len(frames)} bytes, which begin at the frame {at}")
    run(PROGRAM, "play", os.path.join(ROOT, "filters", "dsd64-to-44100-16.toml"), long, wave)
    narrow = frames_of(get(wave))[0]
    for frames, said in (
        played(long, "--script-opts-append=dsdarc-filter=1/24,44100/16"),
        played(long, DSDARC_FILTER="44100/16"),
    ):
        demand(frames == narrow, f"mpv: other frames to 44100/16: {said[-300:]}")
    other = os.path.join(ROOT, "filters", "dsd128-to-88200-24.toml")
    _, said = played(long, f"--script-opts=dsdarc-filter={other}", "--length=0.1")
    demand("is for files of 5644800 Hz, and this one has 2822400 Hz" in said, f"mpv: no warning: {said[-300:]}")
    _, said = played(long, "--length=0.1", DSDARC_FILTER="88201/24")
    demand("no such filter for it: mpv plays it by itself" in said, f"mpv: a filter that isn't there: {said[-300:]}")
    six = os.path.join(folder, "six.dff")
    put(six, dsdiff(2822400, 6, chance.randbytes(6 * 35280), ids=SPEAKERS))
    run(PROGRAM, "play", os.path.join(ROOT, "filters", "dsd64-to-44100-16.toml"), six, wave)
    frames, said = played(six, "--audio-channels=auto", DSDARC_FILTER="44100/16")
    is_right = frames == frames_of(get(wave))[0] and "5.1" in said
    demand(is_right, f"mpv: other frames of six channels: {said[-300:]}")
    for name, right, mask in in_orders(folder):
        frames, said = played(name, "--audio-channels=auto")
        is_right = frames == right and ("5.1" in said) == (mask == 0x3F)
        demand(is_right, f"mpv: other channels of {name}, whose mask is {mask:#x}: {said[-300:]}")


def try_keys(folder: str, name: str, out: str, whole: bytes) -> None:
    """gst-play finds the element by itself, and its keys go on and back: filesink starts again after each."""
    import pty
    import shutil
    import time

    if not shutil.which("gst-play-1.0"):
        print("left out: gst-play-1.0, as gstreamer1.0-plugins-base-apps isn't installed")
        return
    for keys in ([b"\x1b[C"], [b"\x1b[C", b"\x1b[C", b"\x1b[D"]):
        keyboard, terminal = pty.openpty()
        command = ["gst-play-1.0", f"--audiosink=filesink sync=true location={out}", name]
        child = subprocess.Popen(command, stdin=terminal, stdout=terminal, stderr=terminal, start_new_session=True)
        os.close(terminal)
        time.sleep(1.5)
        for key in keys:
            os.write(keyboard, key)
            time.sleep(0.5)
        said = b""
        try:
            while more := os.read(keyboard, 1 << 16):
                said += more
        except OSError:
            pass  # the end of a pseudo terminal
        os.close(keyboard)
        status, part = child.wait(), get(out)
        at = len(whole) - len(part)
        is_part = 0 < at < len(whole) and at % 6 == 0 and whole[at:] == part
        demand(status == 0 and is_part, f"gst-play: {len(part)} bytes that no part has: {said[-300:]!r}")
