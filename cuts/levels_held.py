"""What is said of a mix that is louder than a modulator holds."""
import math

import numpy as np

from cuts.hearing import decibels
from cuts.joints import kinds_for
from cuts.metering import most_held
from cuts.rendering import BLOCK, Rendering, TooLoud, seeded
from cuts.renders import Render
from cuts.times import clock
from modulator import modulators

STEP = 0.5  # dB
MOST = 60.0  # dB
HOLDING = 2  # modulators that hold the loudest sounds: the last ones that are tried


def is_held(rendering: Rendering, sound: np.ndarray) -> bool:
    """Whether some modulator is stable for a sound."""
    padded = np.pad(sound, (0, -len(sound) % 8), mode="edge")
    for kind in kinds_for(rendering.rate)[-HOLDING:]:
        try:
            modulators.modulated(rendering.program, kind, rendering.rate, padded, seeded(len(padded)))
        except modulators.Unstable:
            continue
        return True
    return False


def less(rendering: Rendering, sound: np.ndarray) -> float:
    """How many dB less would do for a sound."""
    low, high = 0, round(MOST / STEP)
    while low < high:
        middle = (low + high) // 2
        if is_held(rendering, sound * 10 ** (-middle * STEP / 20)):
            high = middle
        else:
            low = middle + 1
    return high * STEP


def loudest(render: Render) -> tuple[float, int, int]:
    """How loud the sound of all new places is at most, the channel and the place."""
    found = (0.0, 0, 0)
    for channel, plan in enumerate(render.channels):
        for gap in plan.gaps:
            for first in range(gap.first, gap.stop, BLOCK):
                sound = np.abs(render.sounding.sound(channel, first, min(first + BLOCK, gap.stop)))
                found = max(found, (float(sound.max()), channel, first + int(sound.argmax())))
    return found


def refusal(render: Render, error: TooLoud, limit: float) -> str:
    """The line of a fault: where the mix is loudest, and how many dB less would do there, and where it was too loud, for
    what is left to be within the limit (dB)."""
    level, channel, place = loudest(render)
    around = max(place - BLOCK // 2, 0), min(place + BLOCK // 2, render.length)
    spans = (channel, *around), (error.channel, error.first, error.stop)
    more = max(less(render.rendering, render.sounding.sound(*it)) for it in spans)
    more = max(more, math.ceil((decibels(level) - most_held(render.rate, limit)) / STEP) * STEP)
    where = f"at {clock(place, render.rate)} (bit {place}) in channel {channel}"
    peak = f"the mix has a peak of {decibels(level):.1f} dB to full scale {where}"
    return f"{peak}, and no modulator holds it from {clock(error.first, render.rate)} on: {more:g} dB less would do"
