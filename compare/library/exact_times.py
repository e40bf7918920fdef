"""The times of frames by exact fractions: the definition of packet_times, written again without rounding but where the
definition rounds.
"""

import statistics
from fractions import Fraction
from math import floor, gcd, lcm

# The greatest time stamp.
MOST = 2**64 - 1


def base_of(rate, scale):
    """A time base, a rate and a scale: 30 frames a second if one of the numbers is 0."""
    return (rate, scale) if rate and scale else (30, 1)


def unit_of(base):
    """The seconds of a unit of a time base."""
    return Fraction(base[1], base[0])


def median_step(stamps, shown):
    """The median of the steps between the time stamps of shown packets that go forward, the lower one of two; 1 if
    there is none.
    """
    kept = [stamp for stamp, is_shown in zip(stamps, shown) if is_shown]
    return statistics.median_low([after - before for before, after in zip(kept, kept[1:]) if before < after] or [1])


def durations_of(stamps, shown):
    """The duration of each packet of a file in its own units: from its time stamp to that of the next shown packet, or
    else the median step.
    """
    found, after, step = [], None, median_step(stamps, shown)
    for stamp, is_shown in reversed(list(zip(stamps, shown))):
        found.append(after - stamp if after is not None and stamp < after else step)
        after = stamp if is_shown else after
    return found[::-1]


def exact_times(durations):
    """The exact seconds before each frame, and after the last one. A duration is a number of units and a time base."""
    times = [Fraction(0)]
    for units, base in durations:
        times.append(times[-1] + units * unit_of(base))
    return times


def stamps_of(durations, head):
    """The time stamps of frames in units of a head's time base, and that of a frame after them: the units are summed
    for each time base, each sum is rounded half up, and a time stamp is at least one more than the one before it."""
    sums, stamps = {}, [0]
    for units, base in durations:
        sums[base] = sums.get(base, 0) + units
        due = sum(floor(total * unit_of(one) / unit_of(head) + Fraction(1, 2)) for one, total in sums.items())
        stamps.append(min(MOST, max(due, stamps[-1] + 1)))
    return stamps


def stamped(shown, stamps):
    """The time stamp of each packet, by whether it is shown: a hidden packet has that of the next frame."""
    found, frame = [], 0
    for is_shown in shown:
        found.append(stamps[frame])
        frame += is_shown
    return found


def greatest_unit(bases):
    """The greatest fraction of a second of which the units of these time bases are whole numbers."""
    units = [unit_of(base) for base in bases]
    return Fraction(gcd(*(unit.numerator for unit in units)), lcm(*(unit.denominator for unit in units)))


def head_for(durations, head):
    """The rate and scale of the head of an export: those of this head if all units that are used are whole numbers of
    its unit, or else those of the greatest unit of which they are, if both are numbers of 32 bits."""
    bases = {base for _, base in durations}
    if all((unit_of(base) / unit_of(base_of(*head))).denominator == 1 for base in bases):
        return head
    unit = greatest_unit(bases)
    return (unit.denominator, unit.numerator) if max(unit.denominator, unit.numerator) < 2**32 else head


def is_near(durations, head, stamps):
    """Whether each time stamp is within half a unit for each time base that is used so far, if every frame lasts at
    least one unit of the head.
    """
    if any(units * unit_of(base) < unit_of(head) for units, base in durations):
        return True
    used, times = set(), exact_times(durations)
    for at, (stamp, time) in enumerate(zip(stamps, times)):
        if abs(stamp - time / unit_of(head)) > Fraction(len(used), 2):
            return False
        if at < len(durations):
            used.add(durations[at][1])
    return True
