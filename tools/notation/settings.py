"""The numbers that the installer sets: their names in a text, their fields in a record, their ranges."""

from typing import NamedTuple, Union

MILLION = 1_000_000


class Setting(NamedTuple):
    """One setting. A bound is a number, or the name of the setting that it follows."""

    name: str
    size: int  # bytes in a record
    least: Union[int, str]
    most: Union[int, str]


SETTINGS = (
    Setting("age", 4, 1, 100_000),
    Setting("spread", 4, 0, 100_000),
    Setting("jump", 2, 1, 1_000),
    Setting("errors", 1, 1, 2),
    Setting("silence", 4, 2, MILLION),
    Setting("life-sign", 4, 1, "silence"),
    Setting("wait", 4, 1, MILLION),
    Setting("retry", 4, "wait", MILLION),
)


def bounds(setting, settings):
    """The least and the most that a setting may be, given the others."""
    least = settings[setting.least] if isinstance(setting.least, str) else setting.least
    most = settings[setting.most] - 1 if isinstance(setting.most, str) else setting.most
    return least, most


def outside(settings):
    """Each setting that is out of its range: its name, its value, the least and the most."""
    found = []
    for setting in SETTINGS:
        least, most = bounds(setting, settings)
        value = settings[setting.name]
        if not least <= value <= most:
            found.append((setting.name, value, least, most))
    return found
