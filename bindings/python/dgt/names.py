"""The meanings of bytes that a board's messages carry.

The published protocol doesn't define these bytes. These meanings are those of other programs: no
clock and no board was tried."""

from collections.abc import Callable
from ctypes import byref
from dataclasses import dataclass

from . import _c
from ._c import BATTERY_UNKNOWN, BatteryStruct, SignalStruct
from ._handle import Bytes, readable
from ._library import dgt
from .commands import ClockId

Button = _c.Button


@dataclass(frozen=True, slots=True)
class Done:
    """The clock has performed the message with this id."""

    id: ClockId


@dataclass(frozen=True, slots=True)
class ClockVersion:
    """The version of the clock."""

    main: int
    sub: int


@dataclass(frozen=True, slots=True)
class Pressed:
    """This button was pressed. The clock may send this without a request."""

    button: Button


@dataclass(frozen=True, slots=True)
class Off:
    """Ok was pressed with Back, which switches a clock off."""


@dataclass(frozen=True, slots=True)
class Ready:
    """The clock was switched on, and is ready."""


Signal = Done | ClockVersion | Pressed | Off | Ready

_SIGNALS: dict[int, Callable[[SignalStruct], Signal]] = {
    _c.SIGNAL_DONE: lambda told: Done(ClockId(told.id)),
    _c.SIGNAL_VERSION: lambda told: ClockVersion(told.main_number, told.sub_number),
    _c.SIGNAL_PRESSED: lambda told: Pressed(Button(told.button)),
    _c.SIGNAL_OFF: lambda told: Off(),
    _c.SIGNAL_READY: lambda told: Ready(),
}


def read_signal(ack: Bytes) -> Signal | None:
    """Returns the meaning of an acknowledgement's four bytes, or `None` if that is unknown."""
    held, address = readable(ack)
    told = SignalStruct()
    if len(held) != 4 or not dgt.dgt_signal_of(address, byref(told)):
        return None
    return _SIGNALS[told.kind](told) if told.kind in _SIGNALS else None


@dataclass(frozen=True, slots=True)
class BatteryState:
    """The state of a battery. `None` is unknown."""

    percent: int | None
    """The remaining charge, in percent."""
    hours_left: int | None
    """The hours until it is empty or, while it charges, full."""
    minutes_left: int | None
    """The minutes in addition to these hours."""
    hours_on: int
    """How long the board has been on."""
    minutes_on: int
    days_resting: int
    """How long it has been resting."""
    hours_resting: int
    minutes_resting: int
    charging: bool
    discharging: bool


def _known(number: int) -> int | None:
    return None if number == BATTERY_UNKNOWN else number


def read_battery(body: Bytes) -> BatteryState | None:
    """Returns the meaning of a battery message's body, or `None` unless it has nine bytes."""
    held, address = readable(body)
    told = BatteryStruct()
    if not dgt.dgt_battery_of(address, len(held), byref(told)):
        return None
    return BatteryState(_known(told.percent), _known(told.hours_left), _known(told.minutes_left),
                        told.hours_on, told.minutes_on, told.days_resting, told.hours_resting,
                        told.minutes_resting, bool(told.charging), bool(told.discharging))


def read_text(carried: Bytes) -> str | None:
    """Returns these bytes as text, or `None` if there are none or one isn't a printable ASCII
    character."""
    held, address = readable(carried)
    return held.decode("ascii") if dgt.dgt_is_text(address, len(held)) else None
