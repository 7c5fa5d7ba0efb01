"""Commands for the board's clock. They check their payload, and pad a short text."""

from typing import Generic, TypeVar

from ._c import MAX_PAYLOAD, NO_SUCH
from ._handle import Bytes, readable
from ._library import dgt
from .commands import ClockId
from .errors import BadValue
from .values import Time, number

_Sent = TypeVar("_Sent")


class ClockCommands(Generic[_Sent]):
    """The commands for the clock of a board. A `Host` and a `Follower` return the bytes to write to
    the line. A `Following` sends them, and returns `None`.

    >>> Host().send_display("12-34").hex(" ")
    '2b 0b 03 01 40 5b 06 00 66 4f 00 00 00'
    >>> Host().send_text("Résumé")
    Traceback (most recent call last):
    dgt.errors.BadValue: text must be at most 8 ASCII characters: 'Résumé'

    A board with a clock acknowledges each of them with an `Ack`. Each number is sent unchanged, in
    one byte. A `BadValue` names the wrong argument; nothing is sent then.
    """

    def _clock_message(self, id: ClockId, payload: bytes) -> _Sent:
        raise NotImplementedError

    def send_display(self, text: str, dots: int = 0, beep: int = 0) -> _Sent:
        """Shows at most six digits, spaces and hyphens on the display, from left to right. A
        shorter text is padded with spaces. `dots` and `beep` are from 0 to 255. `BadValue` if an
        argument is out of range."""
        shown = [int(dgt.dgt_segment(each)) for each in _characters(text, 6)]
        if len(shown) != 6 or NO_SUCH in shown:
            raise BadValue(f"text must be at most 6 digits, spaces and hyphens: {text!r}")
        a, b, c, d, e, f = shown
        payload = bytes((c, b, a, f, e, d, number(dots, 255, "dots"), number(beep, 255, "beep")))
        return self._clock_message(ClockId.DISPLAY, payload)

    def send_text(self, text: str, beep: int = 0) -> _Sent:
        """Shows at most eight ASCII characters, from left to right. A shorter text is padded with
        spaces. `beep` is from 0 to 255. `BadValue` if an argument is out of range."""
        letters = _characters(text, 8)
        if len(letters) != 8:
            raise BadValue(f"text must be at most 8 ASCII characters: {text!r}")
        return self._clock_message(ClockId.TEXT, letters + bytes([number(beep, 255, "beep")]))

    def send_beep(self, duration: int) -> _Sent:
        """Beeps for this duration, from 0 to 255. `BadValue` if it is not."""
        return self._clock_message(ClockId.BEEP, bytes([number(duration, 255, "duration")]))

    def send_set_and_run(self, left: Time, right: Time, control: int) -> _Sent:
        """Sets the times of both sides, and controls the clock with the bits of `control`.

        >>> Host().send_set_and_run(Time(1, 0, 0), Time(0, 59, 30), control=1).hex(" ")
        '2b 0a 03 0a 01 00 00 00 3b 1e 01 00'

        The flags of both times are 0. `control` is from 0 to 255: bits for the clock, sent
        unchanged. `BadValue` if an argument is out of range."""
        sides = _side(left, "left") + _side(right, "right")
        control = number(control, 255, "control")
        return self._clock_message(ClockId.SET_AND_RUN, bytes([*sides, control]))

    def send_icons(self, payload: Bytes) -> _Sent:
        """Shows the icons of these bytes, at most 252 of any value. `BadValue` if there are more,
        `TypeError` if the payload isn't bytes."""
        held, _ = readable(payload)
        if len(held) > MAX_PAYLOAD:
            raise BadValue(f"payload must be at most {MAX_PAYLOAD} bytes: {len(held)}")
        return self._clock_message(ClockId.ICONS, held)

    def send_end(self) -> _Sent:
        """Makes the clock show its times again."""
        return self._clock_message(ClockId.END, b"")

    def send_button(self) -> _Sent:
        """Requests the state of the clock's buttons."""
        return self._clock_message(ClockId.BUTTON, b"")

    def send_clock_version(self) -> _Sent:
        """Requests the version of the clock."""
        return self._clock_message(ClockId.VERSION, b"")


def _characters(text: object, count: int) -> bytes:
    """Returns the characters of a text, padded with spaces to `count`. Returns no bytes if it isn't
    an ASCII text."""
    try:
        return str.encode(text, "ascii").ljust(count) if isinstance(text, str) else b""
    except UnicodeEncodeError:
        return b""


def _side(time: Time, what: str) -> tuple[int, int, int]:
    if not isinstance(time, Time) or time.flags:
        raise BadValue(f"{what} must be a Time with flags 0: {time!r}")
    return time.hours, time.minutes, time.seconds
