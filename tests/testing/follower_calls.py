"""Checks the calls of a follower of the package for Python that object_cases.py doesn't make. When
it asks, doubts and confirms is proved, and compared with a model in C (bindings/c/fuzz)."""

import cases
import dgt
import model
from wrong import wanted

LIFT = model.spell(model.FIELD, [52, 0])
READING = model.spell(model.CLOCK, [1, 2, 3, 4, 5, 6, 1])
UNREADABLE = model.spell(model.CLOCK, [1, 0x7F, 3, 4, 5, 6, 1])
DUMP = model.spell(model.DUMP, dgt.Position.start().codes)
HEARTBEAT, ANEW = b"\x44\x42", bytes(255) + b"\x44\x42\x44"


def compare(rows):
    for what, got, right in rows:
        wanted(f"follower, {what}", got, right)


class FollowerCalls(cases.Case):
    def test_confirms(self):
        follower = dgt.Follower(confirm=True)

        def known():
            return follower.due_at, follower.confirmed, follower.in_doubt

        compare([
            ("as new", (follower.confirm, *known()), (True, 0, False, False)),
            ("a new beginning", (follower.ask(1.0), follower.due_at), (ANEW, 2.0)),
            ("its dump", (follower.hear(1.2, DUMP), *known()), (None, 2.0, False, False)),
            ("a heartbeat", (follower.ask(1.999), follower.ask(2.0)), (b"", HEARTBEAT)),
            ("its dump", (follower.hear(2.1, DUMP), *known()), (None, 12.0, True, False)),
            ("a change", (follower.hear(3.0, LIFT), *known()), (None, 4.0, False, False)),
            ("off", (setattr(follower, "confirm", False), *known()), (None, 12.0, False, False)),
            ("at once", (follower.ask_now(), follower.due_at, follower.ask(3.1)),
             (None, 0, HEARTBEAT)),
            ("disturbed", (follower.line_disturbed(), *known()), (None, 3.6, False, True)),
            ("line lost", (follower.line_lost(), follower.confirm, *known()),
             (None, False, 0, False, False)),
        ])

    def test_identifies(self):
        follower, serial = dgt.Follower(identify=True), model.spell(model.SERIAL, b"12345")
        asked = [follower.ask(0.0), follower.hear(0.1, DUMP), follower.ask(0.1), follower.ask(0.2)]
        compare([
            ("as new", (follower.identify, dgt.Follower().identify), (True, False)),
            ("asked", asked, [ANEW, None, b"\x45", b""]),
            ("its serial number", (follower.serial, follower.hear(0.3, serial), follower.serial),
             (None, None, b"12345")),
            ("line lost", (follower.line_lost(), follower.serial, follower.identify),
             (None, None, True)),
            ("off", (setattr(follower, "identify", False), follower.ask(0.0),
                     follower.hear(0.1, DUMP), follower.ask(0.2)), (None, ANEW, None, b"")),
        ])

    def test_hears(self):
        """Each event is handed on once, and what is known is known after it."""
        follower, seen = dgt.Follower(), []
        follower.ask(0.0)
        for event in follower.hear_each(0.5, DUMP + LIFT + b"\x31" + READING + UNREADABLE[:4]):
            seen.append((str(event).split()[0], follower.picture["e2"], follower.in_doubt,
                         follower.clock is not None, follower.offset))
        rest = list(follower.hear_each(0.6, UNREADABLE[4:] + LIFT[:1]))
        compare([
            ("events", seen, [("dump", "P", False, False, 67), ("field", ".", False, False, 72),
                              ("stray", ".", True, False, 73), ("times", ".", True, True, 83)]),
            ("a clock without digits", (rest, follower.clock, follower.last_heard),
             ([dgt.Refused(model.CLOCK, dgt.Fault.BAD_READING, 1)], None, 0.5)),
            ("bytes", (follower.offset, follower.unread), (94, 1)),
            ("a whole chunk", (follower.hear(0.7, LIFT[1:]), follower.offset), (None, 98)),
            ("line lost", (follower.line_lost(), follower.offset, follower.unread), (None, 0, 0)),
        ])

    def test_refusals(self):
        for change in (dgt.Follower.confirm, dgt.Follower.identify):
            for wrong in (1, None, "text"):
                self.assertRaises(TypeError, change.fset, dgt.Follower(), wrong)
