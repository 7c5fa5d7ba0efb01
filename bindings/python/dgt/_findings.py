"""The possible findings of dgt-doctor, what to do about each, and the statements that it tries."""

FINDINGS = {
    "silent board": "it doesn't answer. Check its power, its cable and the port's name; try "
    "another USB socket",
    "not understood": "bytes come from this port, but no message of a board. Most likely it is "
    "another device's port, or doesn't use 9600 baud: `python3 -m dgt ports` lists the ports",
    "bus mode": "it answered only after it was switched off and on. Most likely another program "
    "had left it in bus mode, in which it hears only its bus address. Do the same when a program "
    "says that the board doesn't answer",
    "draughts board": "its report of all squares is 103 bytes long, like a draughts board's; a "
    "chess board's is 67 bytes long. These programs read only chess boards",
    "wrong size of dump": "its report of all squares isn't 67 bytes long, so the position is "
    "unknown. Attach this report to a bug report: the board may be of another kind",
    "late answers": "an answer took more than a second. Programs consider it lost, and ask again. "
    "Try another cable or socket, without a hub; bring a Bluetooth board closer",
    "no answer": "it didn't answer a request, nor its repetition. Switch it off and on, and start "
    "again. If that changes nothing, attach this report to a bug report",
    "lost answers": "it answered a request only when that was repeated. Try another cable or "
    "socket, without a hub; bring a Bluetooth board closer",
    "mode lost": "it didn't report a change by itself, and later ones on request. It may have lost "
    "its power for a moment, or the line a message: check cable and battery",
    "no updates": "it doesn't report changes by itself, though this was requested. Programs see a "
    "move only with the next report of all squares",
    "clock refused": "a clock is connected, but didn't acknowledge a message in three attempts. "
    "Switch the clock on, and choose its mode for a connected board (see the clock's manual)",
    "clock unreadable": "a reading of the clock has no digits. A clock sends it while it is being "
    "set: finish that, and start again",
    "altered bytes": "bytes were lost, altered or inserted on the line. Try another cable or "
    "socket, without a hub; end other programs that may read this port",
    "another board's code": "it sends a message with a code that docs/PROTOCOL.md doesn't "
    "describe. It may be a newer board or another maker's. Attach this report to a bug report",
    "new beginning": "it doesn't answer after zeros that complete a half-sent command. If a byte "
    "is lost, switch it off and on. Attach this report to a bug report",
    "other behaviour": "it does something else than docs/PROTOCOL.md says. Attach this report to a "
    "bug report",
    "failed steps": "the board didn't show what was done. Each failed step says what to do",
    "skipped steps": "the board didn't report all squares in three attempts. Switch it off and on, "
    "and start again",
    "unfinished": "not every step was done, so nothing is known of the others. Connect a clock, "
    "start again, and do each step",
    "port gone": "the port disappeared during the examination. Check the cable, and start again",
}
"""The meaning of each finding, and what to do."""

STATEMENTS = {
    "dump": "42 is answered by all squares, in 67 bytes",
    "version": "4d is answered by the version",
    "serial": "45 is answered by the serial number, five bytes",
    "trademark": "47 is answered by the trademark",
    "battery": "4c is answered by the battery",
    "long serial": "55 is answered by the long serial number",
    "clock": "41 is answered by times, or by the message that no clock is connected",
    "order": "replies come in the order of the questions",
    "quiet": "40 and 44 are not answered",
    "zeros": "255 zeros end an unfinished command, and a request after them is answered",
    "acks": "the clock acknowledges a message by its id",
    "fields": "after 44 or 4b each change of a square is sent as a field",
    "idle": "after 40 no field is sent",
    "later": "a square that changed in idle mode is sent as a field after 44",
    "start": "D0 of the clock's status is set while it runs",
    "lever": "D1 of the clock's status follows the lever",
    "buttons": "a press of a button is sent as an acknowledgement",
    "faults": "no byte is stray, and no message is cut or refused",
}
"""The statements of docs/PROTOCOL.md about a board that are tried."""
