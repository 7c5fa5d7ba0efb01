"""The texts of what the package for Python reads of a host's bytes."""

import model


def word_text(word, dgt):
    """The text of a command or a fault, as `dgt commands` writes it. `dgt` is the package."""
    match word:
        case dgt.Asked(ask):
            return model.NAMES[ask]
        case dgt.ClockMessage(number, payload):
            return model.clock_message_text(number, payload)
        case dgt.Leds(leds):
            return f"leds {leds.hex() or '-'}"
        case dgt.StrayByte(byte):
            return f"stray {byte:02x}"
    return type(word).__name__.lower()
