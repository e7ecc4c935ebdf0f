"""How the survey writes numbers, messages and refusals."""

from codes import ENGINES, Refusal, set_engine

ALL_BYTES = bytes(range(256))


def hex_for(value, degree):
    """Upper-case hexadecimal in as many whole bytes as the degree has."""
    return "%0*X" % (2 * ((degree + 7) // 8), value)


def hex_even(value):
    """Upper-case hexadecimal in whole bytes, one at the least."""
    return value.to_bytes(max(1, (value.bit_length() + 7) // 8),
                          "big").hex().upper()


def shown(message):
    if message == b"":
        return "nothing"
    if message == ALL_BYTES:
        return "256 bytes 00 to FF"
    return message.hex().upper()


def refusal_of(call, *arguments):
    """The refusal a call gives, or None where it accepts."""
    try:
        call(*arguments)
    except Refusal as refusal:
        return refusal
    return None


def carriers(degree, low):
    """The engines that carry a generator."""
    return [engine for engine in ENGINES
            if refusal_of(set_engine, engine, degree, low) is None]
