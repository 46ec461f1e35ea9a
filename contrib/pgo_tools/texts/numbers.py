"""Numbers of any length, as strangers write them: Python refuses to read thousands of digits, of zeros too."""


def decimal(most: int) -> str:
    """A pattern of any zeros and then, as a group, so many digits at most."""
    return f"0*([1-9][0-9]{{0,{most - 1}}}|0)"


def number_of(digits: str, bits: int, base: int = 10) -> int:
    """The number of these digits; a ValueError where it has more bits."""
    digits = digits.lstrip("0") or "0"
    value = int(digits, base) if len(digits) <= bits else 1 << bits
    if value >> bits:
        raise ValueError
    return value
