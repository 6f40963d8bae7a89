"""Sizes in bytes as people write them: 4096, 4K, 1.5M, 2 GiB."""
import re

UNITS = ['B', 'KiB', 'MiB', 'GiB', 'TiB', 'PiB', 'EiB']
SPELLING = re.compile(r'(\d+(?:\.\d+)?) ?(?:([kmgtpe])(?:i?b)?|b)?', re.IGNORECASE)


def parse(text):
    """The bytes that a text names, or None. K, M, G and so on are powers of 1,024, with or without iB behind them."""
    spelled = SPELLING.fullmatch(text.strip())
    if not spelled:
        return None
    power = ' kmgtpe'.index(spelled[2].lower()) if spelled[2] else 0
    size = float(spelled[1]) * 1024**power if '.' in spelled[1] else int(spelled[1]) * 1024**power
    return int(size) if size == int(size) else None


def text(size):
    """At most four digits and a unit: 512 B, 4 KiB, 1.5 MiB."""
    unit = 0
    amount = float(size)
    while amount >= 1023.95 and unit + 1 < len(UNITS):
        amount /= 1024
        unit += 1
    places = 0 if amount >= 100 or unit == 0 else 1 if amount >= 10 else 2
    digits = f'{int(amount * 10**places + 0.5) / 10**places:.{places}f}'
    return f'{digits.rstrip("0").rstrip(".") if "." in digits else digits} {UNITS[unit]}'


def short(size):
    """A size as an option spells it: 4K, 16M, 1000."""
    for unit, letter in ((1 << 20, 'M'), (1 << 10, 'K')):
        if size and size % unit == 0:
            return f'{size // unit}{letter}'
    return str(size)
