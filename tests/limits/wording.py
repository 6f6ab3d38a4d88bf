"""Numbers as the comments of a script name them."""

CARDINALS = (
    "zero one two three four five six seven eight nine ten eleven twelve thirteen fourteen fifteen "
    "sixteen seventeen eighteen nineteen"
).split()
TENS = "twenty thirty forty fifty sixty seventy eighty ninety".split()
ORDINALS = (
    "zeroth first second third fourth fifth sixth seventh eighth ninth tenth eleventh twelfth "
    "thirteenth fourteenth fifteenth sixteenth seventeenth eighteenth nineteenth twentieth"
).split()


def spelled(number):
    """The number in letters, below a hundred."""
    if number < 20:
        return CARDINALS[number]
    tens = TENS[number // 10 - 2]
    return f"{tens}-{CARDINALS[number % 10]}" if number % 10 else tens


def spelled_nth(number):
    """The ordinal in letters, up to twenty."""
    return ORDINALS[number]


def nth(number):
    """The ordinal in figures: 65th, 1,001st."""
    teen = number // 10 % 10 == 1
    ending = "th" if teen else {1: "st", 2: "nd", 3: "rd"}.get(number % 10, "th")
    return f"{number:,}{ending}"
