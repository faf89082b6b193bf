"""The fifteen settings of a run: their names in the order of a `settings` line, what is usual, and their ranges."""
from running import stop

SETTINGS = (
    "hosts",
    "seg",
    "window",
    "unsched",
    "overcommit",
    "rate",
    "resend",
    "tries",
    "life",
    "pages",
    "calls",
    "served",
    "rebalance",
    "skew",
    "wire",
)
USUAL = dict(zip(SETTINGS, (2, 1400, 10000, 10000, 4, 14000, 4, 5, 20, 1024, 256, 1024, 0, 0, 1)))
RANGES = dict(
    hosts=(2, 32),
    seg=(1, 1400),
    window=(1, 1000000),
    unsched=(1, 1000000),
    overcommit=(1, 7),
    rate=(1, 1000000),
    resend=(1, 1000),
    tries=(1, 100),
    life=(1, 100000),
    pages=(1, 4096),
    calls=(1, 1024),
    served=(1, 4096),
    rebalance=(0, 1024),
    skew=(0, 1000),
    wire=(1, 2),
)


def settings_of(words):
    """The settings of a `settings` line; those that it leaves out are as usual."""
    return {**USUAL, **dict(zip(SETTINGS, (int(word) for word in words[1:])))}


def setting_from(tool, word, names):
    """A setting and its number, from a word as overcommit=7; any other word ends the tool."""
    name, _, number = word.partition("=")
    if name not in names or not number.isdecimal():
        stop(tool, f"`{word}` is no setting: {', '.join(names)}, as overcommit=7")
    least, most = RANGES[name]
    if not least <= int(number) <= most:
        stop(tool, f"{name} is {least} to {most}")
    return name, int(number)


def settings_from(tool, words, settings, without=()):
    """These settings with those that words give in their place; a word may name any but those that are left out."""
    names = [name for name in SETTINGS if name not in without]
    settings = {**settings, **dict(setting_from(tool, word, names) for word in words)}
    whole = {**USUAL, **settings}
    for low, high in (("unsched", "window"), ("seg", "rate")):
        if whole[low] > whole[high]:
            stop(tool, f"{low} {whole[low]} is above {high} {whole[high]}")
    return settings
