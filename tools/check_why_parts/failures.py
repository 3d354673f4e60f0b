"""How a check can fail."""


class Trouble(Exception):
    """It can't be told whether a derivation is right."""


class Wrong(Exception):
    """What is wrong with a fact, or with a derivation."""


def needs(holds, rule):
    if not holds:
        raise Wrong(rule)


def short(text):
    return text if len(text) <= 200 else text[:200] + ".."
