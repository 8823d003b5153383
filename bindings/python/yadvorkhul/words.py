"""Numbers for people."""


def grouped(number: int) -> str:
    """Groups of three digits, and a real minus."""
    return f"{number:,}".replace("-", "\u2212")


def percent(more: int, total: int) -> str:
    """What is more, in percent of a total, to a hundredth; empty where the total is 0."""
    if total == 0:
        return ""
    hundredths, rest = divmod(more * 10_000, abs(total))
    hundredths += 2 * rest >= abs(total)
    return "under 0.01\u00a0%" if more and not hundredths else f"{hundredths // 100:,}.{hundredths % 100:02d}\u00a0%"


def increase(more: int, total: int) -> str:
    """So much more than a total, in money and in percent."""
    share = percent(more, total)
    return f"+{grouped(more)}" + (f" ({share})" if share else "")


def counted(number: int, thing: str, things: str = "") -> str:
    return f"{grouped(number)} {thing if number == 1 else things or thing + 's'}"
