"""What a command printed, compared with what it must print."""


def is_wanted(command, wanted, printed):
    """Whether a command printed the lines that are wanted; where it didn't, both are shown."""
    if printed == wanted:
        return True
    print(command)
    for line in wanted:
        print(f"  - {line}")
    for line in printed:
        print(f"  + {line}")
    return False


def end(kind, count, wrong):
    """Says how many commands ran and how many were wrong, and fails where none ran or one was wrong."""
    print(f"{kind}: {count} commands, {wrong} wrong")
    if count == 0 or wrong > 0:
        raise SystemExit(1)
