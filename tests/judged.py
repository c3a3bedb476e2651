"""What is said on standard error of another supplier's answer."""


def told(answer, text, line):
    """The words for what `judge` answers to a text whose line of this number is at fault."""
    plan = text.startswith(b"answer=0\n")
    if answer == 0:
        said = b"the plan keeps every rule" if plan else b"the tree shows that no plan exists at this interval"
    elif answer == 18:
        said = b"line %d of the answer is missing, malformed, or none that may stand there for this sheet" % line
    elif answer == 4:
        said = b"line %d of the answer names an interval that is not in 1 to the cap" % line
    elif answer == 19:
        said = b"line %d of the answer %s" % (line, b"breaks a rule of a plan" if plan else b"is not so")
    else:
        said = b"the sheet is refused; try check"
    return b"leastplan: %s\n" % said
