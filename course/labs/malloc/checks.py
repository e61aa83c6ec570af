"""What the tests of lab malloc look at that no key of a rubric says."""


def few_calls(run):
    """150 blocks of 11,325 bytes."""
    count = sum(call.name == "sbrk" for call in run.trace.own_calls())
    if run.output != "sizes: right\n":
        return f"it printed {run.output!r}"
    return None if 0 < count <= 20 else f"it called sbrk {count} times; from 1 to 20 is right"
