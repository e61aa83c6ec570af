"""Functions of the rubrics of this folder."""


def letters(values):
    """A file that is made for a submission."""
    return {"/made": (values.names[1] + "\n").encode()}


def prints_its_file(run):
    """The file that was made is what is printed."""
    found = run.file("/made")
    return None if found == run.output.encode() else f"/made has {found!r}"


def never_content(run):
    """Looks at all that a run has, and finds fault with it."""
    calls = [call.name for call in run.trace.calls if call.program == "say"]
    return f"{calls} under {run.schedule.name}, {run.report['steps'] > 0}, {run.xv6('--version').status}"


def raises(run):
    """A mistake of the rubric."""
    return run.no_such_thing
