"""A function of right.toml that hides what it asks a run for."""


def calls_and_files(run):
    """The program writes a file by one call, as the trace and the file itself show."""
    trace, file = (getattr(run, name) for name in ("tra" + "ce", "fi" + "le"))
    data = "".join(call.more["data"] for call in trace.own_calls() if call.name == "write")
    found = file("/new")
    return None if data.encode() == found == f"{run.values.names[0]}\n".encode() else f"{data!r} is not {found!r}"
