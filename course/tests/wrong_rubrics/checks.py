def no_copy(run):
    return None
