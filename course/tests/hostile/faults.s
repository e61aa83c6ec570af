# Stores to its own instructions' address plus a large number, where nothing is.
start:      lui t0, 0x70000
            sd t0, 8(t0)
            j start
