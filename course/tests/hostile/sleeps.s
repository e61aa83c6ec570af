# Sleeps for a very long time.
start:      li a0, 0x7fff0000
            jal ra, sleep
            j start
