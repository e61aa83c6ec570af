# Prints how many arguments it has; descriptor 0 is the console's.
            .include "lib.s"
start:      call print_number
            exit 0
