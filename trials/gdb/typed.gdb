monitor type abc
continue
continue
monitor type abc
continue
monitor when
reverse-step
backtrace
monitor nonsense
