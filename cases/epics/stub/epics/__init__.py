"""Stands in the place of pyepics where a case has no control system: it plays what the file of EPICS_PLAY says.

    up NAME TYPE [COUNT]    the channel connects; val NAME [1, 2] gives values, once somebody asked for them
    down NAME               it is gone
    stamp NAME SECONDS      its values have this stamp from now on; states NAME ["a"] gives an enumeration texts
    refuse NAME             its puts fail from now on; hold NAME keeps their answers back, until a line `answer`
    note TEXT               goes to the file of the puts
    put NAME                waits until one more put of it came

Each put goes as a line to the file of EPICS_PUTS: its name, `asks` or `plain`, the type, the values.
"""
