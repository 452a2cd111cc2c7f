# What a Debian package tells of itself, for bin/package, which reads this file.

# The address is none that takes letters: nobody gave this repository one.
maintainer="the snc authors <snlrun@localhost>"

# The least version of the C library that has all that the programs call.
library() {
    awk -v folder="$room/usr/bin/" '!/^#/ { print folder $3 }' "$bin/programs" | xargs -d '\n' cat | grep -aoE 'GLIBC_2\.[0-9]+' | sort -uV | sed -n '$ s/GLIBC_//p'
}

# The size of all files, in 1024 bytes; that of a folder depends on where it stands.
size() {
    find "$room/usr" -type f -printf '%s\n' | awk '{ sum += int(($1 + 1023) / 1024) } END { print sum }'
}

control() {
    cat <<END
Package: snlrun
Version: $version
Architecture: $architecture
Maintainer: $maintainer
Installed-Size: $(size)
Depends: libc6 (>= $(library))
Recommends: python3 (>= 3.11)
Suggests: python3-pyepics
Section: science
Priority: optional
Description: dry runs of EPICS sequencer programs on recorded data
 See what programs in the State Notation Language, that of the EPICS sequencer,
 would have done, why, and what input breaks them. The compiler, snlc, says all
 that is wrong with a program. snlrun takes one and a recorded trace, and prints
 what the program would have done. snl tells why it did that, and what no trace
 showed (coverage), and tries short traces for one that breaks it (bounded model
 checking, with a counterexample).
 .
 The scripts snl-plot, snl-port, snl-dry-run, snl-record and snl-live draw a
 run, port a program, make a page of a program and its logs, record a trace,
 and run a program beside a control system.
END
}

# The copyright file: the notice, and where Debian keeps the text of the licence.
copyright() {
    cat "$root/NOTICE"
    printf '\n\nOn Debian the text of the Apache License, Version 2.0, stands in\n/usr/share/common-licenses/Apache-2.0.\n'
}

# What lintian finds and is meant so.
overrides() {
    cat <<END
# The repository has no address that takes letters, and an invented one would be worse.
snlrun: bogus-mail-host Maintainer snlrun@localhost
snlrun: bogus-mail-host-in-debian-changelog snlrun@localhost *
END
}
