# The date of what is installed, for bin/install and bin/package, which read this file: SOURCE_DATE_EPOCH, or where that is not set the
# time of the last commit, or without git that of the file VERSION. So two calls over one commit make the same bytes.
if [ -z "${SOURCE_DATE_EPOCH:-}" ]; then
    SOURCE_DATE_EPOCH=$(git -C "$root" log -1 --format=%ct 2>/dev/null) || SOURCE_DATE_EPOCH=$(stat -c %Y "$root/VERSION")
fi
export SOURCE_DATE_EPOCH
