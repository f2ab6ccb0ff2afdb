# Sourced, with the folder BUILT: sets SOURCE_DATE_EPOCH, where the caller has not, to the time of the last commit, or where there is no history to that of
# the program.
export SOURCE_DATE_EPOCH=${SOURCE_DATE_EPOCH:-$(git log -1 --format=%ct 2> /dev/null || stat -c %Y "$BUILT/reqkeyd")}
