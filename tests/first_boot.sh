#!/bin/sh
# The example of a first boot, run on files from end to end, prints and draws what its page shows.
#
# Its unit is looked at by systemd-analyze.
#
# Needs: for the unit systemd-analyze; for one step of the example veritysetup
top=$(cd "$(dirname "$0")/.." && pwd) || exit 1
example=$top/examples/first-boot
folder=$(mktemp -d) || exit 1
trap 'rm -rf "$folder"' EXIT

if command -v systemd-analyze >/dev/null; then
    # the program that the unit starts is taken from here, and the manual needn't be installed
    sed "s|/usr/lib/repart/grow-disk|$example/grow-disk|" "$example/repart-grow.service" >"$folder/repart-grow.service"
    systemd-analyze verify --man=no "$folder/repart-grow.service" >"$folder/said" 2>&1
    status=$?
    # Other units of the system are read too; what is wrong with them is no concern of ours.
    if [ "$status" -ne 0 ] || grep -q 'repart-grow' "$folder/said"; then
        cat "$folder/said"
        exit 1
    fi
else
    echo "without systemd-analyze (Debian package systemd): the unit isn't looked at"
fi

"$example/run" "$folder" >"$folder/printed" || {
    cat "$folder/printed"
    exit 1
}

# What other tools say is left out.
grep -v '^\$ veritysetup ' "$folder/printed" | diff "$example/printed" - || exit 1
"$top/tools/layout" --svg "--before=$folder/before.json" "$folder/goal.json" | cmp -s - "$example/disk.svg" || {
    echo "disk.svg isn't what the example draws"
    exit 1
}
