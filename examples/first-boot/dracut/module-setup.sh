#!/bin/bash
# Puts repart, what grow-disk runs, the definitions with their drop-ins, the folder of sources, the rule of udev and
# repart-grow.service into an initrd of dracut with systemd. Its place is /usr/lib/dracut/modules.d/90repart-grow, beside
# repart-grow.service; `dracut -f` makes the initrd anew.
#
# A file that CopyBlocks= names is needed only where its partition isn't on the disk yet. Then put it, or a link to it, into
# /usr/lib/repart/sources, and give its path there in the definition. The initrd grows by as much.

# Of the two programs of the Debian package the first runs on each machine, as the initrd may.
repart_grow_program() {
    local PATH=$PATH:/usr/local/sbin:/usr/local/bin
    command -v "${REPART:-${REPART_LIB:-/usr/lib/repart}/repart}" || command -v repart
}

check() {
    local lib=${REPART_LIB:-/usr/lib/repart}
    if ! repart_grow_program >/dev/null; then
        derror "repart-grow: no program repart in $PATH:/usr/local/sbin:/usr/local/bin"
        return 1
    fi
    if [[ ! -f $lib/grow-disk || ! -f $lib/repart-grow.rules || ! -d $lib/repart.d ]]; then
        derror "repart-grow: no $lib/grow-disk, $lib/repart-grow.rules or $lib/repart.d"
        return 1
    fi
    require_binaries partx readlink || return 1
    return 0
}

depends() {
    echo systemd-initrd
}

install() {
    local lib=${REPART_LIB:-/usr/lib/repart} part
    inst_multiple readlink
    inst_binary "$(command -v partx)" /usr/bin/partx
    inst_binary "$(repart_grow_program)" /usr/bin/repart
    mkdir -p "${initdir:?}/usr/lib/repart"
    for part in grow-disk repart.d sources; do
        [[ ! -e $lib/$part ]] || cp -rL "$lib/$part" "$initdir/usr/lib/repart/"
    done
    chmod 755 "$initdir/usr/lib/repart/grow-disk"
    inst_simple "$lib/repart-grow.rules" "${udevdir:?}/rules.d/61-repart-grow.rules"
    inst_simple "${moddir:?}/repart-grow.service" "${systemdsystemunitdir:?}/repart-grow.service"
    "${SYSTEMCTL:?}" -q --root "$initdir" enable repart-grow.service
}
