# What the benches beside dvdisaster share: a random image, whole and damaged, and the peer's time. Read by `.` after
# common.sh, not run.
original=$folder/original
damaged=$folder/damaged
image=$folder/image
ecc=$folder/ecc
peer_ecc=$folder/peer_ecc

# Makes an image of so many MiB, and a copy in which one sector in twenty, all in a row, is overwritten by zeros.
make_images() {
    mebibytes=$1
    bytes=$((mebibytes * 1048576))
    sectors=$((bytes / 2048))
    head -c "$bytes" /dev/urandom > "$original" || exit 1
    cp "$original" "$damaged" || exit 1
    dd if=/dev/zero of="$damaged" bs=2048 seek=$((sectors / 2)) count=$((sectors / 20)) conv=notrunc 2> /dev/null || exit 1
}

# Each run has a fresh copy of the image that `from` names.
prepare() {
    cp "$from" "$image"
}

# The time of the peer, or nothing where it isn't installed. How it ends isn't looked at, since its statuses differ.
peer() {
    if command -v dvdisaster > /dev/null 2>&1; then
        clock any dvdisaster -i "$image" -e "$peer_ecc" "$@" 2> /dev/null
    else
        took=
    fi
}
