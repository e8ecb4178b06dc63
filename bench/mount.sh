#!/bin/sh
# Prints how long `tar` takes to read all files of a full floppy through the mount, beside the same files in a tmpfs and, where
# this kernel mounts it, Linux's own affs; and how long `cp` takes to put files onto an empty one. Each time is the best of 11
# runs, in microseconds. It needs the machine's rustc and cc, libfuse 3, and /dev/fuse; LIBRARY names a folder with the library
# for C as bindings/c/build.sh makes it, if it is not to be made.
. "$(dirname "$0")/setup.sh"
runs=11
serve=$(program adf_serve)
mount=$room/mount
shm=$(mktemp -d -p /dev/shm)
trap '{ fusermount3 -u -z "$mount" || umount "$room/affs" || :; } 2> /dev/null; rm -rf "$room" "$shm"' EXIT
mkdir "$mount" "$room/affs"
tools full_image best_of
build adf_serve
if [ -n "$LIBRARY" ]; then
    "$here/../bindings/fuse/build.sh" "$room/adf_mount" "$LIBRARY"
else
    "$here/../bindings/fuse/build.sh" "$room/adf_mount" > "$room/log" 2>&1 || { cat "$room/log" >&2; exit 1; }
fi

# /dev/null itself would be told apart by tar, which then reads nothing.
read_all() { "$room/best_of" $runs sh -c 'tar cf - -C "$0" . | cat > /dev/null' "$1" 2> /dev/null; }
row() { printf '%-4s %-30s %10s %10s %10s\n' "$@"; }

# Unmounts, and waits until the image's file is written.
leave() { fusermount3 -u "$mount" && flock "$1" true; }

row kind what adf_mount tmpfs affs
for kind in ofs ffs; do
    file=$shm/$kind.adf
    "$room/full_image" $kind 1760 "$file" > "$room/written"
    "$room/adf_mount" -o ro "$file" "$mount"
    mkdir "$shm/$kind"
    cp -a "$mount/." "$shm/$kind/"
    affs=-
    if mount -t affs -o loop,ro "$file" "$room/affs" 2> /dev/null; then
        affs=$(read_all "$room/affs")
        umount "$room/affs"
    fi
    row $kind "tar of a full floppy, $(find "$mount" -type f | wc -l) files" "$(read_all "$mount")" "$(read_all "$shm/$kind")" "$affs"
    leave "$file"
    "$serve" blank $([ $kind = ffs ] && echo --ffs) Work "$shm/new.adf"
    "$room/adf_mount" "$shm/new.adf" "$mount"
    mkdir "$shm/put" "$shm/there"
    for number in $(seq 100); do head -c 4000 /dev/urandom > "$shm/put/$number"; done
    row $kind 'cp of 100 files, each saved' "$("$room/best_of" $runs cp -r "$shm/put" "$mount/")" \
        "$("$room/best_of" $runs cp -r "$shm/put" "$shm/there/")" -
    leave "$shm/new.adf"
    rm -rf "$shm/put" "$shm/there"
done
