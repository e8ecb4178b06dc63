#!/usr/bin/env bash
# Runs the session in an emulated Amiga, without a screen.
#
#   examples/amiga/run.sh BUILT OUT KIND
#
# BUILT has what build.sh built. KIND is `ffs`, for double-density floppies of the Fast File System, or `ofs`, for high-density floppies
# of the Old File System. OUT gets the images, `transcript.txt` and `packets.log`. The status is 0 if the session came to its end.
#
# ADF_SERVE is the program that makes the images (the default is that of this repository), SESSION the session (session.txt), and
# LONGEST its longest time in seconds (120). It needs Debian's fs-uae, xvfb, libgl1-mesa-dri and python3.
set -euo pipefail
[ $# = 3 ] || { echo 'usage: run.sh BUILT OUT ffs|ofs' >&2; exit 2; }
here=$(cd "$(dirname "$0")" && pwd)
built=$(cd "$1" && pwd)
mkdir -p "$2"
out=$(cd "$2" && pwd)
case $3 in
ffs) kind=(--ffs) ;;
ofs) kind=(--hd) ;;
*) echo "run.sh: '$3' is neither ffs nor ofs" >&2; exit 2 ;;
esac
program=${ADF_SERVE:-$here/../../adf_serve}
room=$(mktemp -d)
emulator=
screen=
end() {
    # (the emulator has nothing to save: the host has written each image)
    [ -z "$emulator" ] || kill -KILL "$emulator" 2>/dev/null || true
    [ -z "$screen" ] || kill "$screen" 2>/dev/null || true
    wait 2>/dev/null || true
    rm -rf "$room"
}
trap end EXIT
trap 'exit 1' INT TERM

# Time stamps are all the same, so that the transcript and the images are too.
moment=(--date '1990-01-24 04:05:06')
clock=633153906 # the same time, in seconds since 1970
disks=$out/disks
rm -rf "$disks"
mkdir -p "$disks" "$room/System/S" "$room/System/C" "$room/System/T" "$room/base/Plugins"
printf 'a letter\n' >"$room/letter"
touch -d "@$clock" "$room/letter"
for name in Work Other Tab; do
    file=$disks/${name,}.adf
    "$program" blank "${moment[@]}" "${kind[@]}" "$name" "$file"
    [ "$name" = Work ] || "$program" add "${moment[@]}" "$file" "$room/letter"
done
chmod a-w "$disks/tab.adf"

# The hard disk of the machine is a directory of the host.
cp "$built/task" "$room/System/"
cp "$built/commands" "$room/System/C/"
cp "$built"/jipamiga-*.so "$room/base/Plugins/"
python3 "$here/startup.py" "${SESSION:-$here/session.txt}" "$room/System"
find "$room/System" -exec touch -d "@$clock" {} +

# A screen in memory, whose number Xvfb writes to a pipe.
mkfifo "$room/screen"
Xvfb -displayfd 3 -screen 0 640x480x24 -nolisten tcp 3>"$room/screen" >/dev/null 2>&1 &
screen=$!
read -r -t 60 display <"$room/screen"

TZ=UTC DISPLAY=:$display HOME=$room/base JIP_DISKS=$disks JIP_FIRST=work.adf JIP_CLOCK=$clock JIP_LOG=$out/packets.log \
    LIBGL_ALWAYS_SOFTWARE=1 SDL_AUDIODRIVER=dummy ALSOFT_DRIVERS=null \
    fs-uae --base-dir="$room/base" --amiga-model=A1200 --kickstart-file=internal --fast-memory=8192 --uae-native-code=true \
    --hard-drive-0="$room/System" --hard-drive-0-label=System --fullscreen=0 --window-width=320 --window-height=240 \
    --automatic-input-grab=0 --video-sync=off --warp-mode=1 >"$out/emulator.log" 2>&1 </dev/null &
emulator=$!
limit=$((SECONDS + ${LONGEST:-120}))
while [ "$SECONDS" -lt "$limit" ] && [ ! -s "$room/System/done" ] && kill -0 "$emulator" 2>/dev/null; do sleep 0.1; done
[ ! -f "$room/System/out.txt" ] || cp "$room/System/out.txt" "$out/transcript.txt"
[ -s "$room/System/done" ] || { echo "run.sh: the session did not come to its end" >&2; exit 1; }
