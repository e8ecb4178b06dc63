#!/bin/sh
# Prints the milliseconds of a walk over an image and a read of its 1,000 files in Python, beside `unadf`: 1,000 files of 500
# bytes in ten directories of a high-density floppy, in both formats. The Python program (bench/python_files.py) reads the files
# in memory, or writes them to a directory as `unadf` does. `unadf -lr` reads no files. All is done below /dev/shm, and the
# commands take turns. Each time is the best of RUNS (15), with the start of the program. `start` is that of Python and of the
# package, and `alone` is the walk and read without it, as the Python program measures it. It needs `unadf` and Python 3.11 or
# later (PYTHON, or python3). LIBRARY names a folder with the library as bindings/c/build.sh makes it, if it is not to be made.
TMPDIR=/dev/shm
export TMPDIR
. "$(dirname "$0")/setup.sh"
runs=${RUNS:-15}
over_library
# (the interpreter itself, and not a script that finds it; with a compiled package, as pip installs it)
python=$("${PYTHON:-python3}" -c 'import sys; print(sys.executable)')
mkdir "$room/package"
cp -r "$here/../bindings/python/jiponuwha" "$room/package/"
unset PYTHONDONTWRITEBYTECODE
export PYTHONPATH="$room/package" JIPONUWHA_LIBRARY="$library/lib/libjiponuwha.so.1"
cd "$room"

# The microseconds of a command, which begins with an empty directory.
took() {
    rm -rf out
    mkdir out
    start=$(date +%s%N)
    "$@" > said 2>&1 || { cat said >&2; exit 1; }
    end=$(date +%s%N)
    echo "$(((end - start) / 1000))"
}

echo "kind   start  read in Python  to files  unadf -d  unadf -lr       alone  (milliseconds)"
for kind in OFS FFS; do
    "$python" "$here/python_files.py" make $kind image.adf
    mkdir -p out
    unadf image.adf -d out > /dev/null 2>&1
    "$python" "$here/python_files.py" write image.adf mine > /dev/null
    diff -r out mine || { echo "unadf has written others" >&2; exit 1; }
    rm -rf out mine
    : > figures
    "$python" -c 'import jiponuwha'
    for run in $(seq $runs); do
        start=$(took "$python" -c 'import jiponuwha')
        read=$(took "$python" "$here/python_files.py" read image.adf)
        alone=$(cat said)
        write=$(took "$python" "$here/python_files.py" write image.adf out)
        extract=$(took unadf image.adf -d out)
        list=$(took unadf -lr image.adf)
        echo "$start $read $write $extract $list $alone" >> figures
    done
    awk -v kind=$kind '
        { for (k = 1; k <= 6; k++) if (NR == 1 || $k < best[k]) best[k] = $k }
        END { printf "%4s", kind; split("8 16 10 10 11 12", wide, " "); for (k = 1; k <= 6; k++) printf "%*.1f", wide[k], best[k] / 1000; print "" }' figures
done
