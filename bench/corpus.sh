#!/bin/sh
# corpus.sh FOLDER: makes six streams there, Constrained Baseline by x264, of real footage (Debian's package opencv-doc) and of a generator.
#
# Where speed is measured: docs/SPEED.md. Streams that are there stay. Needs apt-get, ffmpeg with libx264, and 100 MB of disk.
set -eu
folder=${1:?corpus.sh FOLDER}
mkdir -p "$folder/footage"
cd "$folder"

if [ ! -e footage/vtest.avi ]; then
  apt-get download opencv-doc >/dev/null
  dpkg-deb -x opencv-doc*.deb unpacked
  for name in vtest Megamind tree; do mv "unpacked/usr/share/doc/opencv-doc/examples/data/$name.avi" footage/; done
  rm -rf unpacked opencv-doc*.deb
fi

# encode NAME PICTURES SIZE WORDS INPUT..: pictures of an input at a size, by x264 with these words.
encode() {
  name=$1 pictures=$2 size=$3 words=$4
  shift 4
  [ ! -e "$name.264" ] || return 0
  ffmpeg -v error -nostdin "$@" -an -vf "scale=$size,format=yuv420p" -frames:v "$pictures" -c:v libx264 -profile:v baseline \
    -x264-params "$words:bframes=0:cabac=0:8x8dct=0:weightp=0:threads=1" -bsf:v h264_mp4toannexb -f h264 "$name.264"
}

encode street_640x480 300 640:480 crf=24:ref=2:level=3.1 -i footage/vtest.avi
encode street_1280x960 150 1280:960 crf=26:ref=1:level=4.0 -i footage/vtest.avi
encode film_960x704 200 960:704 crf=21:ref=3:level=3.2 -i footage/Megamind.avi
encode film_1920x1088 100 1920:1088 crf=25:ref=1:level=4.1 -i footage/Megamind.avi
encode tree_960x540 250 960:540 crf=21:ref=2:level=3.2 -i footage/tree.avi
encode mandel_640x480 120 640:480 crf=21:ref=2:level=3.1 -f lavfi -i mandelbrot=s=640x480:r=25
