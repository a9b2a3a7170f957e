#!/usr/bin/env bash
# encoders.sh PROGRAM: makes small streams by x264 (through ffmpeg) and by OpenH264 (through GStreamer), and compares what `h264v decode` writes of each with what
# ffmpeg's own decoder gives, byte for byte.
# It prints each stream that is no yes or whose frames differ, with its options, and how many agreed.
# Main profile streams of x264 with weighted prediction are judged with --target main-ip.
# On Debian: apt-get install ffmpeg gstreamer1.0-tools gstreamer1.0-plugins-base gstreamer1.0-plugins-bad
set -eu
program=${1:?PROGRAM}
made=$(mktemp -d)
trap 'rm -r "$made"' EXIT
agreed=0
differed=0

target=baseline
# compare STREAM OPTIONS..
compare() {
    local ours theirs words=()
    [ "$target" = baseline ] || words=(--target "$target")
    ours=$("$program" decode "${words[@]}" "$1" 2> "$made/verdict" | md5sum) || true
    theirs=$(ffmpeg -v error -threads 1 -i "$1" -f rawvideo -pix_fmt yuv420p - | md5sum)
    if [ "$ours" = "$theirs" ] && grep -q '^yes' "$made/verdict"; then
        agreed=$((agreed + 1))
    else
        differed=$((differed + 1))
        echo "differs: ${*:2}: $(tail -n 1 "$made/verdict")"
    fi
}

if ffmpeg -v error -encoders 2> /dev/null | grep -q libx264; then
    for size in 176x144 64x48 16x64 130x98 48x16; do
        for source in "testsrc2=size=$size:rate=25,noise=alls=20:allf=t" "mandelbrot=size=$size:rate=25,rotate=t/3" "life=size=$size:rate=25:mold=10,format=yuv420p"; do
            for options in keyint=30:ref=1:constrained-intra=1 \
                keyint=12:ref=4:partitions=all:me=umh:subme=9:deblock=3,-2 \
                keyint=40:ref=16:slices=3:sliced-threads=1:threads=3:chroma-qp-offset=5 \
                keyint=25:ref=2:no-deblock=1:crf=1 \
                keyint=20:ref=3:deblock=-6,6:chroma-qp-offset=-12:crf=45:intra-refresh=1 \
                keyint=15:ref=5:min-keyint=1:scenecut=80:nal-hrd=vbr:vbv-maxrate=300:vbv-bufsize=300:bitrate=200:aud=1; do
                ffmpeg -v error -y -f lavfi -i "$source" -frames:v 40 -pix_fmt yuv420p -c:v libx264 -profile:v baseline -threads 1 -x264-params "$options" -f h264 "$made/x264.264"
                compare "$made/x264.264" x264 "$source" "$options"
            done
        done
    done
    target=main-ip
    for size in 176x144 64x48 130x98; do
        for source in "testsrc2=size=$size:rate=25,fade=in:0:20,fade=out:25:15" "mandelbrot=size=$size:rate=25,fade=in:0:30:color=white" \
            "life=size=$size:rate=25:mold=10,format=yuv420p,fade=out:5:30:color=red"; do
            for options in weightp=1:ref=1 weightp=2:ref=4 weightp=2:ref=16:slices=3:sliced-threads=1:threads=3 weightp=2:ref=3:crf=1:keyint=12 \
                weightp=2:ref=5:partitions=all:me=umh:subme=9:deblock=3,-2 weightp=1:ref=2:constrained-intra=1:crf=40; do
                ffmpeg -v error -y -f lavfi -i "$source" -frames:v 40 -pix_fmt yuv420p -c:v libx264 -profile:v main -threads 1 \
                    -x264-params "bframes=0:cabac=0:8x8dct=0:$options" -f h264 "$made/x264.264"
                compare "$made/x264.264" x264 main-ip "$source" "$options"
            done
        done
    done
    target=baseline
else
    echo "ffmpeg with libx264 is not installed"
fi

if gst-inspect-1.0 openh264enc > /dev/null 2>&1; then
    for size in "176 144" "320 240" "64 64"; do
        for pattern in ball snow zone-plate smpte; do
            for options in "gop-size=20 bitrate=200000" "gop-size=0 rate-control=off qp-min=20 qp-max=30 complexity=high" \
                "slice-mode=n-slices num-slices=3 gop-size=15 deblocking=off" "slice-mode=auto enable-denoise=true gop-size=10 bitrate=60000"; do
                # shellcheck disable=SC2086
                gst-launch-1.0 -q videotestsrc num-buffers=40 pattern=$pattern kx2=20 ky2=20 kt=1 ! "video/x-raw,width=${size% *},height=${size#* },format=I420,framerate=25/1" \
                    ! openh264enc $options ! video/x-h264,stream-format=byte-stream ! filesink location="$made/openh264.264" > /dev/null 2>&1
                compare "$made/openh264.264" OpenH264 "$pattern" "$size" "$options"
            done
        done
    done
else
    echo "GStreamer's openh264enc is not installed"
fi
echo "$agreed agree, $differed differ"
[ "$differed" -eq 0 ]
