"""Small streams of x264, by options, sizes and pictures."""
import shutil
import subprocess

OPTIONS = [
    "--qp 20 --ref 1",
    "--qp 30 --ref 3 --slices 2",
    "--qp 38 --ref 4 --partitions all --me umh --subme 9",
    "--qp 12 --ref 2 --constrained-intra",
    "--qp 26 --deblock -2:3 --slice-max-mbs 3 --ref 2",
    "--qp 44 --ref 1 --no-deblock",
    "--qp 2 --ref 1 --keyint 2",
    "--qp 33 --ref 5 --keyint 4",
    "--qp 28 --ref 3 --chroma-qp-offset 5",
]
WEIGHTED = [
    "--qp 20 --ref 1 --weightp 1",
    "--qp 30 --ref 3 --slices 2 --weightp 2",
    "--qp 38 --ref 4 --partitions all --me umh --subme 9 --weightp 2",
    "--qp 26 --deblock -2:3 --slice-max-mbs 3 --ref 2 --weightp 2",
    "--qp 33 --ref 5 --keyint 4 --weightp 2",
]
SOURCES = ["testsrc", "mandelbrot", "cellauto"]
SIZES = ["48x48", "64x32", "96x64"]


def streams(folder, main_ip):
    """The streams, made in a folder; none where ffmpeg or x264 is not installed."""
    if not shutil.which("ffmpeg") or not shutil.which("x264"):
        return
    profile = ["main", "--no-cabac", "--bframes", "0", "--no-8x8dct"] if main_ip else ["baseline"]
    for options, size, source in ((a, b, c) for a in (WEIGHTED if main_ip else OPTIONS) for b in SIZES for c in SOURCES):
        fade = ",fade=in:0:5" if main_ip else ""
        lavfi = ["ffmpeg", "-v", "error", "-f", "lavfi", "-i", f"{source}=size={size}:rate=10{fade}", "-frames:v", "6", "-pix_fmt", "yuv420p"]
        raw = subprocess.run([*lavfi, "-f", "yuv4mpegpipe", "-"], capture_output=True, check=True).stdout
        path = f"{folder}/made.264"
        x264 = ["x264", "--quiet", "--profile", *profile, "--preset", "slow", *options.split(), "--demuxer", "y4m"]
        subprocess.run([*x264, "-o", path, "-"], input=raw, check=True, capture_output=True)
        with open(path, "rb") as it:
            yield it.read()
