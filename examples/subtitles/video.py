"""What a script has to know of a video, as FFmpeg's ffprobe tells it."""

import json
import shutil
import subprocess
from dataclasses import dataclass
from fractions import Fraction


@dataclass(frozen=True)
class Video:
    """The PTS of the first frame in ticks of 90 kHz, the frames a second, and the sides in pixels."""

    first_pts: int
    rate: Fraction
    width: int
    height: int


def video_in(told):
    """The first video of what ffprobe tells as JSON."""
    streams = json.loads(told).get("streams", [])
    if not streams:
        raise ValueError("there is no video in it")
    stream = streams[0]
    first = Fraction(int(stream.get("start_pts", 0))) * Fraction(stream.get("time_base", "1/90000")) * 90_000
    frames, seconds = map(int, stream["r_frame_rate"].split("/"))
    if not frames or not seconds:
        raise ValueError("ffprobe knows no frame rate of it; --rate, --display and --first-pts say the same as --video")
    return Video(round(first) % (1 << 33), Fraction(frames, seconds), int(stream["width"]), int(stream["height"]))


def probed(path):
    """The video of a file."""
    if not shutil.which("ffprobe"):
        raise ValueError("--video wants ffprobe, which comes with FFmpeg; --first-pts and --rate say the same")
    words = ["ffprobe", "-v", "error", "-select_streams", "v:0", "-show_entries",
             "stream=start_pts,time_base,r_frame_rate,width,height", "-of", "json", path]
    ended = subprocess.run(words, capture_output=True, text=True, check=False)
    if ended.returncode:
        raise ValueError(f"ffprobe: {ended.stderr.strip()}")
    return video_in(ended.stdout)
