"""Writes the scripts that benchmarks compile.

    python3 bench/scripts.py hour   > hour.csv      # an hour of cues of two lines, one every four seconds
    python3 bench/scripts.py limits > limits.csv    # 512 epochs, 4,096 cues and 8,192 colours over ten hours
    python3 bench/scripts.py epoch  > epoch.csv     # as many cues and colours in one epoch, one region and one CLUT
    python3 bench/scripts.py live   > live.csv      # an hour of 1,500 cues of two lines, a tick before each, as late as it may be
"""
import sys

SECOND = 90_000
# A cue has to start later than that behind the last tick.
HORIZON = 453_600


def hour():
    print("origin,0\ndisplay,720,576\nrefresh,5\nepoch,900000\nregion,0,0,480,720,80,4,0")
    for number in range(900):
        start = 900_000 + number * 4 * SECOND
        end = start + 3 * SECOND
        print(f'cue,{start},{end},0,24,16,7,8,"This is the first line of cue number {number},\nand this one is the second of its lines."')


def limits():
    print("origin,0\ndisplay,720,576\nrefresh,1")
    span = 36_000 * SECOND - 20 * SECOND
    length = span // 512
    for epoch in range(512):
        start = 10 * SECOND + epoch * length
        print(f"epoch,{start}\nregion,0,0,480,720,80,4,0")
        step = (length - SECOND) // 8
        for cue in range(8):
            begin = start + cue * step
            for colour in range(2):
                print(f"colour,{begin},0,4,{2 * cue + colour},{100 + colour},128,128,0")
            print(f"cue,{begin},{begin + step},0,24,16,7,8,Cue {cue} of epoch {epoch}")


def epoch():
    print("origin,0\ndisplay,720,576\nrefresh,1\nepoch,900000\nregion,0,0,480,720,80,8,0")
    step = 36_000 * SECOND // 8_300
    for number in range(8_192):
        print(f"colour,{900_000 + (number + 1) * step},0,8,{number % 256},100,128,128,0")
    for number in range(4_096):
        begin = 900_000 + 2 * number * step
        print(f"cue,{begin},{begin + 2 * step},0,24,16,7,8,Cue {number}")


def live():
    print("origin,0\ndisplay,720,576\nrefresh,5\nepoch,900000\nregion,0,0,480,720,80,4,0")
    for number in range(1_500):
        start = 900_000 + number * 216_000
        print(f"tick,{start - HORIZON - 1}")
        print(f'cue,{start},{start + 180_000},0,24,16,7,8,"This is the first line of cue number {number},\nand this one is the second of its lines."')


{"hour": hour, "limits": limits, "epoch": epoch, "live": live}[sys.argv[1]]()
