"""Turns subtitle files (SubRip, WebVTT, EBU STL, TTML) into scripts for `dvbsub compile`.

The way of a file: `readers` gives cues; `layout` breaks their texts to lines and draws them by a face (`bdf`,
`truetype`); `pages` says what stands at each end of the display from frame to frame; `sending` reckons when each
display set is decoded, and `timing` moves what would be too late; `script` writes the records; `rules` reads a script
as the compiler does. `report` counts what was changed on the way.
"""
