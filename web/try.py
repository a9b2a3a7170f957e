#!/usr/bin/env python3
"""Tries what the page does in headless Chromium, as a user would. Leaves a screenshot.

    web/try.py PROGRAM PAGE SCREENSHOT LEGAL BROKEN

PROGRAM is h264v, PAGE what web/build.sh wrote, LEGAL a legal stream of three frames or more, and BROKEN one that breaks a rule in a macroblock, of
which the screenshot is. test/compare_library.py compares the frames of many streams. Needs chromium.
"""
import os
import re
import subprocess
import sys

sys.dont_write_bytecode = True
from shown_page import ShownPage  # noqa: E402

# Notes the values that the progress bar takes, and how often the page's thread is free meanwhile.
WATCH = """(() => {
  window.seen = { values: [], ticks: 0 };
  new MutationObserver(() => seen.values.push(get('progress').value)).observe(get('progress'), { attributes: true, attributeFilter: ['value'] });
  setInterval(() => seen.ticks++, 1);
})()"""
# Whether a canvas shows a frame: its bytes beside those of imageOf.
SHOWS = """((number) => {
  const wanted = imageOf(frames[number]).data, canvas = get('frame');
  const got = canvas.getContext('2d').getImageData(0, 0, canvas.width, canvas.height).data;
  return wanted.length === got.length && wanted.every((value, at) => value === got[at]);
})(%d)"""
# How many samples of a canvas have the red of a mark, and the column and row of the first.
RED = """((name) => {
  const canvas = get(name), { data } = canvas.getContext('2d').getImageData(0, 0, canvas.width, canvas.height), found = [];
  for (let at = 0; at < data.length; at += 4) if (data[at] > 200 && data[at + 1] < 60 && data[at + 2] < 60)
    found.push([(at / 4) %% canvas.width, Math.floor(at / 4 / canvas.width)]);
  return [found.length, found[0] || null];
})('%s')"""

# Which part of the page's policy an attempt to connect breaks.
VIOLATED = """new Promise((go) => {
  addEventListener('securitypolicyviolation', (e) => go(e.violatedDirective));
  fetch('http://127.0.0.1:9/').catch(() => 0);
})"""

failures = 0


def expect(holds, what):
    global failures
    print(("as expected: " if holds else "NOT SO: ") + what)
    failures += not holds


def text(page, name):
    return page.evaluate(f"get('{name}').textContent")


def is_hidden(page, name):
    return page.evaluate(f"get('{name}').offsetParent === null")


def try_legal(page, program, name):
    """A legal stream that is dropped on the page: its verdict, sets, plot, frames and progress."""
    page.evaluate(WATCH)
    line, frames = page.drop(name)
    run = subprocess.run([program, "decode", name], capture_output=True)
    expect(line == run.stderr.decode().strip().splitlines()[-1], f"a dropped file has the program's last line, {line}")
    expect(sum(w * h * 3 // 2 for w, h in (map(int, size.split("x")) for _, size, _ in frames)) == len(run.stdout), "and as many bytes of frames")
    values, ticks = page.evaluate("[seen.values, seen.ticks]")
    expect(values and values == sorted(values) and values[-1] == 1, f"progress goes up to its end, in {len(values)} steps")
    expect(ticks > 0, f"the page's thread is free while the worker decodes ({ticks} times)")
    expect(page.evaluate("get('sets').rows.length") > 1, "the sets are shown")
    expect(re.fullmatch(r"\d+ pictures, the largest of \d+ bytes", text(page, "scale")), "the plot has its scale: " + text(page, "scale"))
    expect(page.evaluate(RED % "plot")[0] == 0 and is_hidden(page, "failure"), "nothing is marked in red")
    return line


def try_frames(page):
    """Stepping and playing."""
    expect(page.evaluate(SHOWS % 0), "the first frame is shown")
    page.evaluate("get('on').click(); get('on').click()")
    expect(page.evaluate("shown") == 2 and page.evaluate(SHOWS % 2), "two steps on show the third")
    page.evaluate("get('back').click()")
    expect(page.evaluate("shown") == 1 and page.evaluate(SHOWS % 1), "a step back shows the second")
    last = page.evaluate("frames.length - 1")
    page.evaluate("get('place').value = 0; get('place').oninput(); get('rate').value = 120; get('play').click()")
    page.evaluate("(async () => { while (playing) await new Promise((go) => setTimeout(go, 10)); })()")
    expect(page.evaluate("shown") == last and page.evaluate(SHOWS % last), f"playing goes from the first to frame {last}, and stops there")


def try_alone(page, name, line):
    """The verdict alone: the same line, and no frames."""
    page.evaluate("get('alone').checked = true")
    alone, frames = page.judge(name)
    expect(alone == line and not frames and is_hidden(page, "frames"), f"the verdict alone is the same, without frames: {alone}")
    expect(page.evaluate("get('sets').rows.length") > 1, "the sets are shown beside it")
    page.evaluate("get('alone').checked = false")


def explained(program, name):
    """What the program explains of a stream: picture, macroblock, column, row; None where it does not explain."""
    run = subprocess.run([program, "check", "--explain", name], capture_output=True, text=True)
    picture = re.search(r"^explain picture (\d+)", run.stdout, re.M)
    place = re.search(r"^explain macroblock (\d+) column (\d+) row (\d+)", run.stdout, re.M)
    return [int(n) for n in (picture[1], *place.groups())] if picture and place else None


def try_broken(page, program, name):
    """A stream that breaks a rule in a macroblock: its explanation, the plot, and the mark."""
    line, _ = page.judge(name)
    expect(line.startswith("no: "), f"a broken stream is a no: {line}")
    expect("Usual cause" in text(page, "explanation"), "it is explained: " + text(page, "explanation"))
    expect(page.evaluate(RED % "plot")[0] > 0 and "in red" in text(page, "scale"), "the failing picture is red in the plot: " + text(page, "scale"))
    expect(not is_hidden(page, "failure"), "the macroblock is marked: " + text(page, "where"))
    place = [int(n) for n in re.findall(r"\d+", text(page, "where").replace("counted from 0", ""))][:4]
    wanted = explained(program, name)
    if wanted is None:
        print("not tried: this program does not explain, so the macroblock has nothing to be compared with")
    else:
        expect(place == wanted, f"picture, macroblock, column and row are the program's, {wanted}")
    count, first = page.evaluate(RED % "failed")
    expect(count >= 256 and first is not None, "there is red on the picture")
    width = page.evaluate("get('failed').width")
    inside = page.evaluate(f"[...get('failed').getContext('2d').getImageData({place[2] * 16 + 8}, {place[3] * 16 + 8}, 1, 1).data]")
    expect(inside == [255, 0, 0, 255], f"its middle is red, on a canvas of {width} columns")


def try_silence(page):
    """Nothing leaves the machine."""
    asked = {event["request"]["url"].split(":")[0] for method, event in page.events if method == "Network.requestWillBeSent"}
    expect(asked <= {"file", "blob", "data"}, f"the page asked for nothing but itself ({', '.join(sorted(asked)) or 'nothing'})")
    refused = page.evaluate("fetch('http://127.0.0.1:9/').then(() => false, () => true)")
    violated = page.evaluate(VIOLATED)
    expect(refused and violated.startswith("connect-src"), "and its policy lets it connect to nothing")


def main():
    if len(sys.argv) != 6:
        sys.exit(__doc__)
    program, path, screenshot, legal, broken = sys.argv[1:]
    with ShownPage(path) as page:
        line = try_legal(page, program, os.path.abspath(legal))
        try_frames(page)
        try_alone(page, os.path.abspath(legal), line)
        try_broken(page, program, os.path.abspath(broken))
        page.screenshot(screenshot)
        try_silence(page)
        told = " ".join(text(page, "proved").split())
        expect("before its translation to wasm64" in told and "does not cover this translation" in told, "the page says what the proof covers")
    print(f"try.py: {failures} failures; {screenshot} shows the broken stream")
    sys.exit(1 if failures else 0)


main()
