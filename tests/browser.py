"""The page of ./meshorchard opened in a real browser: at a laptop's and a phone's width, on light and dark, and on paper.

    python3 tests/browser.py [--pictures FOLDER]

It needs chromium or chrome, without a window. Measured in each width: nothing is wider than the page, every text of a picture lies inside it and apart from the others and is not too
small, texts stand out from their paper, and nothing is loaded. On paper it is one sheet. With --pictures the pages are also kept as pictures to look at. The last line is
'N passed, M failed', in pages.
"""
import argparse
import html
import json
import os
import re
import shutil
import subprocess
import sys
import tempfile

HERE = os.path.dirname(os.path.abspath(__file__))
TOP = os.path.dirname(HERE)
BROWSERS = ("chromium", "chromium-browser", "google-chrome", "chrome")
LAPTOP, PHONE = 1280, 360
# The smallest text of a picture, in pixels of its height, and by how much a text stands out from its paper.
SMALLEST, CONTRAST = 9, 4.5
DARK = "--blink-settings=preferredColorScheme=0"

# Runs inside the page that is looked at, and tells the page around it what it found.
MEASURE = """
const light = c => { const [r, g, b] = c.match(/[0-9.]+/g).slice(0, 3).map(v => v / 255).map(v => v <= 0.03928 ? v / 12.92 : ((v + 0.055) / 1.055) ** 2.4);
  return 0.2126 * r + 0.7152 * g + 0.0722 * b; };
const apart = (a, b) => { const [x, y] = [light(a), light(b)]; return (Math.max(x, y) + 0.05) / (Math.min(x, y) + 0.05); };
const paper = getComputedStyle(document.body).backgroundColor;
const found = { width: innerWidth, scroll: document.documentElement.scrollWidth, paper: paper, loaded: performance.getEntriesByType('resource').length,
  images: document.images.length, texts: 0, outside: [], over: [], small: [], pale: [] };
const meet = (a, b) => Math.min(a.right, b.right) - Math.max(a.left, b.left) > 1 && Math.min(a.bottom, b.bottom) - Math.max(a.top, b.top) > 3;
for (const picture of document.querySelectorAll('svg')) {
  const frame = picture.getBoundingClientRect();
  if (frame.width === 0) continue;
  const texts = [...picture.querySelectorAll('text')].map(t => [t.textContent, t.getBoundingClientRect(), getComputedStyle(t).fill]);
  texts.forEach(([said, box, fill], i) => {
    found.texts++;
    if (box.left < frame.left - 1 || box.right > frame.right + 1 || box.top < frame.top - 1 || box.bottom > frame.bottom + 1) found.outside.push(said);
    if (Math.min(box.width, box.height) < SMALLEST && said.length > 1) found.small.push(said);
    if (apart(fill, paper) < CONTRAST) found.pale.push([said, fill]);
    texts.slice(0, i).forEach(([other, its]) => { if (meet(box, its)) found.over.push([said, other]); });
  });
}
for (const element of document.querySelectorAll('h1,h2,h3,p,td,th,dt,dd,footer')) {
  if (element.getBoundingClientRect().width === 0) continue;
  found.texts++;
  if (apart(getComputedStyle(element).color, paper) < CONTRAST) found.pale.push([element.textContent, getComputedStyle(element).color]);
  if (element.scrollWidth > element.clientWidth + 1 && element.clientWidth > 0) found.outside.push(element.textContent);
}
parent.document.documentElement.setAttribute('data-' + WHERE, JSON.stringify(found));
""".replace("SMALLEST", str(SMALLEST)).replace("CONTRAST", str(CONTRAST))

CROWDED = [2500, 8000, 100000, 40000, 5000, 10000, 20000, 50000]


def crowded(*firsts):
    """The most that a page can hold: 32 tasks with long numbers and times, chains of twelve places from these tasks on."""
    lines = [f"task {65504 + i} period {CROWDED[i % 8]} duration {CROWDED[i % 8] * (i % 3 + 1) // 2 + 123} phase {i * 70021 % 999999}" for i in range(32)]
    lines += ["chain " + " ".join(str(65504 + i) for i in range(first, first + 12)) for first in firsts]
    return "\n".join([*lines, "gap 999", ""])


TEXTS = {
    "crowded": crowded(0, 5, 12, 20), "two-crowded": crowded(0, 20),
    # More anchors than a report holds, beside a chain with which there is no common hyperperiod.
    "many-anchors": "".join(f"task {i} period {t} duration 3 phase 0\n" for i, t in enumerate((47, 16, 9, 5, 7, 11, 23, 997, 1000), start=1)) + "chain 1 2 3 4 5 6 7\nchain 8 9\n",
    # The longest latency there is, so the longest numbers at the lines of a curve, and tasks that fill no place.
    "longest": "".join(f"task {i} period 1000000 duration 4000000 phase {999 * (i - 1) % 1000000}\n" for i in range(1, 33)) + f"chain {' '.join(map(str, range(1, 13)))}\ngap 1000\n",
    # Numbers with as many digits as there can be on an axis, and a mean that is not whole.
    "digits": "task 1 period 3 duration 3999999 phase 999999\ntask 2 period 7 duration 4000000 phase 1s\nchain 1 2 1 2 1 2 1 2 1 2 1 2\n",
    "three-many": "".join(f"task {i} period {t} duration 3 phase 0\n" for i, t in enumerate((47, 16, 9, 5, 7, 11, 23), start=1)) + "chain 1 2 3 4 5 6 7\nchain 7 6 5 4 3 2 1\nchain 1 7\n",
    "four-refused": "".join(f"task {i} period {t} duration 3 phase 0\n" for i, t in enumerate((999983, 999979, 999961, 6), start=1)) + "chain 1 2\nchain 1\nchain 2\nchain 3\n",
    "shortest": "task 1 period 1 duration 1 phase 0\nchain 1\n",
    "three": "task 1 period 33ms duration 33ms phase 0\ntask 2 period 400ms duration 400ms phase 7us\ntask 3 period 7ms duration 1us phase 0\nchain 1 2\nchain 3 1\nchain 2 3 3 3\n",
}
EXAMPLES = ("chain-a", "two-boards", "waters19-c1", "refused")
# Pages on which something is refused: the file, its first chain, a table for which a report has no room, or two chains side by side. With the first two there is no picture.
WITHOUT_PICTURES = ("no-schedule", "refused", "four-refused")
REFUSED = (*WITHOUT_PICTURES, "many-anchors", "three", "three-many")


def pages(folder):
    """Pages in this folder: of the examples, of crowded schedules, and of a file that is no schedule; and pictures of the first chain that stand alone: the curve, the histogram in the page's
    steps, and one in steps far above every delay, whose marks have labels as long as there can be."""
    command = os.path.join(TOP, "meshorchard")
    files = {name: os.path.join(TOP, "examples", name + ".schedule") for name in EXAMPLES}
    for name, text in TEXTS.items():
        files[name] = os.path.join(folder, name + ".schedule")
        subprocess.run([command, "write", "-", files[name]], input=text.encode(), check=True, stdout=subprocess.DEVNULL, stderr=subprocess.DEVNULL)
    files["no-schedule"] = os.path.join(folder, "no-schedule.schedule")
    with open(files["no-schedule"], "wb") as out:
        out.write(bytes(40))
    for name, file in files.items():
        out, pictures = os.path.join(folder, name + ".html"), {}
        status = subprocess.run([command, "page", file, "-o", out], stderr=subprocess.DEVNULL).returncode
        if name not in WITHOUT_PICTURES:
            first, following = re.search(r'data-from="(\d+)" data-to="(\d+)"', read(out)).groups()
            for kind, words in {"curve": ["curve"], "histogram": ["histogram", "--width", str(int(following) - int(first))], "widest": ["histogram", "--width", str(16 * 10**18)]}.items():
                pictures[kind] = os.path.join(folder, f"{name}-{kind}.svg")
                subprocess.run([command, *words, file, "-o", pictures[kind]], check=True)
        yield name, out, pictures, status


def run(browser, folder, *words):
    """The browser without a window; a run that hangs has failed."""
    fixed = ["--headless", "--no-sandbox", "--disable-gpu", "--hide-scrollbars", f"--user-data-dir={folder}/profile", "--virtual-time-budget=4000"]
    return subprocess.run([browser, *fixed, *words], stdout=subprocess.PIPE, stderr=subprocess.DEVNULL, timeout=60).stdout.decode("utf-8", "replace")


def read(path):
    with open(path, encoding="utf-8") as file:
        return file.read()


def measured(browser, folder, views, *words):
    """What each view measures of itself: a text of a page in some width."""
    frames = []
    for where, (width, text) in views.items():
        inner = text.replace("</body>", f"<script>const WHERE = '{where}';{MEASURE}</script></body>")
        frames.append(f'<iframe style="border:0;width:{width}px;height:900px" srcdoc="{html.escape(inner)}"></iframe>')
    around = os.path.join(folder, "around.html")
    with open(around, "w", encoding="utf-8") as out:
        out.write(f"<!doctype html><meta charset=utf-8><body>{''.join(frames)}</body>")
    dump = run(browser, folder, "--dump-dom", *words, f"file://{around}")
    found = {where: re.search(f'data-{where}="([^"]*)"', dump) for where in views}
    return {where: json.loads(html.unescape(each[1])) if each else None for where, each in found.items()}


def sheets(browser, folder, page):
    """How many sheets the page has on paper."""
    out = os.path.join(folder, "paper.pdf")
    run(browser, folder, "--no-pdf-header-footer", f"--print-to-pdf={out}", f"file://{page}")
    with open(out, "rb") as paper:
        return len(re.findall(rb"/Type\s*/Page\b", paper.read()))


def faults(browser, folder, views):
    """What is not as it should be with these views."""
    papers = set()
    for colour, words in (("light", ()), ("dark", (DARK,))):
        for where, found in measured(browser, folder, views, *words).items():
            if found is None:
                yield f"{where}, {colour}: not measured"
                continue
            papers.add(found["paper"])
            if found["scroll"] > found["width"]:
                yield f"{where}: {found['scroll']} pixels wide"
            for name in ("outside", "over", "small", "pale"):
                if found[name]:
                    yield f"{where}, {colour}: {name}: {found[name][:4]}"
            if found["loaded"] or found["images"] or found["texts"] < 2:
                yield f"{where}: {found['loaded']} files loaded, {found['images']} images, {found['texts']} texts"
    if len(papers) != 2:
        yield f"light and dark have the paper {papers}"


def page_faults(browser, folder, page, pictures):
    """What is not as it should be with a page, and with the pictures that stand alone, in their own size. What is drawn for paper alone is shown beside the rest on the laptop."""
    text = read(page)
    views = {"laptop": (LAPTOP, text.replace('class="picture sheet"', 'class="picture"')), "phone": (PHONE, text)}
    style = "body{margin:0;background:#fff}@media (prefers-color-scheme:dark){body{background:#15191e}}"
    for kind, picture in pictures.items():
        views[kind] = 900, f"<!doctype html><meta charset=utf-8><style>{style}</style><body>{read(picture)}</body>"
    yield from faults(browser, folder, views)
    count = sheets(browser, folder, page)
    if count != 1:
        yield f"{count} sheets of paper"


def keep(browser, folder, name, page, pictures):
    """The page as pictures: light at a laptop's width, dark at a phone's, and on paper."""
    os.makedirs(pictures, exist_ok=True)
    run(browser, folder, f"--window-size={LAPTOP},2400", f"--screenshot={pictures}/{name}-laptop.png", f"file://{page}")
    around = os.path.join(folder, "phone.html")
    with open(around, "w", encoding="utf-8") as out:
        out.write(f'<body style="margin:0"><iframe style="border:0;width:{PHONE}px;height:2600px" src="file://{page}"></iframe>')
    run(browser, folder, DARK, "--window-size=500,2600", f"--screenshot={pictures}/{name}-phone-dark.png", f"file://{around}")
    run(browser, folder, "--no-pdf-header-footer", f"--print-to-pdf={pictures}/{name}.pdf", f"file://{page}")


def main():
    parser = argparse.ArgumentParser()
    parser.add_argument("--pictures", help="a folder for pictures of the pages")
    chosen = parser.parse_args()
    browser = next(filter(None, map(shutil.which, BROWSERS)), None)
    if browser is None:
        print(f"none of {', '.join(BROWSERS)} is installed")
        print("0 passed, 1 failed")
        sys.exit(1)
    passed = failed = 0
    with tempfile.TemporaryDirectory() as folder:
        for name, page, pictures, status in pages(folder):
            wrong = list(page_faults(browser, folder, page, pictures))
            wrong += [] if status == (1 if name in REFUSED else 0) else [f"status {status}"]
            print(f"{name}: {'as it should be' if not wrong else '; '.join(wrong)}", flush=True)
            passed, failed = (passed, failed + 1) if wrong else (passed + 1, failed)
            if chosen.pictures:
                keep(browser, folder, name, page, chosen.pictures)
    print(f"{passed} passed, {failed} failed")
    sys.exit(0 if failed == 0 else 1)


if __name__ == "__main__":
    main()
