#!/usr/bin/env python3
"""The page docs/bank.html in a real browser: every example played to its end, every button pressed, steps clicked to a script that the native program
answers alike, and times measured.

    python3 tests/outside_the_gate/page_in_browser.py [--pictures FOLDER]

Needs Debian's chromium (or another of its kind) and the built programs; where the browser is missing, it says so and the status is 1. With
--pictures what is seen is kept, for a person to look at: wide, a phone's width, dark, on paper, 16 columns with 200 steps. It does not run other browsers
than that one, no screen reader, and no finger on glass."""
import os
import subprocess
import sys
import tempfile
import time

sys.path.insert(0, os.path.dirname(os.path.dirname(os.path.abspath(__file__))))
from helpers import browser
import build_page
import script_journals
from cases.test_page import swapped
from repository import ROOT, built, examples, parser, read

ADDRESS = "file://" + os.path.join(ROOT, "docs", "bank.html")
PARTS = ("bank", "fastest", "losses", "journals", "about")
# Buttons that open a window of the system's own.
OPENERS = ("open", "journal-open-0", "journal-open-1")
# Sixteen columns whose root halts, and two hundred steps.
CROWDED = "columns=16\nroot=0\nup=0,0,0,1,1,2,2,3,3,4,4,5,5,6,6,7\nwatch=sender\norder=0102000000000000\nsend=0\ntake=0\nhalt=0\nrun=9999\n"
BUSH = "columns=16\nroot=0\nup=" + ",".join("0" * 16) + "\norder=ff02000000000080\nrun=40\nhalt=0,5\nrun=9999\n"
# Column 1 may both send and acknowledge when the dispatcher takes its one step.
EITHER = "columns=3\nroot=0\nup=0,0,0\nhalt=0\nnote=2,0\nall=2\nsend=2\nsend=2\nnote=1,0\nall=1\ntake=0\nrun=1\n"
# One script of some ten thousand steps: orders in a bush of 16 columns, each brought to rest.
LONG = "columns=16\nroot=0\nup=" + ",".join("0" * 16) + "\n" + "order=0102000000000000\nrun=9999\n" * 167
# In milliseconds: a pause between two steps that a person notices, and one for which a person who has pressed a button waits.
NOTICED, WAITED = 100, 1000


def quoted(text):
    """A string of JavaScript."""
    return '"' + text.replace("\\", "\\\\").replace('"', '\\"').replace("\n", "\\n") + '"'


def click(page, selector):
    page.value(f"(part => part.dispatchEvent(new MouseEvent('click', {{ bubbles: true }})))(document.querySelector({quoted(selector)}))")


def text(page, selector):
    return page.value(f"document.querySelector({quoted(selector)}).textContent")


def put(page, script, at=0):
    """A script is typed and run, and looked at from a step."""
    page.value(f"document.getElementById('script').value = {quoted(script)}")
    click(page, "#run-script")
    page.value(f"(slider => {{ slider.value = {at}; slider.oninput(); }})(document.getElementById('slider'))")


def check(holds, words):
    if not holds:
        raise AssertionError(words)


def native(script):
    return subprocess.run([built("lockers_main")], input=script.encode(), capture_output=True, check=True).stdout.decode()


def play_examples(page):
    """Each example by its steps to the end: nothing differs, and what is printed is stored beside it."""
    steps = 0
    for path in examples():
        name = os.path.basename(path).removesuffix(".script")
        page.value(f"(box => {{ box.value = {quoted(name)}; box.onchange(); }})(document.getElementById('example'))")
        check(text(page, "#printed") == read(path.replace(".script", ".out")), f"{name}: printed otherwise")
        last = page.value("Number(document.getElementById('slider').max)")
        told = page.value(f"""(() => {{ const told = new Set();
            for (let k = 0; k < {last}; k++) {{ document.getElementById('step').click(); if (!document.getElementById('difference').hidden) return null; told.add(document.getElementById('told').textContent); }}
            return told.size; }})()""")
        check(told is not None, f"{name}: a difference is shown")
        check(last == 0 or text(page, "#position") == f"{last} of {last}", f"{name}: not at its end")
        steps += last
    print(f"examples: every one played to its end, {steps} steps, no difference")


# Presses each button that a part has or gets, once for each id or kind of step.
PRESS = """((part, openers) => { const box = document.getElementById(part + '-part'), done = new Set(), key = button => button.id || (button.dataset.line || button.textContent).split('=')[0];
    const next = () => [...box.querySelectorAll('button[data-line]'), ...box.querySelectorAll('button'), ...document.querySelectorAll('dialog[open] button[id]')].find(button => !button.disabled && !openers.includes(button.id) && !done.has(key(button)));
    for (let button; (button = next());) { done.add(key(button)); button.click(); if (/^order-(give|cancel)$/.test(button.id)) document.getElementById('order').click(); }
    document.getElementById('order-dialog').close();
    return [...done]; })"""
PRESSED = {"first", "back", "play", "step", "last", "order", "order-give", "order-none", "order-cancel", "rest", "turn", "undo", "save", "run-script", "send", "ack", "all", "halt", "list", "take",
           "fastest-make", "fastest-use", "fastest-save", "losses-run-0", "losses-run-1", "journals-compare", "journals-swap", "journals-run"}


def press_everything(page):
    """Every button of every part, also those that appear by pressing another; none throws."""
    pressed = set()
    for part in PARTS:
        page.open(f"{ADDRESS}#{part}" + ("=taken-over:2" if part == "bank" else ""))
        pressed.update(page.value(f"{PRESS}({quoted(part)}, {list(OPENERS)})"))
    check(not page.told, page.told)
    check(PRESSED <= pressed, f"not pressed: {PRESSED - pressed}")
    print(f"buttons: {len(pressed)} pressed, nothing thrown")


def click_a_script(page):
    """A bank is stepped by clicks alone, with a strip, a note, a packet and a return; the native program answers the script alike."""
    put(page, "columns=4\nroot=0\nup=0,0,0,1\n")
    for selector in ("#order", "#order-wall [data-door='10']", "#order-wall [data-door='64']", "#order-give", "#actions [data-line='send=0']", "svg [data-packet='0']",
                     "#actions [data-line='take=0']", "svg [data-column='2']", "#columns [data-mark='3']", "#actions [data-line='halt=2,3']", "svg [data-column='1']",
                     "#actions [data-line='note=1,3']", "#actions [data-line='ack=1']", "#rest", "svg [data-column='3']", "#actions [data-line='back=3']", "#actions [data-line='list=3']", "#turn"):
        click(page, selector)
    script = page.value("document.getElementById('script').value")
    check("halt=2,3\nnote=1,3\n" in script and "back=3\nlist=3\nrun=1\n" in script, script)
    check(text(page, "#printed") == native(script), "the native program prints otherwise")
    check("refused=6" in native(script) and "doors=10,64" in native(script), native(script))
    saved = os.path.join(page.folder.name, "bank.script")
    if os.path.exists(saved):
        os.remove(saved)
    click(page, "#save")
    for _ in range(100):
        if os.path.exists(saved):
            break
        time.sleep(0.05)
    check(read(saved) == script, "what was saved is another script")
    print(f"clicks: a script of {script.count(chr(10))} lines, saved, answered alike by the native program")


def use_keys(page):
    page.open(f"{ADDRESS}#bank=taken-over:5")
    for key, at in (("ArrowRight", 6), ("ArrowLeft", 5), ("End", 26), ("Home", 0)):
        page.key(key)
        check(text(page, "#position") == f"{at} of 26", f"{key}: {text(page, '#position')}")
    page.value("document.querySelector('svg [data-column=\"2\"]').focus()")
    page.key("Enter")
    check("Column 2" in text(page, "#actions"), "Enter does not select")
    print("keys: step, back, first, last and a selection")


def tell_a_refusal(page):
    put(page, "columns=3\nroot=0\nup=0,0,0\nsend=0\n", 1)
    told = text(page, "#told")
    check("Refused with 6: column 0 has nobody to send to" in told and "Line 4: send=0" in told, told)
    put(page, "columns=3\nroot=0\nup=0,2,1\n")
    check("refused with 3" in text(page, "#told"), text(page, "#told"))
    print("refusals: told with their number, their meaning and their line")


def drop_and_open(page):
    """Two journals are dropped together, and a script is opened as a file."""
    bank = script_journals.run(read("examples", "strip-halted.script").encode())
    page.open(f"{ADDRESS}#journals")
    files = ", ".join(f"new File([{quoted(bank.journal(i).decode())}], '{i}')" for i in (1, 3))
    page.value(f"""(() => {{ const given = new DataTransfer(); for (const file of [{files}]) given.items.add(file);
        document.getElementById('journal-side-0').dispatchEvent(new DragEvent('drop', {{ dataTransfer: given, bubbles: true, cancelable: true }})); }})()""")
    page.until("document.getElementById('journals-missing').textContent === 'sent=1,3,1\\n'")
    check("Column 1 sent column 3 message 1, which column 3 never got." in text(page, "#journals-told"), text(page, "#journals-told"))
    page.open(ADDRESS)
    box = page.call("Runtime.evaluate", expression="document.getElementById('file')")["result"]["objectId"]
    page.call("DOM.setFileInputFiles", files=[os.path.join(ROOT, "examples", "two-orders.script")], objectId=box)
    page.until(f"document.getElementById('printed').textContent === {quoted(read('examples', 'two-orders.out'))}")
    print("files: two journals dropped, a script opened")


def tell_a_difference(page):
    """A page whose dispatcher has two kinds swapped tells it, and draws no picture there."""
    with tempfile.TemporaryDirectory() as folder:
        with open(os.path.join(folder, "bank.html"), "w", encoding="utf8") as file:
            file.write(build_page.page(build_page.programs_of(build_page.PAGE), swapped(folder)))
        page.open(f"file://{folder}/bank.html")
        put(page, EITHER)
        told, drawn = page.value("""(() => { const step = document.getElementById('step'), difference = document.getElementById('difference'), last = Number(document.getElementById('slider').max);
            for (let k = 0; k < last && difference.hidden; k++) step.click();
            return [difference.textContent, document.getElementById('picture').innerHTML.length]; })()""")
    check("proved program" in told and drawn == 0, told)
    print(f"a swapped dispatcher is noticed: {told}")


def measure(page):
    """The size, the time to the first picture, and ten thousand steps."""
    page.open(ADDRESS)
    print(f"size: {os.path.getsize(os.path.join(ROOT, 'docs', 'bank.html'))} bytes")
    ready, paint = page.value("[Number(document.body.dataset.milliseconds), performance.getEntriesByType('paint').map(entry => entry.startTime).pop() || 0]")
    print(f"first picture: drawn {ready:.0f} ms after the page was asked for, first paint at {paint:.0f} ms")
    page.value(f"document.getElementById('script').value = {quoted(LONG)}")
    whole = page.value("(() => { const began = performance.now(); document.getElementById('run-script').click(); return performance.now() - began; })()")
    frames = page.value("Number(document.getElementById('slider').max)")
    steps = page.value("""(() => { const slider = document.getElementById('slider'), times = [];
        for (let at = 0; at <= Number(slider.max); at += 97) { const began = performance.now(); slider.value = at; slider.oninput(); times.push(performance.now() - began); }
        times.sort((one, other) => one - other);
        return [times[times.length >> 1], times[times.length - 1]]; })()""")
    check(frames >= 9999, frames)
    print(f"a run of {frames} steps: {whole:.0f} ms to run and draw it; a step of it is drawn in {steps[0]:.0f} ms, the median, at most {steps[1]:.0f} ms")
    check(steps[0] < NOTICED and whole < WAITED, "a person notices a pause")


def take_pictures(page, folder):
    os.makedirs(folder, exist_ok=True)
    views = {"wide": (1400, 900, {}), "phone": (390, 844, {}), "dark": (1400, 900, {"dark": True}), "paper": (800, 1100, {"media": "print"})}
    for name, (width, height, how) in views.items():
        page.size(width, height, **how)
        page.open(f"{ADDRESS}#bank=taken-over:11")
        page.value("dispatchEvent(new Event('beforeprint'))")
        page.picture(os.path.join(folder, f"taken-over-{name}.png"), True)
        for script, at, called in ((CROWDED, 60, "crowded"), (BUSH, 70, "bush")):
            put(page, script, at)
            page.picture(os.path.join(folder, f"{called}-{name}.png"), True)
        for part in PARTS[1:]:
            click(page, f"#{part}-tab")
            time.sleep(1)
            page.picture(os.path.join(folder, f"{part}-{name}.png"), True)
    print(f"pictures: {len(os.listdir(folder))} in {folder}, to be looked at")


def main():
    words = parser(__doc__)
    words.add_argument("--pictures", metavar="FOLDER", help="where pictures of what is seen are kept, none without it")
    asked = words.parse_args()
    if not browser.path():
        sys.exit(f"no browser is found ({', '.join(browser.NAMES)}): nothing was run")
    sys.stdout.reconfigure(line_buffering=True)
    page = browser.Page(ADDRESS)
    page.size(1400, 900)
    try:
        for part in (play_examples, press_everything, click_a_script, use_keys, drop_and_open, tell_a_refusal, tell_a_difference, measure):
            part(page)
        check(not page.told, page.told)
        check(all(address.startswith(("file://", "about:", "blob:", "data:")) for address in page.asked), page.asked)
        print("network: nothing asked for but the file")
        if asked.pictures:
            take_pictures(page, asked.pictures)
    finally:
        page.close()


if __name__ == "__main__":
    main()
