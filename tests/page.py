#!/usr/bin/env python3
"""The page of `tools/town draw` in a real browser, headless Chromium: it loads without an error and without a network,
answers clicks and keys, and every number that it shows is the engine's, asked again here. The map is where the numbers
say: boxes, sites, stops, O and circles. The three points of a margin are those of docs/WHY.md, and the marks can be
told apart in grey, here as in the figure of the town.

Installs Debian's packages where they are missing. Pictures of the page are left in target/tool/.
"""
import os
import random
import re
import shutil
import subprocess
import sys
from pathlib import Path

ROOT = Path(__file__).resolve().parent.parent
WORK = ROOT / "target/tool"
PACKAGES = ["chromium", "chromium-driver", "python3-selenium"]
DEBIAN = "/usr/bin/python3"  # the Python that Debian's selenium belongs to


def installed():
    return (shutil.which("chromium") and shutil.which("chromedriver")
            and subprocess.run([DEBIAN, "-c", "import selenium"], capture_output=True, check=False).returncode == 0)


if not installed():
    subprocess.run(["apt-get", "update"], check=True, stdout=subprocess.DEVNULL)
    subprocess.run(["apt-get", "install", "-y", "--no-install-recommends", *PACKAGES], check=True,
                   stdout=subprocess.DEVNULL)
try:
    from selenium import webdriver
except ImportError:
    os.execv(DEBIAN, [DEBIAN, *sys.argv])

from selenium.webdriver.chrome.service import Service  # noqa: E402
from selenium.webdriver.common.action_chains import ActionChains  # noqa: E402
from selenium.webdriver.common.keys import Keys  # noqa: E402
from selenium.webdriver.support.select import Select  # noqa: E402

sys.dont_write_bytecode = True
sys.path.insert(0, str(ROOT / "tools"))

from towns import town  # noqa: E402
from towns.engine import Engine, Refused  # noqa: E402

compared = pages = 0


def same(found, due, what):
    global compared
    compared += 1
    if found != due:
        sys.exit(f"page: {what}:\nfound {found!r}\ndue   {due!r}")


class Page:
    """A page in the browser, and the town that it was written for."""

    def __init__(self, driver, engine, name, content, stops, k):
        global pages
        pages += 1
        self.driver, self.engine, self.name, self.stops, self.k = driver, engine, name, stops, k
        self.content, self.tiles = content, town.read(content)
        self.o = town.around(stops)
        file, self.path = WORK / f"{name}.town", WORK / f"{name}.html"
        file.write_bytes(content)
        self.axes = len(self.o) // 2
        subprocess.run([ROOT / "tools/town", "draw", file, str(k), *(",".join(map(str, stop)) for stop in stops),
                        self.path], check=True, stdout=subprocess.DEVNULL)
        driver.get(self.path.as_uri())
        same(self.script("return performance.getEntriesByType('resource').length"), 0,
             f"{name}: nothing is loaded from elsewhere")
        self.on_the_map()
        self.quiet()

    def script(self, text, *given):
        return self.driver.execute_script(text, *given)

    def quiet(self):
        same(self.driver.get_log("browser"), [], f"{self.name}: the browser's console")

    def at(self, choice):
        return self.driver.find_element("css selector", choice)

    def rows(self, table):
        return self.script("return [...document.querySelectorAll('#' + arguments[0] + ' tbody tr')]"
                           ".map((row) => [...row.cells].map((cell) => cell.textContent))", table)

    def text(self, name):
        return self.script("return document.getElementById(arguments[0]).textContent", name)

    def choose(self, name, value):
        Select(self.at("#" + name)).select_by_value(str(value))

    def click(self, choice):
        element = self.at(choice)
        self.script("arguments[0].scrollIntoView({block: 'center'})", element)
        ActionChains(self.driver).move_to_element(element).click().perform()

    def slide(self, k):
        """Sets the slider as a hand would: by keys."""
        slider = self.at("#k")
        slider.send_keys(Keys.HOME if k <= int(slider.get_attribute("max")) // 2 else Keys.END)
        while int(slider.get_attribute("value")) != k:
            slider.send_keys(Keys.ARROW_RIGHT if int(slider.get_attribute("value")) < k else Keys.ARROW_LEFT)

    def points_of(self, choice):
        """The points of a path of dots."""
        path = self.at(choice).get_attribute("d")
        points = [(int(x), -int(y)) for x, y in re.findall(r"M(-?\d+) (-?\d+)h0", path)]
        same("".join(f"M{x} {-y}h0" for x, y in points), path, f"{self.name}: {choice} has dots only")
        return points

    def crosses_of(self, choice):
        """The middles of a path of crosses."""
        path, number = self.at(choice).get_attribute("d"), r"(-?[\d.]+(?:e-?\d+)?)"
        cross = f"M(-?\\d+) (-?\\d+)m{number} {number}l{number} {number}m0 {number}l{number} {number}"
        same(re.sub(cross, "", path), "", f"{self.name}: {choice} has crosses only")
        points = []
        for x, y, *moves in re.findall(cross, path):
            left, up, across, down, back, over, under = map(float, moves)
            same([left, across, down, back, over, under], [up, *[-2 * up] * 2, 2 * up, 2 * up, -2 * up],
                 f"{self.name}: {choice}: a cross around its point")
            points.append((int(x), -int(y)))
        return points

    def box_of(self, path):
        """The box that an outline goes around."""
        number = r"(-?[\d.]+(?:e-?\d+)?)"
        outline = re.fullmatch(f"M{number} {number}H{number}V{number}H{number}Z", path)
        x0, y0, x1, y1, back = map(float, outline.groups())
        same(back, x0, f"{self.name}: an outline is closed")
        return x0, -y0, x1, -y1

    # ---- what is due ----
    def on_the_map(self):
        """Boxes, sites, stops and O are drawn where they are; a box without width or height is a bar around it."""
        outlines = dict(self.script("return [...document.querySelectorAll('[data-tile]')]"
                                    ".map((p) => [+p.dataset.tile, p.getAttribute('d')])"))
        same(sorted(outlines), list(range(len(self.tiles))), f"{self.name}: a box for each tile")
        for t, tile in enumerate(self.tiles):
            drawn_box = self.box_of(outlines[t])
            for axis in (0, 1):
                low, high, due = drawn_box[axis], drawn_box[axis + 2], tile.box[axis::self.axes]
                if due[0] < due[1]:
                    same((low, high), due, f"{self.name}: the outline of tile {t}")
                else:
                    same(low < due[0] < high and abs(low + high - 2 * due[0]) < 1e-6 * (high - low), True,
                         f"{self.name}: the bar of tile {t}")
        sites = [site for tile in self.tiles for site in tile.sites]
        for choice in (".sites", ".rim:not(.muted)"):
            same(self.points_of(f"#layer-sites {choice}"), [site[:2] for site in sites if not town.is_muted(site)],
                 f"{self.name}: the sounding sites on the map")
        for choice in (".muted:not(.rim)", ".muted.rim"):
            same(self.crosses_of(f"#layer-sites {choice}"), [site[:2] for site in sites if town.is_muted(site)],
                 f"{self.name}: the muted sites on the map")
        title = self.text("title")
        same(title.startswith(f"{self.name}.town: {town.size(self.tiles)}, {len(self.stops)} stop"), True, title)
        o = self.o[:2] + self.o[self.axes:self.axes + 2]
        same(self.box_of(self.at("#layer-o .o").get_attribute("d")), o, f"{self.name}: O on the map")
        spots = self.script("return [...document.querySelectorAll('[data-stop]')]"
                            ".map((g) => [+g.dataset.stop, g.getAttribute('transform')])")
        for i, where in spots:
            x, y = re.match(r"translate\((-?\d+) (-?\d+)\)", where).groups()
            same((int(x), -int(y)), self.stops[i][:2], f"{self.name}: stop {i} on the map")
        same(len(spots), len(self.stops), f"{self.name}: the stops on the map")

    def run_numbers(self, k):
        """The counts and the boxes' marks."""
        joined = self.engine.join(self.content, self.stops, k)
        neither = len(joined.marks) - joined.opened - joined.struck
        tiles = "tile" if len(self.tiles) == 1 else "tiles"
        same(self.text("counts"),
             f"{len(self.tiles)} {tiles}: opened {joined.opened}, struck {joined.struck}, neither {neither}",
             f"{self.name}: the counts for k {k}")
        shown = self.script("return [...document.querySelectorAll('[data-tile]')]"
                            ".map((path) => [+path.dataset.tile, path.getAttribute('class')])")
        for t, kind in shown:
            due = ["neither", "struck", "opened"][joined.marks[t]]
            same(kind.split()[1], due, f"{self.name}: the mark of tile {t} for k {k}")
            same("empty" in kind.split(), not self.tiles[t].sounding, f"{self.name}: the edge of tile {t}")
        return joined

    def stop_numbers(self, i, k, all_turns):
        """The list, the queue, the end and the steps of a stop."""
        what = f"{self.name}: stop {i}, k {k}"
        joined, stop = self.engine.join(self.content, self.stops, k), self.stops[i]
        places = [[str(j), str(dist), str(site), str(site // 40), str(site % 40), str(cue)]
                  for j, (dist, site, cue) in enumerate(joined.lists[i])]
        same(self.rows("list"), places, f"{what}: the list")
        alone = self.engine.join(self.content, [stop], k)
        waits = sorted((self.engine.near(stop, tile.box), t) for t, tile in enumerate(self.tiles)
                       if tile.sounding and joined.marks[t] != 1)
        queue = self.rows("queue")
        same([row[1:4] for row in queue],
             [[str(near), str(t), str(self.tiles[t].sounding)] for near, t in waits][:len(queue)],
             f"{what}: the queue")
        rest = len(self.tiles) - joined.struck - len(waits)
        same(f"In no queue: {town.several(joined.struck, 'struck tile')} and {town.several(rest, 'other')} without "
             "sounding sites." in self.text("left-out"), True, f"{what}: the tiles in no queue")
        turns = [row[0] for row in queue]
        same(turns, [str(j + 1) for j in range(alone.opened)] + [""] * (len(queue) - alone.opened),
             f"{what}: the turns")
        earlier = self.engine.join(self.content, self.stops[:i], k).marks if i else bytes(len(self.tiles))
        for row in queue[:alone.opened]:
            same(row[4] == "opened", earlier[int(row[2])] != 2, f"{what}: whether tile {row[2]} is opened here")
        ended = self.text("ended")
        if len(waits) > alone.opened:
            near, t = waits[alone.opened]
            same(ended.startswith(f"It ended at the key near {near}, tile {t}: {k} sounding site"), True,
                 f"{what}: where it ended: {ended}")
            same("ahead of the next key" in ended, True, f"{what}: why it ended: {ended}")
            same(f"D {joined.lists[i][-1][0]} is" in ended, True, f"{what}: the last place: {ended}")
        else:
            same(ended.startswith("It ended because no tile waits"), True, f"{what}: why it ended: {ended}")
            only = f" The town has only {town.several(joined.used, 'sounding site')}." if joined.used < k else "struck."
            same(ended.endswith(only), True, f"{what}: how many sites there are: {ended}")
        rings = []
        if places:
            rings.append(["ring", joined.lists[i][-1][0]])
        if len(waits) > alone.opened:
            rings.append(["next", waits[alone.opened][0]])
        drawn_rings = self.script("return [...document.querySelectorAll('#layer-rings circle')]"
                                  ".map((c) => [c.getAttribute('class'),"
                                  " ...['r', 'cx', 'cy'].map((name) => +c.getAttribute(name))])")
        same([[kind, round(radius ** 2)] for kind, radius, _, _ in drawn_rings], rings, f"{what}: the circles")
        for kind, _, x, y in drawn_rings:
            same((x, -y), stop[:2], f"{what}: the middle of the circle {kind}")
        chosen = self.points_of("#layer-chosen .chosen")
        same(chosen, [self.tiles[site // 40].sites[site % 40][:2] for _, site, _ in joined.lists[i]],
             f"{what}: the sites in the list")
        for m in range(1, alone.opened + 1) if all_turns else ():
            self.script("document.querySelector(`#queue [data-step='${arguments[0]}']`).click()", m)
            opened = {t for _, t in waits[:m]}
            made = self.engine.write([(tile.box, tile.sites if t in opened else [])
                                      for t, tile in enumerate(self.tiles)])
            due = [[str(dist), str(site), str(cue)] for dist, site, cue in self.engine.join(made, [stop], k).lists[0]]
            same([[row[1], row[2], row[5]] for row in self.rows("list")], due, f"{what}: the list after turn {m}")

    def pair_numbers(self, e, b):
        what = f"{self.name}: E {e}, B {b}"
        margin = self.engine.margin(self.o, self.tiles[e].box, self.tiles[b].box)
        same(self.text("margin-value"), str(margin), f"{what}: the margin")
        same(f"tile {e} is {'nearer' if margin < 0 else 'not nearer'} than tile {b} from O" in self.text("margin"),
             True, what)
        points = [tuple(map(int, row[1:-1])) for row in self.rows("points")]
        same(self.engine.margin(*(point + point for point in points)), margin,
             f"{what}: the margin of the three points")
        for point, box in zip(points, (self.o, self.tiles[e].box, self.tiles[b].box)):
            same([low <= end <= high for end, low, high in zip(point, box[:self.axes], box[self.axes:])],
                 [True] * self.axes, f"{what}: the points are in their boxes")
        links = [self.at(f"#layer-pair .link.{name}").get_attribute("d") for name in "eb"]
        o, *others = points
        same(links, [f"M{o[0]} {-o[1]}L{x} {-y}" for x, y, *_ in others], f"{what}: the lines on the map")
        same(self.points_of("#layer-pair .chosen"), [point[:2] for point in points], f"{what}: the points on the map")
        said = self.text("margin")
        far, near = self.engine.far(points[0], self.tiles[e].box), self.engine.near(points[0], self.tiles[b].box)
        same(f"D(o,e) is {far}, D(o,b) is {near}." in said, True, f"{what}: the two distances: {said}")
        self.corner_numbers(e, b)

    def corner_numbers(self, e, b):
        corners = [()]
        for axis in range(self.axes):
            corners = [corner + (end,) for end in self.o[axis::self.axes] for corner in corners]
        corners = dict.fromkeys(corners)
        due = []
        for corner in corners:
            far, near = self.engine.far(corner, self.tiles[e].box), self.engine.near(corner, self.tiles[b].box)
            due.append([f"({', '.join(map(str, corner))})", str(far), str(near), "yes" if far < near else "no"])
        same(self.rows("corners"), due, f"{self.name}: E {e}, B {b}: the corners")

    def tile_numbers(self, t):
        tile, says = self.tiles[t], self.text("tile-says")
        box = tile.box
        count, muted = len(tile.sites), len(tile.sites) - tile.sounding
        sites = town.several(count, "site") + (f", {muted} of them muted" if muted else "")
        ends = ", ".join(f"{name} {box[axis]}..{box[axis + self.axes]}" for axis, name in enumerate("xyz"[:self.axes]))
        same(says.startswith(f"Box {ends}, {sites}. "), True, says)
        if "Neither" in says:
            due = ("Neither opened nor struck. " if tile.sounding else "Neither: it is empty and not struck. "
                   if not count else "Neither: all its sites are muted, and it is not struck. ")
            same(due in says, True, f"{self.name}: tile {t}: {says}")
        nearer = sum(other.sounding for other in self.tiles if self.engine.margin(self.o, other.box, box) < 0)
        due = "64 sounding sites or more" if nearer >= 64 else town.several(nearer, "sounding site")
        same(f"The tiles nearer than it from O hold {due}, and k is" in says, True,
             f"{self.name}: tile {t}: {nearer}: {says}")
        due = [[str(slot), str(40 * t + slot), *map(str, spot), str(cue) if cue else "0, muted"]
               for slot, (*spot, cue) in enumerate(tile.sites)]
        same(self.rows("sites"), due, f"tile {t}: sites")
        for table, names in (("sites", ["slot", "site", "cue"]), ("points", ["point", "what it is"])):
            head = self.script("return [...document.querySelectorAll('#' + arguments[0] + ' th')]"
                               ".map((cell) => cell.textContent)", table)
            same(head, [*names[:-1], *"xyz"[:self.axes], names[-1]], f"{self.name}: the head of {table}")


def browser():
    options = webdriver.ChromeOptions()
    for argument in ("--headless=new", "--no-sandbox", "--disable-gpu", "--disable-dev-shm-usage", "--hide-scrollbars",
                     "--window-size=1400,1000"):
        options.add_argument(argument)
    options.binary_location = shutil.which("chromium")
    options.set_capability("goog:loggingPrefs", {"browser": "ALL"})
    return webdriver.Chrome(options=options, service=Service(shutil.which("chromedriver")))


def sample(driver, engine):
    """The sample town, by hand: clicks, keys, the slider, E and B on the map."""
    page = Page(driver, engine, "riverside", (ROOT / "samples/riverside.town").read_bytes(),
                [(1200, 3000), (2600, 3100), (4100, 3200), (5600, 3200)], 3)
    page.run_numbers(3)
    driver.save_screenshot(str(WORK / "page-wide.png"))
    for i in (2, 0, 3, 1):
        page.click(f"[data-stop='{i}']")
        same(page.at("#stop").get_attribute("value"), str(i), "a click on a stop chooses it")
        page.stop_numbers(i, 3, True)
    before = page.rows("list")
    page.slide(7)
    same(page.text("k-value"), "7", "the slider's number")
    same(len(page.rows("list")) > len(before), True, "the slider changes the list")
    page.run_numbers(7)
    page.stop_numbers(1, 7, True)
    page.slide(1)
    page.run_numbers(1)
    page.stop_numbers(1, 1, True)
    page.slide(45)
    page.run_numbers(45)
    page.stop_numbers(1, 45, True)
    page.slide(3)
    # Keys: the chosen stop has the focus of its row; arrows go to the next one.
    page.click("[data-stop='0']")
    ActionChains(driver).send_keys(Keys.ARROW_RIGHT).perform()
    focused = page.script("return document.activeElement.getAttribute('aria-label')")
    same(focused, "Stop 1 at (2600, 3100)", "an arrow key on a stop")
    page.stop_numbers(1, 3, False)
    page.click("#stop-on")
    page.stop_numbers(2, 3, False)
    page.click("#step-back")
    same(page.text("step-title").startswith("turn "), True, "one turn back")
    page.choose("stop", 3)
    page.stop_numbers(3, 3, True)
    # E and B, on the map and by their numbers.
    page.click("#pick-e")
    page.click("[data-tile='18']")
    page.click("[data-tile='5']")
    same([page.at("#e").get_attribute("value"), page.at("#b").get_attribute("value")], ["18", "5"],
         "E and B picked on the map")
    page.pair_numbers(18, 5)
    driver.save_screenshot(str(WORK / "page-pair.png"))
    page.click("#swap")
    page.pair_numbers(5, 18)
    for e, b in ((19, 0), (23, 5), (20, 20), (2, 9)):
        page.choose("e", e)
        page.choose("b", b)
        page.pair_numbers(e, b)
    for t in (0, 7, 19):
        page.click(f"[data-tile='{t}']")
        page.tile_numbers(t)
        same(page.at("#panel-tile").is_displayed(), True, "a click on a tile shows it")
    page.click("#tab-stop")
    ActionChains(driver).send_keys(Keys.ARROW_RIGHT).perform()
    same(page.at("#panel-pair").is_displayed(), True, "an arrow key on the tabs")
    for name in ("in", "in", "out", "whole"):
        page.click(f"#zoom-{name}")
    page.quiet()
    reach(page)
    phone(page)


def crossing(driver, engine):
    """The town of docs/WHY.md: the points of its table, with the low end where both ends are as good."""
    page = Page(driver, engine, "crossing", (ROOT / "samples/crossing.town").read_bytes(), [(0, 0), (6, 2)], 2)
    table = re.search(r"<!-- table: margins of some pairs -->\n\n((?:\|.*\n)*)", (ROOT / "docs/WHY.md").read_text())[1]
    rows = [[cell.strip() for cell in row.strip("|").split("|")] for row in table.splitlines()[2:]]
    same({"4, 5", "6, 2"} <= {row[0] for row in rows}, True, "the table of docs/WHY.md has the pairs with equal ends")
    page.click("#tab-pair")
    for pair, _, _, *points, difference, margin, nearer in rows:
        e, b = map(int, pair.split(", "))
        page.choose("e", e)
        page.choose("b", b)
        page.pair_numbers(e, b)
        same([f"({row[1]},{row[2]})" for row in page.rows("points")], points, f"crossing: the points of {pair}")
        same(page.text("margin-value"), margin, f"crossing: the margin of {pair}")
        far, near = difference.split(" - ")
        same(f"D(o,e) is {far}, D(o,b) is {near}." in page.text("margin"), True, f"crossing: the distances of {pair}")
        same("not nearer" in page.text("margin"), nearer == "no", f"crossing: whether {pair} is nearer")
    page.run_numbers(2)
    in_grey(page)
    driver.save_screenshot(str(WORK / "page-crossing.png"))
    page.quiet()


def light(colour):
    """How light a colour is, from 0 to 1: what is left of it in grey."""
    parts = [int(part) / 255 for part in re.findall(r"\d+", colour)[:3]]
    linear = [part / 12.92 if part <= 0.04045 else ((part + 0.055) / 1.055) ** 2.4 for part in parts]
    return 0.2126 * linear[0] + 0.7152 * linear[1] + 0.0722 * linear[2]


def contrast(one, other):
    lights = sorted((light(one), light(other)))
    return (lights[1] + 0.05) / (lights[0] + 0.05)


def in_grey(page):
    """Opened is clearly darker than neither, struck is hatched; the same in docs/figures/crossing.svg. What stands on
    an opened tile can be seen."""
    look = "const s = getComputedStyle(document.querySelector(arguments[0])); return s[arguments[1]]"
    opened, struck, neither = (page.script(look, f".legend .tile.{kind}", "fill")
                               for kind in ("opened", "struck", "neither"))
    same(contrast(opened, neither) >= 2, True, f"opened is darker than neither: {opened}, {neither}")
    same([page.script(look, f"[data-tile].{kind}", "fill") for kind in ("opened", "neither:not(.empty)")],
         [opened, neither], "the legend")
    same("url(" in struck and "url(" in page.script(look, "[data-tile].struck", "fill"), True, "struck is hatched")
    for choice in (".sites", ".muted:not(.rim)", ".chosen", ".ring", ".taken", ".o"):
        colour = page.script(look, choice, "stroke")
        same(contrast(opened, colour) >= 3, True, f"{choice} on an opened tile: {contrast(opened, colour):.2f}")
    figure = (ROOT / "docs/figures/crossing.svg").read_text()
    legend = re.findall(r'<rect [^>]*width="16" height="16" [^>]*fill="([^"]+)"/>', figure)
    page.driver.execute_script("document.body.append(Object.assign(document.createElement('i'), {id: 'probe'}))")
    as_shown = [page.script("const p = document.getElementById('probe'); p.style.color = arguments[0]; "
                            "return getComputedStyle(p).color", fill)
                for fill in (legend[0], legend[2])]
    same((as_shown, legend[1]), ([opened, neither], "url(#hatch)"), "the figure of the town has the same code")


def reach(page):
    """Every button, slider and choice has a name, and the tab key comes to the slider, the stops and the tabs."""
    unnamed = page.script("return [...document.querySelectorAll('button, select, input, [role=button], [role=tab]')]"
                          ".filter((e) => !(e.getAttribute('aria-label') || e.textContent.trim()"
                          " || (e.labels && e.labels.length))).length")
    same(unnamed, 0, "controls without a name")
    page.driver.get(page.path.as_uri())
    seen = set()
    for _ in range(30):
        ActionChains(page.driver).send_keys(Keys.TAB).perform()
        seen.add(page.script("const e = document.activeElement; return e.id || e.getAttribute('data-stop')"))
    due = {"k", "zoom-in", "pick-e", "frame", "0", "tab-stop", "stop", "stop-on", "step-back"}
    same(due - seen, set(), "reached by the tab key")


def phone(page):
    """At the width of a phone nothing sticks out, targets are large enough; and the page in grey."""
    driver = page.driver
    driver.execute_cdp_cmd("Emulation.setDeviceMetricsOverride",
                           {"width": 380, "height": 800, "deviceScaleFactor": 2, "mobile": True})
    driver.get(page.path.as_uri())
    same(page.script("return document.documentElement.scrollWidth"), 380, "the width on a phone")
    same(page.at("#k-help").is_displayed(), False, "the line about k, O and D on a phone")
    words = page.script("return document.querySelector('details').textContent.replace(/\\s+/g, ' ')")
    help_of_k = page.script("return document.getElementById('k-help').textContent.replace(/\\s+/g, ' ').trim()")
    for sentence in help_of_k.split(". "):
        same(sentence.rstrip(".") in words, True, f"the words say it instead: {sentence}")
    low = page.script("return [...document.querySelectorAll('button, select, input')]"
                      ".filter((e) => e.offsetParent && e.offsetHeight < 32).map((e) => e.id || e.textContent)")
    same(low, [], "targets that are too small for a finger")
    for tab in ("stop", "pair", "tile"):
        page.click(f"#tab-{tab}")
        if tab == "pair":
            page.choose("e", 19)
            page.choose("b", 5)
        same(page.script("return document.documentElement.scrollWidth"), 380, f"the width on a phone, {tab}")
    page.click("#tab-stop")
    page.click("[data-stop='2']")
    page.stop_numbers(2, 3, True)
    page.script("scrollTo(0, 0)")
    driver.save_screenshot(str(WORK / "page-phone.png"))
    driver.execute_cdp_cmd("Emulation.clearDeviceMetricsOverride", {})
    driver.execute_cdp_cmd("Emulation.setEmulatedVisionDeficiency", {"type": "achromatopsia"})
    driver.get(page.path.as_uri())
    driver.save_screenshot(str(WORK / "page-grey.png"))
    driver.execute_cdp_cmd("Emulation.setEmulatedVisionDeficiency", {"type": "none"})
    # Without colour the marks differ by pattern and by edge.
    looks = page.script("const look = (kind) => { "
                        "const e = document.querySelector('.tile.' + kind), s = getComputedStyle(e); "
                        "return [s.fill.includes('url'), s.strokeWidth, s.strokeDasharray].join(' '); };"
                        "return ['opened', 'struck', 'neither:not(.empty)', 'empty'].map(look)")
    same(len(set(looks)), 4, f"the marks look different without colour: {looks}")
    page.quiet()


def drawn(driver, engine, rng, number, axes=2):
    """A town of drawn boxes: overlapping, points, lines, empty ones, muted sites; distances often equal."""
    span = rng.choice([6, 40, 3000, 1_000_000])
    tiles = []
    for _ in range(rng.choice([1, 4, 15, 40])):
        ends = [sorted(rng.randint(-span, span) for _ in range(2)) for _ in range(axes)]
        box = tuple(end[side] for side in (0, 1) for end in ends)
        muted = rng.choice([0, 0, 0.4, 1])
        tiles.append((box, [(*(rng.randint(*end) for end in ends),
                             0 if rng.random() < muted else rng.randrange(1, 2**32))
                            for _ in range(rng.choice([0, 1, 2, 7, 40 if axes == 2 else 30]))]))
    stops = [tuple(rng.randint(-span, span) for _ in range(axes)) for _ in range(rng.choice([1, 3, 6]))]
    page = Page(driver, engine, f"drawn-{number}", engine.write(tiles), stops, rng.choice([1, 3, 9]))
    most = int(page.at("#k").get_attribute("max"))
    for k in {page.k, rng.randint(1, most), most}:
        page.slide(k)
        page.run_numbers(k)
        for i in {0, len(stops) - 1}:
            page.click("#tab-stop")
            page.choose("stop", i)
            page.stop_numbers(i, k, k < 10)
    page.click("#tab-pair")
    for _ in range(6):
        e, b = rng.randrange(len(tiles)), rng.randrange(len(tiles))
        page.choose("e", e)
        page.choose("b", b)
        page.pair_numbers(e, b)
    page.click("#tab-tile")
    for t in {0, rng.randrange(len(tiles))}:
        page.choose("tile", t)
        page.tile_numbers(t)
    page.quiet()


def large(driver, engine, rng):
    """960 tiles."""
    tiles = []
    for t in range(960):
        x, y = 1000 * (t % 40), 1000 * (t // 40)
        tiles.append(((x, y, x + 999, y + 999), [(x + rng.randrange(1000), y + rng.randrange(1000), rng.randrange(300))
                                                 for _ in range(rng.choice([0, 3, 9, 40]))]))
    stops = [(1500 + 3000 * i, 11500 + rng.randrange(1000)) for i in range(13)]
    page = Page(driver, engine, "large", engine.write(tiles), stops, 8)
    page.run_numbers(8)
    driver.save_screenshot(str(WORK / "page-large.png"))
    page.click("[data-stop='6']")
    page.stop_numbers(6, 8, True)
    page.slide(64)
    page.run_numbers(64)
    page.stop_numbers(6, 64, False)
    page.click("#tab-pair")
    joined = engine.join(page.content, stops, 8)
    opened = [t for t, mark in enumerate(joined.marks) if mark == 2]
    page.choose("e", opened[0])
    for b in (0, 959, opened[-1]):
        page.choose("b", b)
        page.pair_numbers(opened[0], b)
    page.choose("e", 0)
    same("the margin of this pair is not on this page" in page.text("margin"), True, "a pair that the page has not got")
    page.corner_numbers(0, opened[-1])
    page.click("[data-tile='100']")
    page.tile_numbers(100)
    for _ in range(5):
        page.click("#zoom-in")
    driver.save_screenshot(str(WORK / "page-zoomed.png"))
    page.quiet()


def unusual(driver, engine):
    """A town without a site; and so many stops that the page has not got all turns."""
    page = Page(driver, engine, "empty", engine.write([((0, 0, 4, 4), []), ((7, 7, 7, 7), [])]), [(3, 3)], 2)
    page.run_numbers(2)
    page.stop_numbers(0, 2, True)
    page.click("[data-tile='1']")
    page.tile_numbers(1)
    page.quiet()
    sparse = [((10 * t, 0, 10 * t + 9, 9), [(10 * t, 5, t + 1)]) for t in range(120)]
    stops = [(6 * i, 0) for i in range(200)]
    page = Page(driver, engine, "sparse", engine.write(sparse), stops, 64)
    page.run_numbers(64)
    for i in (0, 199):
        page.choose("stop", i)
        page.stop_numbers(i, 64, False)
        same(bool(page.driver.find_elements("css selector", "#queue button")), i == 0, "turns that the page has")
    same("The list after each turn is not on this page for this stop." in page.text("left-out"), True,
         "turns that the page has not got")
    page.quiet()


def muted(driver, engine):
    """Muted sites: crosses, in no list, in no count; and a tile that has no others."""
    tiles = [((0, 0, 40, 30), [(10, 10, 0), (30, 20, 5)]), ((50, 0, 80, 30), [(60, 10, 0), (70, 20, 0)]),
             ((100, 0, 120, 30), [(110, 10, 7), (110, 20, 0)]), ((300, 0, 310, 30), [(305, 5, 9)]),
             ((60, 40, 80, 60), []), ((400, 0, 410, 30), [(405, 5, 0)])]
    page = Page(driver, engine, "muted", engine.write(tiles), [(0, 0), (45, 5)], 2)
    same(page.at("#k").get_attribute("max"), "3", "muted: the slider ends at the number of sounding sites")
    for k in (1, 2, 3):
        page.slide(k)
        page.run_numbers(k)
        for i in (0, 1):
            page.choose("stop", i)
            page.stop_numbers(i, k, True)
    page.slide(2)
    seen = set()
    for t in range(len(tiles)):
        page.click(f"[data-tile='{t}']")
        page.tile_numbers(t)
        seen.add(page.text("tile-says").split(". ")[1])
    same({"Neither: all its sites are muted, and it is not struck", "Neither: it is empty and not struck",
          "Struck"} <= seen, True, f"muted: what became of the tiles: {seen}")
    in_legend = page.script("return document.getElementById('legend').textContent")
    same("muted site" in in_legend, True, f"muted: the legend: {in_legend}")
    page.click("#tab-stop")
    driver.save_screenshot(str(WORK / "page-muted.png"))
    page.click("[data-tile='1']")
    driver.save_screenshot(str(WORK / "page-muted-tile.png"))
    page.quiet()
    page = Page(driver, engine, "silent", engine.write([((0, 0, 9, 9), [(1, 1, 0)] * 3)]), [(3, 3)], 2)
    page.run_numbers(2)
    page.stop_numbers(0, 2, True)
    page.click("[data-tile='0']")
    page.tile_numbers(0)
    page.quiet()


def height(driver, engine, rng):
    """Towns with height: the map is the plan, and z stands beside x and y. Of boxes as large the higher one is seen."""
    tiles = [((0, 0, 900, 40, 30, 950), [(10, 10, 900, 5), (30, 20, 930, 0)]),
             ((0, 0, 0, 40, 30, 50), [(10, 10, 0, 6), (20, 20, 40, 7)]),
             ((50, 0, 0, 80, 30, 0), [(60, 10, 0, 8)]), ((90, 0, -40, 120, 30, -40), [])]
    page = Page(driver, engine, "viaduct", engine.write(tiles), [(15, 5, 900), (15, 5, 10)], 2)
    note = page.text("notes")
    same("The town has height" in note and "D takes in z" in note, True, f"viaduct: the note: {note}")
    for i in (0, 1):
        page.choose("stop", i)
        page.stop_numbers(i, 2, True)
        same(page.at("#stop option:checked").text, f"Stop {i} at (15, 5, {(900, 10)[i]})", "viaduct: the stop's z")
        same([row[3] for row in page.rows("list")], [["0", "1"], ["1", "1"]][i], "viaduct: the tiles of the list")
    page.click("[data-tile='0']")
    page.tile_numbers(0)
    same(page.at("#tile").get_attribute("value"), "0", "viaduct: a click takes the higher box")
    page.choose("tile", 1)
    page.tile_numbers(1)
    page.click("#tab-pair")
    for e, b in ((0, 1), (1, 0), (2, 3), (3, 2), (1, 1)):
        page.choose("e", e)
        page.choose("b", b)
        page.pair_numbers(e, b)
    driver.save_screenshot(str(WORK / "page-height.png"))
    page.quiet()
    for number in range(6, 10):
        drawn(driver, engine, rng, number, 3)


def main():
    WORK.mkdir(parents=True, exist_ok=True)
    engine, driver = Engine(), browser()
    try:
        sample(driver, engine)
        crossing(driver, engine)
        rng = random.Random(9)
        for number in range(6):
            drawn(driver, engine, rng, number)
        unusual(driver, engine)
        muted(driver, engine)
        large(driver, engine, rng)
        height(driver, engine, rng)
    except Refused as refused:
        sys.exit(f"page: {refused}")
    finally:
        driver.quit()
    print(f"page: {pages} pages in {shutil.which('chromium')}, {compared} comparisons")


main()
