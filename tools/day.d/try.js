// Put behind a page by tools/try-day, and run in the browser: prints what the page shows to a <pre>, line by line.
(function () {
  "use strict";
  const told = [], say = (...parts) => told.push(parts.join(",")), all = (what, from) => Array.from((from || document).querySelectorAll(what));
  const picture = document.getElementById("picture"), tip = document.getElementById("tip"), records = Number(picture.dataset.records);
  // A part of a day counts its picture from its first record; on a coarse one a step is several records.
  const begin = Number(picture.dataset.first || 0), unit = Number(picture.dataset.unit);
  const lanes = all("g.lane"), top = Number(picture.dataset.top), height = Number(picture.dataset.lane);
  const near = (one, other) => Math.abs(one - other) <= 1.5;

  // Whether all that can be folded is seen; try-day asks for it of a page that is drawn as on paper. Before a key opens a fold.
  say("folds", all("details").every((fold) => Array.from(fold.children).slice(1).every((child) => child.checkVisibility())));

  // The runs of a path: where each begins, and how long it is.
  function runs(lane, name) {
    const path = lane.querySelector("path." + name);
    return path ? Array.from(path.getAttribute("d").matchAll(/M(\d+) \d+h(\d+)v/g), (m) => [Number(m[1]), Number(m[2])]) : [];
  }
  const waits = (lane) => runs(lane, "wait").concat(runs(lane, "over"));
  const longest = (lane) => waits(lane).reduce((most, run) => (run[1] > most[1] ? run : most), [0, 0]);

  // The sheet as it is read, and what is drawn, as numbers.awk tells them from the text.
  for (const row of all("#sheet tbody tr, #sheet tfoot tr")) say("sheet", ...all("th, td", row).map((cell) => cell.innerText.trim()));
  const dots = (name, input) => all("path." + name + '[data-input="' + input + '"]').reduce((sum, path) => sum + path.getAttribute("d").split("M").length - 1, 0);
  for (const lane of lanes) {
    const input = lane.dataset.input;
    say("drawn", input, longest(lane)[1], runs(lane, "gone").length, runs(lane, "open").length, dots("drop", input) + dots("left", input));
  }
  // The two kinds of drops, in tile and picture: an assert is a filled dot, a deassert one with the ground in its middle.
  const tile = (name) => Number(all(".tiles div").find((tile) => tile.querySelector("dt").innerText === name).querySelector("dd").innerText.replace(/[*,]/g, ""));
  const sum = (name) => lanes.reduce((count, lane) => count + dots(name, lane.dataset.input), 0);
  // A part has some of them, and a coarse picture a dot for each step that has one.
  const fits = (count, dots) => (begin === 0 && unit === 1 ? count === dots : dots <= count && (begin > 0 || count === 0 || dots > 0));
  say("tiles", fits(tile("asserts dropped"), sum("drop")) && fits(tile("deasserts dropped"), sum("left")) && all("#picture path.core").length === all("path.left[data-input]").length);

  // What is drawn stands where it should, in pixels: a path's box on the screen is from its first record to its last.
  const box = picture.getBoundingClientRect(), x = (record) => box.left + (box.width * record) / records;
  let placed = 0, wrong = 0;
  for (const [index, lane] of lanes.entries()) {
    for (const name of ["masked", "latched", "served", "wait", "over", "gone", "open"]) {
      const path = lane.querySelector("path." + name), pieces = runs(lane, name);
      if (!path) continue;
      const seen = path.getBoundingClientRect(), last = pieces[pieces.length - 1];
      placed++;
      // An outline may reach over by its half.
      const outside = seen.top < box.top + top + height * index - 1.5 || seen.bottom > box.top + top + height * (index + 1) + 1.5;
      if (Math.abs(seen.left - x(Math.min(...pieces.map((run) => run[0])))) > 2 || Math.abs(seen.right - x(Math.max(...pieces.map((run) => run[0] + run[1])))) > 2 || outside) wrong++;
      if (!last) wrong++;
    }
  }
  say("placed", placed > 0, wrong);

  // Each lane stands beside its name and its row of the sheet, and the page is no wider than the window.
  const beside = (lane, index) => {
    const name = document.getElementById("n" + lane.dataset.input).getBoundingClientRect(), row = document.querySelector('#sheet tr[data-input="' + lane.dataset.input + '"]').getBoundingClientRect();
    const at = box.top + top + height * index;
    return near(name.top, at) && near(row.top, at) && near(row.height, height);
  };
  say("beside", lanes.every(beside));
  say("fits", document.documentElement.scrollWidth <= innerWidth);

  // Pointing at the longest wait tells it, with its records; the arrow keys go on from there; Escape ends it.
  function point(record, index) {
    const at = { clientX: x(record + 0.5), clientY: box.top + top + height * index + height / 2, bubbles: true };
    picture.dispatchEvent(new PointerEvent("pointermove", at));
  }
  // Above the lanes it tells how many events wait: 16 where one was dropped, and none before the first record that makes any.
  function ringed(record) {
    picture.dispatchEvent(new PointerEvent("pointermove", { clientX: x(record + 0.5), clientY: box.top + top - 10, bubbles: true })); // in the ring's lane
    return Number(tip.innerText.match(/(\d+) events? waits? in the ring/)[1]);
  }
  const lost = all("path.drop[data-input], path.left[data-input]").flatMap((path) => Array.from(path.getAttribute("d").matchAll(/M(\d+)\.5/g), (m) => Number(m[1])));
  say("ring", (begin > 0 || unit > 1 || ringed(0) === 0) && lost.slice(0, 300).every((record) => ringed(record) === 16));
  const press = (key) => picture.parentNode.dispatchEvent(new KeyboardEvent("keydown", { key: key, bubbles: true }));
  for (const [index, lane] of lanes.entries()) {
    const [first, length] = longest(lane);
    point(first, index);
    const text = tip.innerText.replace(/\s+/g, " ");
    const whole = text.includes("Waits " + length + " record") && text.includes("raised in record " + (begin + first) + ".");
    const tells = length === 0 ? !tip.hidden : unit > 1 ? text.includes("Waits in some of them.") : whole;
    // A pixel of a long day is many records.
    const near = Math.abs(Number((text.match(/^Record (\d+)/) || [])[1]) - begin - first) <= records / box.width;
    say("tip", lane.dataset.input, tells && near && text.includes("Input " + lane.dataset.input));
  }
  if (lanes.length > 0) {
    point(0, 0);
    press("ArrowRight");
    const told = Number((tip.innerText.match(/^Record (\d+)/) || [])[1]) - begin;
    say("keys", records === 1 ? told === 0 : told >= unit && told <= unit + records / box.width);
    press("Escape");
    say("escape", tip.hidden);
    const at = { clientX: Math.ceil(x(0.5)), clientY: box.top + top + 3, bubbles: true };
    picture.dispatchEvent(new MouseEvent("click", at));
    picture.dispatchEvent(new PointerEvent("pointerleave"));
    const stays = !tip.hidden;
    document.querySelector("h1").click();
    say("pinned", stays && tip.hidden);
    const width = picture.getBoundingClientRect().width;
    all(".zoom button")[1].click();
    say("wider", records < 500 || Math.abs(picture.getBoundingClientRect().width - 2 * width) < 20);
    all(".zoom button")[0].click();
    say("back", near(picture.getBoundingClientRect().width, width));
  }
  // A finding leads to its record, and so do the keys n and p, one after another and round, into folds too.
  const links = all(".findings a"), leads = (link) => !tip.hidden && tip.innerText.startsWith("Record " + link.dataset.record + " ");
  // Of very many links some are followed.
  const few = (list) => list.filter((_, at) => list.length <= 400 || at % Math.ceil(list.length / 200) === 0);
  say("links", links.length, few(links).every((link) => (link.click(), leads(link))));
  const key = (name) => document.dispatchEvent(new KeyboardEvent("keydown", { key: name, bubbles: true }));
  const shown = (link) => link.getClientRects().length > 0;
  if (links.length > 0 && links.length <= 400) {
    links[links.length - 1].click();
    for (const fold of all(".findings details")) fold.open = false;
    say("next", links.every((link) => (key("n"), leads(link) && shown(link) && link.classList.contains("now"))));
    say("previous", links.slice(0, -1).reverse().every((link) => (key("p"), leads(link))));
  }
  // Every wait over the limit is listed: as many rows as are drawn with a heavy edge.
  const heavy = lanes.reduce((count, lane) => count + runs(lane, "over").length + runs(lane, "edge").length, 0);
  say("listed", unit > 1 ? (heavy > 0) === (all(".over tbody tr").length > 0) : all(".over tbody tr").length === heavy);
  // Whatever stands out is seen on a coarse picture too: each dot in a row of its own, which nothing else is drawn over, and no step of the day is wider than its part of the picture.
  const rows = all("#picture .rows path:not(.core)").map((path) => { const box = path.getBBox(); return [path.parentNode, box.y, path.getAttribute("class")]; });
  say("rows", unit === 1 || (all("#picture .halo, #picture use[href='#gone']").length === 0 && rows.every(([group, y, name]) => rows.every((other) => other[0] !== group || other[2] === name || Math.abs(other[1] - y) >= 5))));
  // The ends of traces stand where the traces begin.
  const starts = all(".traces tbody tr").slice(1).map((row) => Number(row.children[2].textContent) - begin).filter((at) => at >= 0 && at < records);
  const lines = all("#picture path.ends").slice(0, 1).flatMap((path) => Array.from(path.getAttribute("d").matchAll(/M(\d+) /g), (m) => Number(m[1])));
  say("ends", unit > 1 ? starts.length === 0 || (lines.length > 0 && lines.every((at) => starts.some((start) => start >= at && start < at + unit))) : String(lines) === String(starts));

  // A hole is drawn where it is, what comes behind it is washed out, and the tip says so there alone.
  const holes = all("line.hole"), from = picture.parentNode.dataset.wrong;
  say("holes", holes.every((hole) => { const seen = hole.getBoundingClientRect(); return near((seen.left + seen.right) / 2, x(Number(hole.dataset.at))); }));
  press("Escape");
  scrollTo(0, 0);
  if (from !== "") {
    const wash = document.querySelector(".wash").getBoundingClientRect(), behind = "not the day's";
    say("washed", near(wash.left, x(Number(from))) && near(wash.right, box.right));
    point(Number(from) - 1, 0);
    const before = tip.innerText.includes(behind);
    point(Number(from), 0);
    say("behind", !before && tip.innerText.includes(behind));
    say("warned", document.querySelector(".warning").innerText.includes("From record " + from + " on this is not the day") && all(".tiles dd:not(.more)").every((dd) => dd.innerText.endsWith("*")));
    // Each finding that rests on a record behind the hole says so; the holes themselves come first.
    const items = all(".findings li").slice(holes.length), last = (item) => Math.max(...Array.from(item.querySelector("a").innerText.matchAll(/record[s]? ([\d, ]+)/g), (m) => Number(m[1].split(",").pop())));
    say("marked", items.every((item) => item.innerText.includes(behind) || last(item) < Number(from)));
  } else {
    say("unmarked", all(".wash, .behind").length === 0 && all(".findings strong").length === 0);
  }
  // By the clock: each listed wait tells its milliseconds as the tip does.
  say("clock", all(".over tbody tr").every((row) => {
    const cells = all("td", row).map((cell) => cell.innerText), time = cells.find((text) => text.endsWith(" ms"));
    // Where the page has not the times of both ends, the tip cannot tell them.
    if (!time || cells[1] === "-" || unit > 1 || begin > 0) return true;
    row.querySelector("a").click();
    return tip.innerText.includes(", " + time.replace(/,/g, "") + ",");
  }));

  // No name is cut, and no text is hard to read.
  const cut = (name) => name.scrollWidth > name.clientWidth + 1 || name.scrollHeight > name.clientHeight + 1;
  say("names", !all(".names span").some(cut) && !all(".names .name").some((name) => name.scrollWidth > name.clientWidth + 1 || name.scrollHeight > name.clientHeight + 1));
  const channel = (value) => (value <= 0.04045 ? value / 12.92 : ((value + 0.055) / 1.055) ** 2.4);
  const light = (colour) => { const [r, g, b] = colour.match(/[\d.]+/g).slice(0, 3).map((part) => channel(part / 255)); return 0.2126 * r + 0.7152 * g + 0.0722 * b; };
  const clear = (colour) => colour === "rgba(0, 0, 0, 0)" || colour === "transparent";
  function ground(element) {
    for (let at = element; at; at = at.parentElement) if (!clear(getComputedStyle(at).backgroundColor)) return getComputedStyle(at).backgroundColor;
    return getComputedStyle(document.documentElement).backgroundColor;
  }
  function contrast(element) {
    const style = getComputedStyle(element), one = light(element.closest("svg") ? style.fill : style.color), other = light(ground(element));
    return (Math.max(one, other) + 0.05) / (Math.min(one, other) + 0.05);
  }
  press("Escape");
  const texts = all("body *").filter((element) => !element.closest("script, style") && element.getClientRects().length > 0 && Array.from(element.childNodes).some((node) => node.nodeType === 3 && node.data.trim() !== ""));
  const pale = texts.filter((element) => contrast(element) < 4.5);
  say("contrast", pale.length === 0 && texts.length > 50);
  if (pale.length > 0) say("pale", pale.slice(0, 4).map((element) => element.tagName + "." + element.className + " " + contrast(element).toFixed(2)).join("; "));
  // No type is smaller on paper than 7 points; try-day asks for it of a page that is drawn as on paper.
  const size = (element) => parseFloat(getComputedStyle(element).fontSize) * (element.currentCSSZoom || 1);
  const smallest = Math.min(...texts.map(size));
  say("points", smallest >= 28 / 3 - 0.01);
  say("loaded", performance.getEntriesByType("resource").length);
  const out = document.createElement("pre");
  out.id = "tried";
  out.textContent = "\n" + told.join("\n") + "\nend\n";
  document.body.append(out);
})();
