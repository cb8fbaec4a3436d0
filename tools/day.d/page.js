// Hover, tap or arrow keys tell the record under the cursor; n and p lead from finding to finding; the buttons draw the day wider or narrower. All numbers come from
// the page itself.
(function () {
  "use strict";
  const picture = document.getElementById("picture"), scroller = picture.parentNode, tip = document.getElementById("tip"), hair = document.getElementById("hair");
  const first = Number(picture.dataset.first || 0), records = Number(picture.dataset.records), unit = Number(picture.dataset.unit), top = Number(picture.dataset.top), height = Number(picture.dataset.lane);
  const lanes = Array.from(picture.querySelectorAll("g.lane")), lines = new Map();
  for (const line of document.getElementById("records").textContent.split("\n")) if (line !== "") lines.set(parseInt(line, 10), line);
  const kept = new Map(), links = Array.from(document.querySelectorAll(".findings a")), wrong = scroller.dataset.wrong;
  let zoom = 1, pinned = false, now = { record: first, lane: 0 }, found = -1;

  // The runs of a path of a lane: where each begins and how long it is.
  function runs(lane, name) {
    const key = lane.dataset.input + name;
    if (!kept.has(key)) {
      const path = lane.querySelector("path." + name), found = [];
      for (const m of path ? path.getAttribute("d").matchAll(/M(\d+) \d+h(\d+)v/g) : []) found.push([first + Number(m[1]), Number(m[2])]);
      kept.set(key, found);
    }
    return kept.get(key);
  }
  function at(lane, name, record) {
    return runs(lane, name).find(([first, length]) => first <= record && record < first + length);
  }
  // Milliseconds from one record to another, where the page has times.
  function lasted(first, last) {
    const at = (record) => ((lines.get(Math.min(record, first + records - 1)) || "").match(/^ *\d+ +([\d,.]+) ms  /) || [])[1];
    const [from, to] = [at(first), at(last)].map((text) => text && Number(text.replace(/,/g, "")));
    return from === undefined || to === undefined ? "" : ", " + (to - from).toFixed(3) + " ms,";
  }
  // Where a step is several records, a wait is drawn too long: only the list above tells its length.
  function waited(lane, record) {
    if (unit > 1) return ["wait", "over", "gone", "open"].some((name) => at(lane, name, record)) ? "Waits in some of them." : "";
    for (const [name, end] of [["wait", "for its assert, in record "], ["over", "for its assert, in record "], ["gone", "and was taken back, in record "]]) {
      const run = at(lane, name, record);
      if (run) return "Waits " + run[1] + (run[1] === 1 ? " record" : " records") + lasted(run[0], run[0] + run[1]) + " " + end + (run[0] + run[1]) + "; raised in record " + run[0] + ".";
    }
    const run = at(lane, "open", record);
    return run ? "Waits from record " + run[0] + " on, to the end of the day." : "";
  }
  function state(lane, record) {
    if (unit > 1) return "in some of the " + unit + " records of this step: " + ([["latched", "latched"], ["masked", "masked"], ["served", "in service"]].filter(([name]) => at(lane, name, record)).map((pair) => pair[1]).join(", ") || "nothing");
    const has = (name, yes, no) => (at(lane, name, record) ? yes : no);
    return [has("latched", "latched", "not latched"), has("masked", "masked", "unmasked"), has("served", "in service", "not in service")].join(", ");
  }
  // How many events wait after a record, by the height of the top lane there.
  function ringed(record) {
    const path = picture.querySelector("path.ring"), foot = Number(path.dataset.foot), unit = Number(path.dataset.unit);
    let count = 0;
    for (const m of path.getAttribute("d").matchAll(/H(\d+)V([\d.]+)/g)) if (first + Number(m[1]) <= record) count = Math.round((foot - Number(m[2])) / unit);
    return count + (count === 1 ? " event waits" : " events wait") + " in the ring after it, of 16 at most.";
  }
  function name(input) {
    const label = document.querySelector('.name[data-input="' + input + '"]');
    return "Input " + label.textContent.replace(/^(\d+) (.+)/, "$1, $2");
  }
  function lit(input) {
    for (const old of document.querySelectorAll(".lit")) old.classList.remove("lit");
    for (const row of document.querySelectorAll('.name[data-input="' + input + '"], #sheet tr[data-input="' + input + '"]')) row.classList.add("lit");
  }
  function tell(record, index) {
    const lane = lanes[index], parts = [];
    now = { record: record, lane: index };
    const x = (100 * (record - first + 0.5)) / records + "%";
    hair.setAttribute("x1", x);
    hair.setAttribute("x2", x);
    hair.style.visibility = "visible";
    tip.textContent = "";
    const title = document.createElement("b");
    title.textContent = "Record " + (lines.get(record) || record + "  not listed here").trim().replace(/\s{2,}/g, " \u00b7 ");
    tip.append(title);
    if (lane) {
      lit(lane.dataset.input);
      parts.push(name(lane.dataset.input) + (unit > 1 ? " " : " after it: ") + state(lane, record) + ".", waited(lane, record));
    } else {
      lit(-1);
      parts.push(ringed(record));
    }
    if (wrong !== "" && record >= Number(wrong)) parts.push("Behind a hole: not the day's.");
    tip.append("\n" + parts.filter(Boolean).join("\n"));
    tip.hidden = false;
    place(index);
  }
  function place(index) {
    const box = picture.getBoundingClientRect();
    const x = box.left + (box.width * (now.record - first + 0.5)) / records, y = box.top + top + height * (Math.max(index, 0) + 1);
    tip.style.left = Math.max(8, Math.min(x + 12, innerWidth - tip.offsetWidth - 12)) + "px";
    tip.style.top = (y + tip.offsetHeight + 12 < innerHeight ? y + 6 : Math.max(8, y - height - tip.offsetHeight - 6)) + "px";
  }
  function hide() {
    tip.hidden = true;
    hair.style.visibility = "hidden";
    pinned = false;
    lit(-1);
  }
  function under(event) {
    const box = picture.getBoundingClientRect();
    const record = first + Math.floor(((event.clientX - box.left) / box.width) * records), index = Math.floor((event.clientY - box.top - top) / height);
    if (record >= first && record < first + records && index < lanes.length) tell(record, index);
  }
  // Brings a record to the middle of what is seen.
  function show(record) {
    scroller.scrollLeft = (scroller.scrollWidth * (record - first + 0.5)) / records - scroller.clientWidth / 2;
  }
  function widen(by, record) {
    zoom = Math.max(1, Math.min(zoom * by, Math.max(1, Math.ceil(Math.min(24 * records, 4e6) / scroller.clientWidth))));
    picture.style.width = zoom * 100 + "%";
    picture.style.setProperty("--wide", zoom);
    document.querySelector(".zoom output").textContent = zoom === 1 ? "whole day" : Math.round(10 * zoom) / 10 + " times";
    show(record);
  }

  picture.addEventListener("pointermove", (event) => pinned || under(event));
  picture.addEventListener("click", (event) => { pinned = false; under(event); pinned = true; });
  picture.addEventListener("pointerleave", () => pinned || hide());
  scroller.addEventListener("scroll", () => tip.hidden || place(now.lane));
  scroller.addEventListener("keydown", (event) => {
    const moves = { ArrowLeft: [-1, 0], ArrowRight: [1, 0], ArrowUp: [0, -1], ArrowDown: [0, 1] }, move = moves[event.key];
    if (event.key === "Escape") hide();
    if (!move) return;
    event.preventDefault();
    pinned = true;
    tell(Math.max(first, Math.min(first + records - 1, now.record + unit * move[0])), Math.max(0, Math.min(lanes.length - 1, now.lane + move[1])));
  });
  document.addEventListener("keydown", (event) => event.key === "Escape" && hide());
  document.addEventListener("click", (event) => event.target.closest("#picture, .findings, .zoom") || hide());
  for (const button of document.querySelectorAll(".zoom button")) {
    button.addEventListener("click", () => {
      const middle = first + ((scroller.scrollLeft + scroller.clientWidth / 2) / scroller.scrollWidth) * records;
      widen(Number(button.dataset.by), pinned ? now.record : middle);
      if (!tip.hidden) place(now.lane);
    });
  }
  // Leads to a finding; a fold that it is in opens.
  function lead(link) {
    const record = Number(link.dataset.record), index = lanes.findIndex((lane) => lane.dataset.input === link.dataset.input);
    for (const old of document.querySelectorAll(".findings .now")) old.classList.remove("now");
    link.classList.add("now");
    if (link.closest("details")) link.closest("details").open = true;
    found = links.indexOf(link);
    (document.getElementById("n" + link.dataset.input) || picture).scrollIntoView({ block: "nearest" });
    show(record);
    pinned = true;
    tell(record, index);
  }
  for (const link of links) {
    link.addEventListener("click", (event) => {
      event.preventDefault();
      lead(link);
    });
  }
  document.addEventListener("keydown", (event) => {
    const by = { n: 1, p: -1 }[event.key];
    if (!by || links.length === 0 || event.ctrlKey || event.altKey || event.metaKey) return;
    lead(links[found < 0 ? (by > 0 ? 0 : links.length - 1) : (found + by + links.length) % links.length]);
  });
  // On paper nothing is folded.
  const folded = [];
  addEventListener("beforeprint", () => {
    hide();
    for (const fold of document.querySelectorAll("details:not([open])")) {
      folded.push(fold);
      fold.open = true;
    }
  });
  addEventListener("afterprint", () => {
    for (const fold of folded.splice(0)) fold.open = false;
  });
})();
