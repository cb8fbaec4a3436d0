// Hands files over to the WebAssembly in this page, and shows what it tells: the page of tools/day, and the device record by record. All words and numbers come from there.
(function () {
  "use strict";
  const by = (id) => document.getElementById(id);
  // A trace is read as far as shows that it is too long; nothing of a day is longer than its list may be.
  const MOST = { trace: 65537, list: 8000000, other: 1000000 };
  const ASKED = ["title", "date", "limit", "limit-ms", "from", "to"];
  let module = null, calls = null, page = "", name = "", record = 0, records = 0, turn = 0;

  function say(text, bad) {
    by("said").textContent = text;
    by("said").classList.toggle("bad", Boolean(bad));
  }
  function told() {
    return new TextDecoder().decode(new Uint8Array(calls.memory.buffer, calls.told(), calls.told_length()));
  }
  function hand(bytes) {
    const at = calls.room(bytes.length);
    new Uint8Array(calls.memory.buffer, at, bytes.length).set(bytes);
  }

  async function start() {
    if (typeof WebAssembly !== "object" || typeof DecompressionStream !== "function") throw new Error("this browser is too old; it takes one of 2023 or newer");
    const packed = Uint8Array.from(atob(by("wasm").textContent.replace(/\s/g, "")), (letter) => letter.charCodeAt(0));
    const bytes = await new Response(new Blob([packed]).stream().pipeThrough(new DecompressionStream("gzip"))).arrayBuffer();
    module = await WebAssembly.compile(bytes);
    await fresh();
  }
  async function fresh() {
    calls = (await WebAssembly.instantiate(module, {})).exports;
  }

  // The files of a folder that was dropped. On a page from the disk some browsers list it by its handle alone, and others by its entry; one gives some at a time.
  async function within(item) {
    const found = [], handle = await item.handle;
    if (handle) {
      for await (const inner of handle.values()) if (inner.kind === "file") found.push(await inner.getFile());
      return found;
    }
    const reader = item.entry.createReader(), some = () => new Promise((done, failed) => reader.readEntries(done, failed));
    for (let entries = await some(); entries.length > 0; entries = await some()) {
      for (const inner of entries) if (inner.isFile) found.push(await new Promise((done, failed) => inner.file(done, failed)));
    }
    return found;
  }
  // What a drop brings is known only while it lasts: so each item is asked at once for all that it has.
  function items(transfer) {
    return Array.from(transfer.items).filter((item) => item.kind === "file").map((item) => {
      const entry = item.webkitGetAsEntry && item.webkitGetAsEntry(), folder = Boolean(entry && entry.isDirectory);
      return { entry: entry, file: item.getAsFile(), folder: folder, handle: folder && item.getAsFileSystemHandle ? item.getAsFileSystemHandle().catch(() => null) : null };
    });
  }
  async function dropped(items) {
    const found = [];
    for (const item of items) {
      if (!item.folder) {
        found.push({ path: item.file.name, file: item.file });
        continue;
      }
      try {
        for (const file of await within(item)) found.push({ path: item.entry.name + "/" + file.name, file: file });
      } catch (why) {
        throw new Error(item.entry.name + ": this browser does not list a folder that is dropped; 'Open a folder' does");
      }
    }
    return found;
  }
  // Of files that were chosen with their folder those that stand right in it.
  function chosen(files) {
    return Array.from(files, (file) => ({ path: file.webkitRelativePath || file.name, file: file })).filter((one) => one.path.split("/").length < 3);
  }

  async function read(one) {
    const end = one.path.replace(/^.*[./]/, ""), most = one.path.endsWith("day.list") ? MOST.list : /^(times|holes|names|txt)$/.test(end) ? MOST.other : MOST.trace;
    try {
      return { path: new TextEncoder().encode(one.path), bytes: new Uint8Array(await one.file.slice(0, most).arrayBuffer()) };
    } catch (why) {
      throw new Error(one.path + ": it cannot be read");
    }
  }
  function take(one) {
    const both = new Uint8Array(one.path.length + one.bytes.length);
    both.set(one.path);
    both.set(one.bytes, one.path.length);
    hand(both);
    calls.take(one.path.length);
  }

  // Whatever goes wrong is one line, and no day is shown then.
  async function failed(why) {
    by("day").hidden = true;
    by("drop").hidden = false;
    by("save").disabled = true;
    records = 0;
    const trapped = why instanceof WebAssembly.RuntimeError;
    say(trapped ? "the device stopped, which no file should bring about: " + why.message : why.message, true);
    if (trapped) await fresh();
  }

  // Files are read first, which takes time; then the old day goes and the new one comes at once. What is opened meanwhile takes the turn of what was asked for before.
  async function open(listed) {
    const mine = (turn += 1), late = () => mine !== turn;
    try {
      const files = await listed();
      if (late() || files.length === 0) return;
      say("Reading " + files.length + (files.length === 1 ? " file." : " files."));
      await new Promise((done) => setTimeout(done, 20));
      const contents = [];
      for (const one of files) contents.push(await read(one));
      if (!late()) begin(contents);
    } catch (why) {
      if (!late()) await failed(why);
    }
  }
  function begin(contents) {
    calls.forget();
    contents.forEach(take);
    if (calls.open() !== 0) throw new Error(told());
    name = told();
    records = calls.records();
    for (const id of ASKED) by(id).value = "";
    by("number").max = by("slider").max = records - 1;
    by("of").textContent = "of 0 to " + (records - 1).toLocaleString("en");
    draw();
    go(0);
    by("drop").hidden = true;
    by("day").hidden = false;
    by("save").disabled = false;
  }

  function draw() {
    const version = document.querySelector("footer").dataset.version;
    const words = [version, ...ASKED.map((id) => by(id).value.replace(/\n/g, " "))];
    hand(new TextEncoder().encode(words.join("\n")));
    if (calls.draw() !== 0) throw new Error(told());
    page = told();
    by("page").srcdoc = page;
    say(name + ": " + records.toLocaleString("en") + (records === 1 ? " record." : " records."));
  }

  function go(to) {
    if (records === 0 || Number.isNaN(to)) return;
    record = Math.min(Math.max(Math.trunc(to), 0), records - 1);
    if (calls.step(record) !== 0) throw new Error(told());
    by("state").innerHTML = told();
    by("number").value = by("slider").value = record;
  }
  function stepped(to) {
    try {
      go(to);
    } catch (why) {
      failed(why);
    }
  }

  function show(step) {
    by("step").hidden = !step;
    by("page").hidden = step;
    by("asked").hidden = step;
    by("to-step").setAttribute("aria-pressed", step);
    by("to-page").setAttribute("aria-pressed", !step);
  }

  by("to-page").onclick = () => show(false);
  by("to-step").onclick = () => show(true);
  by("files").onchange = by("folder").onchange = (event) => {
    const files = chosen(event.target.files);
    event.target.value = "";
    open(async () => files);
  };
  by("asked").onsubmit = (event) => {
    event.preventDefault();
    // What cannot be drawn leaves what is shown.
    try {
      draw();
    } catch (why) {
      if (why instanceof WebAssembly.RuntimeError) failed(why);
      else say(why.message, true);
    }
  };
  by("save").onclick = () => {
    const link = document.createElement("a");
    link.href = URL.createObjectURL(new Blob([page], { type: "text/html" }));
    link.download = name.replace(/[^\w.-]+/g, "-") + ".html";
    link.click();
    setTimeout(() => URL.revokeObjectURL(link.href), 10000);
  };
  for (const button of document.querySelectorAll(".steps button")) button.onclick = () => stepped(record + Number(button.dataset.by));
  by("number").onchange = () => stepped(by("number").value === "" ? record : Number(by("number").value));
  by("slider").oninput = () => stepped(Number(by("slider").value));
  // A record that is clicked in the page is where the steps are too.
  by("page").onload = () => {
    const inner = by("page").contentDocument, tip = inner && inner.getElementById("tip");
    if (tip) inner.addEventListener("click", () => stepped(Number((tip.textContent.match(/^Record (\d+)/) || [])[1])));
    if (inner) droppable(inner);
  };

  const KEYS = { ArrowLeft: -1, ArrowRight: 1, PageUp: -100, PageDown: 100, Home: -Infinity, End: Infinity };
  document.addEventListener("keydown", (event) => {
    if (by("step").hidden || !(event.key in KEYS) || event.ctrlKey || event.altKey || event.metaKey || event.target.tagName === "INPUT") return;
    event.preventDefault();
    stepped(record + KEYS[event.key]);
  });
  // The page within takes what is dropped on it as this one does.
  function droppable(page) {
    const over = (is) => document.body.classList.toggle("over", is);
    page.addEventListener("dragover", (event) => {
      event.preventDefault();
      over(true);
    });
    page.addEventListener("dragleave", () => over(false));
    page.addEventListener("drop", (event) => {
      event.preventDefault();
      over(false);
      const brought = items(event.dataTransfer);
      open(() => dropped(brought));
    });
  }
  droppable(document);

  start().then(() => say("No day is open yet."), (why) => say("It cannot start: " + why.message, true));
})();
