"use strict";
const $ = id => document.getElementById(id);
// a longer document isn't put into the text field whole
const MOST_SHOWN = 200000;
// nor a longer answer below the verdict, as the browser needs a while for it
const MOST_PRINTED = 20000;
// a picture of more bytes is drawn only if that is asked for
const MOST_DRAWN = 60000;
// a smaller picture can't be read, so it isn't made smaller to fit
const LEAST_FIT = 0.6;
// of a longer document this much is shown
const FRONT = 40000;
// such pieces of it are read in which a line is looked for
const PIECE = 1 << 20;
// as many numbers of an answer are made links
const MOST_LINKS = 500;
// a longer document makes no link to the page
const MOST_LINKED = 60000;
const WORDS = {
  "check": ["This order is lawful", "This order isn't lawful"],
  "order": ["Atomic: a lawful order exists", "Not atomic: no order is lawful"],
  "order --order": ["Atomic: a lawful order exists", "Not atomic: no order is lawful"],
  "order --small": ["Atomic: so there is no small log", "Not atomic: a small log shows why"],
  "play": ["Played"],
  "picture": ["Drawn", "Drawn: it isn't lawful"],
};
// What it means that an order is lawful.
const GIVES = "gives all these answers, and in it no operation stands before one that had ended when it began.";
const MEANS = { "check": `It ${GIVES}`, "order": `Some order ${GIVES}`, "order --order": `Some order ${GIVES}` };
const ENDS = { 3: "Refused: nothing is said of its operations", 4: "Out of memory", 7: "No verdict" };
const BOUNDS = { "64 MB": 2 ** 26, "256 MB": 2 ** 28, "1 GB": 2 ** 30, "4 GB": 2 ** 32, "12 GB": 12 * 2 ** 30 };
// The regions of an answer whose numbers are lines, operations or entries of the order of the document.
const NAMED = /\blines? \d+(?:(?:,| and) \d+)*|\boperations? \d+(?: and \d+)*|\bentry \d+|^(?:unlawful \w+|order:|writes:)(?: \d+)+/gim;

// -- the module and its worker --

// Whether the browser has memories of 64 bits and is fast with them. (Others than Chromium check each access, which
// costs more than vectors bring.)
const OF_64_BITS = new Uint8Array([0, 97, 115, 109, 1, 0, 0, 0, 5, 3, 1, 4, 1]);
const isWide = () => /Chrom(e|ium)\//.test(navigator.userAgent) && WebAssembly.validate(OF_64_BITS);

async function unpacked(id) {
  const bytes = Uint8Array.from(atob($(id).textContent), it => it.charCodeAt(0));
  return new Uint8Array(await new Response(new Blob([bytes]).stream().pipeThrough(new DecompressionStream("gzip"))).arrayBuffer());
}

// Of the run, of which `named` is the operations' lines by the document's key `lines`; then the file that is answered in
// place of the text, the first of its lines that is shown, and how many documents came in; what the address had when it
// was looked at last, and the document's link; and of what is shown.
const state = {
  worker: null, module: null, number: 0, running: false, began: 0, kind: "", named: [],
  file: null, first: 1, turn: 0,
  hash: "", link: "#",
  zoom: 1, picture: null, whole: null,
};

// Whether a module is the one of this page's build. (A page that came by http can't tell.)
async function isOfBuild(id, bytes) {
  if (!crypto.subtle) return true;
  const sum = new Uint8Array(await crypto.subtle.digest("SHA-256", bytes));
  return $(id).dataset.sum === [...sum].map(it => it.toString(16).padStart(2, "0")).join("");
}

async function read(id) {
  const bytes = await unpacked(id);
  if (!(await isOfBuild(id, bytes))) throw new Error("the page's module isn't the one of its build: the file is damaged");
  return bytes;
}

async function begin() {
  const wide = isWide() && location.hash !== "#narrow";
  state.module ||= await read(wide ? "wide" : "narrow");
  document.body.dataset.width = wide ? "64" : "32";
  $("width").textContent = `this page uses the module of ${wide ? 64 : 32} bits`;
  const code = new Blob(['"use strict";', $("code").textContent], { type: "text/javascript" });
  const worker = new Worker(URL.createObjectURL(code));
  const ready = new Promise((done, failed) => {
    state.abandon = done;
    worker.onmessage = ({ data }) => (data.ready ? done() : data.number === undefined ? failed(data.error) : hear(data));
    worker.onerror = event => {
      event.preventDefault();
      failed(event.message);
      hear({ number: state.number, error: event.message });
    };
  });
  worker.postMessage({ module: state.module });
  state.worker = worker;
  await ready;
}

// Ends what the worker does, and begins anew. Whoever waits for it goes on, and finds that it is asked for no more.
function restart() {
  state.worker.terminate();
  state.abandon();
  state.ready = begin();
}

async function ask() {
  clearTimeout(state.later);
  state.number++;
  if (state.running && state.worker) restart();
  const number = state.number;
  state.running = true;
  state.began = performance.now();
  document.body.dataset.ready = "";
  tick("waiting");
  try {
    await state.ready;
  } catch (error) {
    return hear({ number, error: String(error) });
  }
  if (number !== state.number) return;
  const request = { number, command: $("command").value, bound: Number($("bound").value) };
  if (state.file) return state.worker.postMessage({ ...request, file: state.file });
  const bytes = new TextEncoder().encode($("text").value);
  state.worker.postMessage({ ...request, bytes: bytes.buffer }, [bytes.buffer]);
}

function stop() {
  if (!state.running || !state.worker) return;
  state.number++;
  restart();
  over();
  show({});
  tell("odd", "Stopped", "The document stays as it is.");
  document.body.dataset.ready = "stopped";
}

// Says how far a long run is.
function tick(phase) {
  state.phase = phase;
  clearInterval(state.ticking);
  const says = () => {
    const seconds = (performance.now() - state.began) / 1000;
    if (seconds < 0.3) return;
    const title = `${phase[0].toUpperCase()}${phase.slice(1)} ..`;
    if ($("stop").hidden) announce(title);
    $("answered").hidden = $("figure").hidden = true;
    putVerdict("", title, "", `${seconds.toFixed(1)} s`);
    $("stop").hidden = $("progress").hidden = false;
  };
  state.ticking = setInterval(says, 100);
}

function over() {
  state.running = false;
  clearInterval(state.ticking);
  if (document.activeElement === $("stop")) $("answer").focus();
  $("stop").hidden = $("progress").hidden = true;
}

function hear(data) {
  if (data.number !== state.number) return;
  if (data.phase) return tick(data.phase);
  over();
  if (data.unread) return unread(data.unread);
  if (data.error) return fails("The module stopped", `It gave no answer: ${data.error}. The document stays as it is.`);
  return answer(data);
}

function fails(title, sentence) {
  show({});
  tell("odd", title, sentence);
  document.body.dataset.ready = "error";
}

const unread = error => fails("The file can't be read", String(error));

// -- what is shown --

// What a screen reader says. (The same text twice would be said once, so it ends otherwise.)
function announce(text) {
  $("announced").textContent = $("announced").textContent === text ? `${text}\u00a0` : text;
}

function putVerdict(kind, title, sentence, facts) {
  $("verdict").className = kind;
  $("title").textContent = title;
  $("sentence").replaceChildren(...(typeof sentence === "string" ? [sentence] : sentence));
  $("facts").textContent = facts;
}

function tell(kind, title, sentence, facts = "") {
  putVerdict(kind, title, sentence, facts);
  announce(`${title}. ${$("sentence").textContent}`);
}

const inUnits = (number, unit) => `${number.toFixed(number < 10 ? 1 : 0)} ${unit}`;
const sizeOf = bytes => (bytes < 1e3 ? `${bytes} bytes` : bytes < 1e6 ? inUnits(bytes / 1e3, "kB") : inUnits(bytes / 1e6, "MB"));
const timeOf = ms => (ms < 1 ? "less than 1 ms" : ms < 1e3 ? inUnits(ms, "ms") : inUnits(ms / 1e3, "s"));

// What an answer to a log in lines says in words: what is wrong, or how little the log shows.
const SAYS = /^[A-Z]/;

// The lines of a group that has no order, which its sentence calls these.
function namesThese(first) {
  const [, numbers] = /^unlawful together ([\d ]+)$/.exec(first) || [];
  return numbers ? ` These are lines ${numbers.replace(/ (?=\d+$)/, " and ").replace(/(\d) (?=\d)/g, "$1, ")}.` : "";
}

// A picture's sentence. The lines that it names are those of the document's key `lines`.
const ofLines = sentence => (/\bline \d/.test(sentence) ? `${sentence} (lines by the document's key "lines")` : sentence);

// The sentence of an answer: the program's own, where it prints one, else that at the end of the picture.
function sentenceOf(data, text, lines) {
  if (data.kind === "race") return `${text.trim()}. A race needs threads, which a page hasn't: ./fsr race runs it.`;
  if (data.status > 1) return data.fault ? `${text.trim()}. ${data.fault}` : text;
  const own = data.kind === "lines" && data.command !== "order --small" ? lines.filter(it => SAYS.test(it)).join(" ") : "";
  if (own) return own + namesThese(lines[0]);
  if (data.status === 0) return MEANS[data.command] || "";
  if (data.command === "order --small" && data.kind === "lines") return "";
  const svg = data.picture && data.picture.of === "document" ? new TextDecoder().decode(data.picture.svg.subarray(-400)) : "";
  const drawn = /<text class="z" x="8" y="24">([^<]*)/.exec(svg);
  return drawn ? ofLines(drawn[1].replace(/&lt;/g, "<").replace(/&gt;/g, ">").replace(/&amp;/g, "&")) : lines[0] || "";
}

// Leads to the part of the page that tells how a log is written.
function leadsToForm() {
  const button = document.createElement("button");
  button.className = "to";
  button.textContent = "How a log is written";
  button.onclick = () => {
    $("form").parentElement.open = true;
    $("form").focus();
    $("form").parentElement.scrollIntoView({ block: "nearest" });
  };
  return button;
}

const isKind = kind => ["lines", "log", "check", "cell", "matrix", "board", "race"].includes(kind);

function answer(data) {
  if (!data.length) {
    show({});
    return tell("", "There is no document yet", ["Drop a log, paste or type one, or take an example. ", leadsToForm()]);
  }
  const text = new TextDecoder().decode(data.text);
  state.kind = data.kind;
  state.named = data.named;
  const lines = text.split("\n").filter(it => it);
  const tells = data.kind === "lines" && data.status <= 1 && data.command !== "order --small";
  const [counts, key] = [/^\d+ operations, /, /^key: /].map(start => (tells && lines.find(it => start.test(it))) || "");
  const spent = [timeOf(data.took), `${sizeOf(data.memory)} of memory`, `document of ${sizeOf(data.length)}`];
  const register = data.status === 1 ? key.slice(0, 100) : "";
  const facts = [`${data.command}, status ${data.status}`, register, counts, ...spent].filter(it => it).join(" \u00b7 ");
  // (only a log in lines has a small log)
  const asked = data.command === "order --small" && data.kind !== "lines" ? "order" : data.command;
  const title = data.status <= 1 ? WORDS[asked][data.status] : ENDS[data.status] || `Status ${data.status}`;
  const sentence = linked(sentenceOf(data, text, lines));
  if (data.status === 3 && (data.kind === "lines" || !isKind(data.kind))) sentence.push(" ", leadsToForm());
  tell(["good", "bad"][data.status] || "odd", title, sentence, facts);
  $("printer").textContent = `What ${data.command === "picture" ? "picture" : `fsr ${data.command}`} prints`;
  return show({ text: data.command === "picture" && data.status <= 1 ? "" : text, bytes: data.text, picture: data.picture });
}

function show({ text, bytes, picture }) {
  $("answered").hidden = !text;
  if (text) showPrinted(text, bytes);
  $("figure").hidden = !picture;
  if (state.picture) URL.revokeObjectURL(state.picture);
  state.picture = null;
  if (!picture) {
    document.body.dataset.ready = "yes";
    return;
  }
  state.picture = URL.createObjectURL(new Blob([picture.svg], { type: "image/svg+xml" }));
  $("save").href = state.picture;
  const captions = { small: "The verdict's lines, by the ranks of their times", document: "The document's picture" };
  const isLarge = picture.svg.length > MOST_DRAWN;
  $("caption").textContent = captions[picture.of] + (isLarge ? ` has ${sizeOf(picture.svg.length)}, so it takes a while to draw` : "");
  $("canvas").hidden = $("zoom").hidden = isLarge;
  $("draw").hidden = !isLarge;
  if (isLarge) document.body.dataset.ready = "yes";
  else draw();
}

// Shows what a program printed, or the front of it and a link to all.
function showPrinted(text, bytes) {
  const isLong = text.length > MOST_PRINTED;
  $("printed").replaceChildren(...linked(isLong ? `${text.slice(0, MOST_PRINTED)}\n(cut here)` : text));
  if (state.whole) URL.revokeObjectURL(state.whole);
  state.whole = isLong ? URL.createObjectURL(new Blob([bytes], { type: "text/plain" })) : null;
  $("whole").hidden = !isLong;
  if (isLong) $("whole").href = state.whole;
}

function draw() {
  $("canvas").hidden = $("zoom").hidden = false;
  $("draw").hidden = true;
  $("picture").onload = () => {
    zoom("fit");
    document.body.dataset.ready = "yes";
  };
  $("picture").onerror = () => {
    $("figure").hidden = true;
    document.body.dataset.ready = "yes";
  };
  $("picture").src = state.picture;
  $("picture").alt = `Picture: ${$("title").textContent}. ${$("sentence").textContent}`;
}

// Makes the picture larger or smaller; what stands in its middle stays there.
function zoom(by) {
  const image = $("picture"), canvas = $("canvas"), room = canvas.clientWidth - 14;
  const middle = (canvas.scrollLeft + room / 2) / state.zoom;
  if (by === "fit") canvas.scrollLeft = 0;
  state.zoom = by === "fit" ? Math.min(1, Math.max(LEAST_FIT, room / image.naturalWidth)) : Math.min(8, Math.max(0.05, state.zoom * by));
  image.style.width = `${Math.round(image.naturalWidth * state.zoom)}px`;
  if (by !== "fit") canvas.scrollLeft = middle * state.zoom - room / 2;
}

// What a number in this region of an answer leads to: a line, an operation or an entry, and which. (A line in an answer
// to a document of kind `log` is that of an operation.)
function meant(region, number) {
  if (region.startsWith("entry")) return ["entry", number];
  if (state.kind === "lines") return ["line", number];
  if (!region.startsWith("line")) return ["operation", number];
  // (beyond these numbers two lines may be one)
  return ["operation", Number.isSafeInteger(number) ? state.named.indexOf(number) : -1];
}

// A text whose numbers of lines and operations lead to the document.
function linked(text) {
  if (!["lines", "log", "check"].includes(state.kind) || state.file && !$("text").value) return [text];
  const found = [];
  let at = 0, links = 0;
  for (const region of text.matchAll(NAMED))
    for (const number of region[0].matchAll(/\d+/g)) {
      const [what, which] = meant(region[0], Number(number[0]));
      if (which < 0 || links++ >= MOST_LINKS) continue;
      const place = region.index + number.index;
      const button = document.createElement("button");
      button.className = "to";
      button.textContent = number[0];
      button.title = `Show ${what} ${which} of the document`;
      button.onclick = () => mark(what, which);
      found.push(text.slice(at, place), button);
      at = place + number[0].length;
    }
  return [...found, text.slice(at)];
}

// Where a line of the text stands, by its number from 1.
function lineAt(text, number) {
  if (number < 1) return null;
  let begin = 0;
  for (let line = 1; line < number; line++) {
    begin = text.indexOf("\n", begin) + 1;
    if (!begin) return null;
  }
  const end = text.indexOf("\n", begin);
  return [begin, end < 0 ? text.length : end];
}

// Where a member of the document's array `ops` stands, by its place from 0.
function operationAt(text, number) {
  let depth = 0, inside = false, begin = 0, place = -1, last = "";
  for (const it of text.matchAll(/"(?:[^"\\]|\\.)*"|[{}[\]]/g)) {
    const token = it[0];
    if ("{[".includes(token)) {
      if (depth === 1 && token === "[") inside = last === '"ops"';
      if (depth === 2 && inside && ++place === number) begin = it.index;
      depth++;
    } else if ("}]".includes(token)) {
      depth--;
      if (depth === 2 && inside && place === number) return [begin, it.index + 1];
    }
    last = token;
  }
  return null;
}

// Shows a file's lines from some lines before this one, if it isn't shown; it is looked for piece by piece.
async function turnTo(file, number) {
  const wanted = Math.max(1, number - 5);
  let line = 1, begin = 0;
  for (let at = 0; at < file.size && line < wanted; at += PIECE) {
    const bytes = new Uint8Array(await file.slice(at, at + PIECE).arrayBuffer());
    for (let end = bytes.indexOf(10); end >= 0 && line < wanted; end = bytes.indexOf(10, end + 1), line++) begin = at + end + 1;
  }
  if (state.file !== file || line < wanted) return false;
  state.first = wanted;
  $("text").value = await file.slice(begin, begin + FRONT).text();
  $("name").textContent = `${file.name}, ${sizeOf(file.size)}: shown from line ${wanted} on, and the whole file is answered`;
  return true;
}

// Shows a file from some bytes before this operation on, and gives where it stands in what is shown.
async function turnToOperation(file, number) {
  const text = await file.text(), place = operationAt(text, number);
  if (state.file !== file || !place) return null;
  const begin = Math.max(0, place[0] - 200);
  $("text").value = text.slice(begin, Math.max(place[1], begin + FRONT));
  $("name").textContent = `${file.name}, ${sizeOf(file.size)}: shown around operation ${number}, and the whole file is answered`;
  return place.map(it => it - begin);
}

// Where the operation is listed in the document's order at this place, from 0.
async function placeOfEntry(number) {
  try {
    const { order } = JSON.parse($("text").readOnly ? await state.file.text() : $("text").value);
    return await placeOf("operation", order[number]);
  } catch {
    return null;
  }
}

async function placeOf(unit, number) {
  const field = $("text"), isPart = field.readOnly;
  if (unit === "entry") return placeOfEntry(number);
  if (unit === "operation") return isPart ? turnToOperation(state.file, number) : operationAt(field.value, number);
  const place = lineAt(field.value, number - state.first + 1);
  if (place || !isPart || !(await turnTo(state.file, number))) return place;
  return lineAt(field.value, number - state.first + 1);
}

// Selects a line or an operation in the text field, and scrolls to it.
async function mark(unit, number) {
  const place = await placeOf(unit, number), field = $("text");
  if (!place) return;
  field.focus();
  field.setSelectionRange(...place);
  const before = field.value.slice(0, place[0]).split("\n"), style = getComputedStyle(field);
  const pen = document.createElement("canvas").getContext("2d");
  pen.font = style.font;
  field.scrollTop = Math.max(0, before.length - 4) * parseFloat(style.lineHeight);
  field.scrollLeft = Math.max(0, pen.measureText(before[before.length - 1]).width - 100);
}

// -- how a document comes in --

function put(text, name, link = "#") {
  state.turn++;
  state.file = null;
  state.first = 1;
  $("text").readOnly = false;
  $("text").value = text;
  $("name").textContent = name || "";
  hold(link);
  for (const it of document.querySelectorAll("#examples button")) it.setAttribute("aria-current", String(it.dataset.name === name));
}

const areSame = (some, others) => some.length === others.length && some.every((it, at) => it === others[at]);

// Takes a file: the bytes that it has are answered, though the text field may show them otherwise, such as the ends of
// lines, until one types.
async function take(file, { command = "", link = "#", others = "" } = {}) {
  const turn = ++state.turn, isLong = file.size > MOST_SHOWN;
  let bytes;
  try {
    bytes = new Uint8Array(await (isLong ? file.slice(0, FRONT) : file).arrayBuffer());
  } catch (error) {
    return turn === state.turn ? unread(error) : undefined;
  }
  // (another document came in while this one was read)
  if (turn !== state.turn) return undefined;
  openPanel("log");
  const front = isLong ? `${sizeOf(file.size)}: only the front is shown, and the whole file is answered` : "";
  put(new TextDecoder().decode(bytes), [file.name, others, front].filter(it => it).join(", "), link);
  $("text").readOnly = isLong;
  if (isLong) state.file = file;
  else if (!areSame(new TextEncoder().encode($("text").value), bytes)) state.file = new File([bytes], file.name);
  $("command").value = command;
  if ($("command").selectedIndex < 0) $("command").value = "";
  requestAnimationFrame(() => $("verdict").scrollIntoView({ block: "nearest" }));
  return ask();
}

// Whether the text field has an example as it is.
function isExample() {
  const row = document.querySelector("#examples [aria-current=true]");
  return row && EXAMPLES[row.dataset.name].text === $("text").value;
}

// A text that is too long for the text field, a file, and what is pasted elsewhere than into the field or over an example.
function paste(event) {
  const [file] = event.clipboardData.files, text = event.clipboardData.getData("text");
  const joins = event.target === $("text") && !$("text").readOnly && !isExample();
  if (!file && (!text || (joins && text.length <= MOST_SHOWN))) return undefined;
  event.preventDefault();
  return take(file || new File([text], "pasted"));
}

function drop(event) {
  event.preventDefault();
  $("drop").classList.remove("over");
  const files = [...event.dataTransfer.files], text = event.dataTransfer.getData("text");
  const others = files.length > 1 ? `the first of ${files.length} files that were dropped` : "";
  return files[0] || text ? take(files[0] || new File([text], "dropped"), { others }) : undefined;
}

// -- links that hold a document --

const packed = async (bytes, how) => new Uint8Array(await new Response(new Blob([bytes]).stream().pipeThrough(how)).arrayBuffer());

const LINK = /^#(?!steps:)([\w-]*):([\w-]+)$/;

// Has the address hold this link, and no other document's.
function hold(link) {
  state.link = link;
  if (link === "#" && !LINK.test(location.hash)) return;
  history.replaceState(null, "", link);
  state.hash = location.hash;
}

async function link() {
  if ((state.file ? state.file.size : $("text").value.length) > MOST_LINKED) {
    $("name").textContent = `A link holds at most ${MOST_LINKED} characters.`;
    return;
  }
  const whole = state.file ? new Uint8Array(await state.file.arrayBuffer()) : new TextEncoder().encode($("text").value);
  const bytes = await packed(whole, new CompressionStream("deflate-raw"));
  const letters = btoa(Array.from(bytes, it => String.fromCharCode(it)).join("")).replace(/\+/g, "-").replace(/\//g, "_").replace(/=/g, "");
  hold(`#${$("command").value.replace(" ", "_")}:${letters}`);
  try {
    await navigator.clipboard.writeText(location.href);
    $("name").textContent = "The link is copied, and stands in the address.";
  } catch {
    $("name").textContent = "The link stands in the address.";
  }
}

// Takes the document of a link, or the steps, if the address has one, and says whether it had a document.
async function follow() {
  const link = location.hash;
  if (link === state.hash) return false;
  state.hash = link;
  const steps = /^#steps:([wr]*)$/.exec(link), found = LINK.exec(link);
  if (steps) openPanel("mechanism", steps[1]);
  if (!found) return false;
  openPanel("log");
  let bytes;
  try {
    const letters = atob(found[2].replace(/-/g, "+").replace(/_/g, "/"));
    bytes = await packed(Uint8Array.from(letters, it => it.charCodeAt(0)), new DecompressionStream("deflate-raw"));
  } catch {
    fails("The link is damaged", "Its document can't be read. Was the end of the link cut off?");
    return true;
  }
  take(new File([bytes], "from the link"), { command: found[1].replace("_", " "), link });
  return true;
}

// -- the mechanism --

// The page that steps the mechanism stands in a frame of its own, which is made when it is first shown.
function openPanel(name, steps) {
  const isOpen = !$(name).hidden;
  for (const it of ["log", "mechanism"]) {
    $(it).hidden = it !== name;
    $(`${it}_tab`).setAttribute("aria-selected", String(it === name));
    $(`${it}_tab`).tabIndex = it === name ? 0 : -1;
  }
  if (name !== "mechanism") return isOpen || location.hash === state.link ? undefined : history.replaceState(null, "", state.link);
  $("stepper").onload = () => hearDrops($("stepper").contentWindow);
  if (steps !== undefined && $("stepper").srcdoc) return $("stepper").contentWindow.postMessage({ steps }, "*");
  if (!$("stepper").srcdoc) $("stepper").srcdoc = JSON.parse($("stepper_text").textContent).replace("<html", `<html data-steps="${steps || ""}"`);
  return undefined;
}

// The address has the steps that the frame shows.
function hearSteps(event) {
  if (event.source !== $("stepper").contentWindow || $("mechanism").hidden || !/^[wr]*$/.test(event.data.steps)) return;
  state.hash = `#steps:${event.data.steps}`;
  history.replaceState(null, "", state.hash);
}

// -- the start --

const EXAMPLES = JSON.parse($("all").textContent);

function example(name) {
  put(EXAMPLES[name].text, name);
  $("command").value = "";
  return ask();
}

function listExamples() {
  for (const [name, { command, shows, status }] of Object.entries(EXAMPLES)) {
    const [button, kind, end, row] = ["button", "b", "i", "li"].map(it => document.createElement(it));
    button.dataset.name = name;
    kind.textContent = command;
    end.textContent = ["", "unlawful", "", "refused"][status];
    end.className = ["", "bad", "", "odd"][status];
    button.append(kind, ` ${shows} `, end);
    button.title = name;
    button.onclick = () => {
      $("verdict").scrollIntoView({ block: "nearest" });
      return example(name);
    };
    row.append(button);
    $("examples").append(row);
  }
}

function listChoices() {
  for (const it of Object.keys(WORDS)) $("command").add(new Option(it, it));
  for (const [name, bytes] of Object.entries(BOUNDS)) $("bound").add(new Option(name, bytes, name === "4 GB", name === "4 GB"));
}

function listen() {
  $("answer").onclick = ask;
  $("command").onchange = $("bound").onchange = ask;
  $("stop").onclick = stop;
  $("link").onclick = link;
  $("choose").onclick = () => $("file").click();
  $("file").onchange = event => {
    const [file] = event.target.files;
    // (so that the same file can be chosen again)
    event.target.value = "";
    return file && take(file);
  };
  $("text").oninput = () => {
    // (what is typed counts now, and no file or link has that)
    state.file = null;
    hold("#");
    $("name").textContent = "";
    clearTimeout(state.later);
    state.later = setTimeout(ask, 400);
  };
  $("smaller").onclick = () => zoom(1 / 1.4);
  $("larger").onclick = () => zoom(1.4);
  $("fit").onclick = () => zoom("fit");
  $("draw").onclick = draw;
  for (const it of ["log", "mechanism"]) {
    $(`${it}_tab`).onclick = () => openPanel(it);
    $(`${it}_tab`).onkeydown = event => {
      if (event.key !== "ArrowLeft" && event.key !== "ArrowRight") return;
      const other = it === "log" ? "mechanism" : "log";
      openPanel(other);
      $(`${other}_tab`).focus();
    };
  }
  addEventListener("message", hearSteps);
  addEventListener("paste", paste);
  addEventListener("hashchange", follow);
  addEventListener("keydown", event => {
    if (event.key === "Escape") stop();
    else if (event.key === "Enter" && (event.ctrlKey || event.metaKey)) ask();
  });
  hearDrops(window);
}

function hearDrops(place) {
  place.addEventListener("dragover", event => {
    event.preventDefault();
    $("drop").classList.add("over");
  });
  place.addEventListener("dragleave", () => $("drop").classList.remove("over"));
  place.addEventListener("drop", drop);
}

async function start() {
  listExamples();
  listChoices();
  listen();
  state.ready = begin();
  try {
    await state.ready;
  } catch (error) {
    return fails("The page can't begin", String(error));
  }
  return (await follow()) || example("lines_stale.jsonl");
}
start();
