// The page's worker: it compiles the module once, reads files itself, and answers one request after the other.
const KINDS = { lines: "order", log: "order", check: "check", cell: "play", matrix: "play", board: "play" };
let module;

// The object that names a document's kind: of a log in lines its first line, of any other the whole. (The program
// refuses a wrong guess.)
function topOf(bytes) {
  const end = bytes.indexOf(10);
  for (const part of [bytes.subarray(0, end < 0 ? bytes.length : end), bytes]) {
    if (part.length > LONGEST) continue;
    try {
      const top = JSON.parse(new TextDecoder().decode(part));
      if (typeof top.kind === "string") return top;
    } catch {
      // (not JSON)
    }
  }
  return {};
}

// What is wrong with bytes that aren't a text in UTF-8, of which the program says only that they aren't JSON.
function faultOf(bytes) {
  const isMarked = bytes[0] === 0xef && bytes[1] === 0xbb && bytes[2] === 0xbf;
  if (isMarked) return "It begins with a byte order mark, which JSON has not: save it without one.";
  try {
    new TextDecoder("utf-8", { fatal: true }).decode(bytes.subarray(0, 65536), { stream: true });
  } catch {
    return "It isn't a text in UTF-8.";
  }
  return undefined;
}

// The picture of what was asked, if it has one, and what it shows: the document, or of a log in lines the small log
// without an order.
function pictureOf({ command, kind, document, answer, bound }) {
  if (command === "picture") return answer.status <= 1 ? { svg: answer.text, of: "document" } : null;
  if (answer.status > 1) return null;
  let drawn = document, of = "document";
  if (kind === "lines") {
    if (answer.status === 0) return null;
    const small = command === "order --small" ? answer : run(module, "order --small", document, bound);
    if (small.status !== 1) return null;
    drawn = small.text;
    of = "small";
  }
  const { status, text } = run(module, "picture", drawn, bound);
  return status <= 1 ? { svg: text, of } : null;
}

async function answer(request) {
  const say = phase => postMessage({ number: request.number, phase });
  if (request.file) say("reading");
  let document;
  try {
    document = new Uint8Array(request.file ? await request.file.arrayBuffer() : request.bytes);
  } catch (error) {
    return { number: request.number, unread: String(error) };
  }
  const { kind, lines } = topOf(document), command = request.command || KINDS[kind] || "order", bound = request.bound;
  say("answering");
  const asked = performance.now();
  const it = run(module, command, document, bound);
  const took = performance.now() - asked;
  say("drawing");
  let picture = null;
  try {
    picture = pictureOf({ command, kind, document, answer: it, bound });
  } catch (error) {
    // (without a picture, then: the verdict stands)
  }
  const fault = it.status === 3 ? faultOf(document) : undefined;
  const named = kind === "log" && Array.isArray(lines) ? lines : [];
  return { ...it, number: request.number, command, kind, named, picture, took, fault, length: document.length };
}

onmessage = async ({ data }) => {
  try {
    if (data.module) {
      module = await WebAssembly.compile(data.module);
      postMessage({ ready: true });
    } else {
      postMessage(await answer(data));
    }
  } catch (error) {
    postMessage({ number: data.number, error: String(error) });
  }
};
