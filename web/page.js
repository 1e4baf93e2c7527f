// A page that looks at an annotation project, and curates it. What it asks is relative to the folder that it was loaded
// from; the folder above is the project's own address, which the Python client takes.
//
// Offsets are characters of a text (code points) from 0, as the server counts them, and never UTF-16 units. All that comes
// from the server becomes text nodes.

const HERE = new URL(location.pathname, location.origin);
const ROWS_OF_DOCUMENTS = 20;
const ROWS_OF_ITEMS = 50;
const LINE_CHARACTERS = 160;
const PART_CHARACTERS = 3200;
const PART_LINES = 100;
const CHARACTERS_AROUND = 40;

// Who asks, and what is known of the project. The front tells the caller, and the roster the annotators.
const project = { caller: null, isCurator: false, annotators: [] };

// ---- elements

const by = (id) => document.getElementById(id);

function make(name, attributes, ...children) {
    const made = document.createElement(name);
    for (const [key, value] of Object.entries(attributes)) made.setAttribute(key, value);
    made.append(...children);
    return made;
}

function say(message) {
    by("status").textContent = message;
}

const counted = (number, one, many = `${one}s`) => `${number} ${number === 1 ? one : many}`;

function fillSelect(select, values, chosen) {
    select.replaceChildren(...values.map(([value, words]) => make("option", { value }, words)));
    select.value = chosen;
}

// ---- asking the server

// A request that was not granted: the server's word for it and what it names, or what happened in its place.
class Refusal extends Error {
    constructor(request, status, refused, of) {
        super(`${request}: ${refused}`);
        Object.assign(this, { request, status, refused, of });
    }
}

// The answer to a request, whatever its status, with its body as text. A mark at the start of a text is a character of it.
async function send(path, { method = "GET", body, signal } = {}) {
    try {
        const response = await fetch(new URL(path, HERE), { method, body, signal, cache: "no-store" });
        const bytes = await response.arrayBuffer();
        project.caller = response.headers.get("Caller") ?? project.caller;
        return { response, text: new TextDecoder("utf-8", { ignoreBOM: true }).decode(bytes) };
    } catch {
        throw new Refusal(`${method} ${path}`, 0, "NoAnswer", null);
    }
}

function refusalOf(request, response, text) {
    const isServers = response.headers.get("Content-Type") === "application/json" && text !== "";
    const { refused, of } = isServers ? JSON.parse(text) : { refused: `HTTP ${response.status}` };
    return new Refusal(request, response.status, refused, of ?? null);
}

// The body of an answer that grants what is asked.
async function ask(path, options = {}) {
    const { response, text } = await send(path, options);
    if (!response.ok) throw refusalOf(`${options.method ?? "GET"} ${path}`, response, text);
    return text;
}

// The head of an answer, or null where nothing is there.
async function askHead(path, signal) {
    const { response, text } = await send(path, { method: "HEAD", signal });
    if (response.status === 404) return null;
    if (!response.ok) throw refusalOf(`HEAD ${path}`, response, text);
    return response.headers;
}

const askDocuments = async (signal) => JSON.parse(await ask("docs", { signal })).docs;

// What a curator is told of each layer, by the name of its document: a cell for each annotator, in the order of the roster.
async function askProgress(signal) {
    const cells = new Map();
    for (const [name, annotator, revision, state, ignored, annotations, parked] of readCsv(await ask("progress", { signal }))) {
        if (!cells.has(name)) cells.set(name, []);
        const isCommitted = revision !== "0";
        const count = isCommitted ? Number(annotations) : null;
        cells.get(name).push({ annotator, state, isCommitted, count, isIgnored: ignored === "true", parked: Number(parked) });
    }
    return cells;
}

// The snapshots as they were taken, numbered from 1 without a gap.
async function askSnapshots(signal) {
    return readCsv(await ask("snapshots", { signal })).map(([number, name, layers, , , , , undecided]) =>
        ({ number: Number(number), name, layers: Number(layers), undecided: Number(undecided) }));
}

// The committed layer of an annotator, or null.
async function askLayer(name, annotator, signal) {
    try {
        return readLayer(annotator, await ask(`docs/${name}/layers/${annotator}`, { signal }));
    } catch (error) {
        if (error.refused === "NoLayer") return null;
        throw error;
    }
}

// ---- what is said of a refusal

const NOT_ALLOWED = {
    Roster: "Your name is not on the roster of this project. Sign in as somebody who is; people cannot be added to a project.",
    Curator: "Only a curator may do this. An annotator may see the documents, their texts, and her own committed layers.",
    Annotator: "Only an annotator may do this.",
    Own: "A layer may be seen by curators and by the annotator whose it is.",
};

const ADVICE = {
    NoAnswer: "The server could not be reached. Look whether you are connected, and load the page again. A verdict that was under way may have been taken: look at its state first.",
    NoCaller: "The front did not tell the server who you are. Whoever runs it has to set the field Caller from the name that is signed in.",
    NoRoute: "The server knows no such address. Follow a link of this page.",
    NoDocument: "The project has no document of this name. Go to Documents.",
    NoSnapshot: "The project has no snapshot of this number. Choose one of the list.",
    NoItem: "The snapshot has no such item. Load the page again.",
    AlreadyIn: "The item is in the curated layer already, so there is nothing to accept. Nothing was changed.",
    NotIn: "The item is not in the curated layer, so there is nothing to reject. Nothing was changed.",
    NotDecided: "No verdict stands on this item, so there is none to take back. Nothing was changed.",
    NeedsItem: "Decide the item that it names first: what comes in needs what it names, and what goes out may not be named by what stays.",
    TooFewFinished: "A snapshot needs two finished layers or more of the document; the number is how many there are. Annotators finish with the Python client, as the lines below the table show.",
    Keeper: "The change was not kept: ask whoever runs the server to look at its disk. The same may be asked again.",
    Memory: "The server had no memory for this. Try again later.",
    EntryTooLong: "The change is too long for the journal of the project.",
    "HTTP 401": "The front does not know this name and password. Load the page again and sign in.",
    "HTTP 403": "The front refused the request. Open the page by its own address, not inside another one.",
    "HTTP 404": "The front knows no such project. Look at the address.",
    "HTTP 503": "The server does not run, or all its connections are in use. It serves sixty-four at a time: try again in a minute.",
    "HTTP 504": "The server gave no answer in time. It serves sixty-four connections at a time: try again in a minute. A verdict may have been taken: look at its state first.",
};

function adviceFor({ refused, of, status }) {
    if (refused === "NotAllowed" && Object.hasOwn(NOT_ALLOWED, of)) return NOT_ALLOWED[of];
    if (Object.hasOwn(ADVICE, refused)) return ADVICE[refused];
    if (status === 422) return "The curated layer would break this rule of the project. What it names is an ID of the curated layer, at the end of this page. Reject what stands against it first; docs/rules.md has each rule.";
    return "docs/http.md says when this comes.";
}

function showTrouble(error) {
    if (!(error instanceof Refusal)) throw error;
    const close = make("button", { type: "button" }, "Close");
    close.addEventListener("click", hideTrouble);
    const names = error.of === null ? "" : `, which names ${error.of}`;
    by("trouble").replaceChildren(
        make("p", {}, make("strong", { class: "refused" }, error.refused), names, make("span", { class: "asked" }, ` (${error.request})`)),
        make("p", { class: "advice" }, adviceFor(error)),
        close,
    );
    by("trouble").hidden = false;
    say("");
}

function hideTrouble() {
    by("trouble").hidden = true;
    by("trouble").replaceChildren();
}

// ---- reading what the server writes

// The rows of a table, behind its header.
const readCsv = (text) => readRows(text).slice(1);

// All rows of a table. Each row ends with a line feed.
function readRows(text) {
    const rows = [];
    let row = [];
    for (const [, quoted, plain, end] of text.matchAll(/(?:"([^"]*(?:""[^"]*)*)"|([^",\n]*))(,|\n)/g)) {
        row.push(quoted === undefined ? plain : quoted.replaceAll('""', '"'));
        if (end === "\n") {
            rows.push(row);
            row = [];
        }
    }
    return rows;
}

// A line of a layer. `links` are the roles and IDs of what it names, the trigger of an event first.
function readLine(line, place) {
    const [name, said, ...rest] = line.split("\t");
    const [first, ...words] = said.split(" ");
    const kind = name[0] === "M" ? "A" : name[0];
    const thing = { id: kind === "*" ? `*${place}` : name, kind, type: first, said, links: [], value: "", text: rest.join("\t") };
    if (kind === "T") {
        thing.fragments = words.join(" ").split(";").map((fragment) => fragment.split(" ").map(Number));
    } else if (kind === "E") {
        thing.type = first.split(":")[0];
        thing.links = [["", first.split(":")[1]], ...words.map((word) => word.split(":"))];
    } else if (kind === "R") {
        thing.links = words.map((word) => word.split(":"));
    } else if (kind === "*") {
        thing.links = words.map((word) => ["", word]);
    } else {
        thing.links = [["", words[0]]];
        thing.value = words.slice(1).join(" ");
    }
    return thing;
}

function readLayer(annotator, text) {
    const things = text.split("\n").filter((line) => line !== "").map(readLine);
    return { annotator, things: new Map(things.map((thing) => [thing.id, thing])), spans: things.filter((thing) => thing.kind === "T") };
}

// The roles of each type of event, and an example of a type that may be marked, from a configuration.
function readConf(text) {
    const section = (name) => (text.split(new RegExp(`^\\[${name}\\]\n`, "m"))[1] ?? "").split(/^\[/m)[0].split("\n");
    const roles = new Map();
    for (const line of section("events")) {
        const [type, pairs = ""] = line.trim().split("\t");
        roles.set(type, new Set(pairs.split(", ").map((pair) => pair.split(":")[0].replace(/[?*+]$|\{.*\}$/, ""))));
    }
    const types = section("entities").map((line) => line.trim()).filter((line) => line !== "" && !line.startsWith("!"));
    return { roles, type: types[0] ?? "TYPE" };
}

// The role that a word of an event is: itself where it is declared, else the longest declared one before a number.
function roleOf(roles, word) {
    for (let end = word.length; end > 0; end--) {
        const isNumbered = end === word.length || /^[1-9][0-9]{0,8}$/.test(word.slice(end));
        if (isNumbered && roles?.has(word.slice(0, end))) return word.slice(0, end);
    }
    return word;
}

// ---- words on the page

// Controls, and invisible characters that hide or turn words. They are shown by number, and so have no effect.
const INVISIBLE = /[\u0000-\u0008\u000a-\u001f\u007f-\u009f\u00ad\u200b\u2028-\u202e\u2060-\u2069\ufeff]/u;

function controlSign(character) {
    const words = character === "\n" ? "↵" : `U+${character.codePointAt(0).toString(16).toUpperCase().padStart(4, "0")}`;
    return make("span", { class: "control" }, words);
}

// Characters as nodes, each invisible one by a sign.
function wordsOf(characters) {
    const nodes = [];
    let run = "";
    for (const character of characters) {
        if (INVISIBLE.test(character)) {
            nodes.push(run, controlSign(character));
            run = "";
        } else {
            run += character;
        }
    }
    return [...nodes, run].filter((node) => node !== "");
}

// A quotation, whose direction is its own and touches nothing around it.
function quote(text, most = 60) {
    const characters = Array.from(text);
    const short = characters.length > most ? [...characters.slice(0, most), "…"] : characters;
    return make("bdi", { class: "quote" }, ...wordsOf(short));
}

// Whether a line is written from the right: its first letter says so.
function directionOf(line) {
    const letter = line.match(/\p{L}/u);
    const isRight = letter && /[\p{Script=Hebrew}\p{Script=Arabic}\p{Script=Syriac}\p{Script=Thaana}\p{Script=Nko}\p{Script=Adlam}]/u.test(letter[0]);
    return isRight ? "rtl" : "ltr";
}

// ---- documents

// The rows of the project, and the part of them that is shown: from a place on, by an order of the whole project.
const documents = { rows: [], first: 0, part: [], order: null };

const missing = ({ cells }) => cells.filter((cell) => !cell.isCommitted).length;
const finished = ({ cells }) => cells.filter((cell) => cell.state === "finished").length;
const unfinished = ({ cells }) => cells.length - finished({ cells });
const isCounted = () => documents.part.length > 0 && documents.part.every((row) => row.differing !== undefined);

// The orders of rows, each with what the rows that stand first have most of, and then most of; else as they were added.
const ORDERS = {
    unfinished: ["most unfinished layers first", unfinished, missing],
    finished: ["most finished layers first", finished],
    missing: ["most layers missing first", missing],
    added: ["as they were added"],
    differing: ["most differing spans first, of these rows", (row) => row.differing ?? -1],
};

function fillOrders() {
    const names = project.isCurator ? ["unfinished", "finished", "added", "differing"] : ["missing", "added", "differing"];
    documents.order = names[0];
    fillSelect(by("documents-order"), names.map((name) => [name, ORDERS[name][0]]), documents.order);
}

function sorted(rows) {
    const [, ...weights] = ORDERS[by("documents-order").value];
    const compare = (one, other) => weights.reduce((known, weigh) => known || weigh(other) - weigh(one), 0);
    return [...rows].sort((one, other) => compare(one, other) || one.place - other.place);
}

async function showDocuments([page], signal) {
    say("Asking for the documents …");
    const [all, progress] = await Promise.all([askDocuments(signal), project.isCurator ? askProgress(signal) : new Map()]);
    // A text that was added between the two answers is shown the next time.
    const known = project.isCurator ? all.filter(({ name }) => progress.has(name)) : all;
    const rows = known.map(({ name, characters }, place) => ({ name, characters, place, cells: progress.get(name) }));
    const pages = Math.max(1, Math.ceil(rows.length / ROWS_OF_DOCUMENTS));
    const first = (Math.min(Math.max(1, Number(page) || 1), pages) - 1) * ROWS_OF_DOCUMENTS;
    by("documents-order").value = documents.order;
    const part = partFrom(first, rows);
    if (!project.isCurator) await askCells(part, signal);
    Object.assign(documents, { rows, first, part });
    drawDocuments();
    say("");
}

// The rows that are shown at a time: by the order of the whole project, where the states of all are known.
function partFrom(first, rows) {
    return (project.isCurator ? sorted(rows) : rows).slice(first, first + ROWS_OF_DOCUMENTS);
}

// Asks for some rows whether the annotator has committed a layer, and whether anything is in it.
async function askCells(rows, signal) {
    for (const row of rows) {
        row.cells = await Promise.all(project.annotators.map(async (annotator) => {
            const head = await askHead(`docs/${row.name}/layers/${annotator}`, signal);
            const state = head === null ? "none" : head.get("Content-Length") === "0" ? "empty" : "marked";
            return { annotator, state, isCommitted: head !== null, count: null, isIgnored: false, parked: 0 };
        }));
    }
}

// Reads the layers of the rows shown, and counts what is in them.
async function countDocuments(signal) {
    const { part } = documents;
    say("Counting …");
    for (const row of part) {
        const committed = row.cells.filter((cell) => cell.isCommitted);
        const isAsked = committed.length > 1 || !project.isCurator;
        const layers = isAsked ? await Promise.all(committed.map((cell) => askLayer(row.name, cell.annotator, signal))) : [];
        for (const [place, layer] of layers.entries()) committed[place].count = annotationsOf(layer);
        row.differing = layers.length < 2 ? null : differingSpans(layers).size;
    }
    if (documents.part !== part) return;
    by("documents-order").value = "differing";
    drawDocuments();
    say("Counted; the most differing spans stand first.");
}

// How many annotations a layer has; classes are none.
const annotationsOf = (layer) => [...layer.things.values()].filter((thing) => thing.kind !== "*").length;

// An order of the whole project is shown from its first row on.
function orderDocuments() {
    const order = by("documents-order").value;
    if (order !== "differing") documents.order = order;
    if (order !== "differing" && project.isCurator) {
        Object.assign(documents, { first: 0, part: partFrom(0, documents.rows) });
        history.replaceState(null, "", "#/documents/1");
    }
    drawDocuments();
}

function drawDocuments() {
    const { first, rows, part } = documents;
    by("documents-summary").textContent = summaryOfDocuments();
    by("documents-order").querySelector('[value="differing"]').disabled = !isCounted();
    by("documents-count").disabled = part.length === 0;
    by("documents-shown").textContent = part.length === 0 ? "none" : `${first + 1} to ${first + part.length} of ${rows.length}`;
    by("documents-before").disabled = first === 0;
    by("documents-after").disabled = first + part.length >= rows.length;
    const sums = [project.isCurator ? "Finished" : "Layers missing", ...(isCounted() ? ["Spans that differ"] : [])];
    const heads = ["Document", "Characters", ...project.annotators, ...sums];
    by("documents-table").tHead.replaceChildren(make("tr", {}, ...heads.map((head) => make("th", { scope: "col" }, head))));
    by("documents-table").tBodies[0].replaceChildren(...sorted(part).map(drawDocument));
}

function summaryOfDocuments() {
    const total = counted(documents.rows.length, "document");
    if (!project.isCurator) return `${total}. You see your own layers, and no others.`;
    const cells = documents.rows.flatMap((row) => row.cells);
    const [done, out] = ["finished", "out"].map((state) => cells.filter((cell) => cell.state === state).length);
    return `${total}, ${counted(project.annotators.length, "annotator")}: ${done} of ${counted(cells.length, "layer")} finished, ${out} out.`;
}

function drawDocument(row) {
    const link = make("a", { href: `#/text/${row.name}` }, row.name);
    const cells = [
        make("td", { class: "number" }, String(row.characters)),
        ...row.cells.map(drawCell),
        make("td", { class: "number" }, `${project.isCurator ? finished(row) : missing(row)} of ${row.cells.length}`),
    ];
    if (isCounted()) cells.push(make("td", { class: "number" }, row.differing === null ? "–" : String(row.differing)));
    return make("tr", { "data-document": row.name }, make("th", { scope: "row" }, link), ...cells);
}

// What is known of a layer. The sign and the words tell a state where its colour does not.
function drawCell({ annotator, state, count, isIgnored, parked }) {
    const number = count === null ? "" : ` ${count}`;
    const words = {
        none: "○ none",
        open: `◐ open${number}`,
        out: `✎ out${number}`,
        finished: `✓ finished${number}`,
        empty: "◐ empty",
        marked: count === null ? "● marks" : `●${number}`,
    }[state];
    const notes = [...(parked > 0 ? [`${parked} parked`] : []), ...(isIgnored ? ["⊘ ignored"] : [])];
    return make("td", { "data-annotator": annotator },
        make("span", { class: `state ${state}` }, words),
        ...notes.map((note) => make("span", { class: "note" }, note)),
    );
}

function turnDocuments(pages) {
    location.hash = `#/documents/${documents.first / ROWS_OF_DOCUMENTS + 1 + pages}`;
}

// ---- what differs

// The spans, by type and offsets, that one of the layers has and another has not, each with its first offset.
function differingSpans(layers) {
    const holders = new Map();
    for (const layer of layers) {
        for (const span of layer.spans) holders.set(span.said, (holders.get(span.said) ?? 0) + 1);
    }
    const differing = new Map();
    for (const layer of layers) {
        for (const span of layer.spans) {
            if (holders.get(span.said) < layers.length) differing.set(span.said, span.fragments[0][0]);
        }
    }
    return differing;
}

// A number for what an annotation says, whatever its ID: two that say the same have one number.
function contentNumber(seen, roles, layer, id) {
    const thing = layer.things.get(id);
    if (thing.content === undefined) {
        const inner = thing.links.map(([role, target]) => [role, contentNumber(seen, roles, layer, target)]);
        const said = JSON.stringify([thing.kind, thing.type, orderLinks(thing, inner, roles), thing.value, thing.kind === "T" ? thing.said : thing.text]);
        if (!seen.has(said)) seen.set(said, seen.size);
        thing.content = seen.get(said);
    }
    return thing.content;
}

// Arguments of an event and members of a class are compared in any order.
function orderLinks(thing, links, roles) {
    if (thing.kind === "*") return links.map(([, number]) => number).sort((one, other) => one - other);
    if (thing.kind !== "E") return links;
    const [trigger, ...others] = links;
    const named = others.map(([role, number]) => `${roleOf(roles.get(thing.type), role)} ${number}`);
    return [trigger, ...named.sort()];
}

// Where an annotation begins in the text: at its span, its trigger, or what it is on.
function anchorOf(layer, id) {
    const thing = layer.things.get(id);
    if (thing.kind === "T") return thing.fragments[0][0];
    return anchorOf(layer, thing.links[0][1]);
}

// ---- one text

let opened = null;

async function showText([name, part], signal) {
    if (opened?.name !== name) opened = await askText(name, signal);
    by("text").querySelector("h1").textContent = name;
    by("text-client").textContent = clientLines(name, opened.conf.type, opened.characters);
    drawLayers();
    goToPart(Number(part) - 1 || 0);
}

async function askText(name, signal) {
    say(`Asking for ${name} and its layers …`);
    const [words, conf, ...layers] = await Promise.all([
        ask(`docs/${name}/text`, { signal }),
        ask("conf", { signal }),
        ...project.annotators.map((annotator) => askLayer(name, annotator, signal)),
    ]);
    say("");
    const characters = Array.from(words);
    const committed = layers.filter((layer) => layer !== null);
    return {
        name,
        characters,
        parts: partsOf(linesOf(characters)),
        layers: committed,
        conf: readConf(conf),
        differing: differingSpans(committed),
        contents: new Map(),
    };
}

// The lines that are drawn: those of the text, cut where they are long. Each is whole with its line feed.
function linesOf(characters) {
    const lines = [];
    for (let from = 0; from < characters.length; ) {
        const feed = characters.indexOf("\n", from);
        const to = feed === -1 ? characters.length : feed + 1;
        const direction = directionOf(characters.slice(from, to).join(""));
        while (from < to) {
            const end = cutOf(characters, from, to);
            lines.push({ start: from, end, direction });
            from = end;
        }
    }
    return lines;
}

// Where a line is cut: behind white space if that is near, else before a character that stands for itself.
function cutOf(characters, from, to) {
    const limit = from + LINE_CHARACTERS;
    if (limit >= to) return to;
    const near = (isFit) => {
        for (let at = limit; at > from + LINE_CHARACTERS / 2; at--) if (isFit(at)) return at;
        return null;
    };
    const joins = (at) => /[\p{M}\u200d]/u.test(characters[at]) || characters[at - 1] === "\u200d";
    return near((at) => /\s/.test(characters[at - 1])) ?? near((at) => !joins(at)) ?? limit;
}

// What is drawn at a time: lines that together have some thousands of characters.
function partsOf(lines) {
    const parts = [];
    let part = null;
    for (const line of lines) {
        if (part === null || line.end - part.start > PART_CHARACTERS || part.lines.length === PART_LINES) {
            part = { start: line.start, lines: [] };
            parts.push(part);
        }
        part.lines.push(line);
        part.end = line.end;
    }
    return parts.length === 0 ? [{ start: 0, end: 0, lines: [] }] : parts;
}

function clientLines(name, type, characters) {
    const words = characters.join("").match(/\S+/);
    const start = words ? Array.from(characters.join("").slice(0, words.index)).length : 0;
    const end = start + (words ? Array.from(words[0]).length : 0);
    return [
        ...clientHead(),
        `    with project.desk("${name}") as desk:`,
        `        desk.add_span("${type}", (${start}, ${end}))`,
        "        desk.commit()",
        `    project.finish("${name}")`,
    ].join("\n");
}

function clientHead() {
    const user = project.isCurator ? project.annotators[0] ?? "NAME" : project.caller;
    const address = new URL("..", HERE).href.replace(/\/$/, "");
    return ["from annotate_client import Project", "", `with Project("${address}", user="${user}", password="…") as project:`];
}

function drawLayers() {
    const count = (layer, kinds) => String([...layer.things.values()].filter((thing) => kinds.includes(thing.kind)).length);
    const rows = project.annotators.map((annotator) => {
        const head = make("th", { scope: "row" }, annotator);
        const layer = opened.layers.find((it) => it.annotator === annotator);
        if (!layer) return make("tr", {}, head, make("td", { colspan: "5" }, "○ nothing committed"));
        const differing = layer.spans.filter((span) => opened.differing.has(span.said)).length;
        const numbers = [String(layer.spans.length), String(differing), count(layer, "E"), count(layer, "R"), count(layer, "*AN#")];
        return make("tr", {}, head, ...numbers.map((number) => make("td", { class: "number" }, number)));
    });
    by("text-layers").tBodies[0].replaceChildren(...rows);
    by("text-summary").textContent = summaryOfText();
    by("text-difference").disabled = opened.differing.size === 0;
}

function summaryOfText() {
    const { characters, layers, differing } = opened;
    const absent = project.annotators.filter((annotator) => !layers.some((layer) => layer.annotator === annotator));
    const committed = counted(layers.length, "committed layer") + (absent.length === 0 ? "" : `, none of ${absent.join(", ")}`);
    const differ = layers.length < 2
        ? "With fewer than two committed layers nothing can differ."
        : `${counted(differing.size, "span is", "spans are")} not in every layer.`;
    return `${counted(characters.length, "character")}. ${committed}. ${differ}`;
}

function goToPart(number) {
    opened.part = Math.min(Math.max(0, number), opened.parts.length - 1);
    history.replaceState(null, "", `#/text/${opened.name}/${opened.part + 1}`);
    const part = opened.parts[opened.part];
    opened.difference = part.start - 1;
    by("text-part").textContent = `Part ${opened.part + 1} of ${opened.parts.length}: characters ${part.start} to ${part.end}`;
    by("text-before").disabled = opened.part === 0;
    by("text-after").disabled = opened.part === opened.parts.length - 1;
    drawLines(part);
    drawOthers(part);
}

// The fragments of a layer's spans that reach into a range.
function fragmentsIn(layer, { start, end }) {
    const found = [];
    for (const span of layer.spans) {
        for (const [from, to] of span.fragments) {
            if (from < end && to > start) found.push({ start: from, end: to, span, isFirst: from === span.fragments[0][0] });
        }
    }
    return found;
}

function drawLines(part) {
    const lanes = opened.layers.map((layer) => ({ names: [layer.annotator], fragments: fragmentsIn(layer, part) }));
    by("text-lines").replaceChildren(...part.lines.map((line) => drawLine(line, lanes)));
}

function drawLine(line, lanes) {
    const reaches = (it) => it.start < line.end && it.end > line.start;
    const within = lanes.map(({ names, fragments }) => ({ names, fragments: fragments.filter(reaches) }));
    const drawn = lanesToDraw(line, within).map(({ names, fragments }) => [
        make("dt", {}, names.join(" ")),
        make("dd", { class: "words", dir: line.direction, "data-lane": names.join(" ") }, ...drawLane(line, fragments)),
    ]);
    return make("li", {}, make("span", { class: "offset" }, String(line.start)), make("dl", {}, ...drawn.flat()));
}

// A lane for each layer, or one for all that are the same here; a line of white space that nobody marked has a single one.
function lanesToDraw(line, lanes) {
    const isUnmarked = lanes.every((lane) => lane.fragments.length === 0);
    const isBlank = opened.characters.slice(line.start, line.end).join("").trim() === "";
    if ((isUnmarked && isBlank) || lanes.length === 0) return [{ names: [], fragments: [] }];
    if (!by("text-fold").checked) return lanes;
    const folded = new Map();
    for (const { names, fragments } of lanes) {
        const said = fragments.map((it) => it.span.said).sort().join("\n");
        if (folded.has(said)) folded.get(said).names.push(...names);
        else folded.set(said, { names: [...names], fragments });
    }
    return [...folded.values()];
}

// The characters of a line, cut where a span begins or ends.
function drawLane(line, fragments) {
    const ends = fragments.flatMap((it) => [it.start, it.end]).filter((at) => at > line.start && at < line.end);
    const cuts = [...new Set([line.start, ...ends, line.end])].sort((one, other) => one - other);
    return cuts.slice(1).flatMap((to, place) => drawPiece(cuts[place], to, line, fragments));
}

function drawPiece(from, to, line, fragments) {
    const over = fragments.filter((it) => it.start <= from && it.end >= to);
    const characters = opened.characters.slice(from, to);
    if (over.length === 0) return wordsOf(characters.filter((character) => character !== "\n"));
    const begun = over.filter((it) => it.start === from || from === line.start).sort((one, other) => other.end - one.end);
    const classes = [
        over.some((it) => opened.differing.has(it.span.said)) ? "differs" : "shared",
        ...(over.length > 1 ? ["deep"] : []),
        ...(over.some((it) => it.start === from) ? ["begins"] : []),
        ...(over.some((it) => it.end === to) ? ["ends"] : []),
    ];
    const mark = make("mark", { class: classes.join(" "), tabindex: "-1", "data-from": String(from) }, ...wordsOf(characters));
    return [...begun.map((it) => drawLabel(it, it.isFirst && it.start === from)), mark];
}

// The type of a span, before its first character; where it goes on in another line or fragment, behind dots.
function drawLabel({ span }, isBegin) {
    const words = `${isBegin ? "" : "…"}${span.type}`;
    if (!opened.differing.has(span.said)) return make("span", { class: "label shared" }, words);
    const label = make("span", { class: "label differs" }, words);
    label.append(make("span", { "aria-hidden": "true" }, " ≠"), make("span", { class: "heard" }, " not in every layer"));
    return label;
}

// Goes to the next span that not every layer has, behind the mark that has the focus or was gone to last.
function goToDifference() {
    const offsets = [...new Set(opened.differing.values())].sort((one, other) => one - other);
    const last = Number(document.activeElement.dataset.from ?? opened.difference);
    const offset = offsets.find((at) => at > last) ?? offsets[0];
    say(offset > last ? "" : "From the beginning again.");
    goToOffset(offset, "mark.differs");
    opened.difference = offset;
}

function goToOffset(offset, marks) {
    const part = opened.parts.findIndex((it) => offset < it.end);
    if (part !== opened.part) goToPart(part);
    by("text-lines").querySelector(`${marks}[data-from="${offset}"]`)?.focus();
}

const KINDS = { E: "Event", R: "Relation", "*": "Class", A: "Attribute", N: "Reference", "#": "Note" };

// What is no span and begins in this part, each once, with who has it.
function drawOthers(part) {
    const found = new Map();
    for (const layer of opened.layers) {
        for (const thing of layer.things.values()) {
            if (thing.kind === "T") continue;
            const anchor = anchorOf(layer, thing.id);
            if (anchor < part.start || anchor >= part.end) continue;
            const number = contentNumber(opened.contents, opened.conf.roles, layer, thing.id);
            if (!found.has(number)) found.set(number, { layer, thing, anchor, holders: [] });
            found.get(number).holders.push([layer.annotator, thing.id]);
        }
    }
    const order = Object.keys(KINDS);
    const place = ({ thing }) => order.indexOf(thing.kind);
    const others = [...found.values()].sort((one, other) => one.anchor - other.anchor || place(one) - place(other));
    by("text-others").replaceChildren(...(others.length === 0 ? [make("li", {}, "none")] : others.map(drawOther)));
}

function drawOther({ layer, thing, anchor, holders }) {
    const differs = thing.kind !== "#" && new Set(holders.map(([annotator]) => annotator)).size < opened.layers.length;
    const names = holders.map(([annotator, id]) => (thing.kind === "*" ? annotator : `${annotator} ${id}`));
    const show = make("button", { type: "button", "aria-label": `Show ${thing.type} at character ${anchor}` }, "Show");
    show.addEventListener("click", () => goToOffset(anchor, "mark"));
    const sign = differs ? [make("span", { "aria-hidden": "true" }, " ≠"), make("span", { class: "heard" }, " not in every layer")] : [];
    return make("li", { class: differs ? "differs" : "shared" },
        make("p", {}, make("span", { class: "kind" }, KINDS[thing.kind], ...sign), " ", ...describe(layer, thing)),
        make("p", { class: "holders" }, names.join(", "), " ", show),
    );
}

// What an annotation says, in words and quotations.
function describe(layer, thing) {
    const named = thing.links.map(([role, id]) => [...(role === "" ? [] : [`${role} `]), nameOf(layer, id)]);
    const listed = (links) => links.flatMap((link, place) => [place === 0 ? "" : ", ", ...link]);
    switch (thing.kind) {
        case "E": return [`${thing.type} `, ...quoteOf(layer, thing.links[0][1]), named.length > 1 ? ": " : "", ...listed(named.slice(1))];
        case "A": return [`${thing.type} ${thing.value}`.trim(), " of ", ...named[0]];
        case "N": return [`${thing.value} `, quote(thing.text), " of ", ...named[0]];
        case "#": return [`${thing.type} on `, ...named[0], ": ", quote(thing.text, 500)];
        default: return [`${thing.type}: `, ...listed(named)];
    }
}

const quoteOf = (layer, id) => [quote(layer.things.get(id).text)];

// How an annotation is named by another: a span by its words, an event by those of its trigger, all else by its type.
function nameOf(layer, id) {
    const thing = layer.things.get(id);
    if (thing.kind === "T") return quote(thing.text);
    const trigger = thing.kind === "E" ? quoteOf(layer, thing.links[0][1]) : [];
    return make("span", {}, `${thing.type} `, ...trigger);
}

// ---- curation

const curation = { snapshots: [], number: null, items: [], names: new Map(), first: 0, focused: null, around: null };

async function showCuration([number], signal) {
    const [progress, snapshots] = await Promise.all([askProgress(signal), askSnapshots(signal)]);
    const last = snapshots.length;
    const names = [...progress.keys()];
    const wanted = Number(number);
    curation.snapshots = snapshots;
    const choices = [...progress].map(([name, cells]) => [name, `${name}: ${finished({ cells })} finished`]);
    fillSelect(by("curation-document"), [["", "no document"], ...choices], names.length === 1 ? names[0] : "");
    by("curation-client").textContent = [...clientHead(), `    project.finish("${names[0] ?? "NAME"}")`].join("\n");
    await openSnapshot(wanted >= 1 && wanted <= last ? wanted : last, signal);
    if (wanted > last) showTrouble(new Refusal(`GET snapshots/${wanted}/items`, 404, "NoSnapshot", null));
}

async function openSnapshot(number, signal) {
    const choices = curation.snapshots.map((it) => [it.number, choiceOf(it)]);
    fillSelect(by("curation-number"), choices.length === 0 ? [[0, "none"]] : choices, number);
    Object.assign(curation, { number, items: [], names: new Map(), first: 0, focused: null, around: null });
    by("curation-curated").open = false;
    if (number > 0) {
        history.replaceState(null, "", `#/curation/${number}`);
        await Promise.all([askItems(signal), askAround(signal)]);
    }
    drawItems();
}

const shownSnapshot = () => curation.snapshots[curation.number - 1];

const choiceOf = ({ number, name, undecided }) => `${number}, ${name}: ${undecided} undecided`;

// The items of the snapshot that is shown, as they stand now.
async function askItems(signal) {
    const { number } = curation;
    const rows = readCsv(await ask(`snapshots/${number}/items`, { signal }));
    if (number !== curation.number) return;
    curation.items = rows.map(([name, line, holders, state]) => {
        const [holder, id] = name.split("/");
        return { name, holder, id, holders, state, line, thing: readLine(`${id}\t${line}`, 0) };
    });
    curation.names = new Map(curation.items.map((item) => [item.name, item]));
    shownSnapshot().undecided = curation.items.filter(FILTERS.undecided).length;
    by("curation-number").selectedOptions[0].textContent = choiceOf(shownSnapshot());
}

// The text of the snapshot's document.
async function askAround(signal) {
    const { number } = curation;
    const words = await ask(`docs/${shownSnapshot().name}/text`, { signal });
    if (number !== curation.number) return;
    curation.around = Array.from(words, (character) => (character === "\n" ? " " : character));
}

const FILTERS = {
    all: () => true,
    undecided: (item) => item.state === "undecided",
    decided: (item) => item.state === "accepted" || item.state === "rejected",
    unanimous: (item) => item.state === "unanimous",
};

const filteredItems = () => curation.items.filter(FILTERS[by("curation-filter").value]);

function drawItems() {
    const filtered = filteredItems();
    if (curation.first >= filtered.length) curation.first = Math.max(0, Math.ceil(filtered.length / ROWS_OF_ITEMS) - 1) * ROWS_OF_ITEMS;
    const shown = filtered.slice(curation.first, curation.first + ROWS_OF_ITEMS);
    if (!shown.some((item) => item.name === curation.focused)) curation.focused = shown[0]?.name ?? null;
    by("curation-summary").textContent = summaryOfItems();
    by("curation-shown").textContent = shown.length === 0 ? "none" : `${curation.first + 1} to ${curation.first + shown.length} of ${filtered.length}`;
    by("curation-before").disabled = curation.first === 0;
    by("curation-after").disabled = curation.first + shown.length >= filtered.length;
    by("curation-curated").hidden = curation.number === 0;
    allowSnapshot();
    by("curation-items").tBodies[0].replaceChildren(...shown.map(drawItem));
}

function allowSnapshot() {
    by("curation-snap").disabled = by("curation-document").value === "";
}

function summaryOfItems() {
    if (curation.number === 0) return "No snapshot was taken yet. Choose a document of which two layers or more are finished, and take one.";
    const states = ["unanimous", "undecided", "accepted", "rejected"];
    const counts = states.map((state) => `${curation.items.filter((item) => item.state === state).length} ${state}`);
    const { number, name, layers } = shownSnapshot();
    return `Snapshot ${number} of ${curation.snapshots.length}, ${layers} layers of ${name}: ${counted(curation.items.length, "item")}, ${counts.join(", ")}.`;
}

const STATES = { unanimous: "= unanimous", undecided: "? undecided", accepted: "✓ accepted", rejected: "✗ rejected" };
const VERDICTS = [["accept", "a", "Accept"], ["reject", "r", "Reject"], ["undecide", "u", "Undecide"]];

function drawItem(item) {
    const isFocused = item.name === curation.focused;
    const buttons = VERDICTS.map(([verdict, key, words]) => {
        const about = { type: "button", tabindex: isFocused ? "0" : "-1", "aria-keyshortcuts": key, "aria-label": `${words} ${item.name}` };
        const button = make("button", about, words);
        button.addEventListener("click", () => decide(item, verdict));
        return button;
    });
    const row = make("tr", { "data-item": item.name, tabindex: isFocused ? "0" : "-1" },
        make("th", { scope: "row" }, item.name),
        make("td", { class: "says" }, ...drawContent(item), ...drawAround(item)),
        make("td", { class: "who" }, item.holders),
        make("td", {}, make("span", { class: `verdict ${item.state}` }, STATES[item.state])),
        make("td", { class: "buttons" }, ...buttons),
    );
    row.addEventListener("focusin", () => rove(item.name));
    row.addEventListener("keydown", (event) => keyOnItem(event, item));
    return row;
}

// What an item says: the words of a span, the line of all else with what its IDs are, where that can be told.
function drawContent({ holder, line, thing }) {
    if (thing.kind === "T") {
        const offsets = line.split("\t")[0].slice(thing.type.length + 1);
        return [make("p", {}, make("strong", {}, thing.type), " ", quote(thing.text, 200), ` ${offsets}`)];
    }
    const known = thing.links.map(([, id]) => curation.names.get(`${holder}/${id}`)).filter((item) => item?.thing.kind === "T");
    const names = known.map((item) => make("li", {}, `${item.id}: ${item.thing.type} `, quote(item.thing.text)));
    const list = names.length === 0 ? [] : [make("ul", { class: "known" }, ...names)];
    return [make("p", {}, quote(line.replaceAll("\t", " "), 500)), ...list];
}

// The words around a span, or around the trigger of an event.
function drawAround({ holder, thing }) {
    const span = thing.kind === "T" ? thing : curation.names.get(`${holder}/${thing.links[0][1]}`)?.thing;
    if (curation.around === null || span?.kind !== "T") return [];
    const [start, end] = [span.fragments[0][0], span.fragments.at(-1)[1]];
    const [from, to] = [Math.max(0, start - CHARACTERS_AROUND), end + CHARACTERS_AROUND];
    const characters = curation.around;
    const words = (first, last) => wordsOf(characters.slice(first, last));
    const shown = [...words(from, start), make("mark", { class: "shared" }, ...words(start, end)), ...words(end, to)];
    const direction = directionOf(characters.slice(from, to).join(""));
    return [make("p", { class: "around words", dir: direction }, ...shown)];
}

// Makes a row the one that Tab goes to.
function rove(name) {
    curation.focused = name;
    for (const row of by("curation-items").tBodies[0].rows) {
        const tab = row.dataset.item === name ? "0" : "-1";
        for (const it of [row, ...row.querySelectorAll("button")]) it.setAttribute("tabindex", tab);
    }
}

function keyOnItem(event, item) {
    if (event.ctrlKey || event.altKey || event.metaKey) return;
    const row = event.currentTarget;
    const next = { ArrowDown: row.nextElementSibling, ArrowUp: row.previousElementSibling }[event.key];
    const verdict = VERDICTS.find(([, key]) => key === event.key)?.[0];
    if (verdict) decide(item, verdict);
    else if (next) next.focus();
    else return;
    event.preventDefault();
}

// Verdicts go to the server one after another, in the order in which they were given.
let verdicts = Promise.resolve();

function decide(item, verdict) {
    const { number } = curation;
    verdicts = verdicts.then(() => sendVerdict(number, item.name, verdict));
}

async function sendVerdict(number, item, verdict) {
    hideTrouble();
    try {
        const [route, body] = verdict === "undecide" ? ["undecisions", { item }] : ["decisions", { item, verdict }];
        const { decided } = JSON.parse(await ask(`snapshots/${number}/${route}`, { method: "POST", body: JSON.stringify(body) }));
        if (number !== curation.number) return;
        await askItems();
        redrawItems();
        say(`${item} is ${curation.names.get(item).state}. ${counted(decided, "verdict stands", "verdicts stand")}.`);
        await showCurated();
    } catch (error) {
        showTrouble(error);
        if (error.refused === "NeedsItem") offerItem(error.of);
    }
}

// Draws the items anew. A focus in the table stays on its item, or in its place where the filter leaves the item out.
function redrawItems() {
    const body = by("curation-items").tBodies[0];
    const { activeElement } = document;
    const row = body.contains(activeElement) ? activeElement.closest("tr") : null;
    const place = row?.sectionRowIndex;
    drawItems();
    if (row === null) return;
    const next = rowOf(row.dataset.item) ?? body.rows[Math.min(place, body.rows.length - 1)];
    const button = [...(next?.querySelectorAll("button") ?? [])].find((it) => it.textContent === activeElement.textContent);
    (button ?? next)?.focus();
}

const rowOf = (name) => [...by("curation-items").tBodies[0].rows].find((row) => row.dataset.item === name);

// Behind a refusal that names another item: a way to it.
function offerItem(name) {
    const go = make("button", { type: "button" }, `Go to ${name}`);
    go.addEventListener("click", () => goToItem(name));
    by("trouble").append(" ", go);
}

function goToItem(name) {
    by("curation-filter").value = "all";
    const place = curation.items.findIndex((item) => item.name === name);
    curation.first = Math.floor(place / ROWS_OF_ITEMS) * ROWS_OF_ITEMS;
    drawItems();
    rowOf(name).focus();
}

async function takeSnapshot(signal) {
    const name = by("curation-document").value;
    const { layers, snapshot } = JSON.parse(await ask(`docs/${name}/snapshots`, { method: "POST" }));
    curation.snapshots = await askSnapshots(signal);
    await openSnapshot(snapshot, signal);
    say(`Snapshot ${snapshot} was taken, of ${layers} layers of ${name}.`);
}

// The curated layer is asked for while it is open.
async function showCurated(signal) {
    if (!by("curation-curated").open) return;
    const lines = await ask(`snapshots/${curation.number}/curated`, { signal });
    by("curation-curated").querySelector("pre").replaceChildren(...lines.split("\n").flatMap((line) => [...wordsOf(line), "\n"]));
}

// ---- agreement

async function showAgreement(_, signal) {
    const [pairs, alpha] = await Promise.all([ask("agreement/pairs", { signal }), ask("agreement/alpha", { signal })]);
    const [[units, values, top, bottom, figure]] = readCsv(alpha);
    const over = `${counted(Number(units), "token")} with ${counted(Number(values), "label")}`;
    by("agreement-alpha").textContent = figure === "undefined"
        ? `Krippendorff's alpha is undefined, over ${over}: no token has two labels, or no two labels could differ.`
        : `Krippendorff's alpha is ${figure}, exactly ${top}/${bottom}, over ${over}.`;
    drawMatrix(readCsv(pairs));
}

function drawMatrix(rows) {
    const names = project.annotators;
    const pairs = new Map(rows.flatMap(([first, second, ...figures]) => [[`${first} ${second}`, figures], [`${second} ${first}`, figures]]));
    const heads = ["", ...names].map((name) => (name === "" ? make("td", {}) : make("th", { scope: "col" }, name)));
    by("agreement-matrix").tHead.replaceChildren(make("tr", {}, ...heads));
    by("agreement-matrix").tBodies[0].replaceChildren(...names.map((row) => make("tr", {},
        make("th", { scope: "row" }, row),
        ...names.map((column) => (row === column ? make("td", { class: "self" }, "–") : drawKappa(row, column, pairs.get(`${row} ${column}`)))),
    )));
    by("agreement-matrix").tBodies[0].querySelector(".kappa")?.setAttribute("tabindex", "0");
}

function stepOf(kappa) {
    if (kappa === "undefined") return "undefined";
    if (kappa.startsWith("-")) return "negative";
    return `step${Math.min(4, Math.floor(Number(kappa) * 5))}`;
}

function drawKappa(row, column, [units, agreed, top, bottom, kappa]) {
    const tokens = `${agreed} of ${counted(Number(units), "token")} labelled alike`;
    const words = kappa === "undefined" ? `kappa is undefined; ${tokens}` : `kappa is ${top}/${bottom}, or ${kappa}; ${tokens}`;
    const about = { class: `kappa ${stepOf(kappa)}`, tabindex: "-1", "data-pair": `${row} ${column}`, "aria-label": `${row} and ${column}: ${words}` };
    const cell = make("td", about, kappa);
    const tell = () => { by("agreement-figure").textContent = `${row} and ${column}: ${words}.`; };
    cell.addEventListener("mouseenter", tell);
    cell.addEventListener("focus", tell);
    return cell;
}

// The arrow keys go from cell to cell, over the diagonal.
function keyOnMatrix(event) {
    const step = { ArrowUp: [-1, 0], ArrowDown: [1, 0], ArrowLeft: [0, -1], ArrowRight: [0, 1] }[event.key];
    const cell = event.target.closest(".kappa");
    if (!step || !cell) return;
    event.preventDefault();
    let [row, column] = [cell.parentElement.sectionRowIndex, cell.cellIndex];
    let next = null;
    do {
        row += step[0];
        column += step[1];
        next = event.currentTarget.tBodies[0].rows[row]?.cells[column];
    } while (next?.classList.contains("self"));
    if (!next?.classList.contains("kappa")) return;
    cell.setAttribute("tabindex", "-1");
    next.setAttribute("tabindex", "0");
    next.focus();
}

// ---- views

const VIEWS = new Map([
    ["documents", { show: showDocuments, title: () => "Documents" }],
    ["text", { show: showText, title: ([name]) => name }],
    ["curation", { show: showCuration, title: () => "Curation", isForCurators: true }],
    ["agreement", { show: showAgreement, title: () => "Agreement", isForCurators: true }],
]);

// What was asked for a view that was left is not waited for.
let running = new AbortController();

async function showView() {
    running.abort();
    running = new AbortController();
    const { signal } = running;
    const [wanted, ...words] = location.hash.replace(/^#\/?/, "").split("/");
    const name = VIEWS.has(wanted) ? wanted : "documents";
    const view = VIEWS.get(name);
    const isOpen = project.isCurator || !view.isForCurators;
    if (name !== "text") opened = null;
    hideTrouble();
    say("");
    document.title = `${view.title(words)} – annotation project`;
    for (const link of document.querySelectorAll("nav a")) {
        if (link.getAttribute("href") === `#/${name === "text" ? "documents" : name}`) link.setAttribute("aria-current", "page");
        else link.removeAttribute("aria-current");
    }
    try {
        if (isOpen) await view.show(words, signal);
        if (!signal.aborted) openSection(isOpen ? name : "curators-only");
    } catch (error) {
        if (signal.aborted) return;
        hideSections();
        showTrouble(error);
    }
}

function hideSections() {
    for (const section of document.querySelectorAll("main > section")) section.hidden = true;
}

function openSection(name) {
    hideSections();
    by(name).hidden = false;
    by(name).querySelector("h1").focus();
}

// Does what a control asks for, and shows its refusal.
const attempt = (work) => async () => {
    const { signal } = running;
    hideTrouble();
    try {
        await work(signal);
    } catch (error) {
        if (!signal.aborted) showTrouble(error);
    }
};

function keyOnText(event) {
    if (event.ctrlKey || event.altKey || event.metaKey) return;
    const control = { d: "text-difference", n: "text-after", p: "text-before" }[event.key];
    if (!control) return;
    event.preventDefault();
    by(control).click();
}

function turnItems(step) {
    curation.first += step * ROWS_OF_ITEMS;
    drawItems();
}

function listen() {
    addEventListener("hashchange", showView);
    by("documents-order").addEventListener("change", orderDocuments);
    by("documents-count").addEventListener("click", attempt(countDocuments));
    by("documents-before").addEventListener("click", () => turnDocuments(-1));
    by("documents-after").addEventListener("click", () => turnDocuments(1));
    by("text").addEventListener("keydown", keyOnText);
    by("text-difference").addEventListener("click", goToDifference);
    by("text-before").addEventListener("click", () => goToPart(opened.part - 1));
    by("text-after").addEventListener("click", () => goToPart(opened.part + 1));
    by("text-fold").addEventListener("change", () => goToPart(opened.part));
    by("curation-number").addEventListener("change", attempt((signal) => openSnapshot(Number(by("curation-number").value), signal)));
    by("curation-filter").addEventListener("change", () => turnItems(0));
    by("curation-before").addEventListener("click", () => turnItems(-1));
    by("curation-after").addEventListener("click", () => turnItems(1));
    by("curation-document").addEventListener("change", allowSnapshot);
    by("curation-snap").addEventListener("click", attempt(takeSnapshot));
    by("curation-curated").addEventListener("toggle", attempt(showCurated));
    by("agreement-matrix").addEventListener("keydown", keyOnMatrix);
}

// A curator is told by the roster who takes part, and whoever is told nothing by it is an annotator.
async function meet() {
    try {
        const people = readRows(await ask("roster"));
        project.isCurator = true;
        project.annotators = people.filter(([, role]) => role === "annotator").map(([name]) => name);
    } catch (error) {
        if (error.refused !== "NotAllowed" || error.of !== "Curator") throw error;
        project.annotators = project.caller === null ? [] : [project.caller];
    }
    const role = project.isCurator ? "curator" : "annotator";
    by("who").textContent = `${project.caller ?? "unnamed"}, ${role}`;
    for (const it of document.querySelectorAll("[data-for]")) it.hidden = it.dataset.for !== role;
    fillOrders();
}

async function start() {
    listen();
    try {
        await meet();
    } catch (error) {
        by("who").textContent = project.caller ?? "";
        showTrouble(error);
        return;
    }
    await showView();
}

start();
