"use strict";
// The table of connections, its filters, and the stories. Times are nanoseconds after the moment `zero`.

const data = JSON.parse(document.getElementById("data").textContent);
const zero = BigInt(data.zero), SECOND = 1e9;
const BROKEN = 0, REFUSED = 1, BROKEN_ANYWAY = 2, REFUSED_ANYWAY = 3, FORWARDED = 4, OPEN = 5;
const OUTCOMES = [
  "broken", "refused", "broken without the changes too", "refused without the changes too", "whole, forwarded", "whole", "whole",
];
const ENDS = { open: "open", fin: "FIN", rst: "RST", close: "closed by the script" };
// How many rows the table has at once, on the screen and on paper.
const PAGE = 25, MOST_PRINTED = 100;

const connections = data.connections.map((row, number) => {
  const [client, service, server, opened, last, ended, kind, forward, wait, at, verdict, cause, losing] = row;
  return { number, client, service: data.services[service], server, opened, last, ended, kind, forward, wait, at, verdict, cause, losing };
});

const byId = (id) => document.getElementById(id);

function element(name, properties = {}, ...children) {
  const made = Object.assign(document.createElement(name), properties);
  made.append(...children);
  return made;
}

const count = (number) => number.toLocaleString("en-US");
const plural = (number, word) => `${count(number)} ${word}${number === 1 ? "" : "s"}`;

// A time of day in UTC; the last digit is rounded down.
function clock(time, digits = 3) {
  const moment = zero + BigInt(Math.round(time));
  const text = new Date(Number(moment / 1000000n)).toISOString().slice(11, 19);
  return digits ? `${text}.${(moment % 1000000000n).toString().padStart(9, "0").slice(0, digits)}` : text;
}

// A wait in seconds, to milliseconds, rounded up.
const seconds = (wait) => `${(Math.ceil(wait / 1e6) / 1e3).toString()} s`;

function address(client) {
  const [host, port] = client.split(":");
  return host.split(".").reduce((sum, part) => sum * 256 + Number(part), 0) * 65536 + Number(port);
}

const colourClass = (server) => (server === null ? "none" : `s${(server - 1) % 12}`);

function shape(name, attributes, text) {
  const made = document.createElementNS("http://www.w3.org/2000/svg", name);
  for (const [key, value] of Object.entries(attributes)) made.setAttribute(key, value);
  if (text !== undefined) made.textContent = text;
  return made;
}

function dot(server) {
  const picture = shape("svg", { width: 10, height: 10, "aria-hidden": "true" });
  picture.append(shape("rect", { width: 10, height: 10, rx: 3, class: colourClass(server) }));
  return picture;
}

// THE TABLE

const COLUMNS = [
  {
    name: "Client", value: (it) => address(it.client), style: "client",
    cell: (it) => element("button", { type: "button", textContent: it.client }),
  },
  { name: "Service", value: (it) => address(it.service), cell: (it) => it.service, isLeftOut: data.services.length < 2 },
  { name: "Server", value: (it) => it.server ?? -1, cell: (it) => element("span", {}, dot(it.server), ` ${it.server ?? "none"}`) },
  { name: "Outcome", value: (it) => it.kind, cell: (it) => OUTCOMES[it.kind], style: (it) => (it.kind < FORWARDED ? "wrong" : "") },
  { name: "At (UTC)", value: (it) => it.at ?? Infinity, cell: (it) => (it.at === undefined ? "" : clock(it.at)) },
  { name: "Cause", value: (it) => it.cause ?? "~", cell: (it) => it.cause ?? "" },
  { name: "Loses data", value: (it) => (it.losing ? 0 : 1), cell: (it) => (it.losing ? "yes" : "") },
  { name: "Forwarded for", value: (it) => -(it.wait ?? -1), cell: (it) => (it.wait == null ? "" : seconds(it.wait)), style: "right" },
  { name: "Lived", value: (it) => it.opened - it.last, cell: (it) => seconds(it.last - it.opened), style: "right" },
  { name: "End", value: (it) => it.ended, cell: (it) => ENDS[it.ended] },
].filter((it) => !it.isLeftOut);

const SHOWS = [
  ["changes", "broken or refused by the changes", (it) => it.kind <= REFUSED],
  ["anyway", "broken or refused without the changes too", (it) => it.kind === BROKEN_ANYWAY || it.kind === REFUSED_ANYWAY],
  ["forwarded", "kept by packets that were forwarded", (it) => it.kind === FORWARDED],
  ["all", "all", () => true],
];

const table = {
  show: "changes", server: "", cause: "", client: "",
  column: COLUMNS.findIndex((it) => it.name === "At (UTC)"), isDown: false, page: 0, size: PAGE,
  rows: [], chosen: null, whenShown: [],
};

function matches(it) {
  return (
    SHOWS.find(([name]) => name === table.show)[2](it) &&
    (!table.server || String(it.server ?? "none") === table.server) &&
    (!table.cause || it.cause === table.cause) &&
    it.client.includes(table.client)
  );
}

function sorted(rows) {
  const { value } = COLUMNS[table.column], sign = table.isDown ? -1 : 1;
  const keyed = rows.map((it) => [value(it), it]);
  keyed.sort(([a, one], [b, other]) => (a < b ? -sign : a > b ? sign : one.number - other.number));
  return keyed.map(([, it]) => it);
}

function fillOptions(select, options) {
  select.replaceChildren(...options.map(([value, text]) => element("option", { value, textContent: text })));
}

function counted(rows, key) {
  const counts = new Map();
  for (const it of rows) counts.set(key(it), (counts.get(key(it)) ?? 0) + 1);
  return counts;
}

function fillFilters() {
  fillOptions(byId("show"), SHOWS.map(([name, text, has]) => [name, `${text} (${count(connections.filter(has).length)})`]));
  const servers = [...counted(connections, (it) => it.server ?? "none")].sort(([a], [b]) => (a === "none") - (b === "none") || a - b);
  fillOptions(byId("server"), [["", "any"], ...servers.map(([server]) => [String(server), String(server)])]);
  const causes = [...counted(connections.filter((it) => it.cause), (it) => it.cause)].sort();
  fillOptions(byId("cause"), [["", "any"], ...causes.map(([cause, number]) => [cause, `${cause} (${count(number)})`])]);
}

function headCell(column, number) {
  const isSorted = number === table.column;
  const button = element("button", { type: "button", textContent: column.name + (isSorted ? (table.isDown ? " ▾" : " ▴") : "") });
  button.addEventListener("click", () => sortBy(number));
  const cell = element("th", { scope: "col", className: column.style === "right" ? "right" : "" }, button);
  cell.setAttribute("aria-sort", isSorted ? (table.isDown ? "descending" : "ascending") : "none");
  return cell;
}

function sortBy(number) {
  table.isDown = number === table.column && !table.isDown;
  table.column = number;
  showTable();
  byId("table").tHead.rows[0].cells[number].firstChild.focus();
}

function bodyRow(it) {
  const styleOf = (style) => (typeof style === "function" ? style(it) : style) ?? "";
  const cells = COLUMNS.map(({ cell, style }) => element("td", { className: styleOf(style) }, cell(it)));
  const row = element("tr", { className: it === table.chosen ? "chosen" : "" }, ...cells);
  row.addEventListener("click", () => tell(it));
  return row;
}

function showTable(page = 0) {
  table.rows = sorted(connections.filter(matches));
  table.page = page;
  const begin = page * table.size, end = Math.min(begin + table.size, table.rows.length);
  byId("table").tHead.replaceChildren(element("tr", {}, ...COLUMNS.map(headCell)));
  byId("table").tBodies[0].replaceChildren(...table.rows.slice(begin, end).map(bodyRow));
  const left = data.left.reduce((sum, number) => sum + number, 0);
  byId("count").textContent = `${plural(table.rows.length, "connection")} of ${count(connections.length)}` +
    (left ? `; ${count(left)} more of the captures aren't in this page` : "");
  byId("pages").hidden = table.rows.length <= table.size;
  byId("page").textContent = `${count(begin + 1)} to ${count(end)} of ${count(table.rows.length)}`;
  byId("back").disabled = page === 0;
  byId("next").disabled = end === table.rows.length;
  for (const call of table.whenShown) call();
}

function setUpTable() {
  fillFilters();
  const usual = connections.some(SHOWS[0][2]) ? "changes" : "all";
  const read = () => {
    for (const name of ["show", "server", "cause"]) table[name] = byId(name).value;
    table.client = byId("client").value.trim();
    showTable();
  };
  const clear = () => {
    for (const name of ["server", "cause", "client"]) byId(name).value = "";
    byId("show").value = usual;
    read();
  };
  byId("filters").addEventListener("input", read);
  byId("filters").addEventListener("submit", (event) => event.preventDefault());
  byId("filters").addEventListener("reset", (event) => { event.preventDefault(); clear(); });
  byId("back").addEventListener("click", () => showTable(table.page - 1));
  byId("next").addEventListener("click", () => showTable(table.page + 1));
  byId("connections").hidden = false;
  clear();
}

// STORIES

const STORY = /^story (\S+)(?: flags(.*?) length (\d+))? \d+ (.*)$/;
const VERDICTS = {
  accept: "accepts it", process: "processes it:", forward: "forwards it to server", reset: "resets it:", drop: "drops it:",
};
const UNTOLD = "Its story isn't in this page. The command under “What was run” makes a page with it, given another file and these words:";
const COUNTED = "Packets are counted in the capture that was replayed; times are seconds after its beginning.";
const HOPS = { direct: "", chained: ", forwarded once,", twice: ", forwarded twice," };

function changeWords(version) {
  const change = data.changes[version - 1];
  return change ? `change ${version}: ${change.words}` : `change ${version}`;
}

// What an event's line says: its packet, its words, and whether it is of a change, of a sending, or bad.
function eventWords(line) {
  const words = line.split(" ");
  if (words[0] === "publish") return ["", `${changeWords(words[1])} moves the bucket`, "change"];
  if (words[0] === "switch") return ["", `mux ${words[1]} begins to use change ${words[2]}`, "change"];
  if (words[0] === "steer") return [words[1], `mux ${words[2]} steers it, bucket ${words[4]}`, "sent"];
  if (words[0] === "lost") return [words[1], "it is lost", "wrong"];
  if (words[0] !== "arrive") return ["", line, "change"];
  const [, packet, hop, server, verdict, ...rest] = words;
  const told = VERDICTS[verdict];
  const bad = verdict === "reset" || verdict === "drop" || rest.includes("because");
  return [packet, `server ${server}${HOPS[hop] ?? ""} ${[told ?? verdict, ...rest].join(" ")}`, bad ? "wrong" : ""];
}

function storyRow(line) {
  const [, time, flags, length, event] = line.match(STORY);
  const [packet, words, style] = eventWords(event);
  const segment = flags === undefined ? "" : `${flags.trim()}${Number(length) ? ` +${length}` : ""}`;
  const cells = [clock(Number(time.replace(".", "")), 6), packet, segment, words];
  return element("tr", { className: style }, ...cells.map((text) => element("td", { textContent: text })));
}

function storyParts(it) {
  const text = data.stories[`${it.client} ${it.service}`];
  if (text === undefined) {
    return [
      element("p", { textContent: UNTOLD }),
      element("pre", { textContent: `--story ${it.client}` }),
    ];
  }
  const lines = text.split("\n").filter((line) => line.startsWith("story "));
  const names = ["Time (UTC)", "Packet", "Segment", "What happens"];
  const head = element("tr", {}, ...names.map((name) => element("th", { scope: "col", textContent: name })));
  const events = element("table", {}, element("thead", {}, head), element("tbody", {}, ...lines.map(storyRow)));
  return [
    element("div", { className: "scroll" }, events),
    element("details", {},
      element("summary", { textContent: "The lines of beamer-connections" }),
      element("p", { className: "quiet", textContent: COUNTED }),
      element("pre", { id: "lines", textContent: text })),
  ];
}

function outcome(it) {
  if (it.kind >= FORWARDED) return OUTCOMES[it.kind];
  return `${OUTCOMES[it.kind]} at ${clock(it.at)}: ${it.verdict}, ${it.cause}${it.losing ? "; it loses data" : ""}`;
}

function facts(it) {
  const rows = [
    ["Service", it.service],
    ["Server", it.server ?? "none accepted it"],
    ["Outcome", outcome(it)],
    ["First packet", `${clock(it.opened, 6)} UTC`],
    ["Last packet", `${clock(it.last, 6)} UTC, ${seconds(it.last - it.opened)} later`],
    ["End", ENDS[it.ended]],
  ];
  const after = it.wait != null && `${clock(it.forward)} UTC, ${seconds(it.wait)} after its bucket had left the old server`;
  if (after) rows.push(["Last forward", after]);
  const pair = ([name, value]) => [element("dt", { textContent: name }), element("dd", { textContent: value })];
  return element("dl", { className: "facts" }, ...rows.flatMap(pair));
}

let opener = null;

function tell(it) {
  opener = document.activeElement;
  table.chosen = it;
  byId("story-title").textContent = `Connection of ${it.client}`;
  const body = byId("story").querySelector(".body");
  body.replaceChildren(facts(it), ...storyParts(it));
  body.scrollTop = 0;
  byId("story").hidden = false;
  byId("close").focus();
  const begin = table.page * table.size;
  [...byId("table").tBodies[0].rows].forEach((row, at) => row.classList.toggle("chosen", table.rows[begin + at] === it));
  for (const call of table.whenShown) call();
}

function closeStory() {
  if (byId("story").hidden) return;
  byId("story").hidden = true;
  opener?.focus();
}

byId("close").addEventListener("click", closeStory);
document.addEventListener("keydown", (event) => { if (event.key === "Escape") closeStory(); });
