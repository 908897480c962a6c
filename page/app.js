// The operator's page: asks the API for what changed, keeps the vehicles, and shows them. All texts go in by textContent.
import { FleetMap } from "./map.js";
import { WORDS } from "./words.js";

const POLL = 2000, SLOWEST = 30000, QUIET_AFTER = 300, DRIVES = 3, ROW = 54, API = "/api/v1";
const $ = (id) => document.getElementById(id);
const gbk = new TextDecoder("gbk");
const store = { get: (name) => localStorage.getItem("dewfelt." + name), set: (name, value) => localStorage.setItem("dewfelt." + name, value) };

const page = {
  language: store.get("language") ?? (navigator.language.startsWith("zh") ? "zh" : "en"), theme: store.get("theme") ?? "system",
  vehicles: new Map(), list: [], order: [], filter: "all", search: "", sort: "plate", chosen: null, tab: "now", panel: null, follow: false,
  cursor: "", has: [], now: "", wait: POLL, answered: Date.now(), access: "read", limits: {}, listen: "", fences: [], fencesTag: "", fencesSeen: "", alarmsLast: 0, alarmsRead: Number(store.get("alarms") ?? 0), alarms: [],
  strangers: 0, track: null, playing: false, edited: null,
};
let token = sessionStorage.getItem("dewfelt.token") ?? "";

// Whether the server has a part of the interface: it lists those that it has.
const has = (part) => page.has.includes(part);

// ---- texts and small pieces of the page

function say(name, put = {}) {
  const text = WORDS[page.language][name] ?? WORDS.en[name] ?? name;
  return text.replace(/\{(\w+)\}/g, (_, it) => put[it] ?? "");
}

function h(tag, told = {}, ...parts) {
  const it = document.createElement(tag);
  for (const [name, value] of Object.entries(told)) {
    if (value === undefined || value === null || value === false) continue;
    if (name.startsWith("on")) it.addEventListener(name.slice(2), value);
    else if (name === "text") it.textContent = value;
    else if (name in it && name !== "list" && typeof value !== "string") it[name] = value;
    else it.setAttribute(name, value === true ? "" : value);
  }
  it.append(...parts.flat(Infinity).filter((part) => part !== null && part !== undefined && part !== false));
  return it;
}

const SHAPES = { moving: "M12 1l8 21-8-4-8 4z", standing: "M4 4h16v16H4z", quiet: "M12 2l10 10-10 10L2 12z", away: "M12 5a7 7 0 1 0 0 14 7 7 0 0 0 0-14z", never: "M12 5a7 7 0 1 0 0 14 7 7 0 0 0 0-14z" };
function mark(state, alarm, turn = 0) {
  const svg = document.createElementNS("http://www.w3.org/2000/svg", "svg"), path = document.createElementNS("http://www.w3.org/2000/svg", "path");
  svg.setAttribute("viewBox", "0 0 24 24");
  path.setAttribute("d", SHAPES[state]);
  if (state === "moving") path.setAttribute("transform", `rotate(${turn} 12 12)`);
  svg.append(path);
  return h("span", { class: `mark ${state}${alarm ? " alarm" : ""}` }, svg);
}

function toast(text) {
  const it = h("div", { class: "toast", text });
  $("toasts").append(it);
  setTimeout(() => it.remove(), 3500);
}

// Times are shown as the platform writes them, in GMT+8, whatever the zone of this machine is.
const clockOf = (iso) => (iso ? iso.slice(11, 19) : "-");
const dayOf = (iso) => iso.slice(0, 10);
const seconds = (iso) => Date.parse(iso) / 1000;
const isoAt = (s) => new Date((s + 8 * 3600) * 1000).toISOString().slice(0, 19) + "+08:00";
function ago(iso) {
  if (!iso) return "-";
  const s = Math.round(seconds(page.now) - seconds(iso));
  if (s < -60) return say("in_future");
  if (s < 90) return say("ago_s", { n: Math.max(0, s) });
  if (s < 5400) return say("ago_m", { n: Math.round(s / 60) });
  if (s < 172800) return say("ago_h", { n: Math.round(s / 3600) });
  return say("ago_d", { n: Math.round(s / 86400) });
}
function long(s) {
  const m = Math.round(s / 60);
  return m < 60 ? say("long_m", { n: m }) : say("long_h", { h: Math.floor(m / 60), m: String(m % 60).padStart(2, "0") });
}
const octets = (hex) => Uint8Array.from(hex.match(/../g) ?? [], (it) => parseInt(it, 16));
const hex = (bytes) => Array.from(bytes, (it) => it.toString(16).padStart(2, "0")).join("");

// GBK from text: browsers only read it, so the table is made by reading every pair once.
let gbkTable = null;
function toGbk(text) {
  if (!gbkTable) {
    gbkTable = new Map();
    const pair = new Uint8Array(2), strict = new TextDecoder("gbk", { fatal: true });
    for (let a = 0x81; a <= 0xfe; a++) for (let b = 0x40; b <= 0xfe; b++) {
      if (b === 0x7f) continue;
      pair[0] = a; pair[1] = b;
      try { const c = strict.decode(pair); if ([...c].length === 1 && !gbkTable.has(c)) gbkTable.set(c, [a, b]); } catch { /* no character */ }
    }
  }
  const found = [];
  for (const c of text) {
    if (c.charCodeAt(0) < 0x80) found.push(c.charCodeAt(0));
    else if (gbkTable.has(c)) found.push(...gbkTable.get(c));
    else return { bad: c };
  }
  return { octets: found };
}

// ---- the API

class Refused extends Error {
  constructor(status, told) { super(told?.detail ?? `HTTP ${status}`); this.status = status; this.told = told; }
}

async function call(method, path, { body, headers = {}, raw } = {}) {
  const answer = await fetch(path, {
    method, cache: "no-store", headers: { ...(token ? { Authorization: `Bearer ${token}` } : {}), ...(body ? { "Content-Type": "application/json" } : {}), ...headers },
    body: body && JSON.stringify(body),
  });
  if (answer.status === 401) { askToken(token !== ""); throw new Refused(401); }
  if (!answer.ok && answer.status !== 304) throw new Refused(answer.status, await answer.json().catch(() => null));
  return raw ? answer : answer.status === 204 || answer.status === 304 ? null : answer.json();
}

let asking = false;
function askToken(wrong) {
  if (asking) return;
  asking = true;
  const input = h("input", { type: "password", autocomplete: "off", required: true, id: "token-input" });
  const form = h("form", { method: "dialog", onsubmit: () => { token = input.value.trim(); sessionStorage.setItem("dewfelt.token", token); asking = false; $("ask").close(); begin(); } },
    h("h2", { text: say("denied") }), wrong && h("p", { class: "wrong", text: say("token_wrong") }), h("p", { text: say("token_text") }), input, h("button", { class: "primary", text: say("enter") }));
  $("ask").replaceChildren(form);
  $("ask").oncancel = (e) => e.preventDefault();
  $("ask").showModal();
  input.focus();
}

let timer = null;
async function poll() {
  clearTimeout(timer);
  if (asking) return;
  try {
    for (let more = true; more;) {
      const told = await call("GET", `${API}/changes?since=${page.cursor}`);
      take(told);
      more = told.more;
    }
    page.wait = POLL;
    page.answered = Date.now();
    $("notice").hidden = true;
    if (page.fencesTag && page.fencesSeen !== page.fencesTag) await readFences();
  } catch (why) {
    if (why.status === 401) return;
    page.wait = Math.min(SLOWEST, page.wait * 1.7);
    const old = Math.round((Date.now() - page.answered) / 1000);
    $("notice").textContent = old > 10 ? `${say("lost_since", { t: old < 90 ? old + " s" : Math.round(old / 60) + " min" })} ${say("lost")}` : say("lost");
    $("notice").hidden = false;
  }
  timer = setTimeout(poll, document.hidden ? Math.max(page.wait, 15000) : page.wait);
}

function take(told) {
  page.cursor = told.cursor;
  page.now = told.now;
  if (told.full) page.fresh = new Set();
  const at = Object.fromEntries(told.columns.map((name, i) => [name, i]));
  let newcomers = false;
  for (const row of told.vehicles) {
    const phone = row[at.phone];
    let v = page.vehicles.get(phone);
    if (!v) { v = { phone, state: "never", x: null, y: null, direction: 0, alarm: false }; page.vehicles.set(phone, v); newcomers = true; }
    page.fresh?.add(phone);
    const plate = v.plate_octets, terminal = v.terminal;
    for (const name in at) v[name] = row[at[name]];
    if (v.key === undefined || v.plate_octets !== plate || v.terminal !== terminal) {
      v.plate = v.plate_octets ? gbk.decode(octets(v.plate_octets)) : "";
      v.key = `${v.plate} ${phone} ${v.terminal ?? ""}`.toLowerCase();
      page.byPlate = null;
    }
    v.speed = v.speed_kmh ?? 0;
    v.alarm = (v.alarm ?? 0) !== 0;
    v.direction ??= 0;
    v.since = v.time ? seconds(v.time) : 0;
    // A fix of a terminal that did not know where it was is no place: what was shown stays.
    if (v.latitude !== null && v.latitude !== undefined && v.status & 2) { [v.x, v.y] = map.project(v.longitude, v.latitude); v.place = `${v.latitude.toFixed(6)}, ${v.longitude.toFixed(6)}`; }
  }
  if (!told.more && page.fresh) {
    for (const phone of page.vehicles.keys()) if (!page.fresh.has(phone)) { page.vehicles.delete(phone); newcomers = true; page.byPlate = null; }
    page.fresh = null;
  }
  const now = seconds(page.now);
  for (const v of page.vehicles.values()) v.state = v.x === null ? "never" : v.link !== "open" ? "away" : now - v.since > QUIET_AFTER ? "quiet" : v.speed >= DRIVES ? "moving" : "standing";
  page.fencesTag = told.fences_etag;
  page.strangers = told.strangers;
  if (told.alarms_last !== page.alarmsLast) { page.alarmsLast = told.alarms_last; if (page.panel === "alarms") readAlarms(); }
  if (newcomers) map.vehicles = [...page.vehicles.values()];
  if (page.chosen && !page.vehicles.has(page.chosen.phone)) choose(null);
  if (told.more) return;
  arrange();
  if (page.follow && page.chosen?.x !== null && !page.track) map.center(page.chosen.x, page.chosen.y);
  if (newcomers && !page.fitted && map.vehicles.some((v) => v.x !== null)) { page.fitted = true; showAll(); }
  if (page.chosen && page.panel === "vehicle" && page.tab === "now" && !page.held) showVehicle();
  if (page.chosen && page.panel === "vehicle" && page.tab === "orders" && page.chosen.orders_open !== page.ordersOpen) { page.ordersOpen = page.chosen.orders_open; readOrders(); }
  map.draw();
}

// ---- the list

const FILTERS = ["all", "moving", "standing", "quiet", "away", "never", "alarm"], chips = {};
function makeChip(filter) {
  const it = { name: h("span"), count: h("b") };
  it.root = h("button", { class: "chip", "data-filter": filter, onclick: () => { page.filter = page.filter === filter ? "all" : filter; $("list").scrollTop = 0; arrange(); map.draw(); } }, filter !== "all" && filter !== "alarm" && mark(filter), it.name, it.count);
  $("chips").append(it.root);
  return it;
}

function sorted() {
  // By plate the order is kept, since 10,000 texts are dear to compare; numbers are sorted anew.
  const compare = (page.collator ??= new Intl.Collator("zh")).compare;
  page.byPlate ??= [...page.vehicles.values()].sort((a, b) => compare(a.plate || a.phone, b.plate || b.phone));
  if (page.sort === "time") return [...page.byPlate].sort((a, b) => b.since - a.since);
  if (page.sort === "speed") return [...page.byPlate].sort((a, b) => b.speed - a.speed);
  return page.byPlate;
}

function arrange() {
  const counts = { all: 0, moving: 0, standing: 0, quiet: 0, away: 0, never: 0, alarm: 0 }, wanted = page.search.trim().toLowerCase();
  let open = 0;
  page.list = [];
  for (const v of sorted()) {
    if (v.link === "open") open++;
    v.hit = !wanted || v.key.includes(wanted);
    if (!v.hit) continue;
    counts.all++; counts[v.state]++;
    if (v.alarm) counts.alarm++;
    v.kept = page.filter === "all" || v.state === page.filter || (page.filter === "alarm" && v.alarm);
    if (v.kept) page.list.push(v);
  }
  for (const it of FILTERS) {
    const chip = (chips[it] ??= makeChip(it)), tip = say(it + "_tip");
    chip.root.hidden = it !== "all" && !counts[it] && page.filter !== it;
    chip.root.setAttribute("aria-pressed", String(page.filter === it));
    chip.root.title = tip === it + "_tip" ? "" : tip;
    chip.name.textContent = say(it);
    chip.count.textContent = counts[it];
  }
  $("summary").textContent = say("over_all", { open, all: page.vehicles.size });
  $("clock").textContent = page.now ? `${dayOf(page.now)} ${clockOf(page.now)}` : "";
  const unread = Math.max(0, page.alarmsLast - page.alarmsRead);
  for (const badge of document.querySelectorAll("#b-alarms .badge, #tabs [data-to=alarms] .badge")) { badge.hidden = !unread; badge.textContent = unread > 99 ? "99+" : unread; }
  for (const badge of document.querySelectorAll("#b-newcomers .badge, #tabs [data-to=more] .badge")) { badge.hidden = !page.strangers; badge.textContent = page.strangers; }
  const empty = $("list-empty");
  empty.hidden = page.list.length > 0;
  $("list").hidden = !page.list.length;
  if (!page.list.length && page.now) empty.replaceChildren(...(page.vehicles.size ? [say("none_found")] : [h("b", { text: say("empty_title") }), ...say("empty_text", { port: page.listen.split(":").pop() }).split("`").map((it, i) => (i % 2 ? h("code", { text: it }) : it))]));
  showRows();
}

const rows = [];
function showRows() {
  const box = $("list"), first = Math.max(0, Math.floor(box.scrollTop / ROW) - 3), count = Math.ceil(box.clientHeight / ROW) + 6;
  $("list-space").style.height = page.list.length * ROW + "px";
  $("list-rows").style.top = first * ROW + "px";
  // The rows are kept and written over, so that a press which began before an answer came still ends on its row.
  const part = page.list.slice(first, first + count);
  while (rows.length < part.length) {
    const it = { mark: mark("away"), name: h("div", { class: "name" }), under: h("div", { class: "under" }), value: h("span"), small: h("small") };
    it.root = h("div", { class: "row", role: "option" }, it.mark, h("div", {}, it.name, it.under), h("div", { class: "value" }, it.value, it.small));
    rows.push(it);
    $("list-rows").append(it.root);
  }
  rows.forEach((it, i) => {
    const v = part[i];
    it.root.hidden = !v;
    if (!v) return;
    it.root.dataset.phone = v.phone;
    it.root.setAttribute("aria-selected", String(v === page.chosen));
    it.root.id = "row-" + v.phone;
    const shape = `mark ${v.state}${v.alarm ? " alarm" : ""}`, path = it.mark.querySelector("path");
    if (it.mark.className !== shape) { it.mark.className = shape; path.setAttribute("d", SHAPES[v.state]); }
    path.setAttribute("transform", v.state === "moving" ? `rotate(${v.direction} 12 12)` : "");
    it.name.textContent = v.plate || say("no_plate");
    it.under.title = it.under.textContent = v.state === "away" ? `${v.phone} · ${v.last_end ? say("why_" + v.last_end) : say("not_connected")}` : v.phone;
    it.value.textContent = v.state === "moving" ? say("at_speed", { n: Math.round(v.speed) }) : say(v.state);
    it.small.textContent = v.state === "never" ? "" : ago(v.state === "away" ? v.heard_at ?? v.time : v.time);
  });
  if (page.chosen) $("list").setAttribute("aria-activedescendant", "row-" + page.chosen.phone); else $("list").removeAttribute("aria-activedescendant");
}

function choose(v, go) {
  if (v !== page.chosen) { stopTrack(); page.ordersOpen = undefined; }
  page.chosen = map.chosen = v;
  if (!v) { page.follow = false; if (page.panel === "vehicle") closePanel(); } else {
    page.panel = "vehicle";
    if (window.innerWidth <= 760) setView("map");
    showVehicle();
    if (page.tab === "day") readTrack();
    if (page.tab === "orders") readOrders();
    if (go && v.x !== null) { inset(); map.center(v.x, v.y, 11); }
  }
  pressed();
  showRows();
  map.draw();
}

function step(by) {
  const at = page.list.indexOf(page.chosen), next = page.list[Math.max(0, Math.min(page.list.length - 1, at + by))];
  if (!next) return;
  choose(next, true);
  const top = page.list.indexOf(next) * ROW, box = $("list");
  if (top < box.scrollTop) box.scrollTop = top;
  if (top + ROW > box.scrollTop + box.clientHeight) box.scrollTop = top + ROW - box.clientHeight;
  showRows();
}

// ---- the panel at the side

function panel(title, parts, more = []) {
  const top = $("detail").scrollTop, hands = () => [...$("detail").querySelectorAll("button, input, select, textarea")], had = hands().indexOf(document.activeElement);
  $("detail").hidden = false;
  $("detail").replaceChildren(h("div", { class: "head" }, title, h("button", { class: "x", "aria-label": say("close"), title: say("close"), text: "×", onclick: closePanel })), ...more, h("div", { class: "body" }, parts));
  $("detail").scrollTop = top;
  if (had >= 0) hands()[had]?.focus({ preventScroll: true });
  inset();
}

function closePanel() {
  $("detail").hidden = true;
  if (page.panel === "vehicle") { stopTrack(); page.chosen = map.chosen = null; page.follow = false; }
  page.panel = null;
  if (document.body.dataset.view === "panel") setView("map");
  pressed(); inset(); showRows(); map.draw();
}

function inset() {
  const phone = window.innerWidth <= 760, box = $("detail");
  map.inset = { left: 0, right: 0, top: phone && page.track ? 60 : 0, bottom: phone && !box.hidden && document.body.dataset.view === "map" ? box.offsetHeight : page.track && !phone ? 88 : 0 };
}

function pressed() {
  for (const name of ["alarms", "fences", "newcomers"]) $("b-" + name).setAttribute("aria-pressed", String(page.panel === name));
  const view = document.body.dataset.view;
  for (const it of document.querySelectorAll("#tabs button")) it.setAttribute("aria-current", String(view === "panel" ? (it.dataset.to === "alarms") === (page.panel === "alarms") && ["alarms", "more"].includes(it.dataset.to) : it.dataset.to === view));
}

function setView(view) { document.body.dataset.view = view; pressed(); if (view === "vehicles") showRows(); }

function openPanel(name) {
  if (page.panel === name) return closePanel();
  if (["alarms", "fences"].includes(name) && !has(name)) return;
  stopTrack();
  page.chosen = map.chosen = null;
  page.panel = name;
  if (window.innerWidth <= 760) setView("panel");
  ({ alarms: readAlarms, fences: showFences, newcomers: showNewcomers, more: showMore })[name]();
  pressed(); showRows(); map.draw();
}

const line = (name, value) => (value === null || value === undefined || value === "" ? [] : [h("dt", { text: say(name) }), h("dd", {}, value)]);

function showVehicle() {
  const v = page.chosen;
  const parts = ["now", has("track") && "day", has("orders") && "orders"].filter(Boolean);
  const tabs = h("div", { class: "subtabs", role: "tablist", hidden: parts.length < 2 }, parts.map((it) => h("button", { role: "tab", "aria-selected": String(page.tab === it), "data-tab": it, text: say(it), onclick: () => {
    if (page.tab !== it) { page.tab = it; if (it !== "day") stopTrack(); }
    if (it === "day") readTrack(); else if (it === "orders") { page.ordersOpen = v.orders_open; readOrders(); }
    showVehicle();
    if (window.innerWidth <= 760 && it !== "day" && v.x !== null) { inset(); map.center(v.x, v.y); }
  } })));
  const title = [mark(v.state, v.alarm, v.direction), h("h2", { text: v.plate || v.phone })];
  if (page.tab === "day") return panel(title, dayParts(v), [tabs]);
  if (page.tab === "orders") { if (!$("order-form") || $("order-form").dataset.phone !== v.phone) panel(title, orderParts(v), [tabs]); return; }
  const arrow = mark("moving", false, v.direction);
  arrow.className = "compass " + v.state;
  const state = h("div", { class: "state " + v.state }, say(v.state), h("small", { text: ago(v.state === "away" ? v.heard_at ?? v.time : v.time) }));
  panel(title, [
    v.x === null ? h("p", { class: "hint", text: say("never_tip") }) : h("div", { class: "big" }, arrow, h("div", { class: "speed" }, String(Math.round(v.speed)), h("small", { text: "km/h" })), state),
    h("div", { class: "buttons" }, v.x !== null && h("button", { class: "plain", id: "b-follow", text: say(page.follow ? "unfollow" : "follow"), onclick: () => { page.follow = !page.follow; if (page.follow) map.center(v.x, v.y, 13); showVehicle(); } }),
      v.x !== null && h("button", { class: "plain", text: say("center"), onclick: () => map.center(v.x, v.y, 15) }),
      v.x !== null && h("button", { class: "plain", text: say("copy"), title: say("position"), onclick: () => copy(v.place) })),
    h("dl", {},
      line("last_fix", v.time && `${v.time.slice(0, 10) === dayOf(page.now) ? "" : v.time.slice(0, 10) + " "}${clockOf(v.time)}`), line("last_heard", v.heard_at && ago(v.heard_at)),
      line("connection", v.link === "open" ? say("connected") : v.last_end ? `${say("why_" + v.last_end)}, ${ago(v.last_end_at)}` : say("not_connected")),
      line("position", v.x !== null ? v.place : null), line("direction", v.x !== null ? `${v.direction}°` : null),
      line("altitude", v.altitude_m !== null && v.altitude_m !== undefined ? `${v.altitude_m} m` : null), line("mileage", v.mileage_km !== null && v.mileage_km !== undefined ? `${v.mileage_km.toFixed(1)} km` : null),
      line("status", v.time !== null && v.time !== undefined ? say(v.status & 1 ? "engine_on" : "engine_off") + (v.status & 2 ? "" : ", " + say("not_valid")) : null),
      line("phone", v.phone), line("terminal", v.terminal), line("row", v.number ?? null)),
  ], [tabs]);
}

async function copy(text) {
  try { await navigator.clipboard.writeText(text); toast(say("copied")); } catch { window.prompt(say("copy"), text); }
}

async function save(path, name) {
  try {
    const answer = await call("GET", path, { raw: true }), link = h("a", { href: URL.createObjectURL(await answer.blob()), download: name });
    link.click();
    setTimeout(() => URL.revokeObjectURL(link.href), 10000);
  } catch (why) { toast(say("result_gone", { t: why.message })); }
}

// ---- a day

const rangeOf = (day) => `from=${encodeURIComponent(day + "T00:00:00+08:00")}&to=${encodeURIComponent(day + "T23:59:59+08:00")}`;

async function readTrack() {
  const v = page.chosen, day = page.day ?? dayOf(page.now);
  page.day = day;
  page.reading = true;
  showVehicle();
  try {
    const told = await call("GET", `${API}/vehicles/${v.phone}/track?${rangeOf(day)}`);
    if (page.chosen !== v || page.day !== day || page.tab !== "day") return;
    page.reading = false;
    const places = told.geometry?.coordinates ?? told.properties.points ?? [], p = told.properties;
    if (!places.length) { stopTrack(); showVehicle(); return; }
    const points = places.map((it) => map.project(...it)), times = p.times.map(seconds), base = seconds(day + "T00:00:00+08:00");
    let km = 0, driving = 0, from = null;
    const stays = [];
    for (let i = 0; i < places.length; i++) {
      if (i) {
        const [ax, ay] = places[i - 1], [bx, by] = places[i], f = Math.PI / 180;
        km += 6371 * Math.hypot((by - ay) * f, (bx - ax) * f * Math.cos(ay * f));
        if (p.speeds_kmh[i] >= DRIVES) driving += Math.min(600, times[i] - times[i - 1]);
      }
      const stands = p.speeds_kmh[i] < DRIVES;
      if (stands && from === null) from = i;
      if (from !== null && (!stands || i === places.length - 1)) { if (times[i] - times[from] >= 300) stays.push({ index: from, until: i, from: times[from], to: times[i] }); from = null; }
    }
    page.track = { v, points, times, base, told: p, km, driving, stays, at: times[times.length - 1] - base };
    map.track = { points, stays };
    document.body.classList.add("replaying");
    $("replay").hidden = false;
    showVehicle();
    inset();
    map.fit(points);
    seek(page.track.at);
    profile();
  } catch (why) { page.reading = false; if (why.status !== 401) toast(say("result_gone", { t: why.message })); showVehicle(); }
}

function stopTrack() {
  page.track = map.track = null;
  page.playing = false;
  $("b-play").classList.remove("playing");
  document.body.classList.remove("replaying");
  $("replay").hidden = true;
  map.draw();
}

function dayParts(v) {
  const t = page.track, day = page.day ?? dayOf(page.now);
  const turn = (by) => { page.day = isoAt(seconds(day + "T12:00:00+08:00") + by * 86400).slice(0, 10); readTrack(); };
  return [
    h("div", { class: "buttons" }, h("button", { class: "plain", text: "‹", onclick: () => turn(-1), "aria-label": "-1" }), h("input", { type: "date", value: day, id: "day", max: dayOf(page.now), onchange: (e) => { if (e.target.value) { page.day = e.target.value; readTrack(); } } }), h("button", { class: "plain", text: "›", disabled: day >= dayOf(page.now), onclick: () => turn(1), "aria-label": "+1" })),
    page.reading && !t ? h("p", { class: "hint", text: say("loading") }) : !t ? h("p", { class: "hint", id: "no-track", text: say("no_track") }) : [
      h("p", { id: "track-sum", text: say("track_of", { n: t.points.length, km: t.km.toFixed(1), h: long(t.driving) }) }),
      t.told.more && h("p", { class: "wrong", text: say("more_track") }),
      h("div", { class: "buttons" }, h("span", { class: "hint", text: say("download") }), ["gpx", "csv", "geojson"].map((it) => h("button", { class: "plain", text: it === "geojson" ? "GeoJSON" : it.toUpperCase(), "data-form": it, onclick: () => save(`${API}/vehicles/${v.phone}/track?${rangeOf(day)}&form=${it}`, `${v.plate || v.phone}-${day}.${it}`) }))),
      t.stays.length > 0 && h("div", { class: "items" }, h("h3", { text: say("stays") }), t.stays.map((it) => h("button", { class: "item", onclick: () => { seek(it.from - t.base); const p = t.points[it.index]; inset(); map.center(p[0], p[1], 13); } },
        h("span", { text: `${isoAt(it.from).slice(11, 16)} – ${isoAt(it.to).slice(11, 16)}` }), h("span", { class: "when", text: long(it.to - it.from) })))),
    ],
  ];
}

function seek(at) {
  const t = page.track;
  if (!t) return;
  t.at = Math.max(0, Math.min(86399, at));
  const when = t.base + t.at;
  let low = 0, high = t.times.length;
  while (low < high) { const mid = (low + high) >> 1; t.times[mid] <= when ? (low = mid + 1) : (high = mid); }
  const i = Math.max(0, low - 1), j = Math.min(i + 1, t.times.length - 1), gap = t.times[j] - t.times[i], part = gap > 0 && gap <= 180 ? Math.max(0, Math.min(1, (when - t.times[i]) / gap)) : 0;
  map.track.at = i;
  map.track.mark = { x: t.points[i][0] + (t.points[j][0] - t.points[i][0]) * part, y: t.points[i][1] + (t.points[j][1] - t.points[i][1]) * part, direction: t.told.directions[i], speed: t.told.speeds_kmh[i] };
  $("slider").value = t.at;
  $("replay-time").textContent = isoAt(when).slice(11, 19);
  $("replay-speed").textContent = when < t.times[0] || when > t.times[t.times.length - 1] + 180 ? "–" : `${Math.round(t.told.speeds_kmh[i])} km/h`;
  map.draw();
}

function profile() {
  const t = page.track, c = $("profile"), box = c.getBoundingClientRect(), r = Math.min(devicePixelRatio || 1, 2), style = getComputedStyle(document.documentElement), g = c.getContext("2d");
  c.width = box.width * r; c.height = box.height * r;
  g.setTransform(r, 0, 0, r, 0, 0);
  const most = Math.max(40, ...t.told.speeds_kmh), x = (s) => 8 + ((box.width - 16) * s) / 86400, y = (v) => box.height - 12 - (v / most) * (box.height - 16);
  g.strokeStyle = style.getPropertyValue("--line"); g.fillStyle = style.getPropertyValue("--ink-2"); g.font = "9px system-ui"; g.textAlign = "center";
  for (let hour = 0; hour <= 24; hour += 3) { g.beginPath(); g.moveTo(x(hour * 3600), 2); g.lineTo(x(hour * 3600), box.height - 12); g.stroke(); if (box.width > 420 || hour % 6 === 0) g.fillText(String(hour), Math.max(8, Math.min(box.width - 8, x(hour * 3600))), 9); }
  g.beginPath(); g.moveTo(x(t.times[0] - t.base), y(0));
  t.times.forEach((s, i) => g.lineTo(x(s - t.base), y(t.told.speeds_kmh[i])));
  g.lineTo(x(t.times[t.times.length - 1] - t.base), y(0)); g.closePath();
  g.fillStyle = style.getPropertyValue("--track"); g.globalAlpha = 0.55; g.fill(); g.globalAlpha = 1;
}

let last = 0;
function playing(now) {
  if (!page.playing || !page.track) return;
  seek(page.track.at + ((now - last) / 1000) * Number($("pace").value));
  last = now;
  if (page.track.at >= page.track.times[page.track.times.length - 1] - page.track.base) return play(false);
  requestAnimationFrame(playing);
}

function play(on = !page.playing) {
  if (!page.track) return;
  if (on && page.track.at >= page.track.times[page.track.times.length - 1] - page.track.base) seek(page.track.times[0] - page.track.base);
  page.playing = on;
  $("b-play").classList.toggle("playing", on);
  $("b-play").title = say(on ? "pause" : "play");
  last = performance.now();
  if (on) requestAnimationFrame(playing);
}

// ---- orders

function orderParts(v) {
  if (page.access !== "operate") return [h("p", { class: "hint", text: say("may_look") }), h("div", { id: "orders", class: "items" })];
  const text = h("textarea", { id: "order-text", maxlength: 1000, placeholder: say("text") }), left = h("p", { class: "hint" }), flags = [["show", 4], ["speak", 8], ["urgent", 1]].map(([name, bit]) => [h("input", { type: "checkbox", checked: name === "show", value: bit }), name]);
  const room = () => { const made = toGbk(text.value), n = (page.limits.order ?? 1023) - 1 - (made.octets?.length ?? 0); left.textContent = made.bad ? say("not_gbk", { c: made.bad }) : n < 0 ? say("text_long") : say("octets_left", { n }); left.className = made.bad || n < 0 ? "wrong" : "hint"; return !made.bad && n >= 0 && text.value ? made.octets : null; };
  text.addEventListener("input", room); room();
  const sends = (build) => async (e) => {
    e.preventDefault();
    const order = build();
    if (!order) return;
    const button = e.target.querySelector("button");
    button.disabled = true;
    try { await call("POST", `${API}/vehicles/${v.phone}/orders`, { body: order, headers: { "Idempotency-Key": crypto.randomUUID() } }); toast(say("ordered")); text.value = ""; room(); readOrders(); }
    catch (why) { if (why.status !== 401) toast(say("result_gone", { t: why.message })); }
    button.disabled = false;
  };
  const every = h("input", { type: "number", min: 5, max: 3600, value: 30 }), pick = h("select", {}, [4, 6, 7, 3, 5].map((n) => h("option", { value: String(n), text: say("control_" + n) }))), four = v.phone.slice(-4), confirm = h("input", { placeholder: four, size: 6, inputmode: "numeric" });
  const sure = h("label", { hidden: true }, h("span", { class: "wrong", text: say("confirm_last", { four }) }), confirm), grave = () => ["3", "5", "7"].includes(pick.value);
  pick.addEventListener("change", () => { sure.hidden = !grave(); });
  return [
    h("form", { class: "box", id: "order-form", "data-phone": v.phone, onsubmit: sends(() => { const made = room(); return made && { kind: "text", flag: flags.reduce((s, [it]) => s + (it.checked ? Number(it.value) : 0), 0), text_octets: hex(made) }; }) },
      h("h3", { text: say("send_text") }), text, h("div", { class: "buttons" }, flags.map(([it, name]) => h("label", {}, it, say(name)))), left, h("button", { class: "primary", id: "b-send", text: say("send") })),
    h("form", { class: "box", onsubmit: sends(() => ({ kind: "parameters", set: { "0x00000029": Number(every.value) } })) }, h("h3", { text: say("set_interval") }), h("label", {}, every, say("seconds"), h("button", { class: "plain", text: say("send") }))),
    h("form", { class: "box", onsubmit: sends(() => (grave() && confirm.value !== four ? (toast(say("confirm_last", { four })), null) : { kind: "control", command: Number(pick.value), ...(grave() ? { confirm: v.phone } : {}) })) }, h("h3", { text: say("control") }), h("label", {}, pick, h("button", { class: "plain", text: say("send") })), sure),
    h("div", { id: "orders", class: "items" }),
  ];
}

function orderText(order) {
  if (order.kind === "text") return gbk.decode(octets(order.body).slice(1));
  if (order.kind === "control") return say("control_" + order.asked.command);
  return Object.entries(order.asked.set ?? {}).map(([name, value]) => (name === "0x00000029" ? `${say("set_interval")} ${value} ${say("seconds")}` : `${name} = ${value}`)).join(", ");
}

async function readOrders() {
  const v = page.chosen;
  showVehicle();
  try {
    const told = await call("GET", `${API}/vehicles/${v.phone}/orders`), box = $("orders");
    if (page.chosen !== v || !box) return;
    box.replaceChildren(...(told.orders.length ? told.orders.map((it) => {
      const state = it.state === "answered" ? "answered_" + Math.min(3, it.result) : it.state === "waiting" && v.link !== "open" ? "waiting_away" : it.state;
      return h("div", { class: "item", "data-order": it.number }, h("span", { text: orderText(it) }), h("span", { class: "when", text: clockOf(it.issued_at) }), h("small", { text: say("order_" + it.kind) }), h("span", { class: `tag ${it.state === "answered" ? (it.result ? "bad" : "ok") : ""}`, text: say(state) }));
    }) : [h("p", { class: "hint", text: say("no_orders") })]));
  } catch (why) { if (why.status !== 401) toast(say("result_gone", { t: why.message })); }
}

// ---- alarms, fences, newcomers, more

async function readAlarms(before) {
  try {
    const told = await call("GET", `${API}/alarms?limit=100${before ? `&before=${before}` : ""}`);
    if (page.panel !== "alarms") return;
    page.alarms = before ? [...told.alarms, ...page.alarms] : told.alarms;
    if (!before) { page.alarmsRead = Math.max(page.alarmsRead, told.last); store.set("alarms", page.alarmsRead); }
    const parts = page.alarms.toReversed().map((a) => {
      const v = page.vehicles.get(a.phone);
      return h("button", { class: "item", "data-alarm": a.id, onclick: () => { const [x, y] = map.project(a.longitude, a.latitude); if (v) choose(v); map.center(x, y, 13); } },
        h("span", {}, h("b", { text: v?.plate || a.phone }), " ", h("span", { class: `tag ${a.what}`, text: say("alarm_" + a.what) }), " ", a.fence_name), h("span", { class: "when", text: `${dayOf(a.time) === dayOf(page.now) ? "" : a.time.slice(5, 10) + " "}${clockOf(a.time)}` }));
    });
    panel(h("h2", { text: say("alarms") }), [parts.length ? h("div", { class: "items" }, parts) : h("p", { class: "hint", text: say("no_alarms") }), page.alarms.length && page.alarms[0].id > 1 && told.alarms.length === 100 && h("button", { class: "plain", text: say("older"), onclick: () => readAlarms(page.alarms[0].id) })]);
    arrange();
  } catch (why) { if (why.status !== 401) toast(say("result_gone", { t: why.message })); }
}

async function readFences() {
  const answer = await call("GET", `${API}/fences`, { raw: true, headers: page.fencesSeen ? { "If-None-Match": page.fencesSeen } : {} });
  page.fencesSeen = answer.headers.get("ETag");
  if (answer.status === 304) return;
  page.fences = (await answer.json()).features;
  map.fences = page.fences.map((it) => ({ id: it.id, name: it.properties.name, points: it.geometry.coordinates[0].slice(0, -1).map((p) => map.project(...p)) }));
  map.draw();
  if (page.panel === "fences" && !page.edited) showFences();
}

function showFences() {
  if (page.edited) return showFenceForm();
  panel(h("h2", { text: say("fences") }), [
    page.access === "operate" ? h("button", { class: "primary", id: "b-new-fence", text: say("new_fence"), onclick: () => editFence(null) }) : h("p", { class: "hint", text: say("may_look") }),
    page.fences.length ? h("div", { class: "items" }, page.fences.map((it) => h("button", { class: "item", "data-fence": it.id, onclick: () => { map.fit(map.fences.find((f) => f.id === it.id).points, 14); if (page.access === "operate") editFence(it); } },
      h("b", { text: it.properties.name }), h("span", { class: "when", text: say("corners", { n: it.geometry.coordinates[0].length - 1 }) }), h("small", { text: it.properties.limit ? `≤ ${it.properties.limit.speed_kmh} km/h, ${it.properties.limit.seconds} s` : say("no_limit") })))) : h("p", { class: "hint", text: say("no_fences") }),
  ]);
}

function editFence(it) {
  const id = it?.id ?? 1 + Math.max(0, ...page.fences.map((f) => f.id));
  page.edited = { id, isNew: !it, name: it?.properties.name ?? say("fence_new_name", { n: id }), limit: it?.properties.limit ?? null };
  map.edited = { id, ring: it ? it.geometry.coordinates[0].slice(0, -1).map((p) => [...p]) : [], closed: !!it };
  document.body.classList.add("drawing");
  if (window.innerWidth <= 760) setView("map");
  showFenceForm();
  map.draw();
}

function endEdit() {
  page.edited = map.edited = null;
  document.body.classList.remove("drawing");
  $("draw-bar").hidden = true;
  if (page.panel === "fences") showFences();
  map.draw();
}

function showFenceForm() {
  const it = page.edited, ring = map.edited.ring, closed = map.edited.closed, phone = window.innerWidth <= 760;
  $("draw-bar").hidden = closed && !phone;
  $("draw-bar").replaceChildren(...[h("span", { text: say(closed ? "fence_drag" : phone ? "fence_draw_touch" : "fence_draw") }), h("button", { class: "plain", text: say("fence_cancel"), onclick: endEdit }),
    !closed && h("button", { class: "primary", id: "b-close-ring", disabled: ring.length < 3, text: say("fence_close"), onclick: () => map.closeRing() }), closed && phone && h("button", { class: "primary", text: say("fence_save"), onclick: () => { document.body.classList.remove("drawing"); setView("panel"); showFenceForm(); $("draw-bar").hidden = true; } })].filter(Boolean));
  const name = h("input", { value: it.name, id: "fence-name", maxlength: 60, oninput: (e) => { it.name = e.target.value; } }), top = h("input", { type: "number", min: 1, max: 1000, value: it.limit ? String(it.limit.speed_kmh) : "", id: "fence-limit" }), secs = h("input", { type: "number", min: 0, max: 255, value: String(it.limit?.seconds ?? 10) });
  panel(h("h2", { text: it.name }), [h("form", { class: "box", id: "fence-form", onsubmit: (e) => { e.preventDefault(); it.limit = top.value ? { speed_kmh: Number(top.value), seconds: Number(secs.value || 0) } : null; saveFence(); } },
    h("label", {}, say("fence_name"), name), h("label", {}, say("fence_limit"), top), h("label", {}, say("fence_seconds"), secs),
    closed && h("p", { class: "hint", text: say("fence_drag") }), h("p", { class: "hint", id: "corner-count", text: say("corners", { n: ring.length }) }),
    h("div", { class: "buttons" }, h("button", { class: "primary", disabled: !closed, text: say("fence_save"), id: "b-save-fence" }), h("button", { type: "button", class: "plain", text: say("fence_cancel"), onclick: endEdit }), !it.isNew && h("button", { type: "button", class: "danger", text: say("fence_delete"), onclick: deleteFence })))]);
}

async function saveFence() {
  const it = page.edited, ring = map.edited.ring.map(([lon, lat]) => [Number(lon.toFixed(6)), Number(lat.toFixed(6))]);
  try {
    await call("PUT", `${API}/fences/${it.id}`, { body: { type: "Feature", geometry: { type: "Polygon", coordinates: [[...ring, ring[0]]] }, properties: { name: it.name, limit: it.limit } }, headers: { "If-Match": page.fencesSeen } });
    await readFences();
    endEdit();
  } catch (why) {
    if (why.status === 412) { await readFences(); toast(say("fence_changed")); } else if (why.status !== 401) toast(say("result_gone", { t: why.message }));
  }
}

async function deleteFence() {
  if (!window.confirm(say("fence_delete_sure", { name: page.edited.name }))) return;
  try { await call("DELETE", `${API}/fences/${page.edited.id}`, { headers: { "If-Match": page.fencesSeen } }); await readFences(); endEdit(); }
  catch (why) { if (why.status === 412) { await readFences(); toast(say("fence_changed")); } else toast(say("result_gone", { t: why.message })); }
}

async function showNewcomers() {
  try {
    const { strangers } = await call("GET", `${API}/strangers`);
    if (page.panel !== "newcomers") return;
    panel(h("h2", { text: say("newcomers") }), strangers.length ? [h("p", { class: "hint", text: say("newcomer_text") }), ...strangers.map((it) => h("div", { class: "box" },
      h("h3", { text: `${it.plate_octets ? gbk.decode(octets(it.plate_octets)) : say("no_plate")} · ${it.phone}` }), h("p", { class: "wrong", text: page.language === "en" ? it.why : { 2: "车牌不在车队文件中", 4: "终端号不在车队文件中", 1: "车牌已被其他手机号登记", 3: "终端号已被其他手机号登记" }[it.denied] ?? it.why }),
      h("p", { class: "hint", text: `${say("tried", { n: it.tried, t: ago(it.last_at) })}${it.peer ? say("from_peer", { peer: it.peer }) : ""}` }), it.fleet_lines.length ? [h("pre", { text: it.fleet_lines.join("\n") }), h("div", { class: "buttons" }, h("button", { class: "plain", text: say("copy"), onclick: () => copy(it.fleet_lines.join("\n") + "\n") }))] : h("p", { class: "hint", text: say("no_line") })))] : h("p", { class: "hint", text: say("no_newcomers") }));
  } catch (why) { if (why.status !== 401) toast(say("result_gone", { t: why.message })); }
}

function showMore() {
  panel(h("h2", { text: say("more") }), h("div", { class: "items" },
    ["fences", "newcomers"].filter((it) => it !== "fences" || has(it)).map((it) => h("button", { class: "item", "data-more": it, onclick: () => openPanel(it) }, h("b", { text: say(it) }), it === "newcomers" && page.strangers ? h("i", { class: "badge", text: page.strangers }) : "")),
    h("button", { class: "item", onclick: () => { sessionStorage.removeItem("dewfelt.token"); token = ""; askToken(false); } }, h("b", { text: say("forget") }))));
}

function showKeys() {
  $("ask").replaceChildren(h("form", { method: "dialog" }, h("h2", { text: say("keys") }), h("p", { text: say("help_keys").split("   ").join("\n") }), h("button", { class: "primary", text: say("close") }), h("button", { class: "plain", text: say("forget"), onclick: () => { sessionStorage.removeItem("dewfelt.token"); token = ""; setTimeout(() => askToken(false)); } })));
  $("ask").oncancel = null;
  $("ask").showModal();
}

// ---- the frame

function retext() {
  document.documentElement.lang = page.language === "zh" ? "zh-Hans" : "en";
  $("search").placeholder = say("search");
  $("search").setAttribute("aria-label", say("search"));
  for (const name of ["alarms", "fences", "newcomers"]) { $("b-" + name).querySelector(".text").textContent = say(name); $("b-" + name).title = say(name); }
  $("b-language").querySelector(".text").textContent = say("language");
  $("b-theme").title = `${say("theme")}: ${say(page.theme === "system" ? "by_system" : page.theme)}`;
  $("b-keys").title = say("keys"); $("b-in").title = say("zoom_in"); $("b-out").title = say("zoom_out"); $("b-fit").title = say("fit"); $("pace").title = say("pace"); $("map").setAttribute("aria-label", say("map"));
  document.querySelector(".sorting label").textContent = say("sorting");
  for (const it of $("sort").options) it.textContent = say("by_" + it.value);
  for (const it of $("pace").options) it.textContent = "× " + it.value;
  for (const it of document.querySelectorAll("#tabs button")) it.querySelector("span").textContent = say(it.dataset.to);
  map.language = page.language;
  arrange();
  if ($("order-form")) $("order-form").dataset.phone = "";
  if (page.panel === "vehicle") { showVehicle(); if (page.tab === "orders") readOrders(); } else if (page.panel) ({ alarms: readAlarms, fences: showFences, newcomers: showNewcomers, more: showMore })[page.panel]();
  map.draw();
}

function retheme() {
  document.documentElement.dataset.theme = page.theme === "system" ? (matchMedia("(prefers-color-scheme: dark)").matches ? "dark" : "light") : page.theme;
  map.restyle();
  if (page.track) profile();
}

function showAll() { inset(); map.fit((map.track ? map.track.points : map.vehicles.filter((v) => v.x !== null && map.shown(v)).map((v) => [v.x, v.y])), 14); }

const map = new FleetMap($("map"), {
  chosen: (v) => { if (v) choose(v); else if (page.panel === "vehicle" && !page.track) closePanel(); },
  dragged: () => { if (page.follow) { page.follow = false; if (page.panel === "vehicle" && page.tab === "now") showVehicle(); } },
  moved: () => {}, edited: () => { if (page.edited) showFenceForm(); },
  painted: (n) => { $("legend").textContent = say("visible", { n }); },
});
map.shown = (v) => v.kept !== false && v.hit !== false;

$("search").addEventListener("input", (e) => { page.search = e.target.value; $("list").scrollTop = 0; arrange(); map.draw(); });
$("sort").addEventListener("change", (e) => { page.sort = e.target.value; arrange(); });
$("list").addEventListener("scroll", showRows);
$("list").addEventListener("click", (e) => { const v = page.vehicles.get(e.target.closest(".row")?.dataset.phone); if (v) choose(v, true); });
// While something in the panel is pressed it is not written anew.
$("detail").addEventListener("pointerdown", () => { page.held = true; });
for (const name of ["pointerup", "pointercancel"]) document.addEventListener(name, () => { setTimeout(() => { page.held = false; }); });
new ResizeObserver(() => { showRows(); inset(); if (page.track) profile(); }).observe($("side"));
$("b-in").addEventListener("click", () => map.zoomAt(map.width / 2, map.height / 2, 1));
$("b-out").addEventListener("click", () => map.zoomAt(map.width / 2, map.height / 2, -1));
$("b-fit").addEventListener("click", showAll);
for (const name of ["alarms", "fences", "newcomers"]) $("b-" + name).addEventListener("click", () => openPanel(name));
$("b-language").addEventListener("click", () => { page.language = page.language === "en" ? "zh" : "en"; store.set("language", page.language); retext(); });
$("b-theme").addEventListener("click", () => { const dark = document.documentElement.dataset.theme === "dark"; page.theme = dark ? "light" : "dark"; store.set("theme", page.theme); retheme(); retext(); });
$("b-keys").addEventListener("click", showKeys);
$("b-play").addEventListener("click", () => play());
$("slider").addEventListener("input", (e) => { play(false); seek(Number(e.target.value)); });
for (const it of document.querySelectorAll("#tabs button")) it.addEventListener("click", () => {
  const to = it.dataset.to;
  if (to === "map" || to === "vehicles") { if (page.panel && page.panel !== "vehicle") closePanel(); setView(to); } else if (page.panel !== to) openPanel(to);
});
matchMedia("(prefers-color-scheme: dark)").addEventListener("change", retheme);
document.addEventListener("visibilitychange", () => { if (!document.hidden) poll(); });
document.addEventListener("keydown", (e) => {
  if (e.ctrlKey || e.metaKey || e.altKey || $("ask").open) return;
  const typing = /^(INPUT|TEXTAREA|SELECT)$/.test(e.target.tagName) && e.target.type !== "range" && e.target.type !== "checkbox";
  if (e.key === "Escape") { if (page.edited) endEdit(); else if (e.target === $("search")) { $("search").value = page.search = ""; $("search").blur(); arrange(); map.draw(); } else if (page.panel) closePanel(); return; }
  if (typing) { if (e.target === $("search") && (e.key === "ArrowDown" || e.key === "Enter")) { e.preventDefault(); if (page.list.length) { $("list").focus(); choose(page.list[0], true); } } return; }
  if (page.edited && !map.edited.closed) { if (e.key === "Enter") { map.closeRing(); e.preventDefault(); return; } if (e.key === "Backspace") { map.edited.ring.pop(); showFenceForm(); map.draw(); return; } }
  const inList = document.activeElement === $("list");
  const does = {
    "/": () => { setView("vehicles"); $("search").focus(); $("search").select(); }, f: () => $("b-follow")?.click(), 0: showAll, "+": () => $("b-in").click(), "=": () => $("b-in").click(), "-": () => $("b-out").click(),
    a: () => openPanel("alarms"), g: () => openPanel("fences"), n: () => openPanel("newcomers"), d: () => $("b-theme").click(), "?": showKeys, " ": () => play(),
    ArrowDown: () => (inList ? step(1) : map.pan(0, -80)), ArrowUp: () => (inList ? step(-1) : map.pan(0, 80)), ArrowLeft: () => map.pan(80, 0), ArrowRight: () => map.pan(-80, 0), Enter: () => inList && page.chosen?.x !== null && page.chosen && map.center(page.chosen.x, page.chosen.y, 15),
  }[e.key.length === 1 ? e.key.toLowerCase() : e.key];
  if (!does || (e.key === " " && (!page.track || e.target.tagName === "BUTTON")) || e.target.type === "range") return;
  e.preventDefault();
  does();
});

async function begin() {
  try {
    const told = await call("GET", `${API}/server`);
    page.access = told.access; page.limits = told.limits; page.listen = told.terminals_listen; page.now = told.now; page.has = told.has;
    for (const part of ["alarms", "fences"]) { $("b-" + part).hidden = !has(part); for (const it of document.querySelectorAll(`#tabs [data-to=${part}]`)) it.hidden = !has(part); }
    map.datum = told.map.datum; map.tiles = told.map.tiles;
    $("attribution").textContent = told.map.attribution;
    $("attribution").hidden = !told.map.attribution;
    if (told.map.base && !map.base) call("GET", `${API}/map`).then((it) => map.setBase(it)).catch(() => {});
  } catch (why) { if (why.status === 401) return; }
  poll();
}

const given = new URLSearchParams(location.hash.slice(1)).get("token");
if (given) { token = given; sessionStorage.setItem("dewfelt.token", token); history.replaceState(null, "", location.pathname); }
retheme();
retext();
window.dewfelt = { page, map };
begin();
