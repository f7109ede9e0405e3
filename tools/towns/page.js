"use strict";
// Shows the data below it. The numbers were given by the engine when the page was written; O and the three points of a
// margin are the tool's own, and the engine confirmed the margin of the points. Nothing here computes a number: lists
// are cut, rows are counted and compared, that is all. Squares are rooted to draw circles.
(function () {
  const data = JSON.parse(document.getElementById("data").textContent);
  const WORDS = ["neither", "struck", "opened"], SITES = 40;
  const T = data.boxes.length, N = data.stops.length;
  // How many axes the town has: 2, or 3 with height; and how many numbers a site has.
  const A = data.o.length / 2, SIZE = A + 1, AXES = ["x", "y", "z"].slice(0, A);
  const state = {k: data.k, stop: 0, step: null, e: null, b: null, tile: null, pick: null, zoom: 1, tab: "stop"};
  const $ = (id) => document.getElementById(id);
  const plural = (n, word) => n + " " + word + (n === 1 ? "" : "s");
  const count = (t) => data.sites[t].length / SIZE;
  // A site with cue 0 is muted: it takes no place. The others are sounding.
  const muted = data.sites.map((held) => held.filter((end, at) => at % SIZE === A && end === 0).length);
  const sounding = (t) => count(t) - muted[t];
  const mark = (t) => +data.marks[state.k - 1][t];
  const boxWords = (b) => AXES.map((name, axis) => `${name} ${b[axis]}..${b[axis + A]}`).join(", ");
  const spotWords = (spot) => `(${spot.join(", ")})`;
  // What the map shows of a box: low x, low y, high x, high y.
  const plan = (b) => [b[0], b[1], b[A], b[A + 1]];
  const plans = data.boxes.map(plan), siteOf = (t, slot) => data.sites[t].slice(SIZE * slot, SIZE * slot + SIZE);

  function make(name, attributes, text, space) {
    const made = space ? document.createElementNS("http://www.w3.org/2000/svg", name) : document.createElement(name);
    for (const key in attributes || {}) made.setAttribute(key, attributes[key]);
    if (text !== undefined) made.textContent = text;
    return made;
  }
  const draw = (name, attributes, text) => make(name, attributes, text, true);
  function fill(table, rows) {
    const body = table.tBodies[0];
    body.replaceChildren();
    for (const row of rows) {
      const line = make("tr", row.kind ? {class: row.kind} : {});
      for (const cell of row.cells) {
        const held = make("td", {});
        if (cell instanceof Node) held.append(cell); else held.textContent = cell;
        line.append(held);
      }
      body.append(line);
    }
    table.parentNode.hidden = rows.length === 0;
  }

  // ---- what the data says of a stop ---------------------------------------------------------------------------------
  const queueOf = (i) => {
    const held = data.queues[i], rows = [];
    for (let at = 0; at < held.length; at += 2) rows.push({tile: held[at], near: held[at + 1]});
    return rows;
  };
  const taken = (i, k) => data.walks[i][k - 1];
  // The list of stop i after m turns: of all places that are ever in its lists, in their order, the first k of opened
  // tiles.
  function listOf(i, m) {
    const opened = new Set(queueOf(i).slice(0, m).map((row) => row.tile)), places = data.places[i], list = [];
    for (let at = 0; at < places.length && list.length < state.k; at += 2) {
      const site = places[at], dist = places[at + 1], tile = Math.floor(site / SITES), slot = site % SITES;
      if (opened.has(tile)) {
        const held = siteOf(tile, slot);
        list.push({site, tile, slot, dist, x: held[0], y: held[1], cue: held[A]});
      }
    }
    return list;
  }
  // For each opened tile the first stop that takes it.
  function firstStops() {
    const first = new Map();
    for (let i = 0; i < N; i++)
      for (const row of queueOf(i).slice(0, taken(i, state.k))) if (!first.has(row.tile)) first.set(row.tile, i);
    return first;
  }

  // ---- the map ------------------------------------------------------------------------------------------------------
  const view = (function () {
    const all = plans.concat([plan(data.o)]);
    let x0 = Math.min(...all.map((b) => b[0])), x1 = Math.max(...all.map((b) => b[2]));
    let y0 = Math.min(...all.map((b) => b[1])), y1 = Math.max(...all.map((b) => b[3]));
    const size = Math.max(x1 - x0, y1 - y0, 10), least = size / 2.5, edge = size * 0.05;
    const widen = (a, b) => (b - a < least ? [(a + b - least) / 2, (a + b + least) / 2] : [a, b]);
    [x0, x1] = widen(x0, x1);
    [y0, y1] = widen(y0, y1);
    return {x: x0 - edge, y: -y1 - edge, w: x1 - x0 + 2 * edge, h: y1 - y0 + 2 * edge};
  })();
  const svg = draw("svg", {viewBox: `${view.x} ${view.y} ${view.w} ${view.h}`, role: "group",
    "aria-label": `${plural(T, "tile")} and ${plural(N, "stop")}; north is up`});
  const hatch = draw("pattern", {id: "hatch", patternUnits: "userSpaceOnUse", width: 7, height: 7});
  hatch.append(draw("rect", {width: 7, height: 7, fill: "#eceeef"}),
    draw("path", {d: "M-1 8L8 -1M-1 1L1 -1M6 8L8 6", stroke: "#7d878d", "stroke-width": 1.2}));
  const defs = draw("defs");
  defs.append(hatch);
  svg.append(defs);
  const layer = {};
  for (const name of ["tiles", "taken", "numbers", "o", "sites", "rings", "chosen", "pair", "orders", "stops"]) {
    layer[name] = draw("g", {id: "layer-" + name});
    svg.append(layer[name]);
  }
  const outline = (b) => `M${b[0]} ${-b[1]}H${b[2]}V${-b[3]}H${b[0]}Z`;
  const dots = (points) => points.map((p) => `M${p[0]} ${-p[1]}h0`).join("");
  const crosses = (points, r) => points.map((p) =>
    `M${p[0]} ${-p[1]}m${-r} ${-r}l${2 * r} ${2 * r}m0 ${-2 * r}l${-2 * r} ${2 * r}`).join("");
  const tiles = data.boxes.map((_, t) => draw("path", {"data-tile": t}));
  // Larger boxes first, so that a box inside another can be clicked.
  const area = (t) => (plans[t][2] - plans[t][0]) * (plans[t][3] - plans[t][1]);
  // Of boxes as large, the higher one is seen from above.
  const top = (t) => (A === 3 ? data.boxes[t][5] : 0);
  layer.tiles.append(...tiles.map((_, t) => t).sort((a, b) => area(b) - area(a) || top(a) - top(b) || a - b)
    .map((t) => tiles[t]));
  layer.o.append(draw("path", {class: "o", d: outline(plan(data.o))}));
  const every = [];
  data.sites.forEach((_, t) => { for (let slot = 0; slot < count(t); slot++) every.push(siteOf(t, slot)); });
  // Sounding sites are dots, muted ones crosses.
  const heard = every.filter((site) => site[A]), silent = every.filter((site) => !site[A]);
  const rim = draw("path", {class: "rim", d: dots(heard)}), mutedRim = draw("path", {class: "muted rim"});
  const soundingSites = draw("path", {class: "sites", d: dots(heard)}), mutedSites = draw("path", {class: "muted"});
  layer.sites.append(mutedRim, mutedSites, rim, soundingSites);
  const stops = data.stops.map((spot, i) => {
    const group = draw("g", {class: "stop", role: "button", tabindex: -1, "data-stop": i,
      "aria-label": `Stop ${i} at ${spotWords(spot)}`});
    group.append(draw("circle", {class: "hit", r: 20}), draw("circle", {class: "dot", r: 9, "stroke-width": 2}),
      draw("text", {"text-anchor": "middle", y: 4, "font-size": i > 99 ? 8 : 11}, i));
    layer.stops.append(group);
    return group;
  });
  $("frame").append(svg);

  let unit = 1; // how many centimetres a pixel is
  // A box as it is drawn: one without width or height is a bar, to be seen and clicked.
  const BAR = 9;
  const flat = (t) => plans[t][1] === plans[t][3];
  function drawnBox(t) {
    const b = plans[t].slice();
    for (const axis of [0, 1]) {
      if (b[axis] === b[axis + 2]) {
        b[axis] -= BAR * unit;
        b[axis + 2] += BAR * unit;
      }
    }
    return b;
  }
  function label(at, text, kind, size, shift) {
    return draw("text", {class: kind, x: at[0] + (shift ? shift[0] * unit : 0),
      y: -at[1] + (shift ? shift[1] * unit : 0), "font-size": size * unit, "stroke-width": 3 * unit,
      "text-anchor": shift ? "start" : "middle"}, text);
  }
  function layout() {
    const frame = $("frame"), room = Math.max(120, frame.clientWidth - 2);
    const height = Math.max(200, parseFloat(getComputedStyle(frame).maxHeight) - 4 || 600);
    const width = Math.min(room, height * view.w / view.h) * state.zoom;
    svg.setAttribute("width", width);
    svg.setAttribute("height", width * view.h / view.w);
    unit = view.w / width;
    hatch.setAttribute("patternTransform", `scale(${unit})`);
    stops.forEach((group, i) => group.setAttribute("transform",
      `translate(${data.stops[i][0]} ${-data.stops[i][1]}) scale(${unit * (N > 60 ? 0.7 : 1)})`));
    layer.numbers.replaceChildren();
    const small = every.length * 100 > width * width * view.h / view.w; // many sites: smaller dots
    soundingSites.style.strokeWidth = small ? "2px" : "4px";
    soundingSites.style.strokeOpacity = small ? 0.6 : 1;
    for (const path of [mutedRim, mutedSites]) path.setAttribute("d", crosses(silent, (small ? 2 : 3.5) * unit));
    mutedSites.style.strokeWidth = small ? "1px" : "2px";
    // a white rim, so that a site on an edge can be seen
    for (const path of [rim, mutedRim]) path.style.display = small ? "none" : "";
    tiles.forEach((path, t) => {
      const b = drawnBox(t), w = (b[2] - b[0]) / unit, h = (b[3] - b[1]) / unit;
      path.setAttribute("d", outline(b));
      if (w >= 2 * BAR && h >= 2 * BAR - 1)
        layer.numbers.append(label([b[0], b[3]], t, "number", 11, flat(t) ? [3, -5] : [4, 13]));
    });
    focusLayers();
  }

  // The turn, written to a taken tile: below a bar, or into a corner of a box. The tile's number is in the fourth
  // corner. Where a stop lies over each corner, or the box is too small, nothing is written.
  function turnLabel(b, isFlat, text) {
    if (isFlat) return [label([b[0], b[1]], text, "order", 11, [3, 14])];
    const wide = 6.5 * text.length, room = (b[2] - b[0]) / unit - wide;
    const corners = [[[b[0], b[1]], [5, -5], 8], [[b[2], b[3]], [-5 - wide, 13], 30],
      [[b[2], b[1]], [-5 - wide, -5], 8]];
    const free = corners.find(([at, shift, need]) => room >= need && data.stops.every(([x, y]) => {
      const across = (x - at[0]) / unit - shift[0], down = (at[1] - y) / unit - shift[1];
      return across < -11 || across > wide + 11 || down < -21 || down > 11;
    }));
    return free ? [label(free[0], text, "order", 11, free[1])] : [];
  }
  function focusLayers() {
    for (const name of ["taken", "rings", "chosen", "pair", "orders"]) layer[name].replaceChildren();
    const i = state.stop, at = data.stops[i], queue = queueOf(i), m = steps(), list = listOf(i, m);
    queue.slice(0, m).forEach((row, turn) => {
      const b = drawnBox(row.tile), w = (b[2] - b[0]) / unit, h = (b[3] - b[1]) / unit;
      layer.taken.append(draw("path", {class: "taken", d: outline(b)}));
      if (w > 40 && (h > 30 || flat(row.tile)))
        layer.orders.append(...turnLabel(b, flat(row.tile), `turn ${turn + 1}`));
    });
    layer.chosen.append(draw("path", {class: "chosen", d: dots(list.map((place) => [place.x, place.y]))}));
    // The number of a place stands on the side away from the stop.
    const aside = (place, j) => (place.x < at[0] ? [j > 9 ? -20 : -13, -5] : [6, -5]);
    if (list.length <= 12) list.forEach((place, j) => layer.chosen.append(
      label([place.x, place.y], j, "letter", 11, aside(place, j))));
    const next = following(i);
    if (list.length) layer.rings.append(draw("circle", {class: "ring", cx: at[0], cy: -at[1],
      r: Math.sqrt(list[list.length - 1].dist)}));
    if (next && m === taken(i, state.k)) layer.rings.append(draw("circle", {class: "next", cx: at[0], cy: -at[1],
      r: Math.sqrt(next.near)}));
    const points = threePoints();
    if (points) {
      const [o, e, b] = points;
      layer.pair.append(draw("path", {class: "link e", d: `M${o[0]} ${-o[1]}L${e[0]} ${-e[1]}`}),
        draw("path", {class: "link b", d: `M${o[0]} ${-o[1]}L${b[0]} ${-b[1]}`}),
        draw("path", {class: "chosen", style: "stroke:#1d2429", d: dots(points)}));
      ["o", "e", "b"].forEach((name, j) => layer.pair.append(
        label(points[j], name, "letter", 15, [7, 15 - 22 * (j === 0)])));
    }
    for (const [t, name] of [[state.e, "E"], [state.b, "B"]]) {
      if (t === null) continue;
      const b = plans[t];
      layer.pair.append(label([(b[0] + b[2]) / 2, (b[1] + b[3]) / 2], name, "letter", 18));
    }
  }

  // ---- a stop -------------------------------------------------------------------------------------------------------
  const steps = () => (state.step === null ? taken(state.stop, state.k) : state.step);
  const following = (i) => queueOf(i).slice(taken(i, state.k)).find((row) => mark(row.tile) !== 1) || null;
  function showStop() {
    const i = state.stop, k = state.k, queue = queueOf(i), end = taken(i, k), m = steps();
    const list = listOf(i, m), next = following(i);
    const first = firstStops(), full = listOf(i, end), last = full[full.length - 1], stepped = i < data.stepped;
    stops.forEach((group, j) => {
      group.setAttribute("aria-pressed", j === i);
      group.setAttribute("tabindex", j === i ? 0 : -1);
    });
    layer.stops.append(stops[i]);
    $("stop").value = i;
    $("stop-back").disabled = i === 0;
    $("stop-on").disabled = i === N - 1;
    if (next) {
      const why = last.dist < next.near ? `its D ${last.dist} is below near ${next.near}`
        : `its D ${last.dist} is equal to near, and its tile ${last.tile} is below ${next.tile}`;
      $("ended").textContent = `It ended at the key near ${next.near}, tile ${next.tile}: ` +
        `${plural(k, "sounding site")} ${k === 1 ? "is" : "are"} ahead of the next key. ` +
        `The last of them is place ${k - 1}: ${why}.`;
    } else {
      $("ended").textContent = "It ended because no tile waits: " +
        "it has taken all tiles that have a sounding site and are not struck." +
        (full.length < k ? ` The town has only ${plural(full.length, "sounding site")}.` : "");
    }
    $("stepper").hidden = end === 0;
    $("step-back").disabled = !stepped || m <= 1;
    $("step-on").disabled = !stepped || m >= end;
    $("step-title").textContent = `turn ${m} of ${end}`;
    $("list").caption.textContent = m === 0 ? "The list: no sounding site" :
      m === end ? `The list at the end, after turn ${m}` : `The list after turn ${m}: tile ${queue[m - 1].tile}`;
    fill($("list"), list.map((p, j) => ({cells: [j, p.dist, p.site, p.tile, p.slot, p.cue]})));
    $("list").parentNode.hidden = false;
    const rows = [];
    queue.forEach((row, at) => {
      const waits = at >= end;
      if (waits && (mark(row.tile) === 1 || rows.length >= end + 4)) return;
      const here = first.get(row.tile);
      const what = waits ? (next && row.tile === next.tile ? "here it ended" : "waits") +
        (here === undefined ? ": not opened" :
        here < i ? `: open since stop ${here}` : `: opened later, for stop ${here}`)
        : here === i ? "opened" : `taken; open since stop ${here}`;
      let turn = at + 1;
      if (waits) turn = "";
      else if (stepped) {
        turn = make("button", {"aria-label": `The list after turn ${at + 1}`, "data-step": at + 1}, at + 1);
        if (at + 1 === m) turn.setAttribute("aria-pressed", "true");
      }
      rows.push({kind: waits ? (rows.length === end ? "later end" : "later") : at + 1 === m ? "now" : "",
        cells: [turn, row.near, row.tile, sounding(row.tile), what]});
    });
    fill($("queue"), rows);
    const struck = data.counts[k - 1][2], empty = tiles.filter((_, t) => sounding(t) === 0 && mark(t) !== 1).length;
    const more = T - struck - empty - rows.length;
    $("left-out").textContent = (more > 0 ? `${plural(more, "more tile")} ${more === 1 ? "waits" : "wait"}. ` : "") +
      `In no queue: ${plural(struck, "struck tile")} and ${plural(empty, "other")} without sounding sites.` +
      (stepped ? "" : " The list after each turn is not on this page for this stop.");
  }

  // ---- E and B ------------------------------------------------------------------------------------------------------
  // The three points, from letters: which end of O, which end of E, and for b an end of B or o itself.
  function threePoints() {
    if (state.e === null || state.b === null || !data.points[state.e]) return null;
    const letters = data.points[state.e].slice(3 * A * state.b, 3 * A * state.b + 3 * A);
    const boxes = [data.o, data.boxes[state.e], data.boxes[state.b]];
    const end = (box, axis, letter) => box[letter === "l" ? axis : axis + A];
    const axes = AXES.map((_, axis) => {
      const [o, e, b] = letters.slice(3 * axis, 3 * axis + 3), at = end(boxes[0], axis, o);
      return [at, end(boxes[1], axis, e), b === "o" ? at : end(boxes[2], axis, b)];
    });
    return [0, 1, 2].map((j) => axes.map((points) => points[j]));
  }
  function showPair() {
    const {e, b} = state, o = data.o;
    $("e").value = e === null ? "" : e;
    $("b").value = b === null ? "" : b;
    $("pick-e").setAttribute("aria-pressed", state.pick === "e");
    $("pick-b").setAttribute("aria-pressed", state.pick === "b");
    layer.stops.style.pointerEvents = state.pick ? "none" : "";
    if (e === null || b === null) {
      $("margin").textContent = "Pick two tiles, here or on the map. The margin is the largest D(o,e) − D(o,b) over " +
        "all points o of O, e of E and b of B; E is nearer than B from O when it is below 0.";
      fill($("points"), []);
      fill($("corners"), []);
      return;
    }
    // The corners in the order of the data: low-low, high-low, low-high, high-high; those of low z first.
    const spots = data.corners.map((_, j) => AXES.map((_, axis) => o[j >> axis & 1 ? axis + A : axis]));
    const far = data.corners.map((c) => c.far[e]), near = data.corners.map((c) => c.near[b]);
    const nearer = far.every((value, j) => value < near[j]);
    const points = threePoints();
    $("margin").replaceChildren();
    if (points) {
      const margin = data.margins[e][b];
      const at = spots.findIndex((spot) => spot.every((end, axis) => end === points[0][axis]));
      const value = make("strong", {id: "margin-value"}, margin);
      const is = margin < 0 ? "nearer" : "not nearer";
      $("margin").append("The margin is ", value, `: tile ${e} is ${is} than tile ${b} from O` +
        (margin === 0 ? "; a margin of 0 is not nearer" : "") + `. D(o,e) is ${far[at]}, D(o,b) is ${near[at]}.`);
      const [po, pe, pb] = points;
      fill($("points"), [{cells: ["o", ...po, "a corner of O"]},
        {cells: ["e", ...pe, `the point of tile ${e} farthest from o`]},
        {cells: ["b", ...pb, `the point of tile ${b} closest to o`]}]);
    } else {
      $("margin").textContent = `Tile ${e} is ${nearer ? "nearer" : "not nearer"} than tile ${b} from O, ` +
        "by the corners below; the margin of this pair is not on this page.";
      fill($("points"), []);
    }
    const rows = spots.map((spot, j) => (
      {cells: [spotWords(spot), far[j], near[j], far[j] < near[j] ? "yes" : "no"]}));
    // The corners of a narrow O are the same points.
    fill($("corners"), rows.filter((row, j) => rows.findIndex((other) => other.cells[0] === row.cells[0]) === j));
  }

  // ---- a tile -------------------------------------------------------------------------------------------------------
  function showTile() {
    const t = state.tile;
    $("tile").value = t === null ? "" : t;
    if (t === null) {
      $("tile-says").textContent = "Pick a tile, here or on the map.";
      fill($("sites"), []);
      return;
    }
    const near = data.nearer[t], kind = mark(t);
    const sites = near === 64 ? "64 sounding sites or more" : plural(near, "sounding site");
    const says = [`Box ${boxWords(data.boxes[t])}, ${plural(count(t), "site")}` +
      (muted[t] ? `, ${muted[t]} of them muted. ` : ". ")];
    if (kind === 2) says.push(`Opened, first for stop ${firstStops().get(t)}. `);
    if (kind === 1) says.push("Struck. ");
    if (kind === 0) says.push(sounding(t) ? "Neither opened nor struck. " :
      count(t) ? "Neither: all its sites are muted, and it is not struck. " : "Neither: it is empty and not struck. ");
    says.push(`The tiles nearer than it from O hold ${sites}, and k is ${state.k}.`);
    $("tile-says").textContent = says.join("");
    const rows = [];
    for (let slot = 0; slot < count(t); slot++) {
      const spot = siteOf(t, slot), cue = spot.pop();
      rows.push({kind: cue ? "" : "later", cells: [slot, SITES * t + slot, ...spot, cue || "0, muted"]});
    }
    fill($("sites"), rows);
  }

  const TABS = ["stop", "pair", "tile"];
  function showTabs() {
    for (const name of TABS) {
      const here = name === state.tab;
      $("tab-" + name).setAttribute("aria-selected", here);
      $("tab-" + name).tabIndex = here ? 0 : -1;
      $("panel-" + name).hidden = !here;
    }
  }

  // ---- all of it ----------------------------------------------------------------------------------------------------
  function show() {
    const [, opened, struck] = data.counts[state.k - 1];
    $("k").value = state.k;
    $("k-value").textContent = state.k;
    const neither = data.marks[state.k - 1].split("0").length - 1;
    $("counts").textContent = `${plural(T, "tile")}: opened ${opened}, struck ${struck}, neither ${neither}`;
    tiles.forEach((path, t) => {
      const empty = sounding(t) ? "" : " empty", picked = t === state.tile ? " picked" : "";
      path.setAttribute("class", `tile ${WORDS[mark(t)]}${empty}${picked}`);
    });
    showStop();
    showPair();
    showTile();
    showTabs();
    focusLayers();
  }
  function chooseStop(i, focus) {
    state.stop = Math.max(0, Math.min(N - 1, i));
    state.step = null;
    state.tab = "stop";
    show();
    if (focus) stops[state.stop].focus({preventScroll: true});
  }
  function chooseTile(t) {
    if (state.pick) {
      state[state.pick] = t;
      state.pick = state.pick === "e" && state.b === null ? "b" : null;
      state.tab = "pair";
    } else {
      state.tile = t;
      state.tab = "tile";
    }
    show();
  }

  const title = `${data.name}: ${plural(T, "tile")}, ${plural(every.length, "site")}` +
    `${silent.length ? ` (${silent.length} muted)` : ""}${A === 3 ? ", with height" : ""}, ${plural(N, "stop")}`;
  document.title = $("title").textContent = title;
  $("k").max = data.kmax;
  data.notes.forEach((note) => $("notes").append(make("p", {class: "note"}, note)));
  data.stops.forEach((spot, i) => $("stop").append(make("option", {value: i}, `Stop ${i} at ${spotWords(spot)}`)));
  // With height the tables of points have a column for z, after y.
  if (A === 3)
    for (const id of ["points", "sites"])
      [...$(id).tHead.rows[0].cells].find((cell) => cell.textContent === "y").after(make("th", {}, "z"));
  for (const id of ["e", "b", "tile"]) {
    $(id).append(make("option", {value: ""}, "none"));
    data.boxes.forEach((box, t) => $(id).append(make("option", {value: t}, id === "tile" ? `Tile ${t}` : t)));
  }
  const swatches = [["tile opened", "M1 1H27V15H1Z", "opened"], ["tile struck", "M1 1H27V15H1Z", "struck"],
    ["tile neither", "M1 1H27V15H1Z", "neither"], ["tile empty", "M1 1H27V15H1Z", "dotted edge: no sounding site"],
    ["taken", "M2 2H26V14H2Z", "taken by this stop"], ["o", "M1 1H27V15H1Z", "O"],
    ["sites", "M14 8h0", "sounding site"], ["muted", crosses([[14, -8]], 3.5), "muted site"],
    ["chosen", "M14 8h0", "in the list"],
    ["ring", "M2 15A13 13 0 0 1 26 15", "as far as the last place"],
    ["next", "M2 15A13 13 0 0 1 26 15", "as far as the next key"]];
  for (const [kind, path, words] of swatches) {
    const item = make("li"), small = draw("svg", {width: 28, height: 16, "aria-hidden": "true"});
    small.append(draw("path", {class: kind, d: path, style: kind === "tile struck" ? "fill:url(#hatch-small)" : ""}));
    if (kind === "tile struck") {
      const copy = hatch.cloneNode(true);
      copy.id = "hatch-small";
      small.prepend(copy);
    }
    item.append(small, words);
    $("legend").append(item);
  }

  $("k").addEventListener("input", () => { state.k = +$("k").value; state.step = null; show(); });
  $("stop").addEventListener("change", () => chooseStop(+$("stop").value));
  $("stop-back").addEventListener("click", () => chooseStop(state.stop - 1));
  $("stop-on").addEventListener("click", () => chooseStop(state.stop + 1));
  $("step-back").addEventListener("click", () => { state.step = steps() - 1; show(); });
  $("step-on").addEventListener("click", () => { state.step = steps() + 1; show(); });
  $("queue").addEventListener("click", (event) => {
    const button = event.target.closest("button");
    if (!button) return;
    state.step = +button.dataset.step;
    show();
    const again = $("queue").querySelector(`[data-step="${state.step}"]`);
    if (again) again.focus({preventScroll: true});
  });
  for (const id of ["e", "b", "tile"])
    $(id).addEventListener("change", () => { state[id] = $(id).value === "" ? null : +$(id).value; show(); });
  $("swap").addEventListener("click", () => { [state.e, state.b] = [state.b, state.e]; show(); });
  for (const id of ["e", "b"])
    $("pick-" + id).addEventListener("click", () => {
      state.pick = state.pick === id ? null : id;
      state.tab = "pair";
      show();
    });
  TABS.forEach((name, j) => {
    $("tab-" + name).addEventListener("click", () => { state.tab = name; show(); });
    $("tab-" + name).addEventListener("keydown", (event) => {
      const by = {ArrowRight: 1, ArrowLeft: 2}[event.key];
      if (!by) return;
      state.tab = TABS[(j + by) % 3];
      show();
      $("tab-" + state.tab).focus();
    });
  });
  svg.addEventListener("click", (event) => {
    const stop = event.target.closest("[data-stop]"), tile = event.target.closest("[data-tile]");
    if (stop) chooseStop(+stop.dataset.stop, true);
    else if (tile) chooseTile(+tile.dataset.tile);
  });
  layer.stops.addEventListener("keydown", (event) => {
    const by = {ArrowRight: 1, ArrowDown: 1, ArrowLeft: -1, ArrowUp: -1}[event.key];
    if (by) { chooseStop(state.stop + by, true); event.preventDefault(); }
    if (event.key === "Enter" || event.key === " ") {
      chooseStop(+event.target.closest("[data-stop]").dataset.stop, true);
      event.preventDefault();
    }
  });
  function zoom(to) {
    // The stop stays where it is in the frame if it can be seen, else the middle of the frame.
    const frame = $("frame"), [x, y] = data.stops[state.stop], seen = [frame.clientWidth, frame.clientHeight];
    let fixed = [x - view.x, -y - view.y], at = [fixed[0] / unit - frame.scrollLeft, fixed[1] / unit - frame.scrollTop];
    if (at.some((pixel, axis) => pixel < 0 || pixel > seen[axis])) {
      at = seen.map((size) => size / 2);
      fixed = [(frame.scrollLeft + at[0]) * unit, (frame.scrollTop + at[1]) * unit];
    }
    state.zoom = Math.max(1, Math.min(16, to));
    layout();
    frame.scrollTo(fixed[0] / unit - at[0], fixed[1] / unit - at[1]);
  }
  $("zoom-in").addEventListener("click", () => zoom(state.zoom * 1.5));
  $("zoom-out").addEventListener("click", () => zoom(state.zoom / 1.5));
  $("zoom-whole").addEventListener("click", () => zoom(1));
  window.addEventListener("resize", layout);
  show();
  layout();
})();
