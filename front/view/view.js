// Draws the page of `mig view` from the object in it: docs/view.schema.json tells what stands there. Text out of files goes into the page as
// text alone (textContent), never as HTML.
'use strict';

(function () {
const ROWS = 100;                                    // of the table of records, at once
const PADDED = 8, HEAD = 8;                          // bytes: records end at multiples of these, and their heads have so many
const GAP = 1;                                       // rows of the map between two spans
const STATES = {                                     // by letter: the name, and the colour's name in the style
  '.': ['never sent', 'never'], '-': ['absent', 'absent'], '0': ['zeros', 'zeros'], 'd': ['data', 'data'],
  '1': ['page table 1', 'table1'], '2': ['page table 2', 'table2'], '3': ['page table 3', 'table3'], '4': ['page table 4', 'table4'],
  '5': ['pinned page table 1', 'pinned1'], '6': ['pinned page table 2', 'pinned2'], '7': ['pinned page table 3', 'pinned3'],
  '8': ['pinned page table 4', 'pinned4'], 'x': ['XALLOC', 'xalloc'], 'b': ['BROKEN', 'broken']};
const ORDER = '0d12345678xb-.';                      // of the states in the table
const TIMES = '.123456789abcdefghijklmnopqrstuvwxyz', MOST_TIMES = TIMES.length - 1;
const dark = window.matchMedia('(prefers-color-scheme: dark)');
const number = d3.format(',');

const by = id => document.getElementById(id);
const colour = name => getComputedStyle(document.documentElement).getPropertyValue('--' + name).trim();
const hex = value => '0x' + value.toString(16);
const share = (part, all) => all ? d3.format('.1%')(part / all) : '';
const clamp = (value, least, most) => Math.max(least, Math.min(most, value));

function amount(count) {
  const units = ['bytes', 'KiB', 'MiB', 'GiB', 'TiB'];
  let unit = 0;
  while (count >= 1024 && unit < units.length - 1) { count /= 1024; unit += 1; }
  return (unit ? d3.format('.1f')(count) : number(count)) + ' ' + units[unit];
}

// The object in the page.
async function unpacked() {
  const packed = Uint8Array.from(atob(by('data').textContent), letter => letter.charCodeAt(0));
  const stream = new Blob([packed]).stream().pipeThrough(new DecompressionStream('deflate'));
  return JSON.parse(await new Response(stream).text());
}

// A canvas as wide as it is shown, with sharp pixels; what draws is called when its size or the colours change.
function canvasOf(id, draw) {
  const canvas = by(id), context = canvas.getContext('2d');
  const fit = () => {
    const scale = window.devicePixelRatio || 1, box = canvas.getBoundingClientRect();
    canvas.width = Math.max(1, Math.round(box.width * scale));
    canvas.height = Math.max(1, Math.round(box.height * scale));
    context.setTransform(scale, 0, 0, scale, 0, 0);
    draw();
  };
  new ResizeObserver(fit).observe(canvas);
  dark.addEventListener('change', fit);
  return {canvas, context, width: () => canvas.clientWidth, height: () => canvas.clientHeight};
}

// Fills a table: columns of a heading and whether it is text; rows of values.
function fill(id, columns, rows) {
  const table = d3.select(by(id));
  table.select('thead').selectAll('tr').data([columns]).join('tr').selectAll('th').data(it => it).join('th')
    .attr('scope', 'col').classed('text', it => it[1]).text(it => it[0]);
  table.select('tbody').selectAll('tr').data(rows).join('tr').selectAll('td').data(it => it).join('td')
    .classed('text', (_, index) => columns[index][1]).text(it => it);
}

function swatch(item, fillColour) {
  item.insert('svg', function () { return this.firstChild; }).attr('class', 'swatch').attr('viewBox', '0 0 1 1').attr('aria-hidden', 'true')
    .append('rect').attr('width', 1).attr('height', 1).attr('fill', fillColour);
}

// ---- records

// The refusal of `check`, or that of `show`; nothing where the save was accepted.
const refusalOf = data => [data.info, data.verdict].find(it => it && it.result === 'refused');

// The records with where each ends, and among them what was refused.
function placed(data) {
  const ends = (data.info.begins || 0) + data.length, refusal = refusalOf(data), isCut = data.info.result === 'refused';
  const records = data.records.map(record => {
    const size = record.together ? record.length : HEAD + Math.ceil(record.length / PADDED) * PADDED;
    return Object.assign({end: record.offset + size}, record);
  });
  if (refusal) {
    const offset = refusal.offset === undefined ? ends : refusal.offset, at = d3.bisector(it => it.offset).right(records, offset);
    const most = Math.max(data.info.size && !data.info.packed ? data.info.size : 0, offset + Math.max(1, data.length / 40));
    records.splice(at, 0, {layer: '', name: 'refused: ' + refusal.place + ' ' + refusal.cause_name, type: '', number: '', offset, length: '',
      words: '', pages: '', zeros: '', isCut: true, isLast: isCut, end: isCut || !at ? most : records[at - 1].end});
  }
  records.forEach((record, index) => { record.index = index; });
  return records;
}

function toldOf(record) {
  if (record.isCut) return record.name + ', at byte ' + number(record.offset) + ' (' + hex(record.offset) + ')' + (record.isLast ? ': what follows was not read as a part of the save' : '');
  const many = record.together ? number(record.together) + ' records from ' : '';
  const told = [many + record.name + ' (' + record.layer + ' record ' + number(record.number) + ', type ' + hex(record.type) + ')',
    'at byte ' + number(record.offset) + ' (' + hex(record.offset) + ')', number(record.length) + ' bytes'];
  if (record.words !== undefined) {
    told.push(number(record.words) + ' words', number(record.pages) + ' pages' + (record.zeros === undefined ? '' : ', ' + number(record.zeros) + ' all zeros'));
  }
  return told.join(' · ');
}

function strip(records, chosen) {
  const names = [...new Set(records.filter(it => !it.isCut).map(it => it.name))];
  const palette = d3.scaleOrdinal(names, d3.schemeTableau10.concat(d3.schemeSet2));
  const first = records.length ? records[0].offset : 0, last = d3.max(records, it => it.end) || 1;
  const whole = d3.scaleLinear().domain([first, last]);
  let transform = d3.zoomIdentity;
  const scale = () => transform.rescaleX(whole.range([0, view.width()]));
  const view = canvasOf('strip', draw);
  const zoom = d3.zoom().scaleExtent([1, 1e7]).on('zoom', () => { transform = d3.event.transform; draw(); });

  function draw() {
    const x = scale(), context = view.context, height = view.height();
    context.fillStyle = colour('never');
    context.fillRect(0, 0, view.width(), height);
    for (const record of records) {
      const left = Math.round(x(record.offset)), right = Math.round(x(record.end));
      if (right < 0 || left > view.width()) continue;
      context.fillStyle = record.isCut ? hatched(context) : palette(record.name);
      const wide = right - left > 4 ? right - left - 1 : Math.max(1, right - left);
      context.fillRect(left, 8, wide, height - 16);
      if (record.zeros && record.pages && right - left > 3) {          // the part of its pages that is zeros
        context.fillStyle = colour('zeros');
        context.fillRect(left, height - 16, wide * record.zeros / record.pages, 8);
      }
      if (record.isCut) { context.fillStyle = colour('bad'); context.fillRect(left - 1, 0, 2, height); }
    }
    const one = records[chosen.index];
    if (one) {
      context.strokeStyle = colour('mark');
      context.lineWidth = 2;
      context.strokeRect(x(one.offset), 3, Math.max(3, x(one.end) - x(one.offset)), height - 6);
    }
    axis(x);
  }

  function axis(x) {
    const ticks = Math.max(2, Math.floor(view.width() / 130));
    d3.select('#strip-axis').call(d3.axisBottom(x).ticks(ticks).tickFormat(d3.format(',')));
  }

  function hatched(context) {
    const tile = document.createElement('canvas');
    tile.width = tile.height = 8;
    const paint = tile.getContext('2d');
    paint.strokeStyle = colour('bad');
    paint.lineWidth = 2;
    paint.stroke(new Path2D('M-2,2 L2,-2 M0,8 L8,0 M6,10 L10,6'));
    return context.createPattern(tile, 'repeat');
  }

  // The record under a point, or the next one on its left.
  function at(point) {
    const place = scale().invert(point);
    return clamp(d3.bisector(it => it.offset).right(records, place) - 1, 0, records.length - 1);
  }

  function show(index) {                             // has the chosen record stand in the strip
    const x = scale(), one = records[index];
    if (x(one.end) < 0 || x(one.offset) > view.width()) zoom.translateTo(d3.select(view.canvas), whole(one.offset), 0);
    draw();
  }

  const steps = {ArrowLeft: () => chosen.index - 1, ArrowRight: () => chosen.index + 1, Home: () => 0, End: () => records.length - 1};
  d3.select(view.canvas).call(zoom).on('dblclick.zoom', null)
    .on('pointermove', () => chosen.choose(at(d3.mouse(view.canvas)[0])))
    .on('keydown', () => {
      const step = steps[d3.event.key];
      if (step) chosen.choose(clamp(step(), 0, records.length - 1));
      else if ('+=-'.includes(d3.event.key)) zoom.scaleBy(d3.select(view.canvas), d3.event.key === '-' ? 0.5 : 2, [whole(records[chosen.index].offset), 0]);
      else return;
      d3.event.preventDefault();
    });
  chosen.seen.push(show);
  const counts = {};
  for (const it of records) counts[it.name] = (counts[it.name] || 0) + (it.together || 1);
  d3.select('#strip-legend').selectAll('li').data(names).join('li').text(it => it + ' ' + number(counts[it])).each(function (it) { swatch(d3.select(this), palette(it)); });
}

const COLUMNS = [['number', 'number', false], ['layer', 'layer', true], ['record', 'name', true], ['type', 'type', false], ['offset', 'offset', false],
  ['bytes', 'length', false], ['words', 'words', false], ['pages', 'pages', false], ['zeros', 'zeros', false]];

function table(records, chosen) {
  let order = {key: 'index', down: false}, from = 0, shown = records;
  const text = record => [record.layer, record.name, record.number, record.type, record.offset, record.length, record.words, record.pages].join(' ').toLowerCase();
  const texts = records.map(text);

  function look() {
    const words = by('search').value.toLowerCase().split(/[\s,]+/).filter(it => it);
    shown = records.filter(it => words.every(word => texts[it.index].includes(word)));
    const value = it => it[order.key] === undefined || it[order.key] === '' ? -1 : it[order.key];
    shown.sort((one, two) => (order.down ? -1 : 1) * d3.ascending(value(one), value(two)) || one.index - two.index);
    from = 0;
    draw();
  }

  function draw() {
    by('found').textContent = number(shown.length) + ' of ' + number(records.length) + (shown.length > ROWS
      ? ', shown ' + number(from + 1) + ' to ' + number(Math.min(from + ROWS, shown.length)) : '');
    by('earlier').disabled = from === 0;
    by('later').disabled = from + ROWS >= shown.length;
    const rows = d3.select('#records tbody').selectAll('tr').data(shown.slice(from, from + ROWS)).join('tr');
    rows.classed('chosen', it => it.index === chosen.index).classed('cut', it => Boolean(it.isCut)).on('click', it => chosen.choose(it.index));
    rows.selectAll('td').data(it => COLUMNS.map(column => [it[column[1]], column])).join('td').classed('text', it => it[1][2])
      .text(it => typeof it[0] === 'number' ? (it[1][0] === 'type' ? hex(it[0]) : number(it[0])) : it[0]);
  }

  d3.select('#records thead').append('tr').selectAll('th').data(COLUMNS).join('th').attr('scope', 'col').classed('text', it => it[2])
    .append('button').attr('type', 'button').text(it => it[0]).on('click', function (it) {
      order = {key: it[1], down: order.key === it[1] && !order.down};
      d3.selectAll('#records th').attr('aria-sort', null);
      this.parentNode.setAttribute('aria-sort', order.down ? 'descending' : 'ascending');
      look();
    });
  by('search').addEventListener('input', look);
  by('earlier').addEventListener('click', () => { from = Math.max(0, from - ROWS); draw(); });
  by('later').addEventListener('click', () => { from += ROWS; draw(); });
  chosen.seen.push(() => {                           // has the chosen record stand in the table
    const place = shown.findIndex(it => it.index === chosen.index);
    if (place >= 0 && (place < from || place >= from + ROWS)) from = Math.floor(place / ROWS) * ROWS;
    draw();
    const row = document.querySelector('#records tr.chosen'), box = by('records').parentNode;
    if (!row) return;
    const top = row.offsetTop - by('records').tHead.offsetHeight, bottom = row.offsetTop + row.offsetHeight;
    if (top < box.scrollTop) box.scrollTop = top;
    if (bottom > box.scrollTop + box.clientHeight) box.scrollTop = bottom - box.clientHeight;
  });
  look();
}

function recordsOf(data) {
  const records = placed(data);
  const chosen = {index: 0, seen: [], choose(index) {
    if (index === this.index && by('record').textContent) return;
    this.index = index;
    by('record').textContent = toldOf(records[index]);
    for (const see of this.seen) see(index);
  }};
  strip(records, chosen);
  table(records, chosen);
  if (records.length) chosen.choose(Math.max(0, records.findIndex(it => it.isCut)));
}

// ---- frames

// Where each span stands in the map: rows of so many cells, of which each begins at a multiple of that.
function laidOut(frames) {
  const per = frames.per, lengths = frames.spans.map(span => span.cells === undefined ? span.times.length : span.cells.length);
  const columns = clamp(Math.pow(2, Math.ceil(Math.log2(Math.sqrt(2 * d3.sum(lengths) + 1)))), 16, 2048);
  let row = 0;
  const spans = frames.spans.map((span, index) => {
    const first = span.first / per, skipped = first % columns;
    const one = {span, row, skipped, length: lengths[index], first, rows: Math.ceil((skipped + lengths[index]) / columns)};
    row += one.rows + GAP;
    return one;
  });
  return {spans, columns, per, rows: Math.max(1, row - GAP)};
}

// What stands at a column and a row of the map, or nothing.
function cellAt(map, column, row) {
  const one = map.spans.find(it => row >= it.row && row < it.row + it.rows);
  if (!one || column < 0 || column >= map.columns) return null;
  const index = (row - one.row) * map.columns + column - one.skipped;
  return index >= 0 && index < one.length ? {one, index, column, row, first: (one.first + index) * map.per} : null;
}

// The states in a cell with how many of its numbers each has, and how often they were sent.
function inside(map, cell) {
  const span = cell.one.span;
  if (span.cells !== undefined) return {counts: [[span.cells[cell.index], 1]], times: TIMES.indexOf(span.times[cell.index])};
  const counts = Object.entries(span.shares).map(([state, counted]) => [state, counted[cell.index]]).filter(it => it[1]);
  return {counts, times: span.times[cell.index]};
}

function toldOfCell(map, cell) {
  const {counts, times} = inside(map, cell), last = cell.first + map.per - 1;
  if (map.per > 1) {
    return 'frames ' + hex(cell.first) + ' to ' + hex(last) + ': ' + counts.map(([state, count]) => number(count) + ' ' + STATES[state][0]).join(', ')
      + ' · sent ' + number(times) + ' times together';
  }
  const often = times === 0 ? '' : times === 1 ? ' · sent once' : ' · sent ' + times + ' times' + (times === MOST_TIMES ? ' or more' : '');
  return 'frame ' + hex(cell.first) + ' (' + number(cell.first) + '): ' + STATES[counts[0][0]][0] + often;
}

// The map as an image with a pixel for each cell.
function painted(map, mode, most) {
  const image = new ImageData(map.columns, map.rows), palette = {}, heat = d3.scaleSequential(dark.matches ? d3.interpolateInferno : d3.interpolateViridis);
  for (const state of Object.keys(STATES)) palette[state] = d3.rgb(colour(STATES[state][1]));
  heat.domain(dark.matches ? [-0.2 * most, most * map.per] : [most * map.per * 1.1, 0]);
  for (const one of map.spans) {
    for (let index = 0; index < one.length; index += 1) {
      const {counts, times} = inside(map, {one, index});
      const shade = mode === 'times' ? (times ? d3.rgb(heat(times)) : palette['.']) : blended(counts, palette);
      const at = 4 * ((one.row * map.columns) + one.skipped + index);
      image.data.set([shade.r, shade.g, shade.b, 255], at);
    }
  }
  return image;
}

function blended(counts, palette) {
  if (counts.length === 1) return palette[counts[0][0]];
  const all = d3.sum(counts, it => it[1]) || 1, part = channel => d3.sum(counts, ([state, count]) => palette[state][channel] * count) / all;
  return counts.length ? {r: part('r'), g: part('g'), b: part('b')} : palette['.'];
}

function mapOf(data) {
  const map = laidOut(data.frames), most = d3.max(Object.keys(data.live.times), Number) || 1;
  const tile = document.createElement('canvas');
  tile.width = map.columns;
  tile.height = map.rows;
  let transform = d3.zoomIdentity, chosen = null, mode = 'states';
  const paint = () => tile.getContext('2d').putImageData(painted(map, mode, most), 0, 0);
  const view = canvasOf('map', () => { fitted(); draw(); });
  const tall = () => { view.canvas.style.maxHeight = Math.ceil(map.rows * Math.min(view.width() / map.columns, 40) + 2) + 'px'; };
  const base = () => Math.min(view.width() / map.columns, view.height() / map.rows, 40);
  const zoom = d3.zoom().scaleExtent([0.5, 400]).on('zoom', () => { transform = d3.event.transform; draw(); });

  function fitted() {
    tall();
    zoom.translateExtent([[-40, -40], [map.columns * base() + 40, map.rows * base() + 40]]);
  }

  function draw() {
    const context = view.context, size = base() * transform.k;
    context.fillStyle = colour('sheet');
    context.fillRect(0, 0, view.width(), view.height());
    context.imageSmoothingEnabled = size < 1;
    context.drawImage(tile, transform.x, transform.y, map.columns * size, map.rows * size);
    if (size >= 8) grid(context, size);
    if (size >= 5) gaps(context, size);
    if (!chosen) return;
    context.strokeStyle = colour('mark');
    context.lineWidth = 2;
    context.strokeRect(transform.x + chosen.column * size - 1, transform.y + chosen.row * size - 1, Math.max(size, 3) + 2, Math.max(size, 3) + 2);
  }

  function grid(context, size) {
    context.strokeStyle = colour('sheet');
    context.lineWidth = 1;
    context.beginPath();
    for (let x = transform.x % size; x <= view.width(); x += size) { context.moveTo(x, 0); context.lineTo(x, view.height()); }
    for (let y = transform.y % size; y <= view.height(); y += size) { context.moveTo(0, y); context.lineTo(view.width(), y); }
    context.stroke();
  }

  function gaps(context, size) {                     // what is left out between two spans
    context.fillStyle = colour('quiet');
    context.font = '11px system-ui, sans-serif';
    map.spans.slice(1).forEach((one, index) => {
      const before = map.spans[index], left = one.first - before.first - before.length;
      context.fillText(number(left * map.per) + ' numbers without a frame', Math.max(4, transform.x), transform.y + one.row * size - size / 2 + 4);
    });
  }

  function choose(cell) {
    if (!cell) return;
    chosen = cell;
    by('frame').textContent = toldOfCell(map, cell);
    draw();
  }

  function under(point) {
    const size = base() * transform.k;
    return cellAt(map, Math.floor((point[0] - transform.x) / size), Math.floor((point[1] - transform.y) / size));
  }

  function step(columns, rows) {                     // goes on over what has no cell
    let cell = null, column = chosen.column, row = chosen.row;
    while (!cell && column + columns >= 0 && column + columns < map.columns && row + rows >= 0 && row + rows < map.rows) {
      column += columns;
      row += rows;
      cell = cellAt(map, column, row);
    }
    choose(cell);
    const size = base() * transform.k, x = transform.x + chosen.column * size, y = transform.y + chosen.row * size;
    if (x < 0 || y < 0 || x > view.width() - size || y > view.height() - size) zoom.translateTo(d3.select(view.canvas), chosen.column * base(), chosen.row * base());
  }

  const on = d3.select(view.canvas), nearer = () => zoom.scaleBy(on, 2), farther = () => zoom.scaleBy(on, 0.5), all = () => zoom.transform(on, d3.zoomIdentity);
  const keys = {ArrowLeft: () => step(-1, 0), ArrowRight: () => step(1, 0), ArrowUp: () => step(0, -1), ArrowDown: () => step(0, 1),
    '+': nearer, '=': nearer, '-': farther, '0': all};
  on.call(zoom).on('pointermove', () => choose(under(d3.mouse(view.canvas)))).on('keydown', () => {
    if (!keys[d3.event.key]) return;
    d3.event.preventDefault();
    keys[d3.event.key]();
  });
  by('nearer').addEventListener('click', nearer);
  by('farther').addEventListener('click', farther);
  by('whole').addEventListener('click', all);
  d3.selectAll('input[name=colours]').on('change', function () { mode = this.value; paint(); draw(); });
  dark.addEventListener('change', () => { paint(); draw(); });
  paint();
  fitted();
  const first = map.spans[0];
  if (first) choose(cellAt(map, (first.skipped + Math.max(0, (first.span.cells || '').search(/[^.]/))) % map.columns,
    Math.floor((first.skipped + Math.max(0, (first.span.cells || '').search(/[^.]/))) / map.columns)));
}

function framesOf(data) {
  const frames = data.frames, help = by('map-cell');
  if (!frames) {
    by('map').hidden = true;
    help.textContent = 'More frame numbers were sent than are drawn.';
    return;
  }
  const all = d3.sum(Object.values(frames.counts)), counted = [...ORDER].filter(state => frames.counts[state]);
  help.textContent = (frames.per === 1 ? 'A cell for each frame number' : 'A cell for each ' + number(frames.per) + ' frame numbers, coloured by their shares')
    + '; where thousands have no frame none is drawn.' + (frames.is_whole ? '' : ' Some numbers lie too far apart and are not drawn.')
    + (data.info.result === 'refused' ? ' The stream is refused: what came behind the refused part is not known.' : '');
  fill('states', [['state', true], ['frames', false], ['share', false]], counted.map(state => [STATES[state][0], number(frames.counts[state]), share(frames.counts[state], all)]));
  const shown = () => d3.selectAll('#states tbody tr td:first-child').each(function (_, index) {
    d3.select(this).select('svg').remove();
    swatch(d3.select(this), colour(STATES[counted[index]][1]));
  });
  shown();
  dark.addEventListener('change', shown);
  by('map').hidden = !frames.spans.length;
  if (frames.spans.length) mapOf(data);
  else by('frame').textContent = 'No frame was sent.';
}

// ---- rounds

function roundsOf(data) {
  const live = data.live, rounds = live && live.rounds, cut = data.info.result === 'refused';
  if (!rounds || !rounds.length) {
    by('pause').textContent = !live || rounds ? 'No frame was sent.' : 'The frame numbers were sent in no order, so no rounds are told.';
    by('rounds-bars').style.display = 'none';
    by('rounds').hidden = true;
  } else {
    const saved = live.pause.bytes, more = data.length - saved;
    by('pause').textContent = (rounds.length === 1 ? 'Sent in one round. ' : 'Sent in ' + number(rounds.length) + ' rounds, ' + amount(data.length) + '. ')
      + 'A save at the pause alone, with each frame number once, would have taken ' + amount(saved)
      + (more > 0 ? ': ' + amount(more) + ' less (' + share(more, data.length) + ').' : '.') + (cut ? ' The last round may be cut: the stream is refused.' : '');
    const all = d3.sum(rounds, it => it.bytes);
    fill('rounds', [['round', false], ['first record', false], ['offset', false], ['frame numbers', false], ['pages', false], ['bytes', false], ['share', false], ['', true]],
      rounds.map((it, index) => [index + 1, number(it.record), number(it.offset), number(it.entries), number(it.pages), number(it.bytes), share(it.bytes, all),
        it.verify ? 'sent again to be compared (VERIFY)' : cut && index === rounds.length - 1 ? 'refused behind this' : '']));
    if (rounds.length > 1) bars(rounds, saved);
    else by('rounds-bars').style.display = 'none';
  }
  const times = live ? Object.entries(live.times) : [];
  by('times').hidden = !times.length;
  fill('times', [['sent', false], ['frame numbers', false]], times.map(([often, count]) => [often + (Number(often) === MOST_TIMES ? ' or more' : ''), number(count)]));
}

function bars(rounds, saved) {
  const svg = d3.select('#rounds-bars'), left = 84, bottom = 24, top = 14;
  const draw = () => {
    const width = svg.node().clientWidth, height = svg.node().clientHeight;
    const x = d3.scaleBand().domain(rounds.map((_, index) => index + 1)).range([left, Math.min(width - 8, left + 160 * rounds.length)]).padding(0.15);
    const y = d3.scaleLinear().domain([0, d3.max([...rounds.map(it => it.bytes), saved])]).nice().range([height - bottom, top]);
    const each = Math.ceil(rounds.length / Math.max(1, Math.floor((width - left) / 40)));
    svg.selectAll('*').remove();
    svg.append('g').attr('transform', 'translate(' + left + ',0)').call(d3.axisLeft(y).ticks(5).tickFormat(amount).tickSizeInner(left - width)).select('.domain').remove();
    svg.append('g').attr('transform', 'translate(0,' + (height - bottom) + ')').call(d3.axisBottom(x).tickValues(x.domain().filter((_, index) => index % each === 0)));
    svg.append('g').selectAll('rect').data(rounds).join('rect').attr('x', (_, index) => x(index + 1)).attr('width', Math.max(1, x.bandwidth()))
      .attr('y', it => y(it.bytes)).attr('height', it => y(0) - y(it.bytes)).attr('fill', it => colour(it.verify ? 'xalloc' : 'data'))
      .append('title').text((it, index) => 'round ' + (index + 1) + ': ' + amount(it.bytes));
    svg.append('line').attr('x1', left).attr('x2', width - 8).attr('y1', y(saved)).attr('y2', y(saved)).attr('stroke-dasharray', '5 4').attr('class', 'saved');
    svg.append('text').attr('x', width - 12).attr('y', y(saved) - 4).attr('text-anchor', 'end').text('a save at the pause alone: ' + amount(saved));
  };
  new ResizeObserver(draw).observe(svg.node());
  dark.addEventListener('change', draw);
}

// ---- all of it

function fault(why) {
  by('fault').textContent = why;
  by('fault').hidden = false;
}

if (!window.DecompressionStream) {
  fault('This browser is too old to draw the page: Chromium 80, Firefox 113, Safari 16.4 and later can.');
} else {
  unpacked().then(data => {
    by('pictures').hidden = false;
    recordsOf(data);
    framesOf(data);
    roundsOf(data);
    document.body.dataset.drawn = 'yes';
  }).catch(why => fault('The page could not be drawn: ' + why));
}
}());
