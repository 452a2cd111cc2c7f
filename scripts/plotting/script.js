// Zooms the picture, and ties its places to the rows of the table. Without it all stands there, in one size.
(function () {
  'use strict';
  var picture = document.getElementById('pic'), plot = document.getElementById('plot'), box = document.querySelector('.pic');
  var data = picture.dataset, left = +data.l, full = +data.w, height = +data.h, first = +data.t0, last = +data.t1, head = 22;
  var zero = data.zero === '' ? null : +data.zero, foot = +data.foot, letter = 5.9;
  // The part that is shown, in points of the whole picture; the width that it has; the time that is marked.
  var from = 0, to = full, wide = full, marked = null, isMoved = false;
  // A part has a column or a few at least.
  var least = Math.min(full, (+data.col > 1 ? 8 * data.col : 4) / (last - first) * full);
  var marks = all(picture, '.m'), prints = all(picture, '.pr'), grounds = all(picture, '.z0,.z1'), rows = all(document, 'tr[data-t]');
  var axis = document.getElementById('axis'), cross = document.getElementById('cross'), part = document.getElementById('part');
  var hint = part.textContent;
  var hatch = document.getElementById('hatch'), grey = document.getElementById('grey'), space = 'http://www.w3.org/2000/svg';
  var steps = [1, 2, 5, 10, 20, 50, 100, 200, 500];
  [1, 2, 5, 10, 15, 30, 60, 120, 300, 600, 900, 1800, 3600, 7200, 10800, 21600, 43200, 86400].forEach(function (it) { steps.push(it * 1000); });

  function all(where, what) { return [].slice.call(where.querySelectorAll(what)); }
  function clip(it, low, high) { return Math.max(low, Math.min(high, it)); }
  function place(x) { return left + (x - from) * wide / (to - from); }
  function pointOf(time) { return (time - first) / (last - first) * full; }
  function timeOf(x) { return first + x / full * (last - first); }
  function two(it) { return (it < 10 ? '0' : '') + it; }
  function show(it, isShown) { if (isShown) it.removeAttribute('display'); else it.setAttribute('display', 'none'); }

  // A time in words, as the page has them.
  function told(ms) {
    ms = Math.round(ms);
    if (zero !== null) return clock(new Date(zero + ms), ms);
    if (ms === 0) return '0';
    if (ms < 1000) return ms + ' ms';
    var minutes = Math.floor(ms / 6e4), hours = Math.floor(minutes / 60), days = Math.floor(hours / 24), rest = ms % 6e4;
    var pieces = [days ? days + ' d' : '', hours % 24 ? hours % 24 + ' h' : '', minutes % 60 ? minutes % 60 + ' min' : '', rest ? rest / 1000 + ' s' : ''];
    return pieces.filter(function (it) { return it; }).join(' ');
  }
  function clock(date, ms) {
    var text = two(date.getUTCHours()) + ':' + two(date.getUTCMinutes()) + ':' + two(date.getUTCSeconds()), rest = date.getUTCMilliseconds();
    if (+data.days) text = two(date.getUTCMonth() + 1) + '-' + two(date.getUTCDate()) + ' ' + text;
    return rest ? text + '.' + ('00' + rest).slice(-3) : text;
  }

  function draw() {
    var scale = wide / (to - from);
    picture.setAttribute('width', left + wide + 10);
    picture.setAttribute('viewBox', '0 0 ' + (left + wide + 10) + ' ' + (height + foot));
    plot.setAttribute('width', wide);
    plot.setAttribute('viewBox', from + ' 0 ' + (to - from) + ' ' + height);
    picture.classList.toggle('zoomed', scale > 3 * wide / full);
    hatch.setAttribute('patternTransform', 'scale(' + 1 / scale + ',1) rotate(45)');
    grey.setAttribute('patternTransform', 'scale(' + 1 / scale + ',1) rotate(-45)');
    grounds.forEach(function (it) { it.setAttribute('width', wide); });
    marks.forEach(function (it) { if (it.dataset.n) placeText(it, scale); else placeMark(it); });
    placePrints();
    drawAxis();
    var isPart = to - from < full;
    part.textContent = isPart ? 'This part alone, with more detail: --from ' + Math.floor(timeOf(from)) + ' --to ' + Math.ceil(timeOf(to)) : hint;
    if (isMoved) try { history.replaceState(null, '', isPart ? '#' + Math.round(timeOf(from)) + '-' + Math.round(timeOf(to)) : '#'); } catch (error) { /* too many at once */ }
    drawCross();
  }
  // A text in a bar is shown where the part of the bar that is seen has room for it.
  function placeText(it, scale) {
    var begin = Math.max(+it.dataset.x, from), end = Math.min(+it.dataset.e, to), fits = (end - begin) * scale >= +it.dataset.n;
    if (fits) it.setAttribute('x', it.dataset.r ? place(end) - 3 : place(begin) + 3);
    show(it, fits);
  }
  function placeMark(it) {
    var x = +it.dataset.x, isSeen = x >= from && x <= to;
    if (isSeen) it.setAttribute('transform', 'translate(' + place(x) + ',' + it.dataset.y + ')');
    show(it, isSeen);
  }
  // Prints go into the first line with room; those without room for their texts into the fourth line, where there is one.
  function placePrints() {
    var free = [], lines = Math.min(+data.rows, 3), spare = +data.rows > lines;
    for (var i = 0; i < lines; i++) free.push(-1e9);
    prints.forEach(function (it) {
      var x = +it.dataset.x, text = it.querySelector('text');
      if (x < from || x > to) return;
      x = place(x);
      // Its width is measured where the browser can: only a text that is shown has one.
      show(text, true);
      var size = (text.getComputedTextLength() || text.textContent.length * letter) + 14, isRight = x + size < left + wide + 8, got = 0;
      while (got < free.length && free[got] > (isRight ? x : x - size)) got++;
      show(text, got < free.length);
      if (got < free.length) free[got] = isRight ? x + size : x + 6; else if (spare) got = lines; else { got = 0; free[0] = Math.max(free[0], x + 6); }
      text.setAttribute('x', isRight ? 7 : -7);
      text.setAttribute('text-anchor', isRight ? 'start' : 'end');
      it.setAttribute('transform', 'translate(' + x + ',' + (34 + 14 * got) + ')');
    });
  }
  function stepOf(length, most) {
    for (var i = 0; i < steps.length; i++) if (length / steps[i] <= most) return steps[i];
    var step = steps[steps.length - 1];
    while (length / step > most) step *= 2;
    return step;
  }
  function drawAxis() {
    var step = stepOf(timeOf(to) - timeOf(from), wide / (zero !== null && +data.days ? 135 : 105));
    axis.textContent = '';
    // Where there is a clock its marks are round ones, and the ms of the trace stand below.
    var off = zero === null ? 0 : zero;
    for (var time = Math.ceil((timeOf(from) + off) / step) * step - off; time <= timeOf(to); time += step) {
      var x = place(pointOf(time)), group = child(axis, 'g', { 'class': 'tick', transform: 'translate(' + x + ',' + head + ')' });
      var anchor = x < left + 20 ? 'start' : x > left + wide - 30 ? 'end' : 'middle';
      child(group, 'path', { d: 'M0 0V' + (height - head) });
      child(group, 'text', { y: -3, 'text-anchor': anchor }).textContent = told(time);
      if (foot) child(group, 'text', { 'class': 'ms', y: height - head + 10, 'text-anchor': anchor }).textContent = time + ' ms';
    }
  }
  function child(parent, name, attributes) {
    var it = document.createElementNS(space, name);
    for (var key in attributes) it.setAttribute(key, attributes[key]);
    parent.appendChild(it);
    return it;
  }
  function drawCross() {
    var x = marked === null ? -1 : pointOf(marked), isSeen = x >= from && x <= to;
    show(cross, isSeen);
    if (!isSeen) return;
    cross.setAttribute('transform', 'translate(' + place(x) + ',0)');
    cross.lastChild.textContent = told(marked) + (foot ? ', ' + marked + ' ms' : '');
    cross.lastChild.setAttribute('text-anchor', place(x) > left + wide - 70 ? 'end' : 'start');
  }

  // Marks a time, and the last row of the table that is not behind it.
  function go(time, scrolls) {
    var x = pointOf(time), half = (to - from) / 2, found = null;
    marked = time;
    if (x < from || x > to) { from = clip(x - half, 0, full - 2 * half); to = from + 2 * half; draw(); }
    drawCross();
    rows.forEach(function (it) { it.classList.remove('on'); if (+it.dataset.t <= time + .5) found = it; });
    if (!found) return;
    found.classList.add('on');
    if (scrolls) found.scrollIntoView({ block: 'nearest' });
  }
  function zoom(factor, x) {
    var size = clip((to - from) * factor, least, full), begin = x - (x - from) * size / (to - from);
    isMoved = true;
    from = clip(begin, 0, full - size);
    to = from + size;
    draw();
  }
  function shift(part) {
    var size = to - from;
    isMoved = true;
    from = clip(from + part * size, 0, full - size);
    to = from + size;
    draw();
  }
  function step(by) {
    var here = -1;
    rows.forEach(function (it, number) { if (it.classList.contains('on')) here = number; });
    var next = rows[clip(here + by, 0, rows.length - 1)];
    if (next) go(+next.dataset.t, true);
  }
  function key(name) {
    var middle = marked === null ? (from + to) / 2 : clip(pointOf(marked), from, to);
    if (name === '+' || name === '=') zoom(.5, middle);
    else if (name === '-') zoom(2, middle);
    else if (name === '0') zoom(1e9, middle);
    else if (name === 'ArrowLeft') shift(-.2);
    else if (name === 'ArrowRight') shift(.2);
    else if (name === 'n') step(1);
    else if (name === 'p') step(-1);
    else return false;
    return true;
  }
  function under(event) {
    var frame = picture.getBoundingClientRect();
    return from + ((event.clientX - frame.left) * (left + wide + 10) / frame.width - left) * (to - from) / wide;
  }
  // The part that the address names, as #1500-2600, in ms: the picture shows it, and the table its first row.
  function named() {
    var found = /^#(\d+)-(\d+)$/.exec(location.hash);
    if (!found || +found[2] <= +found[1]) return;
    from = clip(pointOf(+found[1]), 0, full - least);
    to = clip(pointOf(+found[2]), from + least, full);
    var row = rows.filter(function (it) { return +it.dataset.t >= +found[1] && +it.dataset.t <= +found[2]; })[0];
    if (row) go(+row.dataset.t, true);
  }
  function size() { wide = Math.max(360, box.clientWidth - left - 12); draw(); }

  picture.addEventListener('click', function (event) {
    var x = under(event);
    if (x >= from && x <= to) go(Math.round(timeOf(x)), true);
  });
  picture.addEventListener('wheel', function (event) {
    if (!event.ctrlKey && !event.shiftKey) return;
    event.preventDefault();
    zoom((event.deltaY || event.deltaX) > 0 ? 1.25 : .8, under(event));
  }, { passive: false });
  box.addEventListener('keydown', function (event) {
    if (!event.ctrlKey && !event.altKey && !event.metaKey && key(event.key)) event.preventDefault();
  });
  rows.forEach(function (row) { row.addEventListener('click', function () { go(+row.dataset.t, false); }); });
  all(document, 'a[data-t]').forEach(function (link) {
    link.addEventListener('click', function (event) {
      event.preventDefault();
      zoom(.25, pointOf(+link.dataset.t));
      go(+link.dataset.t, true);
    });
  });
  all(document, 'button[data-k]').forEach(function (button) { button.addEventListener('click', function () { key(button.dataset.k); }); });
  window.addEventListener('hashchange', function () { named(); draw(); });
  window.addEventListener('resize', size);
  document.body.classList.add('js');
  named();
  size();
})();
