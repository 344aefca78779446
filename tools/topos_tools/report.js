'use strict';
// Adds to the page: details of a cell, orders, filters, and the flows of one node of the graph.
// The tables do not need the script, and it loads nothing.
(() => {
  const byId = id => document.getElementById(id);
  const all = (selector, within = document) => [...within.querySelectorAll(selector)];
  const data = JSON.parse(byId('data').textContent);
  const names = data.names, count = names.length;
  const SAID = {
    A: 'permitted with answers', a: 'permitted without answers', D: 'asked for and denied',
    G: 'not asked for, and no invariant denies it (a gap)', f: 'not asked for, and an invariant denies it',
    '': 'no such host',
  };
  document.documentElement.classList.add('js');

  function make(tag, text, ...inner) {
    const made = document.createElement(tag);
    if (text) made.textContent = text;
    made.append(...inner);
    return made;
  }
  function link(text, target) {
    const made = make('a', text);
    made.href = `#${target}`;
    return made;
  }

  // Facts on a flow.
  const key = (from, to) => `${from},${to}`;
  const state = (from, to) => data.states[from][to];
  const deniedBy = (from, to) => data.sets[data.held[from][to]] || [];
  const listed = (from, to) => (data.flows[from] || {})[to];
  function services(from, to) {
    if (!'AaD'.includes(state(from, to))) return '';
    const found = listed(from, to);
    return (found && data.services[found[0]].join(' ')) || 'all traffic';
  }
  function words(from, to) {
    const by = deniedBy(from, to).join(', ');
    const more = {
      D: ` by ${by}, ${services(from, to)}`, f: ` (${by})`, G: '',
    }[state(from, to)] ?? `, ${services(from, to)}`;
    return `${names[from]} → ${names[to]}: ${SAID[state(from, to)]}${more}`;
  }

  // The panel next to the matrix.
  function reason(from, to, number) {
    const each = data.invariants[number - 1], chain = (data.chains[key(from, to)] || {})[number];
    const attribute = host => each.said[each.of[host]] + (each.bare.includes(host) ? ' (default)' : '');
    const title = each.title ? ` “${each.title}”` : '';
    const facts = chain ? `together with others: ${chain.join(', ')}` :
      `${names[from]}: ${attribute(from)}; ${names[to]}: ${attribute(to)}`;
    const line = each.line ? ` (line ${each.line}).` : '.';
    return make('li', '', link(`${number} ${each.template}`, `invariant-${number}`), `${title}. ${facts}`, line);
  }
  function silence(from, to) {
    const silent = data.silent[key(from, to)];
    if (!silent) return [];
    const by = silent[0].length ? `Its answers are denied by ${silent[0].join(', ')}.` : 'Its answers do not pass.';
    return [by + (silent[1] ? ' TCP passes, and does not work without answers.' : '')];
  }
  function facts(from, to) {
    const [, line, title, why] = listed(from, to) || [], before = data.changed[key(from, to)];
    const lines = title ? [title] : [];
    for (const host of [from, to]) if (data.hosts[host][0]) lines.push(`${names[host]}: ${data.hosts[host][0]}`);
    if (why) lines.push(why);
    if (services(from, to)) lines.push(`Services: ${services(from, to)}`);
    if (line) lines.push(`Line ${line} of the file.`);
    if (before) lines.push(`Before: ${SAID[before[0]]}${before[1] ? `, ${before[1]}` : ''}.`);
    return [...lines, ...silence(from, to)].map(words => make('p', words));
  }
  function show(from, to) {
    const panel = byId('panel'), of = state(from, to), by = deniedBy(from, to);
    const head = [make('h3', `${names[from]} → ${names[to]}`), make('p', '', make('b', SAID[of]))];
    const lines = [...head, ...facts(from, to)];
    if (by.length) {
      lines.push(make('p', of === 'D' ? 'Denied by:' : 'Denied, if it is asked for, by:'),
        make('ul', '', ...by.map(number => reason(from, to, number))));
    }
    lines.push(make('p', `The flow back: ${words(to, from)}.`));
    panel.dataset.flow = `${names[from]} ${names[to]}`;
    panel.dataset.denied = by.join(' ');
    panel.replaceChildren(...lines);
  }

  // The matrix: a chosen cell, by mouse or by keys.
  const table = byId('cells'), body = table.tBodies[0], head = table.tHead.rows[0];
  const rows = [...body.rows], tops = [...head.cells].slice(1), grid = [], placeOf = new Map();
  const isLarge = !!table.querySelector('.line'), ROWS_AT_ONCE = 8;
  let order = data.orders.file, selected = null, hot = [], starts = new Set();

  function madeCell(from, to) {
    const cell = document.createElement('td'), of = state(from, to);
    cell.setAttribute('role', 'cell');
    cell.className = of === '-' ? 's' : of;
    cell.classList.toggle('new', key(from, to) in data.changed);
    cell.classList.toggle('cut', starts.has(to));
    cell.hidden = tops[to].hidden;
    cell.textContent = of === 'D' ? deniedBy(from, to)[0] : of === '-' ? '' : of;
    return cell;
  }
  // The cells of a row. In a large matrix they are made when they are wanted first.
  function cellsOf(from) {
    if (grid[from]) return grid[from];
    if (isLarge) {
      const cells = names.map((_, to) => madeCell(from, to));
      rows[from].lastChild.replaceWith(...order.map(to => cells[to]));
      grid[from] = cells;
    } else {
      grid[from] = [...rows[from].cells].slice(1);
    }
    grid[from].forEach((cell, to) => placeOf.set(cell, [from, to]));
    return grid[from];
  }
  const column = to => [tops[to], ...grid.filter(Boolean).map(cells => cells[to])];
  // Makes the rows that the frame shows, a few at a time between two frames of the browser: the last seen first.
  function makeSeenRows() {
    const rowOf = new Map(rows.map((row, from) => [row, from])), waiting = [];
    const idle = window.requestIdleCallback || (run => setTimeout(run, 20));
    const makeSome = () => {
      waiting.splice(-ROWS_AT_ONCE).reverse().forEach(cellsOf);
      if (waiting.length) idle(makeSome, { timeout: 100 });
    };
    const seen = new IntersectionObserver(entries => {
      const found = entries.filter(each => each.isIntersecting).map(each => each.target);
      found.forEach(row => seen.unobserve(row));
      if (found.length && !waiting.length) idle(makeSome, { timeout: 100 });
      waiting.push(...found.map(row => rowOf.get(row)).reverse());
    }, { root: table.parentNode, rootMargin: '300px' });
    rows.forEach(row => seen.observe(row));
  }
  if (isLarge) {
    makeSeenRows();
    addEventListener('beforeprint', () => rows.forEach((_, from) => cellsOf(from)));
  } else {
    rows.forEach((_, from) => cellsOf(from));
  }

  function select(from, to, focus) {
    const cell = cellsOf(from)[to];
    if (selected) { selected.classList.remove('sel'); selected.tabIndex = -1; }
    hot.forEach(each => each.classList.remove('hot'));
    selected = cell;
    hot = [rows[from].cells[0], tops[to]];
    hot.forEach(each => each.classList.add('hot'));
    cell.classList.add('sel');
    cell.tabIndex = 0;
    if (from !== to) { cell.setAttribute('aria-label', words(from, to)); show(from, to); }
    if (focus) cell.focus();
  }
  table.addEventListener('click', event => {
    const cell = event.target.closest('td, th');
    if (placeOf.has(cell)) select(...placeOf.get(cell), true);
    else if (cell && cell.dataset.host) openHost(+cell.dataset.host);
  });
  table.addEventListener('mouseover', event => {
    const place = placeOf.get(event.target);
    if (place && place[0] !== place[1] && !event.target.title) event.target.title = words(...place);
  });
  table.addEventListener('focusin', event => {
    if (placeOf.has(event.target) && event.target !== selected) select(...placeOf.get(event.target), false);
  });
  const KEYS = {
    ArrowUp: [-1, 0], ArrowDown: [1, 0], ArrowLeft: [0, -1], ArrowRight: [0, 1], Home: [0, -count], End: [0, count],
  };
  table.addEventListener('keydown', event => {
    const place = placeOf.get(event.target), step = KEYS[event.key];
    if (!place || !step) return;
    event.preventDefault();
    const move = (host, by, heads) => {
      const shown = order.filter(each => !heads[each].hidden);
      return shown[Math.max(0, Math.min(shown.length - 1, shown.indexOf(host) + by))];
    };
    select(move(place[0], step[0], rows), move(place[1], step[1], tops), true);
  });
  if (count) cellsOf(0)[0].tabIndex = 0;

  // The matrix: orders and filters.
  // The hosts before which a line is drawn: a group of several hosts begins there, or has ended.
  function cuts() {
    const size = new Map(data.groups.map(group => [group[0], group.length]));
    const first = order.filter(host => size.has(host));
    return first.filter((host, place) => size.get(host) > 1 || (place && size.get(first[place - 1]) > 1));
  }
  function arrange() {
    order = data.orders[byId('order').value];
    starts = new Set(byId('order').value === 'flows' ? cuts() : []);
    head.append(...order.map(host => tops[host]));
    for (const host of order) {
      if (grid[host]) rows[host].append(...order.map(to => grid[host][to]));
      rows[host].classList.toggle('cut', starts.has(host));
      column(host).forEach(cell => cell.classList.toggle('cut', starts.has(host)));
    }
    body.append(...order.map(host => rows[host]));
  }
  function wanted(id) {
    const parts = byId(id).value.toLowerCase().split(/[\s,]+/).filter(Boolean);
    return name => !parts.length || parts.some(part => name.toLowerCase().includes(part));
  }
  function filter() {
    const sends = wanted('senders'), receives = wanted('receivers');
    names.forEach((name, host) => {
      rows[host].hidden = !sends(name);
      if (tops[host].hidden !== receives(name)) return;
      column(host).forEach(cell => { cell.hidden = !receives(name); });
    });
  }
  const legend = all('.legend button'), changed = byId('changed');
  function only(state) {
    legend.forEach(each => each.setAttribute('aria-pressed', each.dataset.state === state));
    if (changed) changed.checked = state === 'new';
    if (state) table.dataset.only = state; else delete table.dataset.only;
  }
  for (const button of legend) {
    button.disabled = false;
    const isOn = () => button.getAttribute('aria-pressed') === 'true';
    button.addEventListener('click', () => only(isOn() ? '' : button.dataset.state));
  }
  if (changed) changed.addEventListener('change', () => only(changed.checked ? 'new' : ''));
  byId('order').addEventListener('change', arrange);
  for (const id of ['senders', 'receivers']) byId(id).addEventListener('input', filter);
  byId('zoom').addEventListener('input', event => table.style.setProperty('--c', `${event.target.value}px`));

  // The sections of hosts.
  function openHost(host) {
    const section = byId(`host-${names[host]}`);
    section.open = true;
    section.scrollIntoView();
  }
  function openTarget() {
    const target = location.hash && byId(decodeURIComponent(location.hash.slice(1)));
    if (target && target.tagName === 'DETAILS') { target.open = true; target.scrollIntoView(); }
  }
  function openAll(isOpen) {
    all('details.host').forEach(each => { each.open = isOpen; });
  }
  byId('open-all').addEventListener('click', () => openAll(true));
  byId('close-all').addEventListener('click', () => openAll(false));
  addEventListener('hashchange', openTarget);
  addEventListener('beforeprint', () => openAll(true));
  openTarget();

  // The graph: the flows of one node.
  const ring = byId('ring');
  if (!ring) return;
  const nodes = all('.node', ring), paths = all('.e', ring);

  function clear() {
    all('.drawn', ring).forEach(each => each.remove());
    nodes.forEach(each => { each.classList.remove('self', 'near'); each.setAttribute('aria-pressed', 'false'); });
    paths.forEach(each => each.classList.remove('in', 'out'));
    ring.classList.remove('picked');
  }
  function pick(number) {
    const was = ring.dataset.picked;
    clear();
    delete ring.dataset.picked;
    if (number === null || was === String(number)) { describe(null); return; }
    ring.dataset.picked = number;
    ring.classList.add('picked');
    nodes[number].classList.add('self');
    nodes[number].setAttribute('aria-pressed', 'true');
    for (const path of paths) {
      const from = +path.dataset.from, to = +path.dataset.to;
      if (from !== number && to !== number) continue;
      path.classList.add(from === number ? 'out' : 'in');
      path.parentNode.append(path);
      nodes[from === number ? to : from].classList.add('near');
    }
    if (data.thin) draw(number);
    describe(number);
  }
  // In a large network only the flows of the chosen node are drawn.
  const spot = number => ['cx', 'cy'].map(name => +nodes[number].querySelector('circle').getAttribute(name));
  function draw(number) {
    nodes.forEach((node, other) => {
      if (other === number) return;
      for (const [from, to] of [[number, other], [other, number]]) {
        const of = state(data.nodes[from][0], data.nodes[to][0]);
        if (!'Aa'.includes(of)) continue;
        const [x, y] = spot(from), [u, v] = spot(to);
        const pull = 0.88 - 0.62 * Math.hypot(u - x, v - y) / (2 * Math.hypot(x, y));
        const path = document.createElementNS('http://www.w3.org/2000/svg', 'path');
        path.setAttribute('class', `e e${of} drawn ${from === number ? 'out' : 'in'}`);
        path.setAttribute('d', `M${x} ${y}Q${(x + u) / 2 * pull} ${(y + v) / 2 * pull} ${u} ${v}`);
        ring.querySelector('g').append(path);
        node.classList.add('near');
      }
    });
  }
  function few(list) {
    const shown = list.slice(0, 40).map(host => names[host]).join(' ');
    return list.length > 40 ? `${shown} .. (${list.length})` : shown;
  }
  function describe(number) {
    if (number === null) {
      const advice = 'Choose a node of the graph: click it, or Tab and Enter. Once more shows all flows.';
      byId('picked').replaceChildren(make('p', advice));
      return;
    }
    const [host, ...members] = data.nodes[number];
    const alike = members.length ? ` and ${members.length} with the same flows: ${few(members)}` : '';
    const lines = [make('h3', names[host] + alike), ...data.hosts[host].filter(Boolean).map(words => make('p', words))];
    const say = (title, states, isOut) => {
      const others = names.map((_, other) => other).filter(
        other => other !== host && states.includes(isOut ? state(host, other) : state(other, host)));
      if (others.length) lines.push(make('h4', `${title} (${others.length})`), make('p', few(others)));
    };
    say('Opens connections to it', 'Aa', false);
    say('It opens connections to', 'Aa', true);
    say('Of these without answers', 'a', true);
    say('Asked for and denied, from', 'D', false);
    say('Asked for and denied, to', 'D', true);
    say('Gaps, from', 'G', false);
    byId('picked').replaceChildren(...lines, make('p', '', link('Section of this host', `host-${names[host]}`)));
  }
  nodes.forEach((node, number) => {
    node.addEventListener('click', () => pick(number));
    node.addEventListener('keydown', event => {
      if (event.key === 'Enter' || event.key === ' ') { event.preventDefault(); pick(number); }
    });
  });
  addEventListener('beforeprint', () => pick(null));
  pick(data.pick);
})();
