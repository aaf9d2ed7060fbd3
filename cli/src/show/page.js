// The page's script: it reads the steps from the trace's text in this file and shows the table, the
// messages and the picture's row at the chosen event. It runs no machine: a record's line replaces
// the cabinet's record, `sent` adds a message, `taken` takes the oldest of its pair out.
'use strict';
(() => {
  const byId = (id) => document.getElementById(id);
  const statuses = ['Down', 'Election', 'Reorganization', 'Normal'];
  const fields = ['status', 'coordinator', 'group', 'task', 'counter', 'members', 'activity'];

  // ── the trace, read ──

  // The line end behind the opening tag is not the trace's.
  const trace = byId('trace').textContent.slice(1).replaceAll('&lt;', '<').replaceAll('&amp;', '&');
  let cabinets = 0;
  // steps[e] is event e; there is no event 0
  const steps = [{ text: 'start' }];

  // `2 -> 1 Invitation group 33 call 2`
  function message(text) {
    const found = /^(\d+) -> (\d+) (.+)$/.exec(text);
    return found && {
      pair: found[1] + ' -> ' + found[2], order: 100 * found[1] + Number(found[2]), words: found[3],
    };
  }

  function readTrace() {
    for (const line of trace.split('\n')) {
      let found;
      const step = steps[steps.length - 1];
      if ((found = /^cabinets (\d+)$/.exec(line))) {
        cabinets = Number(found[1]);
      } else if ((found = /^(\d+) ([a-z]+[ 0-9]*) (?:accepted|refused (\d+))$/.exec(line))) {
        if (Number(found[1]) === steps.length) {
          steps.push({ text: found[2], refused: found[3] });
        }
      } else if (line.startsWith('  taken ')) {
        step.taken = message(line.slice(8));
      } else if (line.startsWith('  sent ')) {
        step.sent = message(line.slice(7));
      } else if ((found = /^  (\d+) ([0-3]) (\d+) (\d+) (\d+) (\d+) (\d+) ([a-z].*)$/.exec(line))) {
        step.cabinet = Number(found[1]);
        step.record = [statuses[found[2]], ...found.slice(3)];
      }
    }
  }

  // ── the state behind each event ──

  // Every 64th state is kept; the others are made from the one before.
  const keep = 64;
  const kept = [];

  // Makes the state behind event e of the one before it.
  function follow(state, e) {
    const step = steps[e];
    if (step.record) {
      state.records[step.cabinet - 1] = step.record;
    }
    if (step.taken) {
      const oldest = state.waiting.findIndex((waits) => waits.pair === step.taken.pair);
      if (oldest >= 0) {
        state.waiting.splice(oldest, 1);
      }
    }
    if (step.sent) {
      state.waiting.push(step.sent);
    }
  }

  const copied = (state) => ({ records: state.records.slice(), waiting: state.waiting.slice() });

  function keepStates() {
    // the starting table: all Down and idle, every number 0, no messages
    const start = Array(cabinets).fill(['Down', '0', '0', '0', '0', '0', 'idle']);
    const state = { records: start, waiting: [] };
    for (let e = 0; e < steps.length; e += 1) {
      if (e > 0) {
        follow(state, e);
      }
      if (e % keep === 0) {
        kept.push(copied(state));
      }
    }
  }

  function stateAt(e) {
    const state = copied(kept[Math.floor(e / keep)]);
    for (let i = e - (e % keep) + 1; i <= e; i += 1) {
      follow(state, i);
    }
    return state;
  }

  // ── the panel ──

  const rows = [];

  function makeTable() {
    const body = byId('table').tBodies[0];
    for (let cabinet = 1; cabinet <= cabinets; cabinet += 1) {
      const row = body.insertRow();
      row.dataset.cabinet = cabinet;
      row.insertCell().textContent = cabinet;
      rows.push({ row, cells: fields.map((field) => {
        const cell = row.insertCell();
        cell.dataset.field = field;
        return cell;
      }) });
    }
  }

  function fillCell(cell, field, value) {
    if (field !== 'status') {
      cell.textContent = value;
      return;
    }
    const letter = document.createElement('span');
    letter.className = 'letter ' + value[0];
    letter.textContent = value[0];
    const name = document.createElement('span');
    name.className = 'word';
    name.textContent = value;
    cell.replaceChildren(letter, name);
  }

  function showTable(state, before, step) {
    let unseen = 0;
    rows.forEach(({ row, cells }, i) => {
      const touched = Boolean(step.record) && step.cabinet === i + 1;
      row.classList.toggle('touched', touched);
      let changes = 0;
      fields.forEach((field, f) => {
        const value = state.records[i][f];
        const changed = before.records[i][f] !== value;
        changes += changed;
        cells[f].classList.toggle('changed', changed);
        if (cells[f].dataset.value !== value) {
          cells[f].dataset.value = value;
          fillCell(cells[f], field, value);
        }
      });
      if (touched && changes === 0) {
        unseen = i + 1;
      }
    });
    byId('unseen').hidden = unseen === 0;
    byId('unseen').textContent = 'Of cabinet ' + unseen
      + ' something changed that the trace does not show: its last call number or which its members are.';
  }

  function showWaiting(waiting) {
    // sorting keeps the order sent within a pair
    const inOrder = [...waiting].sort((a, b) => a.order - b.order);
    const items = [];
    for (const { pair, words } of inOrder) {
      const last = items[items.length - 1];
      if (last && last.dataset.pair === pair) {
        last.append(', ' + words);
        continue;
      }
      const item = document.createElement('li');
      item.dataset.pair = pair;
      const name = document.createElement('b');
      name.textContent = pair + ':';
      item.append(name, ' ' + words);
      items.push(item);
    }
    byId('waiting').replaceChildren(...items);
    byId('waiting-count').textContent = waiting.length;
  }

  const told = (message) => (message ? message.pair + ' ' + message.words : '–');

  // ── the picture ──

  // the heights of the cabinets' numbers and of a row
  const headsHeight = Number(byId('sheet').dataset.heads);
  const rowHeight = Number(byId('sheet').dataset.row);

  // the frame around the chosen row, and what is behind it, left and right
  const frames = [byId('chosen')];

  function makeBands() {
    for (const part of document.querySelectorAll('.gutter, .body')) {
      const band = document.createElement('div');
      band.className = 'band';
      part.prepend(band);
      frames.push(band);
    }
  }

  // The lines of the messages that an event sends or ends, by the event. The picture itself is never
  // changed, which would take long: behind it lies a second one, with the chosen lines made broad.
  let linesOf = null;
  let behind = null;

  function findLines() {
    const svg = document.querySelector('.body svg');
    behind = svg.cloneNode(false);
    behind.id = 'behind';
    svg.before(behind);
    linesOf = new Map();
    for (const message of svg.querySelectorAll('.m')) {
      const { sent, row } = message.dataset;
      for (const event of [sent, row]) {
        linesOf.set(event, [...(linesOf.get(event) || []), message]);
      }
    }
  }

  // How far to scroll so that an event's row is in sight, with two rows above and below it; one that
  // is far away comes to the middle.
  function scrollFor(e) {
    const picture = byId('picture');
    const from = picture.scrollTop;
    const top = e * rowHeight;
    const seen = picture.clientHeight - headsHeight;
    const margin = Math.min(2 * rowHeight, Math.max(0, (seen - rowHeight) / 2));
    if (Math.abs(top - from - seen / 2) > 1.5 * seen) {
      return top - (seen - rowHeight) / 2;
    }
    if (top - margin < from) {
      return top - margin;
    }
    return Math.max(from, top + rowHeight + margin - seen);
  }

  function showRow(e, scroll) {
    for (const frame of frames) {
      frame.style.transform = 'translateY(' + e * rowHeight + 'px)';
    }
    if (e > 0 && !linesOf) {
      findLines();
    }
    if (linesOf) {
      const lines = e > 0 && linesOf.get(String(e)) || [];
      behind.replaceChildren(...lines.map((line) => line.cloneNode(true)));
    }
    byId('picture').scrollTop = scroll;
  }

  // ── choosing an event ──

  let chosen = -1;

  function choose(wanted) {
    const last = steps.length - 1;
    const e = Math.min(Math.max(wanted, 0), last);
    if (e === chosen) {
      return;
    }
    chosen = e;
    // asked before anything is changed, so that the page need not be laid out twice
    const scroll = scrollFor(e);
    const step = steps[e];
    const state = stateAt(e);
    const before = e > 0 ? stateAt(e - 1) : state;
    let line = 'before the first of ' + last + (last === 1 ? ' event' : ' events');
    if (last === 0) {
      line = 'no events';
    } else if (e > 0) {
      line = 'event ' + e + ' of ' + last + ': ' + step.text + ', '
        + (step.refused ? 'refused ' + step.refused : 'accepted');
    }
    byId('event').textContent = line;
    byId('slider').value = e;
    byId('slider').setAttribute('aria-valuetext', line);
    byId('refusal').hidden = !step.refused;
    if (step.refused) {
      const ground = document.querySelector('#grounds [data-refusal="' + step.refused + '"]');
      byId('refusal').textContent = 'refusal ' + step.refused + ': ' + (ground ? ground.textContent : '');
    }
    byId('taken').textContent = told(step.taken);
    byId('sent').textContent = told(step.sent);
    byId('when').textContent = e > 0 ? 'after event ' + e : 'at the start';
    byId('first').disabled = byId('previous').disabled = e === 0;
    byId('last').disabled = byId('next').disabled = e === last;
    showTable(state, before, step);
    showWaiting(state.waiting);
    showRow(e, scroll);
  }

  // Chooses an event; its number goes into the address a little later, because browsers refuse to
  // change that too often, as with a key that is held down.
  let later = 0;

  function go(e) {
    choose(e);
    later = later || setTimeout(() => {
      later = 0;
      history.replaceState(null, '', '#' + chosen);
    }, 200);
  }

  function fromAddress() {
    clearTimeout(later);
    later = 0;
    const found = /^#(\d+)$/.exec(location.hash);
    choose(found ? Number(found[1]) : Math.max(chosen, 0));
  }

  const moves = {
    ArrowDown: () => chosen + 1,
    ArrowRight: () => chosen + 1,
    ArrowUp: () => chosen - 1,
    ArrowLeft: () => chosen - 1,
    PageDown: () => chosen + 10,
    PageUp: () => chosen - 10,
    Home: () => 0,
    End: () => steps.length - 1,
  };

  // The slider's own keys are taken over: they would move it twice, or the other way.
  function onKey(event) {
    const move = moves[event.key];
    const other = event.altKey || event.ctrlKey || event.metaKey || event.shiftKey;
    if (move && !other && !byId('trace-text').open) {
      event.preventDefault();
      go(move());
    }
  }

  function onClick(event) {
    if (event.target.closest('.body, .gutter')) {
      const top = byId('sheet').getBoundingClientRect().top;
      go(Math.floor((event.clientY - top - headsHeight) / rowHeight));
    }
  }

  byId('show-trace').addEventListener('click', () => {
    document.querySelector('#trace-text pre').textContent = trace;
    byId('trace-text').showModal();
  });
  readTrace();
  if (cabinets > 0) {
    keepStates();
    makeTable();
    makeBands();
    fromAddress();
    window.addEventListener('keydown', onKey, true);
    window.addEventListener('hashchange', fromAddress);
    byId('slider').addEventListener('input', () => go(Number(byId('slider').value)));
    byId('first').addEventListener('click', () => go(0));
    byId('previous').addEventListener('click', () => go(chosen - 1));
    byId('next').addEventListener('click', () => go(chosen + 1));
    byId('last').addEventListener('click', () => go(steps.length - 1));
    byId('sheet').addEventListener('click', onClick);
  }
})();
