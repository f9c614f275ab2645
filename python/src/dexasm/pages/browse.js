// The search of dexasm-browse's pages, and the pictures of flows. The index of the search is a list of scripts, since a
// page that is opened from the disk may read nothing else; they are loaded when somebody searches. What is found is
// put in as text, never as HTML.
(() => {
  const MOST = 100;
  const RIGHT_TO_LEFT =
    /([\u0590-\u06ef\u06fa-\u08ff\ufb1d-\ufdff\ufe70-\ufeff\u{10800}-\u{10fff}\u{1e800}-\u{1efff}]+)/u;
  const { root, shards } = document.body.dataset;
  const asked = document.getElementById('search'), found = document.getElementById('found');
  const said = document.getElementById('said'), list = document.getElementById('hits');
  const entries = [];
  let loaded = 0, due = 0;

  // (of several files each class has its own)
  const add = (owner, name, to, file) =>
    entries.push([owner, name, to, owner.toLowerCase(), name.toLowerCase(), file && ` of ${file}`]);

  window.dexasmIndex = (classes, strings) => {
    for (const [owner, page, first, names, file = ''] of classes) {
      if (first === 0) add(owner, '', `class/${page}`, file);
      names.forEach((name, at) => add(owner, name, `class/${page}#${first + at}`, file));
    }
    for (const [text, place] of strings) add('', text, `strings/${place}`, '');
    loaded += 1;
    search();
  };

  const load = () => {
    for (; due < Number(shards); due += 1) {
      const script = document.createElement('script');
      script.src = `${root}search/${due}.js`;
      document.head.append(script);
    }
  };

  // How near an entry is to what is asked: 0 is the name itself, and undefined what hasn't all its words.
  const rank = ([owner, name, , ownerLow, nameLow], words, last) => {
    const all = `${ownerLow}.${nameLow}`;
    if (!words.every((word) => all.includes(word) || all.includes(word.replaceAll('/', '.')))) return undefined;
    const isClass = name === '', isString = owner === '';
    const own = isClass ? ownerLow.slice(ownerLow.lastIndexOf('.') + 1) : isString ? nameLow.slice(1) : nameLow;
    if ((isString ? own.slice(0, -1) : own.split('(')[0]) === last) return isClass ? 0 : 1;
    if (own.startsWith(last)) return isClass ? 2 : 3;
    return own.includes(last) ? 4 : 5;
  };

  // A name as a listing has it is taken too: LHello;->get(Z)I is hello.get.
  const wordsOf = (text) => text.trim().toLowerCase()
    .replace(/^\[*l([^;\s]+);(?:->([^(:\s]+).*)?$/, (_, owner, name) => (name ? `${owner} ${name}` : owner))
    .split(/\s+/).filter(Boolean);

  // The parts of a name in the order of the file, also where letters run from right to left.
  const inOrder = (text) => text.split(RIGHT_TO_LEFT).map((part, at) => {
    if (at % 2 === 0) return part;
    const isolated = document.createElement('bdi');
    isolated.dir = 'ltr';
    isolated.textContent = part;
    return isolated;
  });

  const shown = (owner, name, to, file) => {
    const item = document.createElement('li'), link = document.createElement('a');
    const more = document.createElement('small');
    link.href = root + to;
    link.append(...inOrder(name || owner));
    more.append(...owner === '' ? [' (a string)'] : name === '' ? [' (a class)'] : [' in ', ...inOrder(owner)], file);
    item.append(link, more);
    return item;
  };

  const search = () => {
    const words = wordsOf(asked.value);
    found.hidden = words.length === 0;
    if (found.hidden) return;
    load();
    const hits = [], last = words[words.length - 1].replace(/^.*[./](?=[^./]*$)/, '');
    for (const entry of entries) {
      const near = rank(entry, words, last);
      if (near !== undefined) hits.push([near, entry]);
    }
    hits.sort((a, b) => a[0] - b[0]);
    list.replaceChildren(...hits.slice(0, MOST).map(([, [owner, name, to, , , file]]) => shown(owner, name, to, file)));
    const count = hits.length > MOST ? `${MOST} of ${hits.length} found` : `${hits.length} found`;
    said.textContent = loaded < Number(shards) ? `${count}, still looking` : count;
  };

  if (!asked) return;
  document.getElementById('finder').hidden = false;
  asked.addEventListener('input', search);
  document.addEventListener('keydown', (event) => {
    const isTyping = event.target instanceof HTMLInputElement;
    if (event.key === '/' && !isTyping && !event.ctrlKey && !event.metaKey) {
      event.preventDefault();
      asked.focus();
    }
    if (event.key === 'Escape' && !found.hidden) {
      asked.value = '';
      search();
      asked.focus();
    }
  });
  // A link into what is folded away opens it.
  const open = () => {
    const to = document.getElementById(decodeURIComponent(location.hash.slice(1)));
    for (let at = to; at; at = at.parentElement) if (at instanceof HTMLDetailsElement) at.open = true;
  };
  window.addEventListener('hashchange', open);
  open();
  search();
})();

// The pictures of flows open whole, or where letters would be too small with the first block in sight; buttons, keys
// and the wheel make them larger and smaller.
for (const box of document.querySelectorAll('.flow')) {
  const LEGIBLE = 0.7, LEAST = 0.002, MOST = 4, STEP = 1.25; // pixels for a unit of the picture (a letter has 10)
  const svg = box.firstElementChild, { width, height } = svg.viewBox.baseVal;
  let scale = 1;

  // Draws the picture so large that what is at a point of the box stays there.
  const zoom = (to, x = box.clientWidth / 2, y = box.clientHeight / 2) => {
    const was = svg.getBoundingClientRect(), edge = box.getBoundingClientRect();
    const left = (x + edge.left + box.clientLeft - was.left) / scale;
    const top = (y + edge.top + box.clientTop - was.top) / scale;
    scale = Math.min(Math.max(to, LEAST), MOST);
    svg.style.width = `${width * scale}px`;
    svg.style.height = `${height * scale}px`;
    box.scrollTo(left * scale - x, top * scale - y);
  };
  const fitting = () => Math.min((box.clientWidth - 1) / width, innerHeight * 0.75 / height, 4 / 3);
  const whole = () => zoom(fitting());
  const first = () => {
    zoom(1);
    const block = svg.querySelector('.node').getBoundingClientRect(), edge = box.getBoundingClientRect();
    const middle = (block.left + block.right - edge.left - edge.right) / 2;
    box.scrollBy(Math.min(middle, block.left - edge.left - 10), block.top - edge.top - 10);
  };
  const larger = () => zoom(scale * STEP), smaller = () => zoom(scale / STEP);

  const bar = document.createElement('p');
  bar.className = 'zoom';
  for (const [said, act] of [['Larger', larger], ['Smaller', smaller], ['Whole', whole], ['First block', first]]) {
    const button = document.createElement('button');
    button.type = 'button';
    button.textContent = said;
    button.addEventListener('click', act);
    bar.append(button);
  }
  box.before(bar);
  box.classList.add('zooms');
  box.addEventListener('keydown', (event) => {
    const act = { '+': larger, '=': larger, '-': smaller, 0: whole, 1: first }[event.key];
    if (!act || event.ctrlKey || event.metaKey || event.altKey) return;
    event.preventDefault();
    act();
  });
  box.addEventListener('wheel', (event) => {
    if (!event.ctrlKey) return;
    event.preventDefault();
    const edge = box.getBoundingClientRect();
    zoom(scale * STEP ** (-event.deltaY / 100), event.clientX - edge.left, event.clientY - edge.top);
  }, { passive: false });
  if (fitting() < LEGIBLE) first(); else whole();
}
