// The page: passes the typed text to the lexer, and draws its results. Nothing here knows what a token is.
'use strict';
const at = (id) => document.getElementById(id);
const text = at('text');
const LINE = 20;
let lexer;
let years;
let caret = 0;

// Calls a function of the lexer, and returns the result from its memory. A view of the memory is valid until it grows.
function ask(name, ...words) {
  const length = lexer[name](...words);
  return new TextDecoder().decode(new Uint8Array(lexer.memory.buffer, lexer.answer(), length));
}

// Passes a text to the lexer, in UTF-8. A lone surrogate becomes U+FFFD, which is one UTF-16 code unit too.
function change(value) {
  const most = 3 * value.length;
  const room = lexer.room(most);
  const { written } = new TextEncoder().encodeInto(value, new Uint8Array(lexer.memory.buffer, room, most));
  return JSON.parse(ask('change', written, at('document').checked, edition()));
}

const year = () => Number(document.querySelector('[name=edition]:checked').value);
const edition = () => years.indexOf(year());

function element(name, words, ...inside) {
  const made = document.createElement(name);
  for (const [key, value] of Object.entries(words)) made.setAttribute(key, value);
  made.append(...inside);
  return made;
}

// Replaces the items of a list. An unchanged item keeps its element.
function draw(list, items, make) {
  items.forEach((item, number) => {
    const key = JSON.stringify(item);
    const old = list.children[number];
    if (old && old.key === key) return;
    const made = make(item);
    made.key = key;
    old ? old.replaceWith(made) : list.append(made);
  });
  while (list.children.length > items.length) list.lastChild.remove();
}

const drawnLine = ([number, { runs, said }]) => element('div', { 'data-line': number },
  element('span', { class: 'code' }, ...runs.map(([name, shown]) => element('span', { class: name }, shown))),
  ...(said.length ? [element('span', { class: 'messages' },
    ...said.map((sentence) => element('span', { class: 'said', 'data-said': sentence })))] : []));

const drawnToken = ([token, isHere]) => element('tr', isHere ? { 'aria-current': 'true' } : {},
  ...[token.place, token.start, token.bytes].map((value) => element('td', {}, value)),
  element('td', { class: token.fresh ? 'fresh' : '' }, token.text),
  ...[`${token.kind} ${token.fields}`, token.value].map((value) => element('td', {}, value)));

const drawnDifference = ({ place, text, editions }) => element('tr', {},
  element('td', {}, place), element('td', {}, text),
  ...editions.map((tokens) => element('td', {}, tokens.map(([kind, shown]) => `${kind} ${shown}`).join('\n'))));

// Adds a radio button and a column for each edition.
function drawYears() {
  years = JSON.parse(ask('years'));
  at('edition').append(...years.map((value) =>
    element('label', {}, element('input', { type: 'radio', name: 'edition', value }), ` ${value}`)));
  at('edition').querySelector('label:last-child input').checked = true;
  const header = document.querySelector('#differences thead tr');
  header.append(...years.map((value) => element('th', { scope: 'col' }, value)));
}

// Draws the visible lines, their tokens, and the details of the token at the caret.
function show() {
  const first = Math.floor(text.scrollTop / LINE);
  caret = text.selectionStart;
  const seen = JSON.parse(ask('show', first, Math.ceil(text.clientHeight / LINE) + 1, caret, edition()));
  draw(at('lines'), seen.lines.map((line, number) => [first + number + 1, line]), drawnLine);
  const { style } = at('lines');
  style.transform = `translate(${-text.scrollLeft}px, ${first * LINE - text.scrollTop}px)`;
  // messages use the visible width that the code leaves, and all of them are listed below
  style.setProperty('--right', `${at('field').clientWidth - text.clientWidth - text.scrollLeft + 8}px`);
  style.setProperty('--wide', `${text.clientWidth + text.scrollLeft - 70}px`);
  const here = seen.tokens.find(({ number }) => number === seen.at) ?? seen.elsewhere[0];
  draw(document.querySelector('#tokens tbody'),
    seen.tokens.map((token) => [token, token === here]), drawnToken);
  const row = document.querySelector('#tokens [aria-current]');
  const list = document.querySelector('#listed .scroll');
  if (row) list.scrollTop = row.offsetTop - list.clientHeight / 2;
  const said = seen.lines.flatMap((line, number) => line.said.map(
    (sentence) => `line ${first + number + 1}: ${sentence}`));
  draw(at('wrong'), said, (sentence) => element('li', {}, sentence));
  at('place').textContent = `Caret at ${seen.place}. ` + (here ? `${here.kind} at ${here.place}, ${here.bytes} `
    + `byte${here.bytes === 1 ? '' : 's'}`
    + `${here.fields && ', ' + here.fields}${here.value && '; value: ' + here.value}` : '');
  return seen;
}

// Draws the counts of the last edit.
function drawKept({ kept, bytes, lines }, count) {
  at('bar').className = kept ? '' : 'anew';
  const [front, lexed, back] = kept || [0, count, 0];
  [front, lexed, back].forEach((part, number) => { at('bar').children[number].style.flexGrow = part; });
  at('kept').textContent = (front + back
    ? `The last edit kept ${front} tokens in front, lexed ${lexed}, and kept ${back} at the back`
    : 'All was lexed') + `: ${count} tokens, ${bytes} bytes, ${lines} lines.`;
}

function drawEditions() {
  const { counts, differ, places } = JSON.parse(ask('editions'));
  at('differ').textContent = `Tokens: ${years.map((value, number) => `${counts[number]} in ${value}`).join(', ')}. `
    + (differ ? `They differ in ${differ} place${differ === 1 ? '' : 's'}` : 'They are the same')
    + (differ > places.length ? `; the first ${places.length} are here.` : '.');
  draw(document.querySelector('#differences tbody'), places, drawnDifference);
}

let later;
function changed() {
  const answer = change(text.value);
  drawKept(answer, show().count);
  clearTimeout(later);
  later = setTimeout(drawEditions, answer.bytes < 1e5 ? 0 : 300);
}

// A link contains the edition and the text: #edition=2018&document&text=..
function read() {
  const words = new URLSearchParams(location.hash.slice(1));
  const chosen = [...document.querySelectorAll('[name=edition]')].find(({ value }) => value === words.get('edition'));
  if (chosen) chosen.checked = true;
  if (words.has('text')) {
    at('document').checked = words.has('document');
    text.value = words.get('text');
  }
  changed();
}

function link() {
  const extent = at('document').checked && { document: '' };
  const words = new URLSearchParams({ edition: year(), ...extent, text: text.value });
  history.replaceState(null, '', '#' + words);
  navigator.clipboard?.writeText(location.href).catch(() => {});
}

function save() {
  const file = URL.createObjectURL(new Blob([ask('listing', edition())]));
  element('a', { href: file, download: `tokens-${year()}.txt` }).click();
  setTimeout(() => URL.revokeObjectURL(file));
}

// Sets the width of the text in percent; the tokens use the rest.
function split(share) {
  const held = Math.min(80, Math.max(20, Math.round(share)));
  const { style } = at('split').parentElement;
  style.setProperty('--text', `${held}fr`);
  style.setProperty('--tokens', `${100 - held}fr`);
  at('split').setAttribute('aria-valuenow', held);
  show();
}

function splitBy(event) {
  const share = Number(at('split').getAttribute('aria-valuenow'));
  const wanted = { ArrowLeft: share - 2, ArrowRight: share + 2, Home: 0, End: 100 }[event.key];
  if (wanted === undefined) return;
  event.preventDefault();
  split(wanted);
}

function drag(event) {
  if (!at('split').hasPointerCapture(event.pointerId)) return;
  const { left, width } = at('split').parentElement.getBoundingClientRect();
  split(100 * (event.clientX - left) / width);
}

// The keyboard shortcuts of the page, which its dialog lists.
function pressed(event) {
  const call = { F1: () => at('keys').open || at('keys').showModal(), 's with Control': save }[
    event.key + (event.ctrlKey || event.metaKey ? ' with Control' : '')];
  if (!call) return;
  event.preventDefault();
  call();
}

const SAMPLE = `// Type here. Try a quote, or /* at the front.
fn greet<'a>(name: &'a str) -> String {
    let count = 0b1010_u8 + 0x; // no digits
    let word = "caf\\u{e9}\\n, \\q";
    println!("{name}: {}", r#"raw "text""#);
    k#async; 'r#where; c"bytes\\xff"; two##words
}
`;

const bytes = Uint8Array.from(atob(LEXER), (c) => c.charCodeAt(0));
const ready = WebAssembly.instantiate(bytes, {}).then(({ instance }) => {
  lexer = instance.exports;
  drawYears();
  if (!text.value) text.value = SAMPLE;
  text.addEventListener('input', changed);
  text.addEventListener('scroll', show);
  document.addEventListener('selectionchange', () => text.selectionStart !== caret && show());
  at('edition').addEventListener('change', changed);
  at('document').addEventListener('change', changed);
  at('link').addEventListener('click', link);
  at('save').addEventListener('click', save);
  at('help').addEventListener('click', () => at('keys').showModal());
  at('split').addEventListener('pointerdown', (event) => at('split').setPointerCapture(event.pointerId));
  at('split').addEventListener('pointermove', drag);
  at('split').addEventListener('keydown', splitBy);
  addEventListener('keydown', pressed);
  addEventListener('hashchange', read);
  addEventListener('resize', show);
  addEventListener('error', ({ message }) => {
    at('kept').textContent = `This page has failed, load it again: ${message}`;
  });
  read();
});
