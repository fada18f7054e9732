// Tests the drawing of page.js and its timing without a browser: stubs replace the DOM and the lexer. This is the only
// check that finds a wrong drawing on a machine without Chromium; tests/manual/page tests the page itself.
//
// usage: node tests/page/alone.mjs
import { deepStrictEqual as same } from 'node:assert';
import { readFileSync } from 'node:fs';
import { runInNewContext } from 'node:vm';

class Element {
  children = [];
  words = {};
  style = { setProperty: () => {} };
  scrollTop = 0;
  clientHeight = 40;
  append(...parts) {
    this.children.push(...parts);
    for (const part of parts) if (part instanceof Element) part.siblings = this.children;
  }
  replaceWith(part) {
    this.siblings[this.siblings.indexOf(this)] = part;
    part.siblings = this.siblings;
  }
  remove() { this.siblings.splice(this.siblings.indexOf(this), 1); }
  get lastChild() { return this.children.at(-1); }
  setAttribute(name, value) { this.words[name] = String(value); }
  get textContent() { return this.children.map((part) => part.textContent ?? String(part)).join(''); }
  set textContent(words) { this.children = [words]; }
}

const parts = {};
const part = (name) => parts[name] ??= new Element();
part('bar').append(new Element(), new Element(), new Element());
const calls = [];
const delays = [];
let answers;
const selected = { '[name=edition]:checked': { value: '2024' }, '#tokens [aria-current]': null };
const page = runInNewContext(`${readFileSync(new URL('../../page/page.js', import.meta.url), 'utf8')}
  years = [2015, 2024]; lexer = fake; ({ changed, LINE });`, {
  fake: new Proxy({ memory: { buffer: new ArrayBuffer(1 << 20) }, answer: () => 0, room: () => 0 }, {
    get: (own, name) => own[name] ?? ((...words) => {
      calls.push([name, ...words]);
      return new TextEncoder().encodeInto(JSON.stringify(answers[name]), new Uint8Array(own.memory.buffer)).written;
    }),
  }),
  document: {
    getElementById: part,
    createElement: () => new Element(),
    querySelector: (name) => (name in selected ? selected[name] : part(name)),
  },
  WebAssembly: { instantiate: () => new Promise(() => {}) },
  TextEncoder, TextDecoder, LEXER: '', atob,
  setTimeout: (call, delay) => delays.push([call, delay]),
  clearTimeout: () => delays.pop(),
});

// Returns the calls after an edit of a text with this length, these numbers of kept tokens, caret and scroll position.
function changed(bytes, kept = [2, 1, 3], selectionStart = 1, scrollTop = 200 * page.LINE) {
  parts.text.value = 'a';
  Object.assign(parts.text, { selectionStart, scrollTop });
  answers.change = { bytes, lines: 7, kept };
  calls.length = 0;
  page.changed();
  return calls.map(([name]) => name).join(' ');
}

const token = { number: 4, start: 890, bytes: 4, place: '201:1', text: 'x200', kind: 'Literal', fields: 'kind=Str',
  value: '1 character: "a"', fresh: true };
const plainToken = { ...token, fields: '', value: '', bytes: 1, fresh: false };
const before = { ...plainToken, number: 3, start: 889, place: '200:5', text: '\\n', kind: 'Whitespace' };
const shown = { lines: [{ runs: [['', '"'], ['text wrong fresh', '\\q']], said: ['no'] }], count: 6, begin: 0,
  tokens: [before, token], at: 4, elsewhere: [], place: '201:2' };
const places = [{ place: '2:1', text: 'q', editions: [[['Ident', 'q'], ['Pound', '#']], [['UnknownPrefix', 'q']]] }];
answers = { show: shown, editions: { counts: [6, 5], differ: 60, places } };
const textsOf = (name) => part(name).children.map((row) => row.children.map((cell) => cell.textContent));

const barOf = () => [part('bar').className, ...part('bar').children.map(({ style }) => style.flexGrow)];

// an edit is drawn at once, from the first visible line; the editions are compared later, after 0.3 s for a long text
same(changed(99_999), 'change show');
same(calls[1], ['show', 200, 3, 1, 1]);
same(delays.map(([, delay]) => delay), [0]);
same(changed(100_000), 'change show');
same(delays.map(([, delay]) => delay), [300]);
same(part('kept').textContent,
  'The last edit kept 2 tokens in front, lexed 1, and kept 3 at the back: 6 tokens, 100000 bytes, 7 lines.');
same(barOf(), ['', 2, 1, 3]);
same(part('place').textContent, 'Caret at 201:2. Literal at 201:1, 4 bytes, kind=Str; value: 1 character: "a"');
same(part('wrong').textContent, 'line 201: no');
same(textsOf('#tokens tbody'), [['200:5', '889', '1', '\\n', 'Whitespace ', ''],
  ['201:1', '890', '4', 'x200', 'Literal kind=Str', '1 character: "a"']]);
same(part('#tokens tbody').children.map((row) => [row.words, row.children[3].words]),
  [[{}, { class: '' }], [{ 'aria-current': 'true' }, { class: 'fresh' }]]);
const [line] = part('lines').children;
same(line.words, { 'data-line': '201' });
same(line.children[0].children.map((run) => [run.words.class, run.textContent]), shown.lines[0].runs);
same(line.children[1].children.map((message) => message.words['data-said']), ['no']);
delays[0][0]();
same(part('differ').textContent, 'Tokens: 6 in 2015, 5 in 2024. They differ in 60 places; the first 1 are here.');
same(textsOf('#differences tbody'), [['2:1', 'q', 'Ident q\nPound #', 'UnknownPrefix q']]);

// a second answer: everything was lexed, the text is scrolled, and the caret is at the start, above the visible lines
const first = { ...plainToken, number: 0, start: 0, place: '1:1', text: 'y', kind: 'Ident' };
const plain = { runs: [['', 'z']], said: [] };
answers.show = { ...shown, lines: [plain, plain, plain], tokens: [token], at: 0, elsewhere: [first], place: '1:1' };
answers.editions = { counts: [6, 5], differ: 1, places };
part('text').scrollLeft = 7;
changed(9, null, 0, 30);
same(calls[1], ['show', 1, 3, 0, 1]);
const linesOf = () => part('lines').children.map((line) => [line.words['data-line'], line.textContent]);
same(linesOf(), [['2', 'z'], ['3', 'z'], ['4', 'z']]);
same(part('lines').style.transform, 'translate(-7px, -10px)');
same(part('place').textContent, 'Caret at 1:1. Ident at 1:1, 1 byte');
same([part('wrong').textContent, part('kept').textContent], ['', 'All was lexed: 6 tokens, 9 bytes, 7 lines.']);
same(barOf(), ['anew', 0, 6, 0]);
same(part('#tokens tbody').children.map((row) => row.words), [{}]);
delays.at(-1)[0]();
same(part('differ').textContent, 'Tokens: 6 in 2015, 5 in 2024. They differ in 1 place.');

// a third answer has fewer lines and no tokens; an unchanged line keeps its element, and a changed one is replaced
const [kept] = part('lines').children;
answers.show = { ...shown, lines: [plain, { runs: [['', 'w']], said: [] }], count: 0, tokens: [], at: 0, place: '1:1' };
answers.editions = { counts: [6, 6], differ: 0, places: [] };
changed(9, [0, 0, 0], 0, 30);
same([linesOf(), part('lines').children.map((line) => line === kept)], [[['2', 'z'], ['3', 'w']], [true, false]]);
same([part('place').textContent, textsOf('#tokens tbody')], ['Caret at 1:1. ', []]);
same([part('kept').textContent, barOf()], ['All was lexed: 0 tokens, 9 bytes, 7 lines.', ['', 0, 0, 0]]);
delays.at(-1)[0]();
same(part('differ').textContent, 'Tokens: 6 in 2015, 6 in 2024. They are the same.');
same(textsOf('#differences tbody'), []);
console.log('page: page.js draws the answers of its lexer');
