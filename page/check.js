// The self-test of the page: index.html#check runs it, and shows `check: passed` with the number of checks, or an
// error.
'use strict';
const PIECES = ['a', 'r', 'k', '1', '.', '"', '/*', '*/', "'", 'é', '😀', '#', ' ', '\n', '\r', '0x', 'r#"', '"#', '---',
  '//', '\\', 'b', '\u{feff}', '&<>', '\u{1f}', '\u{2028}'];
const STARTS = ['', 'fn f<\'a>(x: &\'a str) -> u8 { 1.5e3; r#"é😀"# /* a */ } // b\n',
  '#!/bin/sh\n---\nx = 1\n---\n#!/y\n',
  '"\\u{1f600}\\q" \'r#a k#b c"\\xff" #"x"# 0b 1e b\'é\' /* & < > */\n',
  '/*\n\n\n*/ let x = "a\n  b\\\n  c";\n'.repeat(12),
  `let ${'a'.repeat(300)} = 0x; k"\\q"#"b"#\n`];

// Literals, and the values that the page shows for them.
const WRONG = 'nothing: it is wrong';
const LITERALS = [["'a'", '1 character: "a"'], ["'é'x", '1 character: "\\u{e9}"'], [`'"'`, '1 character: "\\""'],
  ["'ab'", WRONG],
  ["b'\\xff'", '1 byte: "\\xff"'], ["b'é'", WRONG], ['"aé\\n"', '3 characters: "a\\u{e9}\\n"'],
  ['""', '0 characters: ""'],
  ['"a\\\n\n  b"', '2 characters: "ab"'], ['"\\q"', WRONG], ['r"\\n"', '2 characters: "\\\\n"'],
  ['r##"a"#b"##', '4 characters: "a\\"#b"'], ['b"a\\xff"', '2 bytes: "a\\xff"'], ['b"é"', WRONG],
  ['br#"\\"#', '1 byte: "\\\\"'],
  ['br"é"', WRONG], ['c"é\\xff"', '4 bytes: "\\xc3\\xa9\\xff\\x00"'], ['c"\\0"', WRONG],
  ['cr"é\\"', '4 bytes: "\\xc3\\xa9\\\\\\x00"'],
  ['cr"\0"', WRONG], ['1u8', ''], ["'a", ''], ["b'a", ''], ['"a', ''], ['r#"a"', ''], ['b"a', ''],
  ['br#"a"', ''], ['c"a', ''], ['cr#"a"', ''],
  ['a', '']];

// Pseudorandom numbers, the same in each run.
let seed = 1;
const random = (below) => (seed = (seed * 48271) % 2147483647) % below;

function expect(holds, words) {
  if (!holds) throw new Error(`${words}\n${JSON.stringify(text.value.slice(0, 2000))}`);
}

// The contents of the field as the lexer reads them: a lone surrogate becomes U+FFFD.
const wanted = () => textOf(new TextEncoder().encode(text.value));
const bytesOf = (words) => new TextEncoder().encode(words).length;
const linesOf = (number) => ask('listing', number).split('\n').slice(0, -1);
// The index of the edition whose button is checked.
const chosen = () => [...document.querySelectorAll('#edition input')].findIndex(({ checked }) => checked);
const listing = () => linesOf(chosen());
const textOf = (bytes) => new TextDecoder('utf-8', { ignoreBOM: true }).decode(bytes);

// A part of the text in one line, as the page shows it.
function piece(part) {
  const escape = (c) => ({ '\t': '\\t', '\n': '\\n', '\r': '\\r' }[c] ?? `\\u{${c.codePointAt(0).toString(16)}}`);
  const characters = [...part];
  const shown = characters.slice(0, 40).map((c) => (/\p{Cc}/u.test(c) ? escape(c) : c)).join('');
  return shown + (characters.length > 40 ? '\u2026' : '');
}

// The line and the column of an offset in bytes.
function placeOf(bytes, at) {
  const lines = textOf(bytes.subarray(0, at)).split('\n');
  return `${lines.length}:${[...lines.at(-1)].length + 1}`;
}

// The differences between the listings of the editions. Each ends where a token ends in all editions.
function differences(begin) {
  const lists = years.map((_, number) => {
    let end = begin;
    return linesOf(number).map((line) => {
      const [, length, ...words] = line.split(' ');
      return { start: end, end: end += Number(length), words };
    });
  });
  const others = lists.slice(1).map((list) => new Set(list.map(({ end }) => end)));
  const taken = lists.map(() => 0);
  const found = [];
  for (const { end } of lists[0].filter((token) => others.every((ends) => ends.has(token.end)))) {
    const groups = lists.map((list, number) => {
      const from = taken[number];
      while (list[taken[number]]?.end <= end) taken[number] += 1;
      return list.slice(from, taken[number]);
    });
    const differ = new Set(groups.map((group) => JSON.stringify(group))).size > 1;
    if (differ) found.push({ start: groups[0][0].start, end, groups });
  }
  return { counts: lists.map((list) => list.length), found };
}

// The offset of the caret in bytes. Inside a surrogate pair, it is before the pair.
function caretByte() {
  const units = text.selectionStart;
  const isCut = /^[\ud800-\udbff][\udc00-\udfff]$/.test(text.value.slice(Math.max(units - 1, 0), units + 1));
  return bytesOf(text.value.slice(0, units - isCut));
}

const checks = {
  // The tokens equal a full re-lex in each edition.
  kept() {
    expect(ask('as_lexed_anew') === 'yes', `tokens differ from a full re-lex in ${ask('as_lexed_anew')}`);
  },
  // The drawn lines have the text and the position of the visible lines, and the current highlighting.
  drawn() {
    const first = Math.floor(text.scrollTop / LINE);
    const lines = wanted().split('\n').slice(first, first + Math.ceil(text.clientHeight / LINE) + 1);
    const drawn = [...at('lines').children];
    const edge = at('field').getBoundingClientRect().right;
    for (const messages of at('lines').querySelectorAll('.messages')) {
      const { right } = messages.getBoundingClientRect();
      expect(right < edge, `messages end at ${right}, past the edge at ${edge}`);
    }
    expect(drawn.length === lines.length, `${drawn.length} lines are drawn of ${lines.length}`);
    const seen = JSON.parse(ask('show', first, lines.length, caret, chosen())).lines;
    const above = at('lines').getBoundingClientRect().top - at('field').getBoundingClientRect().top;
    expect(Math.abs(above - 1 + text.scrollTop - first * LINE) < 1, `the lines are drawn ${above} below the field`);
    drawn.forEach((line, number) => {
      expect(line.textContent === lines[number], `line ${first + number + 1} is drawn as ${line.textContent}`);
      expect(drawnLine([first + number + 1, seen[number]]).outerHTML === line.outerHTML,
        `line ${first + number + 1} is drawn with old marks`);
    });
  },
  // Each line has the same highlighting alone as with all lines.
  marks() {
    const differs = ask('parts_alike', chosen());
    expect(differs === '', `line ${differs} alone has other highlighting than with all lines`);
  },
  // The shown tokens are those of the listing, which covers the whole text. The token at the caret contains it.
  listed() {
    const all = listing();
    const seen = show();
    const ends = all.map((line) => {
      const [start, length] = line.split(' ').map(Number);
      return start + length;
    });
    const size = bytesOf(wanted());
    expect(seen.begin + (ends.at(-1) ?? 0) === size, 'the listing does not cover the text');
    expect(all.every((line, number) => line.startsWith(`${ends[number - 1] ?? 0} `)), 'the listing has a gap');
    const written = new TextEncoder().encode(wanted());
    for (const { number, start, bytes, kind, fields, text: shown } of [...seen.tokens, ...seen.elsewhere]) {
      const line = `${start - seen.begin} ${bytes} ${kind}${fields && ' ' + fields}`;
      expect(line === all[number], `token ${number} is shown as ${line}, and listed as ${all[number]}`);
      const read = textOf(written.subarray(start, start + bytes));
      expect(shown === piece(read), `token ${number} is shown with the text ${shown}`);
    }
    const first = seen.tokens[0];
    expect(!first || first.place === placeOf(written, first.start), `the first token is shown at ${first?.place}`);
    const place = caretByte();
    const here = [...seen.tokens, ...seen.elsewhere].find((token) => token.number === seen.at);
    const isIn = here && here.start <= place && (place < here.start + here.bytes || place === size);
    expect(isIn || place < seen.begin || seen.count === 0,
      `the caret is at byte ${place}, shown is ${JSON.stringify(here)}`);
  },
  // The message about the last edit, the bar, and the tokens drawn as lexed agree with the listings before and after
  // it.
  bar() {
    const all = listing();
    const said = at('kept').textContent;
    const counts = said.match(/^The last edit kept (\d+) tokens in front, lexed (\d+), and kept (\d+) at the back/);
    const [front, lexed, back] = counts ? counts.slice(1).map(Number) : [0, all.length, 0];
    const size = `: ${all.length} tokens, ${bytesOf(wanted())} bytes, ${wanted().split('\n').length} lines.`;
    expect(said === (counts ? counts[0] : 'All was lexed') + size && front + lexed + back === all.length,
      `the message is ${said}, not ${size}`);
    const old = before[chosen()];
    const withoutPlace = (lines) => lines.map((line) => line.slice(line.indexOf(' '))).join();
    expect(all.slice(0, front).join() === old.slice(0, front).join()
      && withoutPlace(all.slice(front + lexed)) === withoutPlace(old.slice(old.length - back)),
      `${said} counts other tokens`);
    const seen = show();
    const drawn = document.querySelectorAll('#tokens tbody tr');
    seen.tokens.forEach(({ number }, row) => {
      const isFresh = front + back > 0 && number >= front && number < front + lexed;
      expect((drawn[row].querySelector('.fresh') !== null) === isFresh,
        `token ${number} is drawn as ${isFresh ? 'kept' : 'lexed'}`);
    });
    const free = at('bar').clientWidth - 4;
    // No token is drawn as a line of 4 pixels.
    const middle = Math.max(4, free * lexed / all.length || 0);
    const kept = counts ? (free - middle) / (front + back) : 0;
    const widths = [kept * front, middle, kept * back];
    [...at('bar').children].forEach((part, number) => {
      const { width } = part.getBoundingClientRect();
      expect(Math.abs(width - widths[number]) < 5,
        `part ${number} of the bar has a width of ${width}, not ${widths[number]}`);
    });
  },
  // The number of tokens in each edition, and the table of differences, agree with the listings.
  editions() {
    drawEditions();
    const written = new TextEncoder().encode(wanted());
    const { counts, found } = differences(JSON.parse(ask('show', 0, 1, 0, chosen())).begin);
    const plural = found.length > 1 ? 's' : '';
    const places = found.length ? `They differ in ${found.length} place${plural}` : 'They are the same';
    const wantedWords = `Tokens: ${years.map((value, number) => `${counts[number]} in ${value}`).join(', ')}. `
      + places + (found.length > 50 ? '; the first 50 are here.' : '.');
    expect(at('differ').textContent === wantedWords, `the message is ${at('differ').textContent}, not ${wantedWords}`);
    const rows = [...document.querySelectorAll('#differences tr')].map(
      (row) => [...row.children].map((cell) => cell.textContent));
    const pieceOf = ({ start, end }) => piece(textOf(written.subarray(start, end)));
    const wantedRows = found.slice(0, 50).map(({ start, end, groups }) => [
      placeOf(written, start),
      pieceOf({ start, end }),
      ...groups.map((group) => group.map((token) => `${token.words[0]} ${pieceOf(token)}`).join('\n')),
    ]);
    wantedRows.unshift(['Position', 'Text', ...years.map(String)]);
    wantedRows.concat(rows).forEach((_, number) => {
      const [row, wantedRow] = [rows[number], wantedRows[number]].map((cells) => JSON.stringify(cells));
      expect(row === wantedRow, `row ${number} of the differences is ${row}, not ${wantedRow}`);
    });
  },
};

// The listing of each edition before the last edit.
let before;
const listings = () => years.map((_, number) => linesOf(number));

// Checks a text that no field can contain, such as one with a carriage return.
function beyondField(value) {
  change(value);
  const lines = value.split('\n');
  const seen = JSON.parse(ask('show', 0, lines.length, 0, chosen()));
  const drawn = seen.lines.map((line, number) => drawnLine([number + 1, line]).textContent);
  expect(JSON.stringify(drawn) === JSON.stringify(lines), `drawn as ${JSON.stringify(drawn)}`);
  for (const name of ['kept', 'marks']) checks[name]();
  before = listings();
  change(text.value);
}

// Edits the text through the field, like typing. It can split surrogate pairs.
function type(start, stop, insert) {
  const old = wanted();
  const listed = listings();
  text.setRangeText(insert, start, stop, 'end');
  if (wanted() !== old) before = listed;
  text.dispatchEvent(new Event('input'));
}

const typeAll = (value) => type(0, text.value.length, value);
function choose(value) {
  const labels = [...document.querySelectorAll('#edition label')];
  labels.find((label) => label.textContent.trim() === value).click();
}

// Exceptions in event handlers are not rethrown to the code that dispatches the event.
const failures = [];
const tried = { edits: 0 };
function run(...names) {
  for (const name of names) {
    checks[name]();
    tried[name] = (tried[name] ?? 0) + 1;
  }
  expect(failures.length === 0, failures[0]);
}

function round(number) {
  const start = random(text.value.length + 1);
  type(start, Math.min(text.value.length, start + random(4)), PIECES[random(PIECES.length)]);
  const place = text.value.length && random(text.value.length);
  text.setSelectionRange(place, place);
  text.scrollTop = random(text.scrollHeight);
  text.scrollLeft = random(text.scrollWidth);
  show();
  tried.edits += 1;
  run(...number % 8 ? ['drawn', 'listed', 'bar'] : Object.keys(checks));
}

// Texts with known results, in the newest edition.
function known() {
  choose(String(years.at(-1)));
  for (const [literal, value] of LITERALS) {
    typeAll(literal);
    const drawn = document.querySelector('#tokens tbody td:last-child').textContent;
    expect(drawn === value, `the value of ${literal} is shown as ${drawn}`);
  }
  // characters that share their first byte, or their last
  for (const next of 'é©ê') {
    typeAll(`a${next}b`);
    run('kept', 'drawn');
  }
  typeAll(STARTS[4]);
  type(50, 50, ' ');
  const [front, lexed, back] = [...at('bar').children].map((part) => Number(part.style.flexGrow));
  expect(front > 0 && lexed < 5 && back > 50, `an edit kept ${front}, lexed ${lexed}, and kept ${back}`);
  // the limits for listed tokens, highlighted bytes, and messages of a line
  typeAll(';'.repeat(301));
  const listedRows = document.querySelectorAll('#tokens tbody tr').length;
  expect(listedRows === 300, `${listedRows} tokens are listed of 301`);
  typeAll(`//${'a'.repeat(4100)}`);
  const runs = [...at('lines').querySelectorAll('.code span')].map(
    (run) => [run.className.split(' ')[0], run.textContent.length]);
  expect(JSON.stringify(runs) === '[["comment",4000],["",102]]', `a long line is drawn as ${JSON.stringify(runs)}`);
  // messages are next to their line, even if there is only one
  typeAll('a\n0x');
  const messages = [...at('lines').children].map(
    (line) => [...line.querySelectorAll('.said')].map((part) => `line 2: ${part.dataset.said}`).join());
  expect(messages[0] === '' && messages[1] === at('wrong').textContent && messages[1] !== '',
    `the messages next to the lines are ${JSON.stringify(messages)}`);
  typeAll('0x '.repeat(11));
  expect(at('wrong').children.length === 10, `${at('wrong').children.length} errors are listed of 11`);
  typeAll('q#b '.repeat(60));
  run(...Object.keys(checks));
  const differ = at('differ').textContent;
  expect(/in 60 places; the first 50 are here/.test(differ), `60 differences: ${differ}`);
}

async function check() {
  await ready;
  addEventListener('error', ({ message }) => failures.push(message));
  // a field changes these characters, and JSON escapes them
  const controls = Array.from({ length: 0xa0 }, (_, c) => String.fromCharCode(c)).join('') + '\u{2028}\u{2029}';
  for (const start of STARTS) {
    for (let turn = 0; turn < 2 * years.length; turn += 1) {
      // let the browser handle events
      await new Promise((done) => setTimeout(done));
      choose(String(years[turn % years.length]));
      if (at('document').checked !== turn >= years.length) at('document').click();
      beyondField(`a\r\n"\r" \0 é\r${start}\r${controls}`);
      typeAll(start);
      for (let number = 0; number < 60; number += 1) round(number);
      // toggle the document box and change the edition after edits
      for (const button of [at('document'), ...document.querySelectorAll('[name=edition]'), at('document')]) {
        button.click();
        run(...Object.keys(checks));
      }
    }
  }
  known();
  // the memory of the lexer grows, which invalidates views of it
  typeAll(STARTS[1].repeat(20000));
  text.scrollTop = 12345;
  show();
  run('kept', 'drawn', 'listed', 'bar');
}

if (location.hash === '#check') {
  at('check').textContent = 'check: runs';
  const counts = () => Object.entries(tried).map(([name, count]) => `${name} ${count}`).join(', ');
  check().then(() => `check: passed: ${counts()}`, (error) => `check: ${error.message}`).then((said) => {
    at('check').textContent = said;
  });
}
