// Shows a line in words: that under the pointer, or the one that is kept, by a click or by Enter, from which the arrow keys go on.
const main = document.querySelector('main'), words = document.querySelector('footer'), cursor = document.querySelector('#cursor');
const ROW = +main.dataset.row, BLOCK = +main.dataset.block, ROWS = +main.dataset.rows;
const blocks = main.querySelectorAll('.block');
let kept = null, shown = 0, naming = 0;
function lineOf(row) { return blocks[Math.floor(row / BLOCK)].querySelectorAll('.row')[row % BLOCK]; }
// The words are taken out of the picture when they are first shown, so that the browser does not show them too.
function wordsOf(row) {
  const line = lineOf(row), title = line.querySelector('title');
  if (title) { line.dataset.words = title.textContent; title.remove(); }
  return line.dataset.words;
}
function show(row) {
  shown = row;
  words.textContent = wordsOf(row);
  cursor.className = kept === null ? '' : 'kept';
  cursor.style.cssText = `display:block;top:${blocks[0].offsetTop + row * ROW}px;height:${ROW}px;width:${blocks[0].offsetWidth}px`;
}
function rowAt(event) {
  const block = event.target.closest('.block');
  if (!block) return null;
  const row = Math.floor((event.clientY - block.getBoundingClientRect().top) / ROW);
  return Math.min(Math.max(row, 0) + +block.dataset.first, ROWS - 1);
}
function keep(row) {
  kept = row;
  show(row);
  // Browsers take only so many changes of the address; one for each row that a key runs over would be too many.
  clearTimeout(naming);
  naming = setTimeout(() => history.replaceState(null, '', '#line-' + wordsOf(row).match(/\d+/)[0]), 300);
}
// Scrolls to the lane of the thread whose event the row is.
function bringIn(row) {
  const { left, right } = lineOf(row).dataset, room = main.clientWidth - blocks[0].querySelector('.gutter').clientWidth;
  if (+right === 0) return;
  if (+left < main.scrollLeft) main.scrollLeft = left;
  else if (+right > main.scrollLeft + room) main.scrollLeft = right - room;
}
main.addEventListener('mousemove', event => { const row = rowAt(event); if (kept === null && row !== null) show(row); });
main.addEventListener('click', event => {
  const row = rowAt(event);
  if (row === null) return;
  if (row === kept) { kept = null; show(row); } else keep(row);
});
main.addEventListener('keydown', event => {
  const by = { ArrowDown: 1, ArrowUp: -1 }[event.key];
  if (event.key === 'Escape') { kept = null; cursor.className = ''; }
  if (event.key === 'Enter' && kept === null) keep(inView());
  if (!by || kept === null) return;
  event.preventDefault();
  keep(Math.min(Math.max(kept + by, 0), ROWS - 1));
  const top = cursor.offsetTop, head = blocks[0].offsetTop;
  if (top - head < main.scrollTop) main.scrollTop = top - head;
  if (top + 2 * ROW > main.scrollTop + main.clientHeight) main.scrollTop = top + 2 * ROW - main.clientHeight;
  bringIn(kept);
});
// The row that was shown last, if it is in view, else the first that is.
function inView() {
  const first = Math.ceil(main.scrollTop / ROW), last = first + Math.floor(main.clientHeight / ROW) - 3;
  return Math.min(first <= shown && shown <= last ? shown : first, ROWS - 1);
}
// The address may name a line.
function goToAsked() {
  const asked = location.hash.match(/^#line-(\d+)$/);
  if (!asked) return;
  const row = Math.min(Math.max(asked[1] - main.dataset.line, 0), ROWS - 1);
  keep(row);
  main.scrollTop = Math.max(row * ROW - main.clientHeight / 3, 0);
  bringIn(row);
}
addEventListener('hashchange', goToAsked);
goToAsked();
main.focus();
