// Contrast of each text against what lies behind it, by WCAG 2; controls without a name; ids twice.
const lum = c => {
  const [r, g, b] = c.match(/[\d.]+/g).map(Number).map(v => (v /= 255) <= .03928 ? v / 12.92 : ((v + .055) / 1.055) ** 2.4);
  return .2126 * r + .7152 * g + .0722 * b;
};
const behind = e => {
  for (; e; e = e.parentElement) { const b = getComputedStyle(e).backgroundColor; if (!/, 0\)$/.test(b)) return b; }
  return 'rgb(255, 255, 255)';
};
const bad = [];
for (const e of document.querySelectorAll('body *')) {
  if (![...e.childNodes].some(n => n.nodeType === 3 && n.data.trim()) || !e.checkVisibility() || e.closest('button:disabled, .zeros')) continue;
  const [a, b] = [lum(getComputedStyle(e).color), lum(behind(e))];
  const ratio = (Math.max(a, b) + .05) / (Math.min(a, b) + .05);
  if (ratio < 4.5) bad.push(`${e.tagName}.${e.className} ${e.textContent.slice(0, 30)} ${ratio.toFixed(2)}`);
}
for (const e of document.querySelectorAll('input, select')) if (!e.labels.length && !e.ariaLabel) bad.push(`no label: ${e.outerHTML}`);
for (const e of document.querySelectorAll('a, button')) if (!(e.textContent.trim() || e.ariaLabel)) bad.push(`no name: ${e.outerHTML}`);
const ids = [...document.querySelectorAll('[id]')].map(e => e.id);
if (new Set(ids).size !== ids.length) bad.push('an id twice');
for (const e of document.querySelectorAll('[aria-describedby], label[for]')) {
  const id = e.getAttribute('aria-describedby') ?? e.htmlFor;
  if (!document.getElementById(id)) bad.push(`no ${id}`);
}
if (document.querySelectorAll('h1').length !== 1) bad.push('not one h1');
return bad;
